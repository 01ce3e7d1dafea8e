//! Cases written out one by one for what is accepted: every kind of damage once, with as few
//! bytes as it takes.

use crate::damage::STRETCHES;
use acceptance::{NAME_LIMIT, WORD_LIMIT, is_forbidden};
use blocks::Case;

pub fn cases() -> Vec<Case> {
    [words(), names(), lengths(), letters(), lines(), orders(), causes()].concat()
}

fn case(word: &[u8], sheet: &[u8]) -> Case {
    Case { word: word.to_vec(), sheet: sheet.to_vec() }
}

fn forbidden_bytes() -> impl Iterator<Item = u8> {
    (0..=0x7F).filter(|&byte| is_forbidden(byte))
}

/// Every stretch and every forbidden byte, alone and between two characters.
fn words() -> Vec<Case> {
    let stretches = STRETCHES.iter().map(|stretch| stretch.to_vec());
    let bytes = (0..=0x7F).map(|byte| vec![byte]);
    stretches
        .chain(bytes)
        .flat_map(|inside| [inside.clone(), [b"\xE0\xA4\x95", &inside[..], b"a"].concat()])
        .map(|word| case(&word, b""))
        .collect()
}

/// The four places of a name, each around the bytes given.
fn name_places(inside: &[u8]) -> [Vec<u8>; 4] {
    [
        [b"(k ", inside, b" (comp))\n"].concat(),
        [b"(l ", inside, "ि (नु))\n".as_bytes()].concat(),
        ["(l इ (".as_bytes(), inside, "नु))\n".as_bytes()].concat(),
        [b"(w ", inside, b" (wh))\n"].concat(),
    ]
}

/// Every stretch and every forbidden byte in each of the four places.
fn names() -> Vec<Case> {
    let stretches = STRETCHES.iter().map(|stretch| stretch.to_vec());
    stretches
        .chain(forbidden_bytes().map(|byte| vec![b'a', byte, b'b']))
        .flat_map(|inside| name_places(&inside))
        .map(|sheet| case(b"", &sheet))
        .collect()
}

/// Words and names at their limits, and the shortest names.
fn lengths() -> Vec<Case> {
    let mut cases = Vec::new();
    for length in WORD_LIMIT - 1..=WORD_LIMIT + 1 {
        cases.push(case(&vec![b'a'; length], b""));
        cases.push(case(&[&[b'a'; WORD_LIMIT][..length - 1], b"\xE0"].concat(), b""));
    }
    for length in [0, 1, NAME_LIMIT - 1, NAME_LIMIT, NAME_LIMIT + 1] {
        let name = |end: &str| {
            let mut name = vec![b'a'; length.saturating_sub(end.len())];
            name.extend_from_slice(end.as_bytes());
            name
        };
        cases.push(case(b"", &[b"(k ", &name("")[..], b" (post))\n"].concat()));
        cases.push(case(b"", &[b"(l ", &name("ि")[..], "(नु))\n".as_bytes()].concat()));
        cases.push(case(b"", &[b"(l ", &name("ि")[..], " (नु))\n".as_bytes()].concat()));
        cases.push(case(b"", &["(l इ (".as_bytes(), &name("नु")[..], b"))\n"].concat()));
        cases.push(case(b"", &[b"(w ", &name("")[..], b" (w))\n"].concat()));
    }
    cases
}

/// Every selection of the nine letters in their order, and every two letters in any order.
fn letters() -> Vec<Case> {
    const ALL: &[u8; 9] = b"whvpetbda";
    let chosen = (0..1 << ALL.len()).map(|set: usize| {
        let kept = ALL.iter().enumerate().filter(|(place, _)| set >> place & 1 == 1);
        kept.map(|(_, &letter)| letter).collect::<Vec<u8>>()
    });
    let pairs = ALL.iter().flat_map(|&first| ALL.map(|second| vec![b'w', b'h', first, second]));
    let odd = [&b"W"[..], b"x", b"wx", b"xw", b"hw", b"whv ", b" wh", b"wh\xE0", b"wwh"].map(<[u8]>::to_vec);
    chosen.chain(pairs).chain(odd).map(|letters| case(b"", &[b"(w a (", &letters[..], b"))\n"].concat())).collect()
}

const GOOD: &[&str] = &["(k ले (post))\n", "(l गरि (गर्नु))\n", "(w घर (wh))\n"];

/// Each of three good lines with each byte left out, doubled, or made another; and stretches that
/// are hardly lines.
fn lines() -> Vec<Case> {
    let mut cases = Vec::new();
    for line in GOOD.iter().map(|line| line.as_bytes()) {
        for place in 0..line.len() {
            let (before, after) = line.split_at(place);
            cases.push(case(b"", &[before, &after[1..]].concat()));
            cases.push(case(b"", &[before, &after[..1], after].concat()));
            cases.push(case(b"", &[before, b" ", &after[1..]].concat()));
        }
    }
    let kinds = ["pos", "posts", "Post", "com", "comp ", "case", "", "postcomp"];
    cases.extend(kinds.map(|kind| case(b"", format!("(k a ({kind}))\n").as_bytes())));
    let links = [
        ("गरी", "गर्नु"),
        ("गर", "गर्नु"),
        ("ि", "नु"),
        ("इ", "नु"),
        ("िक", "नु"),
        ("ई", "नु"),
        ("गरि", "गर्न"),
        ("गरि", "नू"),
        ("गरि", "नुa"),
        ("गरि", ""),
    ];
    cases.extend(links.map(|(link, lemma)| case(b"", format!("(l {link} ({lemma}))\n").as_bytes())));
    let heads = (0..=0x7F).filter(|&byte: &u8| byte.is_ascii_graphic());
    cases.extend(heads.map(|byte| case(b"", &[b"(", &[byte][..], b" a (w))\n"].concat())));
    let stretches = [
        "",
        "\n",
        "\n\n",
        " ",
        "(",
        "(w",
        "(w a (w))",
        "(w a (w))\r\n",
        "(w a (w)) \n",
        " (w a (w))\n",
        "(w a (w))\n\n",
        "(w a (w))(w b (w))\n",
        "(w a (w)",
        "((w a (w)))\n",
        "(w\ta (w))\n",
        "(w a b (w))\n",
        "(w a (w) (h))\n",
        "(k a (post) (comp))\n",
        "(w a)\n",
        "(w (w))\n",
        "()\n",
        "w a w\n",
    ];
    cases.extend(stretches.map(|sheet| case(b"", sheet.as_bytes())));
    cases.push(case(b"", &[b'a'; 2_000]));
    cases.push(case(b"", &[b'\n'; 300]));
    cases
}

/// Two or three lines in every order, equal ones too, with a fault in each place.
fn orders() -> Vec<Case> {
    const FORMS: &[&str] = &[
        "(k z (post))\n",
        "(l इ (नु))\n",
        "(w a (w))\n",
        "(w ab (h))\n",
        "(w b (w))\n",
        "(w \u{FFFF} (w))\n",
        "(w \u{10000} (w))\n",
    ];
    let mut cases = Vec::new();
    for first in FORMS {
        for second in FORMS {
            cases.push(case(b"", format!("{first}{second}").as_bytes()));
        }
    }
    for third in ["(w a (w))\n", "(w b (h))\n", "(w b (x))\n", "\n", "(w c (w))", "(w a (x))\n"] {
        for second in ["(w a (w))\n", "(w b (w))\n", "(w b (x))\n", "(w a (x))\n"] {
            cases.push(case(b"", format!("(w a (w))\n{second}{third}").as_bytes()));
        }
    }
    cases
}

/// Several causes at once.
fn causes() -> Vec<Case> {
    let long = [b'a'; WORD_LIMIT + 1];
    let words: [&[u8]; 6] = [b"", b"a", b"\xFF", b" ", b"\xFF ", &long];
    let sheets: [&[u8]; 4] = [b"", b"\n", b"(w a (w))\n(w a (w))\n", b"(w a (w))\n(w a (x))\n"];
    words.iter().flat_map(|word| sheets.map(|sheet| case(word, sheet))).collect()
}
