//! Good sheets for a word, made from the word's own questions.

use crate::lines::Lines;
use crate::pieces::{pieces, runs};
use crate::random::Random;
use crate::texts::{LETTERS, PROGRESSIVE_ENDINGS, appended_texts};

/// Sheets stay this small, save where size is the point.
const USUAL_SIZE: usize = 6_000;

/// Letters of a `w` line: every combination that is allowed can come.
pub fn letters(random: &mut Random) -> String {
    let mut text = String::new();
    let (w, h) = random.weighted(&[(35, (true, false)), (25, (false, true)), (40, (true, true))]);
    if w {
        text.push('w');
    }
    if h {
        text.push('h');
        if random.chance(20) {
            text.push('v');
        }
        if random.chance(25) {
            text.push_str(if random.chance(50) { "pe" } else { "p" });
        }
        if random.chance(45) {
            text.push(random.pick(&['t', 'b', 'd', 'a']));
        }
    }
    text
}

/// A sheet of the word's own questions, in one of several densities.
pub fn for_word(random: &mut Random, word: &str) -> Lines {
    let mut lines = Lines::default();
    match random.below(9) {
        0 => some_pieces(random, word, &mut lines, 12),
        1 => some_pieces(random, word, &mut lines, 40),
        2 => some_pieces(random, word, &mut lines, 100),
        3 => alike(random, word, &mut lines),
        4 => every_run(random, word, &mut lines),
        5 => siblings(random, word, &mut lines, 60),
        6 => {
            some_pieces(random, word, &mut lines, 35);
            siblings(random, word, &mut lines, 30);
        }
        7 => one_kind_each(random, word, &mut lines),
        _ => {
            some_pieces(random, word, &mut lines, 60);
            some_runs(random, word, &mut lines, 10);
        }
    }
    progressive(random, word, &mut lines);
    if random.chance(30) {
        kinds(random, &mut lines);
    }
    if random.chance(25) {
        lookalikes(random, word, &mut lines);
    }
    lines.fit(USUAL_SIZE);
    lines
}

pub fn some_pieces(random: &mut Random, word: &str, lines: &mut Lines, percent: usize) {
    for piece in pieces(word) {
        if random.chance(percent) {
            lines.word(piece, &letters(random));
        }
    }
}

/// Every piece with the same letters, so that scores come out alike.
pub fn alike(random: &mut Random, word: &str, lines: &mut Lines) {
    let letters = letters(random);
    for piece in pieces(word) {
        if random.chance(90) {
            lines.word(piece, &letters);
        }
    }
}

/// Every run known by w, as in document 01's counts of 63 and 77.
pub fn every_run(random: &mut Random, word: &str, lines: &mut Lines) {
    if word.chars().count() > 40 {
        return some_pieces(random, word, lines, 100);
    }
    for run in runs(word) {
        lines.word(run, "w");
    }
}

pub fn some_runs(random: &mut Random, word: &str, lines: &mut Lines, percent: usize) {
    if word.chars().count() > 40 {
        return;
    }
    for run in runs(word) {
        if random.chance(percent) {
            lines.word(run, &letters(random));
        }
    }
}

/// Pieces that are known with one or more of the 25 texts appended.
pub fn siblings(random: &mut Random, word: &str, lines: &mut Lines, percent: usize) {
    let texts = appended_texts();
    for piece in pieces(word) {
        if random.chance(percent) {
            for _ in 0..random.range(1, 3) {
                lines.word(&format!("{piece}{}", random.pick(&texts)), &letters(random));
            }
        }
    }
}

/// Each piece known by w alone, by h alone, by a sibling alone, or not: scores that differ by 50,
/// 60 and 90 are made up for by affixes, so that counts decide the rank.
pub fn one_kind_each(random: &mut Random, word: &str, lines: &mut Lines) {
    let texts = appended_texts();
    for piece in pieces(word) {
        match random.below(5) {
            0 => lines.word(piece, "w"),
            1 => lines.word(piece, "h"),
            2 | 3 => lines.word(&format!("{piece}{}", random.pick(&texts)), "w"),
            _ => {}
        }
    }
}

/// Tags for the word and its remainders, so that the first that is asked decides.
pub fn tags(random: &mut Random, word: &str, lines: &mut Lines) {
    for piece in pieces(word) {
        let letters =
            random.weighted(&[(8, ""), (2, "ht"), (2, "whb"), (2, "hd"), (2, "ha"), (2, "h"), (1, "wh"), (2, "w")]);
        if !letters.is_empty() && (piece != word || random.chance(40)) {
            lines.word(piece, letters);
        }
    }
}

/// Pronouns among the pieces in ई and ी, and remainders that are known.
pub fn pronouns(random: &mut Random, word: &str, lines: &mut Lines) {
    for piece in pieces(word) {
        let letters = if piece.ends_with(['ई', 'ी']) {
            random.weighted(&[(3, "whp"), (3, "whpe"), (1, "hp"), (1, "hpe"), (2, "wh"), (1, "w")])
        } else {
            random.weighted(&[(5, "w"), (1, "whp"), (1, "whpe"), (1, "h")])
        };
        if random.chance(90) {
            lines.word(piece, letters);
        }
    }
}

/// Characters before the ending: the two that link, and two that look like them and do not.
const LINKING: [char; 4] = ['ि', 'इ', 'ी', 'ई'];

/// Verbs and links for those pieces that look like progressive forms.
pub fn progressive(random: &mut Random, word: &str, lines: &mut Lines) {
    let mut seen = false;
    for piece in pieces(word) {
        let linked = PROGRESSIVE_ENDINGS.iter().find_map(|ending| piece.strip_suffix(ending));
        let Some(linked) = linked.filter(|linked| linked.ends_with(LINKING)) else {
            continue;
        };
        seen = true;
        verbs_of(random, linked, lines);
        if let Some(linked) = linked.strip_prefix('न') {
            verbs_of(random, linked, lines);
        }
    }
    if seen && random.chance(90) {
        // h and v are told apart only where one stands without the other.
        let letters = random.weighted(&[(80, "hv"), (6, "whv"), (6, "wh"), (5, "h"), (4, "w"), (4, "hvt")]);
        lines.word("रहनु", letters);
    }
}

fn verbs_of(random: &mut Random, linked: &str, lines: &mut Lines) {
    let Some(stem) = linked.strip_suffix(LINKING) else {
        return;
    };
    let lemmas = [format!("{stem}नु"), format!("{stem}्नु"), format!("{stem}उनु"), format!("{linked}नु")];
    // One lemma alone in half of the asks, so that each is the one that decides.
    let alone = random.chance(50).then(|| random.below(lemmas.len()));
    for (place, lemma) in lemmas.iter().enumerate() {
        if alone.map_or(random.chance(40), |alone| alone == place) {
            lines.word(lemma, random.weighted(&[(6, "hv"), (2, "whv"), (1, "h"), (1, "w"), (1, "whp")]));
        }
    }
    if random.chance(25) {
        let lemma = match random.below(4) {
            0 => "जानु".to_string(),
            1 => "नु".to_string(),
            _ => lemmas[random.below(lemmas.len())].clone(),
        };
        lines.link(linked, &lemma);
        if random.chance(60) {
            lines.word(&lemma, random.weighted(&[(4, "hv"), (1, "wh"), (1, "w"), (1, "h")]));
        }
    }
}

/// Kind lines of some of the 25 texts, and now and then of another text.
pub fn kinds(random: &mut Random, lines: &mut Lines) {
    let texts = appended_texts();
    for _ in 0..random.range(1, 8) {
        lines.kind(random.pick(&texts), random.pick(&["post", "comp"]));
    }
    if random.chance(20) {
        lines.kind(&crate::texts::stem(random), "post");
    }
}

/// Names that are nearly a question: longer or shorter by a character, or of another letter.
pub fn lookalikes(random: &mut Random, word: &str, lines: &mut Lines) {
    for piece in pieces(word) {
        if !random.chance(25) {
            continue;
        }
        let mut name = piece.to_string();
        match random.below(4) {
            0 => name.push(random.pick(LETTERS)),
            1 => name.insert(0, random.pick(LETTERS)),
            2 => drop(name.pop()),
            _ => {
                name.pop();
                name.push(random.pick(LETTERS));
            }
        }
        if !lines.words.contains_key(&name) {
            lines.word(&name, &letters(random));
        }
    }
}
