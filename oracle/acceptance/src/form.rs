//! One line of a sheet.

use crate::{NAME_LIMIT, is_forbidden};

#[derive(Debug, Clone, Copy, PartialEq, Eq)]
pub enum Form<'a> {
    /// `(k SUFFIX (post))` or `(k SUFFIX (comp))`
    Kind { suffix: &'a str, post: bool },
    /// `(l LINK (INFINITIVE))`
    Link { link: &'a str, infinitive: &'a str },
    /// `(w NAME (LETTERS))`
    Word { name: &'a str, letters: &'a str },
}

impl<'a> Form<'a> {
    /// The form that a line without its 0A is, if it is one. No name holds a space, so a form has
    /// three fields.
    pub fn of_line(line: &'a [u8]) -> Option<Self> {
        let fields: Vec<&[u8]> = line.split(|&byte| byte == 0x20).collect();
        let [head, first, last] = fields[..] else {
            return None;
        };
        let first = name(first)?;
        let inner = last.strip_prefix(b"(")?.strip_suffix(b"))")?;
        match head {
            b"(k" => kind(first, inner),
            b"(l" => link(first, name(inner)?),
            b"(w" => word(first, inner),
            _ => None,
        }
    }

    /// "Lines ascend strictly by first letter, then by the first name's bytes."
    pub fn stands_below(&self, next: &Form) -> bool {
        self.order() < next.order()
    }

    fn order(&self) -> (char, &[u8]) {
        match self {
            Form::Kind { suffix, .. } => ('k', suffix.as_bytes()),
            Form::Link { link, .. } => ('l', link.as_bytes()),
            Form::Word { name, .. } => ('w', name.as_bytes()),
        }
    }
}

fn name(bytes: &[u8]) -> Option<&str> {
    if bytes.is_empty() || bytes.len() > NAME_LIMIT || bytes.iter().any(|&b| is_forbidden(b)) {
        return None;
    }
    std::str::from_utf8(bytes).ok()
}

fn kind<'a>(suffix: &'a str, inner: &[u8]) -> Option<Form<'a>> {
    match inner {
        b"post" => Some(Form::Kind { suffix, post: true }),
        b"comp" => Some(Form::Kind { suffix, post: false }),
        _ => None,
    }
}

fn link<'a>(link: &'a str, infinitive: &'a str) -> Option<Form<'a>> {
    let good = link.ends_with(['ि', 'इ']) && infinitive.ends_with("नु");
    good.then_some(Form::Link { link, infinitive })
}

fn word<'a>(name: &'a str, inner: &'a [u8]) -> Option<Form<'a>> {
    let letters = std::str::from_utf8(inner).ok()?;
    are_letters(letters).then_some(Form::Word { name, letters })
}

/// Each letter of `whvpe` at most once and in this order, then at most one of t b d a; at least
/// w or h; every other letter needs h, and e needs p.
fn are_letters(letters: &str) -> bool {
    let mut rest = letters;
    let mut take = |letter: char| match rest.strip_prefix(letter) {
        Some(after) => {
            rest = after;
            true
        }
        None => false,
    };
    let [w, h, v, p, e] = ['w', 'h', 'v', 'p', 'e'].map(&mut take);
    let tag = ['t', 'b', 'd', 'a'].into_iter().any(take);
    rest.is_empty() && (w || h) && (h || !(v || p || e || tag)) && (p || !e)
}
