// Shapes of whole lines that the reader of lines must know while it reads them.

use crate::lines::{is_blank, Mark};

/// An entry of a charmap as it is written. Its names are not judged yet.
pub struct Entry {
    pub first: Vec<u8>,
    pub last: Option<Vec<u8>>,
    pub byte: u32,
}

/// The place of the first mark from `at` on that is no blank.
fn past_blanks(marks: &[Mark], at: usize) -> usize {
    let mut at = at;
    while at < marks.len() && is_plain_blank(marks[at]) {
        at += 1;
    }
    at
}

pub fn is_plain_blank(mark: Mark) -> bool {
    match mark {
        Mark::Plain(byte) => is_blank(byte),
        _ => false,
    }
}

/// The bytes of a `<..>` that opens at `at`, after escapes, and the place past its `>`.
pub fn angle(marks: &[Mark], at: usize) -> Option<(Vec<u8>, usize)> {
    if at >= marks.len() || marks[at] != Mark::Plain(b'<') {
        return None;
    }
    let mut bytes = Vec::new();
    for place in at + 1..marks.len() {
        if marks[place] == Mark::Plain(b'>') {
            return Some((bytes, place + 1));
        }
        bytes.push(marks[place].byte());
    }
    None
}

/// Whether all that stands is `comment_char` or `escape_char` with blanks around it.
pub fn awaits_c(marks: &[Mark]) -> bool {
    let start = past_blanks(marks, 0);
    [&b"comment_char"[..], &b"escape_char"[..]]
        .iter()
        .any(|keyword| {
            let end = start + keyword.len();
            end <= marks.len()
                && (0..keyword.len()).all(|k| marks[start + k] == Mark::Plain(keyword[k]))
                && past_blanks(marks, end) == marks.len()
        })
}

/// Whether all that stands is `<comment_char>` or `<escape_char>` with blanks around it.
pub fn header_awaits_c(marks: &[Mark]) -> bool {
    match angle(marks, past_blanks(marks, 0)) {
        Some((name, end)) => is_sign_name(&name) && past_blanks(marks, end) == marks.len(),
        None => false,
    }
}

pub fn is_sign_name(name: &[u8]) -> bool {
    name == b"comment_char" || name == b"escape_char"
}

/// The name with which a header line opens, if it opens with a whole one.
pub fn opening_name(marks: &[Mark]) -> Option<Vec<u8>> {
    angle(marks, past_blanks(marks, 0)).map(|(name, _)| name)
}

/// Whether a line begins with `<`, after blanks.
pub fn is_header(marks: &[Mark]) -> bool {
    let start = past_blanks(marks, 0);
    start < marks.len() && marks[start] == Mark::Plain(b'<')
}

/// The line as a charmap's entry: `<..>` or `<..>..<..>`, blanks, then escape `x` and two hex
/// digits of either case, and nothing more.
pub fn entry(marks: &[Mark]) -> Option<Entry> {
    let (first, end) = angle(marks, past_blanks(marks, 0))?;
    let dotted = end + 1 < marks.len()
        && marks[end] == Mark::Plain(b'.')
        && marks[end + 1] == Mark::Plain(b'.');
    let (last, end) = if dotted {
        let (last, end) = angle(marks, end + 2)?;
        (Some(last), end)
    } else {
        (None, end)
    };
    let byte_at = past_blanks(marks, end);
    if byte_at == end || marks.len() != byte_at + 3 || marks[byte_at] != Mark::Dead(b'x') {
        return None;
    }
    let byte = hex_digit(marks[byte_at + 1])? * 16 + hex_digit(marks[byte_at + 2])?;
    Some(Entry { first, last, byte })
}

fn hex_digit(mark: Mark) -> Option<u32> {
    match mark {
        Mark::Plain(byte) => char::from(byte).to_digit(16),
        _ => None,
    }
}
