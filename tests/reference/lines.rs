// Lines: reading one joined line of a source (01, "Reading lines").

use crate::shapes;

/// The comment character and the escape in force.
#[derive(Clone, Copy)]
pub struct Signs {
    pub comment: u8,
    pub escape: u8,
}

/// "Default comment character `#`, escape `\`."
pub const DEFAULT_SIGNS: Signs = Signs {
    comment: b'#',
    escape: b'\\',
};

/// What is left of a byte outside comments. A join leaves nothing.
#[derive(Clone, Copy, PartialEq)]
pub enum Mark {
    /// A byte that stands as itself.
    Plain(u8),
    /// The byte after an escape inside `<..>` or quotes.
    Taken(u8),
    /// The c of `comment_char` or `escape_char`, "taken as it stands".
    AsIs(u8),
    /// The byte after an escape elsewhere, or an escape that is the source's last byte.
    Dead(u8),
}

impl Mark {
    pub fn byte(self) -> u8 {
        match self {
            Mark::Plain(byte) | Mark::Taken(byte) | Mark::AsIs(byte) | Mark::Dead(byte) => byte,
        }
    }
}

/// What the reader looks for besides comments and joins.
#[derive(Clone, Copy, PartialEq)]
pub enum Looking {
    /// Nothing more: inside categories, and in passed-over lines.
    ForNothing,
    /// Lines `comment_char c` and `escape_char c`: outside categories.
    ForSignLines,
    /// Lines `<comment_char> c` and `<escape_char> c`: in a charmap's header.
    ForSignHeaders,
    /// Entries, after which "any comment" stands: between CHARMAP and END CHARMAP.
    ForEntries,
}

/// A joined line, and where the next one begins.
pub struct Line {
    pub marks: Vec<Mark>,
    pub next: usize,
}

#[derive(Clone, Copy, PartialEq)]
enum Mode {
    Plain,
    Angle,
    Quotes,
    AngleInQuotes,
    Comment,
}

pub fn is_blank(byte: u8) -> bool {
    byte == b' ' || byte == b'\t'
}

/// Reads the joined line that begins at `start`, to its end whatever stands in it.
pub fn read_line(source: &[u8], start: usize, signs: Signs, looking: Looking) -> Line {
    let mut marks: Vec<Mark> = Vec::new();
    let mut mode = Mode::Plain;
    // Whether a comment character here is "a line's first byte, or after blanks".
    let mut fresh = true;
    let mut at = start;
    while at < source.len() {
        let byte = source[at];
        at += 1;
        if byte == b'\n' {
            break;
        }
        if mode == Mode::Comment {
            continue;
        }
        if mode == Mode::Plain && fresh && !is_blank(byte) && takes_as_is(looking, &marks) {
            marks.push(Mark::AsIs(byte));
            fresh = false;
        } else if mode == Mode::Plain && is_blank(byte) && ends_entry(looking, &marks) {
            mode = Mode::Comment;
        } else if byte == signs.escape {
            if at == source.len() {
                marks.push(Mark::Dead(byte));
            } else if source[at] == b'\n' {
                at += 1;
            } else {
                if mode == Mode::Plain {
                    marks.push(Mark::Dead(source[at]));
                    fresh = false;
                } else {
                    marks.push(Mark::Taken(source[at]));
                }
                at += 1;
            }
        } else if mode == Mode::Plain && fresh && byte == signs.comment {
            mode = Mode::Comment;
        } else {
            marks.push(Mark::Plain(byte));
            fresh = mode == Mode::Plain && is_blank(byte);
            mode = after(mode, byte);
        }
    }
    Line { marks, next: at }
}

/// The mode after a byte that stands. "Inside `<..>` only `>` and the escape act."
fn after(mode: Mode, byte: u8) -> Mode {
    match (mode, byte) {
        (Mode::Plain, b'<') => Mode::Angle,
        (Mode::Plain, b'"') => Mode::Quotes,
        (Mode::Angle, b'>') => Mode::Plain,
        (Mode::Quotes, b'<') => Mode::AngleInQuotes,
        (Mode::Quotes, b'"') => Mode::Plain,
        (Mode::AngleInQuotes, b'>') => Mode::Quotes,
        _ => mode,
    }
}

/// Whether a byte that is no blank, directly after a blank, is the c of its line.
fn takes_as_is(looking: Looking, marks: &[Mark]) -> bool {
    match looking {
        Looking::ForSignLines => shapes::awaits_c(marks),
        Looking::ForSignHeaders => shapes::header_awaits_c(marks),
        Looking::ForNothing | Looking::ForEntries => false,
    }
}

/// Whether a blank here opens the comment after an entry.
fn ends_entry(looking: Looking, marks: &[Mark]) -> bool {
    looking == Looking::ForEntries && shapes::entry(marks).is_some()
}

/// "2: byte outside 20 to 7E, tab and LF, outside comments and passed-over lines."
pub fn is_text(marks: &[Mark]) -> bool {
    marks
        .iter()
        .all(|mark| mark.byte() == b'\t' || (0x20..=0x7E).contains(&mark.byte()))
}

/// The words of a passed-over line: what blanks separate, where "escape then another byte is
/// skipped".
pub fn passed_words(marks: &[Mark]) -> Vec<Vec<u8>> {
    let mut standing: Vec<u8> = Vec::new();
    for mark in marks {
        if let Mark::Plain(byte) = mark {
            standing.push(*byte);
        }
    }
    let parts = standing.split(|&byte| is_blank(byte));
    parts
        .filter(|word| !word.is_empty())
        .map(|word| word.to_vec())
        .collect()
}

/// How many LFs stand in some bytes.
pub fn count_of_lfs(bytes: &[u8]) -> usize {
    bytes.iter().filter(|&&byte| byte == b'\n').count()
}
