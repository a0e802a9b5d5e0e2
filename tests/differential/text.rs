// Text of sources: signs, blanks, names, comments and joins, and damage to whole texts.

use crate::random::Random;

/// The comment character and the escape with which a text is written.
#[derive(Clone, Copy)]
pub struct Signs {
    pub comment: u8,
    pub escape: u8,
}

pub const DEFAULT_SIGNS: Signs = Signs {
    comment: b'#',
    escape: b'\\',
};

/// Bytes that a source may choose as comment character or escape.
pub const GOOD_SIGNS: &[u8] = b"#\\%/!$&'()*+:=?@[]^`{|}~";

/// Bytes at which readers decide something.
const SHARP: &[u8] = b"<<>>\"\"\\\\##%/;;,,  \t\n\nUx0A._-E\0\r\x7F\x80\xFF";

/// A line in a list of examples, where `#` and `\` stand for the signs in force.
pub fn with_signs(line: &[u8], signs: Signs) -> Vec<u8> {
    let exchanged = |&byte: &u8| match byte {
        b'#' => signs.comment,
        b'\\' => signs.escape,
        other => other,
    };
    line.iter().map(exchanged).collect()
}

/// At least one blank.
pub fn blanks(random: &mut Random) -> &'static [u8] {
    random.pick(&[&b" "[..], b" ", b" ", b" ", b" ", b"\t", b"  ", b" \t "])
}

/// Mostly nothing, or blanks.
pub fn maybe_blanks(random: &mut Random) -> &'static [u8] {
    if random.chance(12) {
        blanks(random)
    } else {
        b""
    }
}

/// `<..>` around a name, with the escapes that it needs, and before so many of a hundred other bytes.
pub fn angled(name: &[u8], signs: Signs, escapes: usize, random: &mut Random) -> Vec<u8> {
    let mut text = vec![b'<'];
    for &byte in name {
        if byte == b'>' || byte == signs.escape || random.chance(escapes) {
            text.push(signs.escape);
        }
        text.push(byte);
    }
    text.push(b'>');
    text
}

/// The name of a character, of four digits or eight.
pub fn character_name(code: u32, random: &mut Random) -> Vec<u8> {
    if code > 0xFFFF || random.chance(15) {
        format!("U{:08X}", code).into_bytes()
    } else {
        format!("U{:04X}", code).into_bytes()
    }
}

/// Bytes that mean something in some place.
const SPECIAL: &[u8] = b" <>\"#\\%/;,\t\x01\x7F\x80\xFF";

/// A stretch of up to a hundred bytes without LF, most of them ordinary.
pub fn stretch(random: &mut Random) -> Vec<u8> {
    let special = random.pick(&[0, 2, 10]);
    let mut text = vec![b'x'; random.below(101)];
    for byte in &mut text {
        if random.chance(special) {
            *byte = random.pick(SPECIAL);
        }
    }
    text
}

/// A comment's text, which may hold any byte but LF.
pub fn comment(signs: Signs, random: &mut Random) -> Vec<u8> {
    let mut text = vec![signs.comment];
    if random.chance(20) {
        text.extend(stretch(random));
        return text;
    }
    for _ in 0..random.below(6) {
        let byte = random.pick(b"abc <\"#\\%/;\x01\x80\xFF");
        text.push(byte);
    }
    text
}

/// How often a line is joined from several, of a hundred times: at one place, and at many.
#[derive(Clone, Copy)]
pub struct Joins {
    pub at_one: usize,
    pub at_many: usize,
}

pub const NO_JOINS: Joins = Joins {
    at_one: 0,
    at_many: 0,
};

pub const FEW_JOINS: Joins = Joins {
    at_one: 8,
    at_many: 2,
};

/// A line with joins between its bytes, before so many of a hundred, and some of them in a row.
fn joined_often(line: &[u8], signs: Signs, often: usize, random: &mut Random) -> Vec<u8> {
    let mut text = Vec::new();
    let mut escaped = false;
    for &byte in line {
        while !escaped && random.chance(often) {
            text.extend([signs.escape, b'\n']);
        }
        escaped = !escaped && byte == signs.escape;
        text.push(byte);
    }
    text
}

fn joined_once(mut line: Vec<u8>, signs: Signs, random: &mut Random) -> Vec<u8> {
    let at = random.below(line.len() + 1);
    let after_escape = at > 0 && line[at - 1] == signs.escape;
    if !after_escape {
        line.splice(at..at, [signs.escape, b'\n']);
    }
    line
}

/// A line with what may be added without changing what it says: blanks and a comment at its
/// ends, and joins. The c of a sign line allows only the former.
pub fn dressed(line: &[u8], signs: Signs, joins: Joins, random: &mut Random) -> Vec<u8> {
    let mut text = maybe_blanks(random).to_vec();
    text.extend(line);
    if random.chance(joins.at_many) {
        let often = random.pick(&[2, 5, 20, 50, 85]);
        text = joined_often(&text, signs, often, random);
    } else if random.chance(joins.at_one) {
        text = joined_once(text, signs, random);
    }
    text.extend(maybe_blanks(random));
    if random.chance(8) {
        text.extend(blanks(random));
        if joins.at_one > 0 && random.chance(20) {
            text.extend([signs.escape, b'\n']);
        }
        text.extend(comment(signs, random));
    }
    text
}

/// Lines that say nothing.
pub fn idle_line(signs: Signs, random: &mut Random) -> Vec<u8> {
    match random.below(3) {
        0 => Vec::new(),
        1 => blanks(random).to_vec(),
        _ => [maybe_blanks(random).to_vec(), comment(signs, random)].concat(),
    }
}

/// The lines as one text. The last LF may be missing.
pub fn joined(lines: &[Vec<u8>], random: &mut Random) -> Vec<u8> {
    let mut text = lines.join(&b'\n');
    if !random.chance(10) {
        text.push(b'\n');
    }
    text
}

/// Damages lines as wholes: one is left out, repeated, or exchanged with another.
pub fn damage_lines(lines: &mut Vec<Vec<u8>>, random: &mut Random) {
    if lines.is_empty() {
        return;
    }
    let at = random.below(lines.len());
    match random.below(3) {
        0 => {
            lines.remove(at);
        }
        1 => {
            let line = lines[at].clone();
            let to = random.below(lines.len() + 1);
            lines.insert(to, line);
        }
        _ => {
            let other = random.below(lines.len());
            lines.swap(at, other);
        }
    }
}

/// Damages single bytes, or cuts the text short.
pub fn damage_bytes(text: &mut Vec<u8>, random: &mut Random) {
    let at = random.below(text.len() + 1);
    let byte = if random.chance(85) {
        random.pick(SHARP)
    } else {
        random.below(256) as u8
    };
    match random.below(12) {
        0 if random.chance(25) => text.truncate(at),
        1 if random.chance(25) => {
            if text.last() == Some(&b'\n') {
                text.pop();
            }
            text.push(b'\\');
        }
        0..=4 => text.insert(at, byte),
        5..=8 if at < text.len() => text[at] = byte,
        _ if at < text.len() => {
            text.remove(at);
        }
        _ => {}
    }
}
