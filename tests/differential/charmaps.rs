// Charmaps: good ones, and good ones that are then damaged.

use crate::random::Random;
use crate::strange::{STRANGE_ENTRIES, STRANGE_HEADERS};
use crate::text::*;

/// The characters that charmaps list first.
#[rustfmt::skip]
const STARTS: &[u32] =
    &[0x00, 0x20, 0x41, 0x61, 0x2D, 0xA0, 0x3B1, 0x2600, 0xD7F0, 0xE000, 0x10FFF0];

pub fn good_charmap(random: &mut Random) -> Vec<u8> {
    let (lines, _) = planned_lines(false, random);
    joined(&lines, random)
}

/// A charmap of well-formed lines whose codes and bytes may be wrong.
pub fn careless_charmap(random: &mut Random) -> Vec<u8> {
    let (lines, _) = planned_lines(true, random);
    joined(&lines, random)
}

pub fn damaged_charmap(faults: usize, random: &mut Random) -> Vec<u8> {
    let (mut lines, signs) = planned_lines(false, random);
    let to_lines = random.below(faults + 1);
    for _ in 0..to_lines {
        if random.chance(20) {
            damage_lines(&mut lines, random);
        } else {
            put_strange_line(&mut lines, signs, random);
        }
    }
    let mut text = joined(&lines, random);
    for _ in to_lines..faults {
        damage_bytes(&mut text, random);
    }
    text
}

/// Puts a strange line into its part of a charmap, or anywhere.
fn put_strange_line(lines: &mut Vec<Vec<u8>>, signs: Signs, random: &mut Random) {
    let holds = |line: &Vec<u8>| line.windows(7).any(|part| part == b"CHARMAP");
    let start = lines.iter().position(holds).unwrap_or(0);
    let end = lines.iter().rposition(holds).unwrap_or(start);
    let (strange, from, to) = match random.below(3) {
        0 => (STRANGE_HEADERS, 0, start),
        _ => (STRANGE_ENTRIES, start + 1, end),
    };
    let (from, to) = if from > to || random.chance(20) {
        (0, lines.len())
    } else {
        (from, to)
    };
    let at = random.within(from, to);
    let line = with_signs(random.pick(strange), signs);
    lines.insert(at, line);
}

fn planned_lines(careless: bool, random: &mut Random) -> (Vec<Vec<u8>>, Signs) {
    let mut lines: Vec<Vec<u8>> = Vec::new();
    let signs = header(&mut lines, random);
    lines.push(dressed(b"CHARMAP", signs, FEW_JOINS, random));
    let mut free: Vec<bool> = vec![true; 256];
    for _ in 0..random.below(9) {
        if random.chance(10) {
            lines.push(idle_line(signs, random));
        }
        let errs = careless && random.chance(15);
        if let Some(line) = entry(&mut free, errs, signs, random) {
            lines.push(line);
        }
    }
    lines.push(dressed(b"END CHARMAP", signs, FEW_JOINS, random));
    while random.chance(20) {
        lines.push(random.pick(STRANGE_ENTRIES).to_vec());
    }
    (lines, signs)
}

fn header(lines: &mut Vec<Vec<u8>>, random: &mut Random) -> Signs {
    let mut signs = DEFAULT_SIGNS;
    let (mut comment_stood, mut escape_stood) = (false, false);
    for _ in 0..random.below(4) {
        let c = random.pick(GOOD_SIGNS);
        match random.below(4) {
            0 if !comment_stood && c != signs.escape => {
                let name = angled(b"comment_char", signs, 1, random);
                let line = [&name[..], blanks(random), &[c]].concat();
                lines.push(dressed(&line, signs, NO_JOINS, random));
                signs.comment = c;
                comment_stood = true;
            }
            1 if !escape_stood && c != signs.comment => {
                let name = angled(b"escape_char", signs, 1, random);
                let line = [&name[..], blanks(random), &[c]].concat();
                lines.push(dressed(&line, signs, NO_JOINS, random));
                signs.escape = c;
                escape_stood = true;
            }
            2 => lines.push(
                [
                    &b"<code_set_name> \"\xFF"[..],
                    &vec![b'x'; random.below(70)],
                ]
                .concat(),
            ),
            _ => lines.push(idle_line(signs, random)),
        }
    }
    signs
}

/// A character or a range. Unless it is to be wrong, its codes are characters and its bytes are
/// free, and there is none where the first one tried is not.
fn entry(free: &mut [bool], errs: bool, signs: Signs, random: &mut Random) -> Option<Vec<u8>> {
    let mut byte = random.below(256);
    if errs && random.chance(60) {
        byte = (0..256)
            .map(|k| (byte + k) % 256)
            .find(|&other| !free[other])
            .unwrap_or(255);
    }
    let first = random.pick(STARTS) + random.below(4) as u32;
    let most = if random.chance(70) { 4 } else { 60 };
    let count = if random.chance(50) {
        1
    } else {
        random.within(1, most)
    };
    let bytes = byte..(byte + count).min(256);
    let codes_fit = first >= 0xD800 || first + count as u32 <= 0xD800;
    let all_fit = byte + count <= 256 && first + count as u32 <= 0x110000 && codes_fit;
    if !errs && (!all_fit || free[bytes.clone()].contains(&false)) {
        return None;
    }
    free[bytes].fill(false);
    let name = character_name(first, random);
    let mut line = angled(&name, signs, 2, random);
    if count > 1 || random.chance(5) {
        line.extend(b"..");
        let name = character_name(first + count as u32 - 1, random);
        line.extend(angled(&name, signs, 2, random));
    }
    line.extend(blanks(random));
    line.push(signs.escape);
    line.push(b'x');
    let digits = if random.chance(50) {
        format!("{:02x}", byte)
    } else {
        format!("{:02X}", byte)
    };
    line.extend(digits.as_bytes());
    if random.chance(20) {
        line.extend(blanks(random));
        line.extend(stretch(random));
        line.extend(b"LATIN \xFF".iter());
        line.push(signs.escape);
    }
    Some(line)
}
