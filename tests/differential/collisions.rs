// Collisions: sources whose names, elements, characters and toggles can be taken for each other. They
// have one hash, stand in one chain, begin alike or differ in one bit, and are written in many ways.

use crate::names::{is_character, is_name, shaped_code};
use crate::random::Random;
use crate::sources::{careless_source, damaged_source, good_source, Pool};
use crate::text::Joins;

const LONGEST_NAME: usize = 32;
const MOST_TOGGLES: usize = 16;

/// The number by which the compiler keeps a name (crates/text_names) or the characters of an element
/// (crates/work_subjects), from the number of what stands before the last byte or character.
fn number_on(before: u32, last: u32) -> u32 {
    before.wrapping_mul(10_368_889).wrapping_add(last) & 0xFF_FFFF
}

fn number_of(bytes: &[u8]) -> u32 {
    bytes
        .iter()
        .fold(0, |number, &byte| number_on(number, u32::from(byte)))
}

/// Four bytes for each number that some have, to end names with.
pub struct Pieces(Vec<u32>);

const LETTERS: std::ops::RangeInclusive<u8> = b'A'..=b'z';

impl Pieces {
    pub fn new() -> Pieces {
        let mut pieces = vec![0; 1 << 24];
        for first in LETTERS {
            for second in LETTERS {
                for third in LETTERS {
                    let before = number_of(&[first, second, third]);
                    for last in LETTERS {
                        let piece = u32::from_le_bytes([first, second, third, last]);
                        pieces[number_on(before, u32::from(last)) as usize] = piece;
                    }
                }
            }
        }
        Pieces(pieces)
    }

    /// A name of five bytes more that has a number. About every second letter leads there.
    pub fn ended(&self, name: &[u8], number: u32) -> Vec<u8> {
        let with_piece = |letter: u8| {
            let begun = [name, &[letter]].concat();
            let before = (0..4).fold(number_of(&begun), |number, _| number_on(number, 0));
            let piece = self.0[(number.wrapping_sub(before) & 0xFF_FFFF) as usize];
            let ended = [&begun[..], &piece.to_le_bytes()].concat();
            (piece != 0).then_some(ended)
        };
        LETTERS
            .filter_map(with_piece)
            .next()
            .expect("one of 58 leads there")
    }
}

/// A source of such names, filled up to a length for which some of its characters stand in the
/// chain of its names: there are as many chains as it has eights of bytes, and one more.
pub fn colliding_source(pieces: &Pieces, random: &mut Random) -> Vec<u8> {
    let number = random.within(0, 0xD7FF) as u32;
    let chains = random.pick(&[64, 200, 400, 1_000]) + random.below(100);
    let pool = colliding_pool(pieces, number, chains as u32, random);
    let mut text = match random.below(10) {
        0..=5 => good_source(&pool, random),
        6 | 7 => careless_source(&pool, random),
        8 => damaged_source(&pool, 1, random),
        _ => damaged_source(&pool, random.within(2, 4), random),
    };
    let length = 8 * (chains - 1) + random.below(8);
    text.resize(text.len().max(length), random.pick(b"\n\n "));
    text
}

fn colliding_pool(pieces: &Pieces, number: u32, chains: u32, random: &mut Random) -> Pool {
    let names = names(pieces, number, random);
    let toggles = toggles(random);
    let elements = elements(number, random);
    let most = random.pick(&[6, 6, 12, 30]);
    Pool {
        wrong_names: wrong_names(&names, pieces, number, random),
        wrong_toggles: wrong_toggles(&toggles, random),
        declared: most.min(names.len()),
        listed: most.min(8),
        characters: characters(number, chains, &elements, random),
        names,
        elements,
        toggles,
        joins: Joins {
            at_one: 15,
            at_many: random.pick(&[0, 10, 40]),
        },
        escapes: random.pick(&[0, 2, 20]),
        signs: 60,
    }
}

/// Lengths at and beside the ends of words of four bytes, and of whole names and toggles.
const LENGTHS: &[usize] = &[
    1, 2, 3, 4, 5, 7, 8, 9, 12, 16, 17, 24, 27, 28, 29, 30, 31, 32,
];

/// A byte that may stand in a name, mostly a letter.
fn visible(random: &mut Random) -> u8 {
    if random.chance(80) {
        random.within(b'A'.into(), b'z'.into()) as u8
    } else {
        random.within(0x21, 0x7E) as u8
    }
}

/// Different names: some with one number, and others that are nearly like one of them.
fn names(pieces: &Pieces, number: u32, random: &mut Random) -> Vec<Vec<u8>> {
    let begin: Vec<u8> = (0..LONGEST_NAME).map(|_| visible(random)).collect();
    let mut list: Vec<Vec<u8>> = vec![begin.clone()];
    for _ in 0..random.pick(&[12, 12, 40]) {
        let name = match random.below(6) {
            0..=2 => {
                let length = random.pick(LENGTHS).min(27);
                let mut fresh = begin[..length].to_vec();
                fresh[length - 1] = visible(random);
                pieces.ended(&fresh, number)
            }
            3 => begin[..random.pick(LENGTHS)].to_vec(),
            4 => random.pick(ALMOST_CHARACTERS).to_vec(),
            _ => near(&random.pick(&list), random),
        };
        let good = is_name(&name) && name.len() <= LONGEST_NAME && shaped_code(&name).is_none();
        if good && !list.contains(&name) {
            list.push(name);
        }
    }
    list
}

const ALMOST_CHARACTERS: &[&[u8]] = &[
    b"U",
    b"U004",
    b"U00041",
    b"U0000041",
    b"U000000041",
    b"u0041",
    b"U004a",
    b"U0041x",
    b"V0041",
    b"U004G",
    b"U004@",
    b"U004/",
    b"U004:",
    b"U0000004g",
];

/// Bytes with one of them changed, one left out at the end, or one more.
fn near(bytes: &[u8], random: &mut Random) -> Vec<u8> {
    let mut bytes = bytes.to_vec();
    let at = match random.below(2) {
        0 => bytes.len().saturating_sub(1),
        _ => random.below(bytes.len().max(1)),
    };
    match random.below(6) {
        0 => drop(bytes.pop()),
        1 => bytes.push(visible(random)),
        2 if at < bytes.len() => bytes[at] = visible(random),
        _ if at < bytes.len() => bytes[at] ^= 1 << random.below(7),
        _ => {}
    }
    bytes
}

/// Names that nothing declares though they have the number of others, and names that are too
/// long, empty, a character, or hold a byte that none may hold.
fn wrong_names(
    names: &[Vec<u8>],
    pieces: &Pieces,
    number: u32,
    random: &mut Random,
) -> Vec<Vec<u8>> {
    let mut list = names.to_vec();
    for _ in 0..12 {
        let mut name = random.pick(names);
        match random.below(6) {
            0 => name.resize(random.within(33, 37), b'x'),
            1 => name.insert(
                random.below(name.len()),
                random.pick(b" \t\x01\x1F\x7F\x80\xFF"),
            ),
            2 => {
                name = random
                    .pick(&[&b""[..], b"U0041", b"U00000041", b"UD800"])
                    .to_vec()
            }
            3 => name = near(&name, random),
            _ => name = pieces.ended(&[visible(random), visible(random)], number),
        }
        list.push(name);
    }
    list
}

/// The characters of different elements: some with one number, others nearly like one of them.
fn elements(number: u32, random: &mut Random) -> Vec<Vec<u32>> {
    let mut list: Vec<Vec<u32>> = vec![vec![0x61, 0x62]];
    for _ in 0..random.pick(&[10, 10, 40]) {
        let element = match random.below(3) {
            0 => near_element(&random.pick(&list), random),
            _ => alike_element(number, random),
        };
        let good = (2..=4).contains(&element.len()) && element.iter().all(|&c| is_character(c));
        if good && !list.contains(&element) {
            list.push(element);
        }
    }
    list
}

/// Two to four characters that have a number. One last character of fifteen is one.
fn alike_element(number: u32, random: &mut Random) -> Vec<u32> {
    loop {
        let mut element: Vec<u32> = (0..random.within(1, 3))
            .map(|_| random.within(0x61, 0xFFF) as u32)
            .collect();
        let before = element.iter().fold(0, |number, &c| number_on(number, c));
        let last = number.wrapping_sub(number_on(before, 0)) & 0xFF_FFFF;
        if is_character(last) {
            element.push(last);
            return element;
        }
    }
}

/// Characters with one of them changed, one left out, one more, or two changed over.
fn near_element(element: &[u32], random: &mut Random) -> Vec<u32> {
    let mut element = element.to_vec();
    let at = random.below(element.len());
    match random.below(5) {
        0 => drop(element.remove(at)),
        1 => element.insert(at, element[at]),
        2 => element.swap(0, at),
        _ => element[at] ^= 1 << random.below(21),
    }
    element
}

/// Characters in the chain of a number and beside it, and such as stand in the elements.
fn characters(number: u32, chains: u32, elements: &[Vec<u32>], random: &mut Random) -> Vec<u32> {
    let mut list: Vec<u32> = Vec::new();
    for k in 0..24 {
        let element = random.pick(elements);
        let code = match k % 4 {
            0 | 1 => number % chains + chains * random.below(0x10FFFF / chains as usize) as u32,
            2 => number + k / 4,
            _ => random.pick(&element),
        };
        if is_character(code) && !list.contains(&code) {
            list.push(code);
        }
    }
    list
}

/// Different toggles, most of which begin alike.
fn toggles(random: &mut Random) -> Vec<Vec<u8>> {
    let begin: Vec<u8> = (0..LONGEST_NAME)
        .map(|_| random.pick(b"ABCXYZabcxyz0189_"))
        .collect();
    let mut list = vec![begin.clone()];
    let wanted = random.within(1, MOST_TOGGLES);
    while list.len() < wanted {
        let mut toggle = begin[..random.pick(LENGTHS)].to_vec();
        if random.chance(70) {
            toggle = near(&toggle, random);
        }
        let good = (1..=32).contains(&toggle.len()) && toggle.iter().all(|&byte| in_toggle(byte));
        if good && !list.contains(&toggle) {
            list.push(toggle);
        }
    }
    list
}

fn in_toggle(byte: u8) -> bool {
    byte.is_ascii_alphanumeric() || byte == b'_'
}

/// Toggles that are too long, or hold a byte that none may hold.
fn wrong_toggles(toggles: &[Vec<u8>], random: &mut Random) -> Vec<Vec<u8>> {
    let mut long = random.pick(toggles);
    long.resize(random.within(33, 36), b'x');
    let mut odd = random.pick(toggles);
    let at = random.below(odd.len() + 1);
    odd.insert(at, random.pick(b"-.@[`{/:<>\"; \x01\x80"));
    vec![long, odd]
}
