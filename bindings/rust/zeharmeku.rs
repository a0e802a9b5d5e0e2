//! Zeharmeku from Rust: every operation of include/zeharmeku.h over slices, safe to call. What each answers, its refusals and what stays
//! untouched is said there; docs/LINKING.md says how to link it.
//!
//! Edition 2021, from Rust 1.63 on, with no other crate. Copy this file beside your own and write `mod zeharmeku;`. In edition 2024 the block
//! `extern "C"` below must begin with `unsafe`, which Rust 1.63 does not know.
//!
//! Why it is safe: a slice's pointer is aligned and never null, a slice that is borrowed as mutable overlaps no other, and nobody else writes
//! to a slice during the call. Each slice crosses as its pointer and its own length.

#![allow(dead_code)]

use std::cmp::Ordering;
use std::error::Error;
use std::fmt;

/// The version of the header that this module was written for.
pub const VERSION: &str = "0.1.0";

/// The most bytes of a source or a charmap.
pub const SOURCE_MOST: usize = 1_048_576;
/// The most characters of a string, and bytes to decode.
pub const STRING_MOST: usize = 4_096;
/// The most headings of a page, and topics.
pub const PAGE_MOST: usize = 1_000;
/// The numbers of a charmap area.
pub const CHARMAP_AREA: usize = 512;
/// A key area that is enough for every string, in bytes.
pub const KEY_MOST: usize = key_area(STRING_MOST);

/// The work area for a source of so many bytes: with less, `compile` refuses.
pub const fn work_area(bytes: usize) -> usize {
    bytes + 64
}

/// A table area that is enough for every source of so many bytes.
pub const fn table_area(bytes: usize) -> usize {
    6 * bytes + 64
}

/// A key area that is enough for every string of so many characters, in bytes.
pub const fn key_area(characters: usize) -> usize {
    259 * characters + 16
}

mod archive {
    #[link(name = "zeharmeku", kind = "static")]
    extern "C" {
        pub fn zeharmeku_compile(
            source: *const u8, source_count: usize,
            area: *mut u32, area_count: usize,
            work: *mut u32, work_count: usize,
            answer: *mut u64, answer_count: usize,
        );
        pub fn zeharmeku_check(
            table: *const u32, table_count: usize,
            answer: *mut u64, answer_count: usize,
        );
        pub fn zeharmeku_step(
            table: *const u32, table_count: usize,
            string: *const u32, string_count: usize,
            at: usize,
            answer: *mut u64, answer_count: usize,
        );
        pub fn zeharmeku_compare(
            table: *const u32, table_count: usize,
            a: *const u32, a_count: usize,
            b: *const u32, b_count: usize,
            answer: *mut u64, answer_count: usize,
        );
        pub fn zeharmeku_key(
            table: *const u32, table_count: usize,
            string: *const u32, string_count: usize,
            area: *mut u8, area_count: usize,
            answer: *mut u64, answer_count: usize,
        );
        pub fn zeharmeku_directory(
            table: *const u32, table_count: usize,
            run: *const u32, run_count: usize,
            headings: *const u64, headings_count: usize,
            topics: *const u64, topics_count: usize,
            list: *mut u32, list_count: usize,
        ) -> u32;
        pub fn zeharmeku_charmap(
            source: *const u8, source_count: usize,
            area: *mut u32, area_count: usize,
            answer: *mut u64, answer_count: usize,
        );
        pub fn zeharmeku_area(charmap: *const u32, charmap_count: usize) -> u32;
        pub fn zeharmeku_decode(
            charmap: *const u32, charmap_count: usize,
            bytes: *const u8, bytes_count: usize,
            area: *mut u32, area_count: usize,
            answer: *mut u64, answer_count: usize,
        );
        pub fn zeharmeku_encode(
            charmap: *const u32, charmap_count: usize,
            string: *const u32, string_count: usize,
            area: *mut u8, area_count: usize,
            answer: *mut u64, answer_count: usize,
        );
    }
}

// ---- Refusals ----

/// Why an operation gives no answer. docs/REFUSALS.md explains each.
#[derive(Clone, Copy, Debug, PartialEq, Eq, Hash)]
pub enum Refusal {
    TooLong = 1,
    BadByte = 2,
    Malformed = 3,
    BadRule = 4,
    Twice = 5,
    Unknown = 6,
    TooMany = 7,
    Unranked = 8,
    ShortArea = 9,
    ByteTwice = 10,
    NotAccepted = 11,
    BadString = 12,
    NoRoom = 13,
    NotMapped = 14,
    NotRising = 15,
    NotPlain = 16,
    BadPart = 17,
}

/// All refusals, in the order of their numbers.
pub const REFUSALS: [Refusal; 17] = [
    Refusal::TooLong,
    Refusal::BadByte,
    Refusal::Malformed,
    Refusal::BadRule,
    Refusal::Twice,
    Refusal::Unknown,
    Refusal::TooMany,
    Refusal::Unranked,
    Refusal::ShortArea,
    Refusal::ByteTwice,
    Refusal::NotAccepted,
    Refusal::BadString,
    Refusal::NoRoom,
    Refusal::NotMapped,
    Refusal::NotRising,
    Refusal::NotPlain,
    Refusal::BadPart,
];

impl Refusal {
    /// Its number, 1 to 17.
    pub fn number(self) -> u32 {
        self as u32
    }

    /// What it means, in English: the text of the header.
    pub fn text(self) -> &'static str {
        match self {
            Refusal::TooLong => "a source or charmap over 1,048,576 bytes, or a work area that is too short",
            Refusal::BadByte => "a byte outside 20 to 7E hex, tab and LF, outside comments and passed-over lines",
            Refusal::Malformed => "a malformed or misplaced line, a missing end or category, or an open conditional",
            Refusal::BadRule => "a rule unknown (a section name too), empty, repeated, or of both directions",
            Refusal::Twice => {
                "a name declared twice or shaped as a character, two order lines for one item or symbol, two elements with the same characters, \
                 or a block that moves its own named line"
            }
            Refusal::Unknown => {
                "an undeclared name, a name or code that is no character where one must stand, or no line after which a block could stand"
            }
            Refusal::TooMany => {
                "too many levels, weights, operands, names, nested conditionals, toggles or lines, an element or a name of the wrong length, \
                 a charmap's byte past FF or a range backwards"
            }
            Refusal::Unranked => "a weight whose name has no order line",
            Refusal::ShortArea => "a table area that is too short, or a charmap area of less than 512 numbers",
            Refusal::ByteTwice => "a charmap's byte given twice",
            Refusal::NotAccepted => "a table or a charmap area that is not accepted",
            Refusal::BadString => "a string, or bytes to decode, over 4,096, or a number in a string that is no character",
            Refusal::NoRoom => "a key or text longer than the area lent, or a list too short for the topics",
            Refusal::NotMapped => "a character or a byte that the charmap does not have",
            Refusal::NotRising => "a heading without a weight at level 1, or headings that do not rise there",
            Refusal::NotPlain => "for a directory, a level 1 with a rule other than plain forward",
            Refusal::BadPart => "over 1,000 headings or topics, or one that reaches outside the run",
        }
    }
}

impl fmt::Display for Refusal {
    fn fmt(&self, f: &mut fmt::Formatter<'_>) -> fmt::Result {
        write!(f, "refusal {}: {}", self.number(), self.text())
    }
}

impl Error for Refusal {}

/// The refusal of a source or a charmap, with its line.
#[derive(Clone, Copy, Debug, PartialEq, Eq, Hash)]
pub struct AtLine {
    pub refusal: Refusal,
    /// From 1; 0 where no line is at fault.
    pub line: usize,
}

impl fmt::Display for AtLine {
    fn fmt(&self, f: &mut fmt::Formatter<'_>) -> fmt::Result {
        write!(f, "line {}: {}", self.line, self.refusal)
    }
}

impl Error for AtLine {}

/// The refusal with a number; 0 is none. An archive of this version has no other numbers.
fn granted(number: u64) -> Result<(), Refusal> {
    if number == 0 {
        return Ok(());
    }
    match REFUSALS.iter().find(|refusal| u64::from(refusal.number()) == number) {
        Some(refusal) => Err(*refusal),
        None => panic!("zeharmeku: refusal {} is not of version {}", number, VERSION),
    }
}

/// The same of a source, whose refusal has a line.
fn granted_at(number: u64, line: u64) -> Result<(), AtLine> {
    granted(number).map_err(|refusal| AtLine { refusal, line: line as usize })
}

// ---- Locale sources and tables ----

/// The LC_COLLATE of a locale source to its table: the front of the area. `table_area` and `work_area` say how much to lend.
pub fn compile<'a>(source: &[u8], area: &'a mut [u32], work: &mut [u32]) -> Result<&'a [u32], AtLine> {
    let mut told = [0; 3];
    unsafe {
        archive::zeharmeku_compile(
            source.as_ptr(), source.len(),
            area.as_mut_ptr(), area.len(),
            work.as_mut_ptr(), work.len(),
            told.as_mut_ptr(), told.len(),
        );
    }
    granted_at(told[0], told[1])?;
    Ok(&area[..told[2] as usize])
}

/// What an accepted table holds.
#[derive(Clone, Copy, Debug, PartialEq, Eq)]
pub struct Checked {
    pub levels: usize,
    pub items: usize,
    /// How many numbers the table takes.
    pub size: usize,
}

/// Whether an area begins with an accepted table.
pub fn check(table: &[u32]) -> Result<Checked, Refusal> {
    let mut told = [0; 4];
    unsafe {
        archive::zeharmeku_check(table.as_ptr(), table.len(), told.as_mut_ptr(), told.len());
    }
    granted(told[0])?;
    Ok(Checked { levels: told[1] as usize, items: told[2] as usize, size: told[3] as usize })
}

// ---- Strings: each character one number ----

/// A collating element of a string.
#[derive(Clone, Copy, Debug, PartialEq, Eq)]
pub struct Element {
    /// The place of its item in the table, from 1.
    pub place: usize,
    /// How many characters it takes.
    pub length: usize,
}

/// The element that begins at a place of a string, from 0; none at or past the end.
pub fn step(table: &[u32], string: &[u32], at: usize) -> Result<Option<Element>, Refusal> {
    let mut told = [0; 3];
    unsafe {
        archive::zeharmeku_step(
            table.as_ptr(), table.len(),
            string.as_ptr(), string.len(),
            at,
            told.as_mut_ptr(), told.len(),
        );
    }
    granted(told[0])?;
    if told[1] == 0 {
        return Ok(None);
    }
    Ok(Some(Element { place: told[1] as usize, length: told[2] as usize }))
}

/// How the first of two strings stands to the second.
#[derive(Clone, Copy, Debug, PartialEq, Eq)]
pub struct Compared {
    pub sign: Ordering,
    /// The level that decides, from 1; one more than the table has for the code points; 0 where they are equal.
    pub level: usize,
    /// How many entries agreed.
    pub agreed: usize,
}

/// Compares two strings. Every call checks the whole table: to sort many strings, make the `key` of each once.
pub fn compare(table: &[u32], a: &[u32], b: &[u32]) -> Result<Compared, Refusal> {
    let mut told = [0; 4];
    unsafe {
        archive::zeharmeku_compare(
            table.as_ptr(), table.len(),
            a.as_ptr(), a.len(),
            b.as_ptr(), b.len(),
            told.as_mut_ptr(), told.len(),
        );
    }
    granted(told[0])?;
    let sign = (told[1] as i64).cmp(&0);
    Ok(Compared { sign, level: told[2] as usize, agreed: told[3] as usize })
}

/// The key of a string: the front of the area. Keys by one table stand in the order of their bytes, as Rust compares slices. `key_area` says
/// how much to lend.
pub fn key<'a>(table: &[u32], string: &[u32], area: &'a mut [u8]) -> Result<&'a [u8], Refusal> {
    let mut told = [0; 2];
    unsafe {
        archive::zeharmeku_key(
            table.as_ptr(), table.len(),
            string.as_ptr(), string.len(),
            area.as_mut_ptr(), area.len(),
            told.as_mut_ptr(), told.len(),
        );
    }
    granted(told[0])?;
    Ok(&area[..told[1] as usize])
}

// ---- Pages ----

/// A heading or a topic: where it stands in the run, from 0.
#[repr(C)]
#[derive(Clone, Copy, Debug, PartialEq, Eq)]
pub struct Part {
    pub start: u64,
    pub length: u64,
}

/// The heading of each topic, from 1, 0 for the top of the page: the front of the list.
pub fn directory<'a>(
    table: &[u32],
    run: &[u32],
    headings: &[Part],
    topics: &[Part],
    list: &'a mut [u32],
) -> Result<&'a [u32], Refusal> {
    // A part is two numbers, one behind the other.
    let refusal = unsafe {
        archive::zeharmeku_directory(
            table.as_ptr(), table.len(),
            run.as_ptr(), run.len(),
            headings.as_ptr().cast(), 2 * headings.len(),
            topics.as_ptr().cast(), 2 * topics.len(),
            list.as_mut_ptr(), list.len(),
        )
    };
    granted(u64::from(refusal))?;
    Ok(&list[..topics.len()])
}

// ---- Charmaps ----

/// A charmap's source to a charmap area: the first 512 numbers of the area.
pub fn charmap<'a>(source: &[u8], area: &'a mut [u32]) -> Result<&'a [u32], AtLine> {
    let mut told = [0; 2];
    unsafe {
        archive::zeharmeku_charmap(
            source.as_ptr(), source.len(),
            area.as_mut_ptr(), area.len(),
            told.as_mut_ptr(), told.len(),
        );
    }
    granted_at(told[0], told[1])?;
    Ok(&area[..CHARMAP_AREA])
}

/// Whether an area begins with an accepted charmap.
pub fn area(charmap: &[u32]) -> Result<(), Refusal> {
    let refusal = unsafe { archive::zeharmeku_area(charmap.as_ptr(), charmap.len()) };
    granted(u64::from(refusal))
}

/// The characters of bytes: the front of the area, one number for each byte.
pub fn decode<'a>(charmap: &[u32], bytes: &[u8], area: &'a mut [u32]) -> Result<&'a [u32], Refusal> {
    let mut told = [0; 2];
    unsafe {
        archive::zeharmeku_decode(
            charmap.as_ptr(), charmap.len(),
            bytes.as_ptr(), bytes.len(),
            area.as_mut_ptr(), area.len(),
            told.as_mut_ptr(), told.len(),
        );
    }
    granted(told[0])?;
    Ok(&area[..told[1] as usize])
}

/// The bytes of a string: the front of the area, one byte for each character.
pub fn encode<'a>(charmap: &[u32], string: &[u32], area: &'a mut [u8]) -> Result<&'a [u8], Refusal> {
    let mut told = [0; 2];
    unsafe {
        archive::zeharmeku_encode(
            charmap.as_ptr(), charmap.len(),
            string.as_ptr(), string.len(),
            area.as_mut_ptr(), area.len(),
            told.as_mut_ptr(), told.len(),
        );
    }
    granted(told[0])?;
    Ok(&area[..told[1] as usize])
}
