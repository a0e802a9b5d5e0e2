// Charmaps: reading one, checking an area, decoding and encoding (01, "Charmaps").

use crate::lines::{count_of_lfs, is_text, read_line, Looking, Mark, Signs, DEFAULT_SIGNS};
use crate::locale::MOST_BYTES;
use crate::names::{character, is_character, is_name};
use crate::order::judge_string;
use crate::refusals::{without_line, Grounds, Refused};
use crate::shapes::{entry, is_header, is_sign_name, opening_name, Entry};
use crate::signs::is_sign;
use crate::tokens::{is_word, operands, tokens, Token};

const AREA: usize = 512;
const NO_CODE: u32 = 0x110000;
const MOST_BYTES_TO_DECODE: usize = 4_096;

/// Reads a charmap, with an area of `area` numbers.
pub fn charmap(source: &[u8], area: usize) -> Result<Vec<u32>, Refused> {
    if source.len() > MOST_BYTES {
        return Err(without_line(1));
    }
    let mut reader = Reader::new();
    reader.read(source)?;
    if area < AREA {
        return Err(without_line(9));
    }
    Ok(reader.numbers)
}

#[derive(PartialEq)]
enum Place {
    Header,
    Body,
    /// "Text after the end is passed over."
    Ended,
}

struct Reader {
    signs: Signs,
    comment_char_stood: bool,
    escape_char_stood: bool,
    place: Place,
    /// The 512 numbers so far.
    numbers: Vec<u32>,
}

impl Reader {
    fn new() -> Reader {
        let mut numbers = vec![NO_CODE; 256];
        numbers.resize(AREA, 0);
        Reader {
            signs: DEFAULT_SIGNS,
            comment_char_stood: false,
            escape_char_stood: false,
            place: Place::Header,
            numbers,
        }
    }

    fn read(&mut self, source: &[u8]) -> Result<(), Refused> {
        let mut at = 0;
        let mut number = 1;
        while at < source.len() && self.place != Place::Ended {
            let looking = match self.place {
                Place::Header => Looking::ForSignHeaders,
                _ => Looking::ForEntries,
            };
            let line = read_line(source, at, self.signs, looking);
            let judged = match self.place {
                Place::Header => self.header_line(&line.marks),
                _ => self.body_line(&line.marks),
            };
            judged.map_err(|refusal| Refused {
                number: refusal,
                line: number,
            })?;
            number += count_of_lfs(&source[at..line.next]);
            at = line.next;
        }
        if self.place != Place::Ended {
            return Err(Refused {
                number: 3,
                line: count_of_lfs(source) + 1,
            });
        }
        Ok(())
    }

    /// A line before CHARMAP.
    fn header_line(&mut self, marks: &[Mark]) -> Result<(), u32> {
        let sign_name = opening_name(marks).filter(|name| is_sign_name(name));
        if is_header(marks) && sign_name.is_none() {
            return Ok(());
        }
        if !is_text(marks) {
            return Err(2);
        }
        let line = tokens(marks).ok_or(3u32)?;
        match sign_name {
            Some(name) => self.sign_line(&name, &operands(&line).ok_or(3u32)?),
            None if line.is_empty() => Ok(()),
            None if is_word(&line, b"CHARMAP") => {
                self.place = Place::Body;
                Ok(())
            }
            None => Err(3),
        }
    }

    /// `<comment_char> c` or `<escape_char> c`, each once.
    fn sign_line(&mut self, name: &[u8], operands: &[Token]) -> Result<(), u32> {
        let c = match operands {
            [Token::AsIs(c)] if is_sign(*c) => *c,
            _ => return Err(3),
        };
        let stood = if name == b"comment_char" {
            self.signs.comment = c;
            std::mem::replace(&mut self.comment_char_stood, true)
        } else {
            self.signs.escape = c;
            std::mem::replace(&mut self.escape_char_stood, true)
        };
        if stood || self.signs.comment == self.signs.escape {
            return Err(3);
        }
        Ok(())
    }

    /// A line between CHARMAP and END CHARMAP.
    fn body_line(&mut self, marks: &[Mark]) -> Result<(), u32> {
        if !is_text(marks) {
            return Err(2);
        }
        if let Some(entry) = entry(marks) {
            return self.entry_line(&entry);
        }
        let line = tokens(marks).ok_or(3u32)?;
        if line.is_empty() {
            return Ok(());
        }
        let is_end = line[0] == Token::Word(b"END".to_vec())
            && is_word(&operands(&line).ok_or(3u32)?, b"CHARMAP");
        if !is_end {
            return Err(3);
        }
        self.place = Place::Ended;
        Ok(())
    }

    /// A character, or a range of characters, with its byte or its first byte.
    fn entry_line(&mut self, entry: &Entry) -> Result<(), u32> {
        let last = entry.last.as_ref().unwrap_or(&entry.first);
        if !is_name(&entry.first) || !is_name(last) {
            return Err(3);
        }
        let first = character(&entry.first).ok_or(6u32)?;
        let last = character(last).ok_or(6u32)?;
        if last < first {
            return Err(7);
        }
        // Only 256 bytes can be given, but the codes are looked at to the last.
        if first < 0xD800 && last > 0xDFFF {
            return Err(6);
        }
        let mut grounds = Grounds::new();
        grounds.add_if(entry.byte + (last - first) > 0xFF, 7);
        for byte in entry.byte..=(entry.byte + (last - first)).min(0xFF) {
            grounds.add_if(self.numbers[byte as usize] != NO_CODE, 10);
        }
        grounds.judge()?;
        for code in first..=last {
            let byte = (entry.byte + (code - first)) as usize;
            // "the first encodes, all decode".
            let first_of_code = !self.numbers[..256].contains(&code);
            self.numbers[byte] = code;
            self.numbers[256 + byte] = u32::from(first_of_code);
        }
        Ok(())
    }
}

/// Whether an area given back is accepted: 11 where it is not.
pub fn area(numbers: &[u32]) -> Result<(), u32> {
    if numbers.len() < AREA {
        return Err(11);
    }
    let (codes, ones) = numbers[..AREA].split_at(256);
    for byte in 0..256 {
        let code = codes[byte];
        let good_code = code == NO_CODE || is_character(code);
        let good_one = ones[byte] == 0 || (ones[byte] == 1 && code != NO_CODE);
        if !good_code || !good_one {
            return Err(11);
        }
        let ones_of_code = (0..256)
            .filter(|&k| codes[k] == code && ones[k] == 1)
            .count();
        if code != NO_CODE && ones_of_code != 1 {
            return Err(11);
        }
    }
    Ok(())
}

/// The characters of some bytes, where they are not more than the room lent.
pub fn decode(numbers: &[u32], bytes: &[u8], room: u64) -> Result<Vec<u32>, u32> {
    area(numbers)?;
    if bytes.len() > MOST_BYTES_TO_DECODE {
        return Err(12);
    }
    let codes: Vec<u32> = bytes.iter().map(|&byte| numbers[byte as usize]).collect();
    if codes.contains(&NO_CODE) {
        return Err(14);
    }
    if codes.len() as u64 > room {
        return Err(13);
    }
    Ok(codes)
}

/// The bytes of a string, where they are not more than the room lent.
pub fn encode(numbers: &[u32], string: &[u32], room: u64) -> Result<Vec<u8>, u32> {
    area(numbers)?;
    judge_string(string)?;
    let mut bytes = Vec::new();
    for code in string {
        let encodes = |byte: &usize| numbers[*byte] == *code && numbers[256 + *byte] == 1;
        let byte = (0..256).find(encodes).ok_or(14u32)?;
        bytes.push(byte as u8);
    }
    if bytes.len() as u64 > room {
        return Err(13);
    }
    Ok(bytes)
}
