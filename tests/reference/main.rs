// The reference: an independent implementation of documents 01 and 02, which answers requests
// on standard input, one a line. README.md describes the requests and says what to read first.

mod charmap;
mod conditionals;
mod directory;
mod layout;
mod lines;
mod locale;
mod names;
mod order;
mod refusals;
mod shapes;
mod signs;
mod standing;
mod table;
mod tokens;

use refusals::Refused;
use std::fmt::Display;
use std::io::{BufRead, Write};

fn main() {
    let mut output = std::io::stdout().lock();
    for line in std::io::stdin().lock().lines() {
        let line = line.expect("requests are text");
        let answer = answer(&line).unwrap_or_else(|| "bad request".to_string());
        writeln!(output, "{}", answer).expect("standard output is open");
        output.flush().expect("standard output is open");
    }
}

/// The words of a request that are not read yet.
struct Words<'a>(std::str::SplitAsciiWhitespace<'a>);

impl Words<'_> {
    fn number(&mut self) -> Option<u64> {
        self.0.next()?.parse().ok()
    }

    /// An array: its length and then its numbers.
    fn numbers(&mut self) -> Option<Vec<u32>> {
        let length = self.number()?;
        (0..length).map(|_| self.0.next()?.parse().ok()).collect()
    }

    /// An array of numbers of 64 bits.
    fn places(&mut self) -> Option<Vec<u64>> {
        let length = self.number()?;
        (0..length).map(|_| self.number()).collect()
    }

    fn bytes(&mut self) -> Option<Vec<u8>> {
        let length = self.number()?;
        (0..length).map(|_| self.0.next()?.parse().ok()).collect()
    }
}

/// The answer to a request, `None` where it is none.
fn answer(request: &str) -> Option<String> {
    let mut words = Words(request.split_ascii_whitespace());
    let operation = words.0.next()?;
    let answer = match operation {
        "check" => {
            let table = words.numbers()?;
            match table::accept(&table) {
                Ok(meaning) => {
                    let size = layout::store(&meaning).len();
                    format!("0 {} {} {}", meaning.rules.len(), meaning.items.len(), size)
                }
                Err(refusal) => format!("{} 0 0 0", refusal),
            }
        }
        "step" => {
            let (table, string, at) = (words.numbers()?, words.numbers()?, words.number()?);
            match order::step(&table, &string, at) {
                Ok((place, length)) => format!("0 {} {}", place, length),
                Err(refusal) => format!("{} 0 0", refusal),
            }
        }
        "compare" => {
            let (table, one, other) = (words.numbers()?, words.numbers()?, words.numbers()?);
            match order::compare(&table, &one, &other) {
                Ok((sign, level, agreed)) => format!("0 {} {} {}", sign, level, agreed),
                Err(refusal) => format!("{} 0 0 0", refusal),
            }
        }
        "key" => {
            let (table, string, room) = (words.numbers()?, words.numbers()?, words.number()?);
            result(order::key(&table, &string, room))
        }
        "compile" => {
            let (source, area, work) = (words.bytes()?, words.number()?, words.number()?);
            result_with_line(locale::compile(&source, area as usize, work as usize))
        }
        "charmap" => {
            let (source, area) = (words.bytes()?, words.number()?);
            result_with_line(charmap::charmap(&source, area as usize))
        }
        "area" => verdict(charmap::area(&words.numbers()?)),
        "decode" => {
            let (area, bytes, room) = (words.numbers()?, words.bytes()?, words.number()?);
            result(charmap::decode(&area, &bytes, room))
        }
        "encode" => {
            let (area, string, room) = (words.numbers()?, words.numbers()?, words.number()?);
            result(charmap::encode(&area, &string, room))
        }
        "directory" => {
            let (table, run) = (words.numbers()?, words.numbers()?);
            let (headings, topics) = (words.places()?, words.places()?);
            let room = words.number()?;
            result(directory::directory(&table, &run, &headings, &topics, room))
        }
        _ => return None,
    };
    if words.0.next().is_some() {
        return None;
    }
    Some(answer)
}

fn verdict(judged: Result<(), u32>) -> String {
    match judged {
        Ok(()) => "0".to_string(),
        Err(refusal) => refusal.to_string(),
    }
}

fn result<N: Display>(answer: Result<Vec<N>, u32>) -> String {
    match answer {
        Ok(numbers) => format!("0 {}", array(&numbers)),
        Err(refusal) => format!("{} 0", refusal),
    }
}

fn result_with_line(answer: Result<Vec<u32>, Refused>) -> String {
    match answer {
        Ok(numbers) => format!("0 0 {}", array(&numbers)),
        Err(refused) => format!("{} {} 0", refused.number, refused.line),
    }
}

fn array<N: Display>(numbers: &[N]) -> String {
    let mut words = vec![numbers.len().to_string()];
    words.extend(numbers.iter().map(|number| number.to_string()));
    words.join(" ")
}
