// Crowded sources: hundreds of names and characters, in which each must be found again.

use crate::random::Random;
use crate::text::{blanks, joined};

/// How many names or characters a source has of each kind, at most.
const MOST: usize = 300;

/// The letters that elements are made of.
const LETTERS: &[u32] = &[0x61, 0x62, 0x63, 0x64, 0x65, 0x66, 0x67, 0x68];

/// A source with many declarations and order lines, and in half of all cases blocks behind them.
/// In half of all cases it has a fault: a name twice, two elements alike, a name that nothing
/// declares, two order lines for one, one line twice in a block.
pub fn crowded_source(random: &mut Random) -> Vec<u8> {
    let mut symbols = names(random);
    let mut elements = names(random);
    elements.retain(|name| !symbols.contains(name));
    let mut characters = elements_of(elements.len(), random);
    elements.truncate(characters.len());
    match random.below(12) {
        0 => repeat_one(&mut symbols, random),
        1 => repeat_one(&mut characters, random),
        _ => {}
    }
    let mut subjects: Vec<String> = Vec::new();
    let mut lines = vec!["LC_COLLATE".to_string()];
    for name in &symbols {
        lines.push(format!("collating-symbol {}", name));
    }
    for (name, characters) in elements.iter().zip(&characters) {
        lines.push(format!(
            "collating-element {} from \"{}\"",
            name, characters
        ));
        subjects.push(name.clone());
    }
    shuffle(&mut lines[1..], random);
    let levels = random.within(1, 3);
    lines.push(format!("order_start {}", vec!["forward"; levels].join(";")));
    subjects.extend(codes(random));
    let mut named = [&symbols[..], &subjects[..]].concat();
    let all = named.clone();
    let mut order: Vec<String> = symbols.clone();
    for subject in subjects {
        order.push(subject + &weights(levels, &named, random));
    }
    shuffle(&mut order, random);
    match random.below(12) {
        0 => repeat_one(&mut order, random),
        // A weight may then name a line that does not stand.
        1 => drop(order.pop()),
        2 => {
            named = vec!["<undeclared>".to_string()];
            let more = format!("<U00E9>{}", weights(levels, &named, random));
            order.insert(random.below(order.len() + 1), more);
        }
        _ => {}
    }
    lines.extend(order);
    lines.push("order_end".to_string());
    for _ in 0..random.below(8).saturating_sub(3) {
        lines.extend(block(&all, &symbols, levels, random));
    }
    lines.push("END LC_COLLATE".to_string());
    let lines: Vec<Vec<u8>> = lines.into_iter().map(String::into_bytes).collect();
    joined(&lines, random)
}

/// A block of many lines, after one of these and with others of them.
fn block(all: &[String], symbols: &[String], levels: usize, random: &mut Random) -> Vec<String> {
    let mut written = all.to_vec();
    shuffle(&mut written, random);
    let Some(named) = written.pop() else {
        return Vec::new();
    };
    written.truncate(random.below(MOST));
    match random.below(30) {
        0 => repeat_one(&mut written, random),
        1 => written.push(named.clone()),
        2 => written.push("<undeclared>".to_string()),
        _ => {}
    }
    let mut lines = vec![format!("reorder-after {}", named)];
    for subject in written {
        let alone = symbols.contains(&subject);
        lines.push(if alone {
            subject
        } else {
            subject + &weights(levels, all, random)
        });
    }
    lines.push("reorder-end".to_string());
    lines
}

/// Different names, short and long, many of which differ in one byte.
fn names(random: &mut Random) -> Vec<String> {
    let begin = "x".repeat(random.below(29));
    let start = random.below(100);
    (0..random.below(MOST))
        .map(|k| format!("<{}{}>", begin, start + k))
        .collect()
}

/// The characters of at most so many elements, no two alike.
fn elements_of(count: usize, random: &mut Random) -> Vec<String> {
    let mut list: Vec<String> = Vec::new();
    for _ in 0..count {
        let text: String = (0..random.within(2, 4))
            .map(|_| format!("<U{:04X}>", random.pick(LETTERS)))
            .collect();
        if !list.contains(&text) {
            list.push(text);
        }
    }
    list
}

/// Different characters, next to each other or at equal distances.
fn codes(random: &mut Random) -> Vec<String> {
    let (start, distance) = (
        0x100 * random.within(1, 20),
        random.pick(&[1, 2, 8, 64, 256]),
    );
    (0..random.below(MOST))
        .map(|k| start + k * distance)
        .filter(|code| !(0xD800..=0xDFFF).contains(code))
        .map(|code| format!("<U{:08X}>", code))
        .collect()
}

fn weights(levels: usize, named: &[String], random: &mut Random) -> String {
    let mut text = String::new();
    for operand in 0..random.below(levels + 1) {
        text += if operand == 0 {
            std::str::from_utf8(blanks(random)).expect("blanks are text")
        } else {
            ";"
        };
        text += &match random.below(6) {
            0 => "IGNORE".to_string(),
            1 | 2 => {
                let names: Vec<String> = (0..random.within(1, 8))
                    .map(|_| random.pick(named))
                    .collect();
                format!("\"{}\"", names.concat())
            }
            _ => random.pick(named),
        };
    }
    text
}

fn repeat_one(list: &mut Vec<String>, random: &mut Random) {
    if !list.is_empty() {
        let again = random.pick(list);
        list.insert(random.below(list.len() + 1), again);
    }
}

fn shuffle(list: &mut [String], random: &mut Random) {
    for at in 1..list.len() {
        list.swap(at, random.below(at + 1));
    }
}
