// Layout: how a table's numbers store its meaning, as docs/TABLE.md says. 01 gives only their
// count, 16 + L + I x (6 + L) + W; no other file of the reference knows their places.

use crate::table::{Item, Meaning, Rule};

/// The header: L, I, W, the mask of the buckets, and spare numbers.
pub const HEAD: usize = 16;
pub const MASK: usize = 3;

/// What fills up the four characters of an item: no character, and above all of them.
pub const PADDING: u32 = 0x110000;

/// Where the parts behind the header begin.
pub struct Parts {
    pub ends: usize,
    pub characters: usize,
    pub listing: usize,
    pub starts: usize,
    pub rules: usize,
    pub weights: usize,
}

/// The parts of a table of so many levels and items.
pub fn parts(levels: usize, items: usize) -> Parts {
    let ends = HEAD;
    let characters = ends + items * levels;
    let listing = characters + 4 * items;
    let starts = listing + items;
    let rules = starts + items;
    let weights = rules + levels;
    Parts {
        ends,
        characters,
        listing,
        starts,
        rules,
        weights,
    }
}

/// The numbers that store a meaning.
pub fn store(meaning: &Meaning) -> Vec<u32> {
    let parts = parts(meaning.rules.len(), meaning.items.len());
    let (ends, weights) = (ends(meaning), weights(meaning));
    let characters: Vec<u32> = meaning.items.iter().flat_map(padded).collect();
    let rules: Vec<u32> = meaning.rules.iter().map(rule_number).collect();
    let mut numbers = vec![0; parts.weights];
    numbers[0] = meaning.rules.len() as u32;
    numbers[1] = meaning.items.len() as u32;
    numbers[2] = weights.len() as u32;
    numbers[MASK] = mask(meaning.items.len());
    numbers[parts.ends..parts.characters].copy_from_slice(&ends);
    numbers[parts.characters..parts.listing].copy_from_slice(&characters);
    numbers[parts.listing..parts.starts].copy_from_slice(&listing(meaning));
    numbers[parts.starts..parts.rules].copy_from_slice(&starts(meaning));
    numbers[parts.rules..].copy_from_slice(&rules);
    numbers.extend(weights);
    numbers
}

/// For each item and level how many weights stand up to its last.
fn ends(meaning: &Meaning) -> Vec<u32> {
    let mut end = 0;
    let mut numbers = Vec::new();
    for list in meaning.items.iter().flat_map(|item| &item.weights) {
        end += list.len() as u32;
        numbers.push(end);
    }
    numbers
}

/// The weights of all items, level by level.
fn weights(meaning: &Meaning) -> Vec<u32> {
    let lists = meaning.items.iter().flat_map(|item| &item.weights);
    lists.flatten().copied().collect()
}

/// One less than the number of buckets that characters have: the least power of two that is not
/// below the number of items.
fn mask(items: usize) -> u32 {
    items.next_power_of_two() as u32 - 1
}

/// An item's bucket: the low bits of its first character; UNDEFINED has the last of all.
fn bucket(item: &Item, items: usize) -> u32 {
    match item.characters.first() {
        Some(first) => first & mask(items),
        None => (2 * items - 1) as u32,
    }
}

/// The places of the items, from 1, by their buckets, and within a bucket by their four numbers.
fn listing(meaning: &Meaning) -> Vec<u32> {
    let items = meaning.items.len();
    let mut places: Vec<u32> = (1..=items as u32).collect();
    places.sort_by_key(|&place| {
        let item = &meaning.items[place as usize - 1];
        (bucket(item, items), padded(item))
    });
    places
}

/// For each bucket how many items have a smaller one, two buckets in each number: the even one in
/// the low 16 bits, the odd one above them.
fn starts(meaning: &Meaning) -> Vec<u32> {
    let items = meaning.items.len();
    let mut counts = vec![0; 2 * items];
    for item in &meaning.items {
        counts[bucket(item, items) as usize] += 1;
    }
    let mut below = 0;
    let mut numbers = Vec::new();
    for pair in counts.chunks(2) {
        numbers.push(below + ((below + pair[0]) << 16));
        below += pair[0] + pair[1];
    }
    numbers
}

/// An item's characters, filled up to four numbers.
fn padded(item: &Item) -> [u32; 4] {
    let mut four = [PADDING; 4];
    four[..item.characters.len()].copy_from_slice(&item.characters);
    four
}

/// The meaning that some numbers could store, `None` where they are too few or out of range.
/// Only the numbers that carry it are read; `accept` sees that the others are as stored.
pub fn load(numbers: &[u32]) -> Option<Meaning> {
    if numbers.len() < HEAD {
        return None;
    }
    let (levels, items) = (numbers[0] as usize, numbers[1] as usize);
    if levels > 8 || items > 32_768 {
        return None;
    }
    let parts = parts(levels, items);
    let weights = numbers.get(parts.weights..)?;
    let rules = numbers[parts.rules..parts.weights].iter().map(rule);
    let mut lists = Vec::new();
    let mut begin = 0;
    for &end in &numbers[parts.ends..parts.characters] {
        lists.push(weights.get(begin..end as usize)?.to_vec());
        begin = end as usize;
    }
    let mut lists = lists.into_iter();
    let four = numbers[parts.characters..parts.listing].chunks(4);
    Some(Meaning {
        rules: rules.collect::<Option<_>>()?,
        items: four
            .map(|four| Item {
                characters: unpadded(four),
                weights: lists.by_ref().take(levels).collect(),
            })
            .collect(),
    })
}

/// The characters before the first padding.
fn unpadded(four: &[u32]) -> Vec<u32> {
    let characters = four.iter().take_while(|&&number| number != PADDING);
    characters.copied().collect()
}

fn rule_number(rule: &Rule) -> u32 {
    u32::from(rule.backward) + 2 * u32::from(rule.position)
}

fn rule(number: &u32) -> Option<Rule> {
    if *number > 3 {
        return None;
    }
    Some(Rule {
        backward: number % 2 == 1,
        position: *number >= 2,
    })
}
