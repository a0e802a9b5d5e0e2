// Order: splitting a string, comparing two, and keys (01, "Order of two strings").

use crate::names::is_character;
use crate::table::{accept, Item, Meaning, Rule, UNDEFINED};
use std::cmp::Ordering;

const LONGEST_STRING: usize = 4_096;

/// "12: string, or bytes to decode, over 4,096; a number in a string that is no character."
pub fn judge_string(string: &[u32]) -> Result<(), u32> {
    if string.len() > LONGEST_STRING || !string.iter().all(|&code| is_character(code)) {
        return Err(12);
    }
    Ok(())
}

/// The step: the item's place in the table, from 1, and its length; "both 0 at or past the end".
pub fn step(table: &[u32], string: &[u32], at: u64) -> Result<(usize, usize), u32> {
    let meaning = accept(table)?;
    judge_string(string)?;
    if at >= string.len() as u64 {
        return Ok((0, 0));
    }
    let (place, length) = element_at(&meaning, string, at as usize);
    Ok((place + 1, length))
}

/// The item that stands at a place of the string, as an index from 0, and how many characters
/// it takes: "the longest matching listed item is taken; else one character, as UNDEFINED".
fn element_at(meaning: &Meaning, string: &[u32], at: usize) -> (usize, usize) {
    let mut best: Option<(usize, usize)> = None;
    for (place, item) in meaning.items.iter().enumerate() {
        let length = item.characters.len();
        let longer = best.map_or(length > 0, |(_, so_far)| length > so_far);
        if longer && string[at..].starts_with(&item.characters) {
            best = Some((place, length));
        }
    }
    best.unwrap_or_else(|| (undefined_place(meaning), 1))
}

fn undefined_place(meaning: &Meaning) -> usize {
    let place = meaning
        .items
        .iter()
        .position(|item| item.characters == UNDEFINED);
    place.expect("an accepted table has UNDEFINED")
}

/// The items of a string, cut from left to right.
fn elements<'a>(meaning: &'a Meaning, string: &[u32]) -> Vec<&'a Item> {
    let mut list = Vec::new();
    let mut at = 0;
    while at < string.len() {
        let (place, length) = element_at(meaning, string, at);
        list.push(&meaning.items[place]);
        at += length;
    }
    list
}

/// An entry of a level: a count, which is 0 without position, and a weight. Pairs are ordered
/// "by [their] count first".
type Entry = (u32, u32);

/// The entries of a string at a level.
fn entries(elements: &[&Item], level: usize, rule: Rule) -> Vec<Entry> {
    let mut walked: Vec<&Item> = elements.to_vec();
    if rule.backward {
        walked.reverse();
    }
    let mut list = Vec::new();
    let mut without_weight = 0;
    for item in walked {
        let weights = &item.weights[level];
        if weights.is_empty() {
            without_weight += 1;
        }
        for weight in weights {
            list.push((if rule.position { without_weight } else { 0 }, *weight));
            without_weight = 0;
        }
    }
    list
}

/// The first weight of a string at level 1, walked forward: elements without one there are passed,
/// of several weights of one element the first counts.
pub fn first_weight(meaning: &Meaning, string: &[u32]) -> Option<u32> {
    let mut at = 0;
    while at < string.len() {
        let (place, length) = element_at(meaning, string, at);
        if let Some(&weight) = meaning.items[place].weights[0].first() {
            return Some(weight);
        }
        at += length;
    }
    None
}

/// The entries of all levels, and the code points "the same way, as level L + 1".
fn all_levels(meaning: &Meaning, string: &[u32]) -> Vec<Vec<Entry>> {
    let elements = elements(meaning, string);
    let mut levels = Vec::new();
    for (level, &rule) in meaning.rules.iter().enumerate() {
        levels.push(entries(&elements, level, rule));
    }
    levels.push(string.iter().map(|&code| (0, code)).collect());
    levels
}

/// The sign, the deciding level (0 if equal) and the agreed entries.
pub fn compare(table: &[u32], one: &[u32], other: &[u32]) -> Result<(i32, usize, usize), u32> {
    let meaning = accept(table)?;
    judge_string(one)?;
    judge_string(other)?;
    let mut agreed = 0;
    let levels = all_levels(&meaning, one)
        .into_iter()
        .zip(all_levels(&meaning, other));
    for (level, (ours, theirs)) in levels.enumerate() {
        agreed += ours.iter().zip(&theirs).take_while(|(a, b)| a == b).count();
        // Lists are ordered by their first difference, "or the list that ends first".
        match ours.cmp(&theirs) {
            Ordering::Less => return Ok((-1, level + 1, agreed)),
            Ordering::Greater => return Ok((1, level + 1, agreed)),
            Ordering::Equal => {}
        }
    }
    Ok((0, 0, agreed))
}

/// The key of a string, where it is not longer than the room lent.
pub fn key(table: &[u32], string: &[u32], room: u64) -> Result<Vec<u8>, u32> {
    let meaning = accept(table)?;
    judge_string(string)?;
    let elements = elements(&meaning, string);
    let mut bytes = Vec::new();
    for (level, &rule) in meaning.rules.iter().enumerate() {
        for (count, weight) in entries(&elements, level, rule) {
            if rule.position {
                put_two(&mut bytes, count + 1);
            }
            put_two(&mut bytes, weight);
        }
        put_two(&mut bytes, 0);
    }
    for code in string {
        bytes.extend(&code.to_be_bytes()[1..]);
    }
    if bytes.len() as u64 > room {
        return Err(13);
    }
    Ok(bytes)
}

/// "two bytes, high first".
fn put_two(bytes: &mut Vec<u8>, number: u32) {
    bytes.extend(&number.to_be_bytes()[2..]);
}
