// Tables: their meaning, and which are accepted (01, "The table").

use crate::layout::{load, store};
use crate::names::is_character;
use std::collections::BTreeSet;

/// One of the four rules of a level.
#[derive(Clone, Copy, PartialEq)]
pub struct Rule {
    pub backward: bool,
    pub position: bool,
}

/// The characters of the item UNDEFINED: none.
pub const UNDEFINED: &[u32] = &[];

#[derive(Clone)]
pub struct Item {
    pub characters: Vec<u32>,
    /// The weights of each level.
    pub weights: Vec<Vec<u32>>,
}

#[derive(Clone)]
pub struct Meaning {
    pub rules: Vec<Rule>,
    pub items: Vec<Item>,
}

/// The meaning of an accepted table; 11 for others. "Numbers after it are not read."
pub fn accept(numbers: &[u32]) -> Result<Meaning, u32> {
    let meaning = load(numbers).ok_or(11u32)?;
    if !is_good(&meaning) {
        return Err(11);
    }
    // "one stored form for each meaning, spare numbers zero".
    if numbers.starts_with(&store(&meaning)) {
        Ok(meaning)
    } else {
        Err(11)
    }
}

/// What 01 demands of a meaning.
fn is_good(meaning: &Meaning) -> bool {
    let levels = meaning.rules.len();
    let mut seen: BTreeSet<&[u32]> = BTreeSet::new();
    for item in &meaning.items {
        let one_kind = item.characters.len() <= 4;
        let characters = item.characters.iter().all(|&code| is_character(code));
        let weights = item.weights.len() == levels && item.weights.iter().all(are_good_weights);
        if !one_kind || !characters || !weights {
            return false;
        }
        // "no two items alike", so UNDEFINED stands at most once.
        if !seen.insert(&item.characters) {
            return false;
        }
    }
    (1..=8).contains(&levels) && meaning.items.len() <= 32_768 && seen.contains(UNDEFINED)
}

/// "each weight from 1 to 32,768, at most 8 weights per item and level".
fn are_good_weights(weights: &Vec<u32>) -> bool {
    weights.len() <= 8 && weights.iter().all(|weight| (1..=32_768).contains(weight))
}
