// Tables made from random meanings, good and bad. They hold what no source can give: weights
// above every rank, and meanings that the check must refuse.

use crate::layout::{parts, store, HEAD, MASK, PADDING};
use crate::names::is_character;
use crate::random::Random;
use crate::sources::{CHARACTERS, ELEMENTS};
use crate::table::{Item, Meaning, Rule, UNDEFINED};

/// A table, with a fault in its meaning or in its stored form if wanted.
pub fn made_table(fault: bool, random: &mut Random) -> Vec<u32> {
    let levels = if random.chance(80) {
        random.within(1, 3)
    } else {
        random.within(4, 8)
    };
    let mut meaning = Meaning {
        rules: Vec::new(),
        items: Vec::new(),
    };
    for _ in 0..levels {
        let rule = Rule {
            backward: random.chance(40),
            position: random.chance(40),
        };
        meaning.rules.push(rule);
    }
    let mut pool: Vec<Vec<u32>> = ELEMENTS
        .iter()
        .map(|characters| characters.to_vec())
        .collect();
    pool.extend(CHARACTERS.iter().map(|&code| vec![code]));
    let mut most = 10;
    if random.chance(15) {
        pool.extend(words());
        most = pool.len();
    } else if random.chance(20) {
        pool.extend(apart(random.pick(STRIDES)).map(|code| vec![code]));
        most = pool.len();
    }
    for _ in 0..random.below(most) {
        let characters = pool.remove(random.below(pool.len()));
        let item = item(characters, levels, random);
        meaning.items.push(item);
    }
    let undefined = item(UNDEFINED.to_vec(), levels, random);
    let at = random.below(meaning.items.len() + 1);
    meaning.items.insert(at, undefined);
    if fault && random.chance(50) {
        spoil(&mut meaning, random);
        return store(&meaning);
    }
    let mut table = store(&meaning);
    if fault {
        spoil_form(&mut table, random);
    }
    table
}

const FORWARD: Rule = Rule {
    backward: false,
    position: false,
};

/// A small table: two items begin alike, a third shares their bucket, one has no weight, and
/// UNDEFINED stands among them.
pub fn small_table() -> Vec<u32> {
    let rule = Rule {
        backward: true,
        position: true,
    };
    let item = |characters: &[u32], weights: [&[u32]; 2]| Item {
        characters: characters.to_vec(),
        weights: weights.map(|list| list.to_vec()).to_vec(),
    };
    store(&Meaning {
        rules: vec![FORWARD, rule],
        items: vec![
            item(&[0x71], [&[5], &[1]]),
            item(&[0x61], [&[3], &[2, 1]]),
            item(UNDEFINED, [&[9], &[9]]),
            item(&[0x2D], [&[], &[]]),
            item(&[0x61, 0x62], [&[3, 4], &[]]),
        ],
    })
}

/// A table of one forward level, in which so many characters from `first` on rise; the hyphen and
/// what is not listed have no weight.
pub fn rising_table(first: u32, characters: u32) -> Vec<u32> {
    let items = (0..characters).map(|place| Item {
        characters: vec![first + place],
        weights: vec![vec![place + 1, 1]],
    });
    unweighted_last(items.collect())
}

/// A table of one forward level, in which so many items are all in the bucket of a, and the items
/// fall while their weights rise; the hyphen and what is not listed have no weight.
pub fn one_bucket_table(items: u32) -> Vec<u32> {
    let items = (0..items).map(|place| Item {
        characters: vec![0x61, 0xFFFFF - place],
        weights: vec![vec![place + 1]],
    });
    unweighted_last(items.collect())
}

/// A table of one forward level with these items, the hyphen and UNDEFINED, which have no weight.
fn unweighted_last(mut items: Vec<Item>) -> Vec<u32> {
    for characters in [vec![0x2D], UNDEFINED.to_vec()] {
        items.push(Item {
            characters,
            weights: vec![Vec::new()],
        });
    }
    store(&Meaning {
        rules: vec![FORWARD],
        items,
    })
}

/// The largest table but for its number of items: 8 levels of 8 weights each.
pub fn full_table(items: usize) -> Vec<u32> {
    let rule = Rule {
        backward: true,
        position: true,
    };
    let mut meaning = Meaning {
        rules: vec![rule; 8],
        items: Vec::new(),
    };
    for place in 0..items {
        // Falling, so that the listing is not the order of the items; UNDEFINED is first.
        let characters = match place {
            0 => UNDEFINED.to_vec(),
            _ => vec![0xFFFFF - place as u32],
        };
        meaning.items.push(Item {
            characters,
            weights: vec![vec![32_768; 8]; 8],
        });
    }
    store(&meaning)
}

/// All items of two to four letters a, b, c that are not among the elements.
fn words() -> Vec<Vec<u32>> {
    let mut list = Vec::new();
    for length in 2..=4 {
        for number in 0..3u32.pow(length) {
            let word: Vec<u32> = (0..length)
                .map(|place| 0x61 + number / 3u32.pow(place) % 3)
                .collect();
            if !ELEMENTS.contains(&word.as_slice()) {
                list.push(word);
            }
        }
    }
    list
}

/// How far apart characters are that a table lists many of: from one bucket each to all in one.
pub const STRIDES: &[u32] = &[1, 2, 16, 256, 0x1000, 0x10000];

/// Characters so far apart that sources do not list.
pub fn apart(stride: u32) -> impl Iterator<Item = u32> {
    (1..=40)
        .map(move |step| 0x61 + step * stride)
        .filter(|code| is_character(*code) && !CHARACTERS.contains(code))
}

fn item(characters: Vec<u32>, levels: usize, random: &mut Random) -> Item {
    let mut weights = Vec::new();
    for _ in 0..levels {
        let count = if random.chance(90) {
            random.below(4)
        } else {
            random.below(9)
        };
        weights.push((0..count).map(|_| weight(random)).collect());
    }
    Item {
        characters,
        weights,
    }
}

/// Few different weights, so that levels often agree, but of all sizes.
fn weight(random: &mut Random) -> u32 {
    random.pick(&[1, 2, 3, 3, 3, 255, 256, 257, 32_767, 32_768])
}

/// One fault in a meaning.
fn spoil(meaning: &mut Meaning, random: &mut Random) {
    let levels = meaning.rules.len();
    let place = random.below(meaning.items.len());
    let level = random.below(levels);
    match random.below(8) {
        // An item twice; it may be UNDEFINED.
        0 | 1 => {
            let characters = meaning.items[place].characters.clone();
            let copy = item(characters, levels, random);
            let at = random.below(meaning.items.len() + 1);
            meaning.items.insert(at, copy);
        }
        2 => meaning.items.retain(|item| item.characters != UNDEFINED),
        3 => meaning.items[place]
            .characters
            .push(random.pick(&[0xD800, 0xDFFF, 0x110000])),
        4 => meaning.items[place].characters.insert(0, 0x61),
        5 => meaning.items[place].weights[level].push(random.pick(&[0, 32_769, u32::MAX])),
        6 => meaning.items[place].weights[level].resize(9, 1),
        _ => {
            // No level, or nine.
            let count = random.pick(&[0, 9]);
            meaning.rules.resize(count, FORWARD);
            for item in &mut meaning.items {
                item.weights.resize(count, vec![1]);
            }
        }
    }
    // An item that has become too long cannot be stored.
    for item in &mut meaning.items {
        item.characters.truncate(4);
    }
}

/// One fault in the numbers of a good table, in any of its parts. Where an end moves, the table may
/// store another meaning.
pub fn spoil_form(table: &mut [u32], random: &mut Random) {
    let (levels, items) = (table[0] as usize, table[1] as usize);
    let parts = parts(levels, items);
    let (one, other) = (random.below(items), random.below(items));
    let next = (one + 1).min(items - 1);
    let end = parts.ends + random.below(items * levels);
    let start = parts.starts + one;
    match random.below(18) {
        0 | 1 => {
            let at = random.below(3);
            table[at] = table[at].wrapping_add(random.pick(&[1, u32::MAX]));
        }
        2 => table[MASK] = 2 * table[MASK] + 1,
        3 => table[MASK] /= 2,
        4 => table[random.within(MASK + 1, HEAD - 1)] = random.pick(&[1, u32::MAX]),
        5 => table[end] = table[end].wrapping_add(random.pick(&[1, 8, 9, u32::MAX])),
        6 => table[parts.characters - 1] = random.pick(&[0, 1, u32::MAX]),
        7 => {
            let at = parts.characters + 4 * one + random.below(4);
            table[at] = random.pick(&[0x61, 0x62, 0xD800, PADDING - 1, PADDING, PADDING + 1]);
        }
        8 => table[parts.listing + one] = random.below(items + 2) as u32,
        9 => table[parts.listing + one] = u32::MAX,
        10 => table.swap(parts.listing + one, parts.listing + other),
        11 => table.swap(parts.listing + one, parts.listing + next),
        12 | 13 => table[start] = table[start].wrapping_add(random.pick(&[1, 0x10000])),
        14 | 15 => table[start] = table[start].wrapping_sub(random.pick(&[1, 0x10000])),
        16 => table.swap(start, parts.starts + other),
        _ => table[parts.rules + random.below(levels)] = random.pick(&[4, u32::MAX]),
    }
}
