// Pages: headings and topics in one run of characters, for the directory.

use crate::order::first_weight;
use crate::random::Random;
use crate::table::accept;

/// Headings and topics as the request has them: start, length, start, length, ..
pub struct Page {
    pub run: Vec<u32>,
    pub headings: Vec<u64>,
    pub topics: Vec<u64>,
}

/// A page of some strings, mostly with headings that rise by the table, and sometimes damaged.
pub fn page(table: &[u32], strings: &[Vec<u32>], random: &mut Random) -> Page {
    let mut page = Page {
        run: Vec::new(),
        headings: Vec::new(),
        topics: Vec::new(),
    };
    let mut titles = rising(table, strings);
    let most = random.pick(&[30, 60, 100]);
    titles.retain(|_| random.chance(most));
    if random.chance(20) {
        unsettle(&mut titles, strings, random);
    }
    for title in titles {
        let place = page.put(&title, random);
        page.headings.extend(place);
    }
    for _ in 0..random.below(13) {
        let place = page.topic(strings, random);
        page.topics.extend(place);
    }
    if random.chance(2) {
        page.repeat_last(random);
    }
    if random.chance(15) {
        page.reach_outside(random);
    }
    if random.chance(5) && !page.run.is_empty() {
        let at = random.below(page.run.len());
        page.run[at] = random.pick(NO_CHARACTERS);
    }
    // A start with no length.
    for places in [&mut page.headings, &mut page.topics] {
        if random.chance(10) {
            places.push(random.pick(&[0, 1, page.run.len() as u64, u64::MAX]));
        }
    }
    page
}

const NO_CHARACTERS: &[u32] = &[0xD800, 0xDFFF, 0x110000, u32::MAX];

/// The strings that have a weight at level 1, one for each, so that they rise. All of them, as
/// they come, where the table is not accepted.
fn rising(table: &[u32], strings: &[Vec<u32>]) -> Vec<Vec<u32>> {
    let Ok(meaning) = accept(table) else {
        return strings.to_vec();
    };
    let weighed = |string: &Vec<u32>| Some((first_weight(&meaning, string)?, string.clone()));
    let mut list: Vec<(u32, Vec<u32>)> = strings.iter().filter_map(weighed).collect();
    list.sort_by_key(|&(weight, _)| weight);
    list.dedup_by_key(|&mut (weight, _)| weight);
    list.into_iter().map(|(_, string)| string).collect()
}

/// Headings that may no longer rise: one is put in, which may have no weight, or two are exchanged.
fn unsettle(titles: &mut Vec<Vec<u32>>, strings: &[Vec<u32>], random: &mut Random) {
    let at = random.below(titles.len() + 1);
    match random.below(4) {
        0 => titles.insert(at, random.pick(strings)),
        1 => titles.insert(at, Vec::new()),
        2 if !titles.is_empty() => {
            let copy = random.pick(titles);
            titles.insert(at, copy);
        }
        _ if at < titles.len() => {
            let other = random.below(titles.len());
            titles.swap(at, other);
        }
        _ => titles.push(vec![0x2D]),
    }
}

impl Page {
    /// Adds a string to the run, in some cases with numbers before it that lie in none. Answers its
    /// start and length.
    fn put(&mut self, string: &[u32], random: &mut Random) -> [u64; 2] {
        if random.chance(10) {
            let between = random.pick(&[0x61, 0x2D, 0xD800, 0x110000, u32::MAX]);
            self.run.push(between);
        }
        let start = self.run.len();
        self.run.extend(string);
        [start as u64, string.len() as u64]
    }

    /// A topic: a new string, mostly; the place of another, a part of the run, or an empty one.
    fn topic(&mut self, strings: &[Vec<u32>], random: &mut Random) -> [u64; 2] {
        let all = [&self.headings[..], &self.topics].concat();
        match random.below(20) {
            0..=2 if !all.is_empty() => {
                let at = 2 * random.below(all.len() / 2);
                [all[at], all[at + 1]]
            }
            3 | 4 => {
                let start = random.below(self.run.len() + 1);
                let length = random.below((self.run.len() - start).min(6) + 1);
                [start as u64, length as u64]
            }
            5 => [random.below(self.run.len() + 1) as u64, 0],
            _ => {
                let string = random.pick(strings);
                self.put(&string, random)
            }
        }
    }

    /// The last heading or topic again and again, as often as 1,000 allow or once more.
    fn repeat_last(&mut self, random: &mut Random) {
        let places = if random.chance(25) {
            &mut self.headings
        } else {
            &mut self.topics
        };
        let size = places.len();
        if size >= 2 {
            let last = [places[size - 2], places[size - 1]];
            let more = random.within(999, 1_001) - size / 2;
            places.extend(last.repeat(more));
        }
    }

    /// Makes one heading or topic reach outside the run, or just not.
    fn reach_outside(&mut self, random: &mut Random) {
        let places = if random.chance(30) {
            &mut self.headings
        } else {
            &mut self.topics
        };
        if places.is_empty() {
            return;
        }
        let at = 2 * random.below(places.len() / 2);
        let (end, start) = (self.run.len() as u64, places[at]);
        let [from, length] = random.pick(&[
            [start, end - start],
            [start, end - start + 1],
            [end, 0],
            [end, 1],
            [end + 1, 0],
            [start, u64::MAX],
            [start + 1, u64::MAX],
            [start, 0u64.wrapping_sub(start)],
            [u64::MAX, 0],
            [u64::MAX, 1],
            [u64::MAX - end, end + 2],
            [1 << 63, 1 << 63],
            [1 << 32, 0],
            [(1 << 32) - 1, 1],
        ]);
        places[at] = from;
        places[at + 1] = length;
    }
}
