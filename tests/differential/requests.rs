// Making requests: sources, tables, strings, pages, charmaps and areas, good and damaged.

use crate::charmaps::{careless_charmap, damaged_charmap, good_charmap};
use crate::collisions::{colliding_source, Pieces};
use crate::crowds::crowded_source;
use crate::edges::{edges, edges_of_fullest, edges_of_widest, fullest_charmap, widest_source};
use crate::layout::parts;
use crate::pages::page;
use crate::program::Program;
use crate::random::Random;
use crate::request::{Field, Request};
use crate::sources::{
    careless_source, damaged_source, good_source, hostile_source, plain_pool, Pool, CHARACTERS,
    ELEMENTS,
};
use crate::tables::{apart, made_table, spoil_form, STRIDES};

/// How many tables and areas are kept for the requests that need one.
const MOST_KEPT: usize = 24;

pub struct Maker<'a> {
    random: Random,
    plain: Pool,
    pieces: Pieces,
    /// The program that is asked for tables, areas and the sizes of results.
    reference: &'a mut Program,
    tables: Vec<Vec<u32>>,
    areas: Vec<Vec<u32>>,
    /// Requests at the limits of 01 and 02.
    pub edges: Vec<Request>,
}

impl<'a> Maker<'a> {
    pub fn new(seed: u64, reference: &'a mut Program) -> Maker<'a> {
        let (tables, areas) = (Vec::new(), Vec::new());
        let pieces = Pieces::new();
        let mut maker = Maker {
            random: Random::new(seed),
            plain: plain_pool(),
            reference,
            tables,
            areas,
            edges: edges(&pieces),
            pieces,
        };
        let widest = maker
            .result_of(&compile(widest_source(), 1_000, 0))
            .unwrap_or_default();
        maker.edges.extend(edges_of_widest(&widest));
        maker.tables.push(widest);
        let fullest = maker.result_of(&fullest_charmap()).unwrap_or_default();
        maker.edges.extend(edges_of_fullest(&fullest));
        maker.areas.push(fullest);
        while maker.tables.len() < MOST_KEPT {
            maker.add_table();
        }
        while maker.areas.len() < MOST_KEPT {
            maker.add_area();
        }
        maker
    }

    /// A random request.
    pub fn next(&mut self) -> Request {
        if self.random.chance(2) {
            self.add_table();
            self.add_area();
        }
        match self.random.below(100) {
            0..=24 => {
                let source = colliding_source(&self.pieces, &mut self.random);
                self.compile(source)
            }
            25..=52 => {
                let source = self.source();
                self.compile(source)
            }
            53..=62 => self.charmap(),
            63..=67 => Request::new("check", vec![self.table(50)]),
            68..=71 => {
                let (table, string) = (self.table(90), self.string());
                let at = self.random.below(length(&string) + 2) as u64;
                let at = if self.random.chance(2) {
                    u64::MAX - at
                } else {
                    at
                };
                Request::new("step", vec![table, string, Field::Number(at)])
            }
            72..=81 => {
                let (table, one) = (self.table(90), self.string());
                let other = self.other_string(&one);
                Request::new("compare", vec![table, one, other])
            }
            82..=85 => {
                let fields = vec![self.table(90), self.string()];
                self.with_room("key", fields)
            }
            86..=92 => self.directory(),
            93..=94 => Request::new("area", vec![self.area(50)]),
            95..=97 => {
                let area = self.area(90);
                let fields = vec![area.clone(), self.bytes(&area)];
                self.with_room("decode", fields)
            }
            _ => {
                let area = self.area(90);
                let fields = vec![area.clone(), self.text(&area)];
                self.with_room("encode", fields)
            }
        }
    }

    /// The array at the end of the reference's answer, if the request is not refused.
    fn result_of(&mut self, request: &Request) -> Option<Vec<u32>> {
        let answer = self.reference.ask(request);
        let words: Vec<&str> = answer.split(' ').collect();
        let before = if ["compile", "charmap"].contains(&request.operation) {
            3
        } else {
            2
        };
        if words[0] != "0" || words.len() < before {
            return None;
        }
        words[before..]
            .iter()
            .map(|word| word.parse().ok())
            .collect()
    }

    fn add_table(&mut self) {
        let source = good_source(&self.plain, &mut self.random);
        if let Some(table) = self.result_of(&compile(source, 20_000, 0)) {
            keep(&mut self.tables, table, &mut self.random);
        }
    }

    fn add_area(&mut self) {
        let source = good_charmap(&mut self.random);
        let request = Request::new("charmap", vec![Field::Bytes(source), Field::Number(512)]);
        if let Some(area) = self.result_of(&request) {
            keep(&mut self.areas, area, &mut self.random);
        }
    }

    fn source(&mut self) -> Vec<u8> {
        let (plain, random) = (&self.plain, &mut self.random);
        match random.below(50) {
            0..=13 => good_source(plain, random),
            14 => crowded_source(random),
            15..=24 => careless_source(plain, random),
            25..=34 => damaged_source(plain, 1, random),
            35..=44 => damaged_source(plain, random.within(2, 4), random),
            _ => hostile_source(random),
        }
    }

    fn compile(&mut self, source: Vec<u8>) -> Request {
        // The area is exactly long enough, or a little longer or shorter.
        let needed = self
            .result_of(&compile(source.clone(), 1 << 20, 0))
            .map(|table| table.len());
        let area = match (needed, self.random.below(10)) {
            (Some(needed), 0..=6) => needed + self.random.below(3),
            (Some(needed), 7 | 8) => needed - 1,
            (Some(needed), _) => self.random.below(needed),
            (None, _) => self.random.below(200),
        };
        let more = match self.random.below(40) {
            0 => -1,
            1 => -(self.random.below(source.len() + 65) as i64),
            2 | 3 => self.random.below(100) as i64,
            _ => 0,
        };
        compile(source, area as u64, more)
    }

    fn charmap(&mut self) -> Request {
        let random = &mut self.random;
        let source = match random.below(10) {
            0 | 1 => good_charmap(random),
            2 | 3 => careless_charmap(random),
            4..=7 => damaged_charmap(1, random),
            _ => damaged_charmap(random.within(2, 4), random),
        };
        let area = match random.below(10) {
            0 => 511,
            1 => random.below(520),
            2 => 513,
            _ => 512,
        };
        Request::new(
            "charmap",
            vec![Field::Bytes(source), Field::Number(area as u64)],
        )
    }

    /// A table, good in so many of a hundred cases, with numbers after it in some.
    fn table(&mut self, good: usize) -> Field {
        let sound = self.random.chance(good);
        if self.random.chance(40) {
            return Field::Numbers(made_table(!sound, &mut self.random));
        }
        let mut table = self.random.pick(&self.tables);
        if !sound && self.random.chance(50) {
            spoil_form(&mut table, &mut self.random);
        } else if !sound {
            damage(&mut table, &mut self.random);
        } else if self.random.chance(10) {
            table.extend([0, 7, u32::MAX]);
        }
        Field::Numbers(table)
    }

    fn area(&mut self, good: usize) -> Field {
        let mut area = self.random.pick(&self.areas);
        if !self.random.chance(good) {
            damage_area(&mut area, &mut self.random);
        } else if self.random.chance(10) {
            area.extend([0, 7, u32::MAX]);
        }
        Field::Numbers(area)
    }

    /// How long a string or a text to decode is: mostly short, sometimes at the limit.
    fn size(&mut self) -> usize {
        match self.random.below(200) {
            0 => self.random.within(4_095, 4_097),
            1..=10 => self.random.below(400),
            11..=70 => self.random.below(40),
            _ => self.random.below(8),
        }
    }

    fn string(&mut self) -> Field {
        let size = self.size();
        let mut string = self.characters(size);
        self.maybe_spoil(&mut string);
        Field::Numbers(string)
    }

    /// A string of so many characters.
    fn characters(&mut self, size: usize) -> Vec<u32> {
        let mut string = Vec::new();
        while string.len() < size {
            match self.random.below(20) {
                0..=7 => string.push(CHARACTERS[self.random.below(6)]),
                8..=11 => string.push(self.random.pick(CHARACTERS)),
                12..=17 => string.extend(self.random.pick(ELEMENTS)),
                18 => {
                    let codes: Vec<u32> = apart(self.random.pick(STRIDES)).collect();
                    string.push(self.random.pick(&codes));
                }
                _ => string.push(self.random.pick(&[0x7A, 0x79, 0x2600, 0x10FFFE])),
            }
        }
        string.truncate(size);
        string
    }

    /// In few strings, puts a number that is no character.
    fn maybe_spoil(&mut self, string: &mut [u32]) {
        if !string.is_empty() && self.random.chance(3) {
            let at = self.random.below(string.len());
            string[at] = self.random.pick(&[0xD800, 0xDFFF, 0x110000, u32::MAX]);
        }
    }

    /// A string to compare with: often nearly the same, so that later levels decide.
    fn other_string(&mut self, one: &Field) -> Field {
        let mut string = match one {
            Field::Numbers(string) if self.random.chance(75) => string.clone(),
            _ => return self.string(),
        };
        for _ in 0..self.random.below(3) {
            let at = self.random.below(string.len() + 1);
            let character = self.random.pick(CHARACTERS);
            match self.random.below(4) {
                0 => string.insert(at, character),
                1 if at < string.len() => string[at] = character,
                2 if at < string.len() => {
                    string.remove(at);
                }
                _ if at + 1 < string.len() => string.swap(at, at + 1),
                _ => {}
            }
        }
        self.maybe_spoil(&mut string);
        Field::Numbers(string)
    }

    /// Bytes to decode, mostly with a code in the area.
    fn bytes(&mut self, area: &Field) -> Field {
        let size = self.size();
        let codes = codes_of(area);
        let coded: Vec<usize> = (0..codes.len())
            .filter(|&byte| codes[byte] < 0x110000)
            .collect();
        let mut bytes = Vec::new();
        for _ in 0..size {
            let any = coded.is_empty() || self.random.below(200) == 0;
            bytes.push(if any {
                self.random.below(256)
            } else {
                self.random.pick(&coded)
            } as u8);
        }
        Field::Bytes(bytes)
    }

    /// A string to encode, mostly of characters in the area.
    fn text(&mut self, area: &Field) -> Field {
        let size = self.size();
        let codes: Vec<u32> = codes_of(area)
            .into_iter()
            .filter(|&code| code < 0x110000)
            .collect();
        let mut string = Vec::new();
        for _ in 0..size {
            let any = codes.is_empty() || self.random.below(200) == 0;
            string.push(self.random.pick(if any { CHARACTERS } else { &codes }));
        }
        self.maybe_spoil(&mut string);
        Field::Numbers(string)
    }

    /// Adds the room lent.
    fn with_room(&mut self, operation: &'static str, mut fields: Vec<Field>) -> Request {
        let mut plenty = fields.clone();
        plenty.push(Field::Number(1_060_880));
        let needed = self
            .result_of(&Request::new(operation, plenty))
            .unwrap_or_default()
            .len();
        fields.push(self.room(needed));
        Request::new(operation, fields)
    }

    /// A room for so many: exactly enough, or a little more or less.
    fn room(&mut self, needed: usize) -> Field {
        let room = match self.random.below(10) {
            0 | 1 => needed.saturating_sub(1),
            2 => self.random.below(needed + 1),
            3 => needed + 1 + self.random.below(9),
            _ => needed,
        };
        Field::Number(room as u64)
    }

    /// A page, mostly by a table whose level 1 is forward.
    fn directory(&mut self) -> Request {
        let table = self.page_table();
        let mut strings = Vec::new();
        for _ in 0..self.random.within(1, 20) {
            let size = match self.random.below(400) {
                0 => self.random.within(4_095, 4_097),
                1..=20 => self.random.below(40),
                _ => self.random.below(5),
            };
            strings.push(self.characters(size));
        }
        let made = page(&table, &strings, &mut self.random);
        let room = self.room(made.topics.len() / 2);
        let fields = vec![
            Field::Numbers(table),
            Field::Numbers(made.run),
            Field::Places(made.headings),
            Field::Places(made.topics),
            room,
        ];
        Request::new("directory", fields)
    }

    fn page_table(&mut self) -> Vec<u32> {
        let mut any = self.random.chance(10);
        loop {
            let Field::Numbers(table) = self.table(97) else {
                continue;
            };
            if any || is_first_forward(&table) {
                return table;
            }
            any = self.random.chance(3);
        }
    }
}

/// A request with so many numbers of work area more (or less) than are needed.
fn compile(source: Vec<u8>, area: u64, more: i64) -> Request {
    let work = (source.len() as i64 + 64 + more).max(0) as u64;
    Request::new(
        "compile",
        vec![
            Field::Bytes(source),
            Field::Number(area),
            Field::Number(work),
        ],
    )
}

/// Whether a table's first rule is forward, if it has one.
fn is_first_forward(table: &[u32]) -> bool {
    match table {
        [levels, items, ..] if *levels <= 8 && *items <= 32_768 => {
            let rules = parts(*levels as usize, *items as usize).rules;
            table.get(rules) == Some(&0)
        }
        _ => false,
    }
}

/// The first numbers of an area, at most one for each byte.
fn codes_of(area: &Field) -> Vec<u32> {
    match area {
        Field::Numbers(numbers) => numbers.iter().take(256).copied().collect(),
        _ => Vec::new(),
    }
}

fn length(field: &Field) -> usize {
    match field {
        Field::Numbers(numbers) => numbers.len(),
        Field::Places(numbers) => numbers.len(),
        Field::Bytes(bytes) => bytes.len(),
        Field::Number(_) => 0,
    }
}

/// Adds to a list, or puts in the place of another once it is full.
fn keep(list: &mut Vec<Vec<u32>>, numbers: Vec<u32>, random: &mut Random) {
    if list.len() < MOST_KEPT {
        list.push(numbers);
    } else {
        let at = random.below(list.len());
        list[at] = numbers;
    }
}

/// Numbers at which the check of a table or an area decides something.
#[rustfmt::skip]
pub const SHARP: &[u32] = &[
    0, 1, 2, 3, 4, 5, 7, 8, 9, 16, 0x61, 0x62, 255, 256, 32_767, 32_768, 32_769, 65_536, 0xD7FF,
    0xD800, 0xDFFF, 0xE000, 0x10FFFF, 0x110000, 0x110001, 0x7FFF_FFFF, 0x8000_0000, u32::MAX,
];

/// Damages a table or an area in one to three ways. It may still be accepted.
fn damage(numbers: &mut Vec<u32>, random: &mut Random) {
    for _ in 0..random.within(1, 3) {
        if numbers.is_empty() {
            return;
        }
        let (at, other) = (random.below(numbers.len()), random.below(numbers.len()));
        // Weights are likely to stand at the end, and may have other values.
        let late = numbers.len() - 1 - random.below(numbers.len().min(12));
        match random.below(20) {
            0..=3 => numbers[at] = random.pick(SHARP),
            4 | 5 => numbers[at] = numbers[at].wrapping_add(random.pick(&[1, 0x10000])),
            6 | 7 => numbers[at] = numbers[at].wrapping_sub(random.pick(&[1, 0x10000])),
            8 | 9 => numbers[at] = numbers[other],
            10 => numbers.swap(at, other),
            11 => numbers.truncate(if random.chance(50) { at } else { late }),
            12 => {
                numbers.remove(at);
            }
            13 => {
                let number = random.pick(SHARP);
                numbers.insert(at, number);
            }
            14 => numbers[random.below(16).min(at)] = random.pick(SHARP),
            15 => numbers[late] = random.pick(SHARP),
            _ => numbers[late] = random.within(1, 40) as u32,
        }
    }
}

/// Damages an area: a code, a 1, two bytes of one code, or as any array.
fn damage_area(area: &mut Vec<u32>, random: &mut Random) {
    let (byte, other) = (random.below(256), random.below(256));
    match random.below(6) {
        0 => {
            area[byte] = random.pick(SHARP);
            area[256 + byte] = random.below(2) as u32;
        }
        1 => area[256 + byte] = random.below(3) as u32,
        2 => area[byte] = area[other],
        3 => {
            area.swap(byte, other);
            area.swap(256 + byte, 256 + other);
        }
        4 => {
            area[byte] = 0x61;
            area[256 + byte] = random.below(2) as u32;
            area[other] = 0x61;
            area[256 + other] = random.below(2) as u32;
        }
        _ => damage(area, random),
    }
}
