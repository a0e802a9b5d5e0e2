// Edges: requests at the limits of 01 and 02, asked at the end of every run: they are long, and where a
// random request shows a difference too, it is a shorter one.

use crate::collisions::Pieces;
use crate::layout::{parts, MASK};
use crate::request::{Field, Request};
use crate::requests::SHARP;
use crate::tables::{full_table, one_bucket_table, rising_table, small_table};
use crate::text::GOOD_SIGNS;

const MOST_BYTES: usize = 1_048_576;

/// A table room and a work area that are always enough.
fn compile(source: Vec<u8>, area: usize) -> Request {
    let work = source.len() + 64;
    Request::new(
        "compile",
        vec![
            Field::Bytes(source),
            Field::Number(area as u64),
            Field::Number(work as u64),
        ],
    )
}

/// A text filled up with a comment to a given length.
fn filled(text: &str, length: usize) -> Vec<u8> {
    let mut bytes = text.as_bytes().to_vec();
    bytes.push(b'#');
    bytes.resize(length, b'x');
    bytes
}

fn repeated(text: &str, count: usize) -> String {
    text.repeat(count)
}

const SMALL: &str = "LC_COLLATE\norder_start\n<U0061>\norder_end\nEND LC_COLLATE\n";

/// A source of so many order lines, with UNDEFINED as the last one if wanted.
fn many_lines(count: usize, undefined: bool) -> Vec<u8> {
    let mut text = String::from("LC_COLLATE\norder_start\n");
    for line in 0..count - usize::from(undefined) {
        text += &format!("<U{:08X}>\n", 0x10000 + line);
    }
    if undefined {
        text += "UNDEFINED\n";
    }
    text += "order_end\nEND LC_COLLATE\n";
    text.into_bytes()
}

/// A source of so many order lines, with blocks behind them.
fn tailored(count: usize, blocks: &str) -> Vec<u8> {
    let text = String::from_utf8(many_lines(count, false)).expect("it is text");
    text.replace("END LC_COLLATE", &format!("{}END LC_COLLATE", blocks))
        .into_bytes()
}

/// A block after the first of many lines.
fn after_first(lines: &str) -> String {
    format!("reorder-after <U00010000>\n{}reorder-end\n", lines)
}

/// A block after the first of so many lines, which turns the others round.
fn turned(count: usize) -> String {
    let line = |k: usize| format!("<U{:08X}>\n", 0x10000 + k);
    after_first(&(1..count).rev().map(line).collect::<String>())
}

/// A source with the most levels, weights and names.
pub fn widest_source() -> Vec<u8> {
    let weight = format!("\"{}\"", repeated("<U0061>", 8));
    let weights = vec![weight; 8].join(";");
    let rules = vec!["backward,position"; 8].join(";");
    format!(
        "LC_COLLATE\norder_start {}\n<U0061> {}\norder_end\nEND LC_COLLATE\n",
        rules, weights
    )
    .into_bytes()
}

/// Requests that need no table.
pub fn edges(pieces: &Pieces) -> Vec<Request> {
    let mut list = Vec::new();
    for length in [MOST_BYTES, MOST_BYTES + 1] {
        list.push(compile(filled(SMALL, length), 100));
        let text = "CHARMAP\n<U0041> \\x41\nEND CHARMAP\n";
        list.push(charmap(filled(text, length)));
    }
    for (count, undefined) in [(32_767, false), (32_767, true), (32_768, false)] {
        list.push(compile(many_lines(count, undefined), 300_000));
    }
    // A line that moves is not one more; one that first stands in a block is.
    for (count, line) in [
        (32_767, "<U00017FFE>\n"),
        (32_767, "UNDEFINED\n"),
        (32_766, "UNDEFINED\n"),
        (32_766, "<U0061>\n<U0062>\n"),
        (32_766, "<U0061>\n<U00017FFD> <x>;\n"),
    ] {
        list.push(compile(tailored(count, &after_first(line)), 300_000));
    }
    list.push(compile(tailored(5_000, &turned(5_000)), 300_000));
    let many_blocks = after_first("<U0061>\n").repeat(5_000);
    list.push(compile(tailored(5_000, &many_blocks), 300_000));
    for nested in [8, 9] {
        for keyword in ["ifdef A\n", "ifndef A\n"] {
            let text = repeated(keyword, nested) + &repeated("endif\n", nested);
            list.push(compile(
                format!("LC_COLLATE\n{}{}", text, &SMALL[11..]).into_bytes(),
                100,
            ));
        }
    }
    for toggles in [16, 17] {
        let text: String = (0..toggles).map(|k| format!("undef T{}\n", k)).collect();
        list.push(compile(
            format!("LC_COLLATE\n{}{}", text, &SMALL[11..]).into_bytes(),
            100,
        ));
    }
    for levels in [8, 9] {
        let rules = vec!["forward"; levels].join(";");
        let text = SMALL.replace("order_start", &format!("order_start {}", rules));
        list.push(compile(text.into_bytes(), 100));
    }
    list.push(compile(widest_source(), 1000));
    list.push(compile(Vec::new(), 0));
    // One joined line as long as a source may be, and the same in a passed-over line.
    let joins = repeated("\\\n", 500_000);
    list.push(compile(
        SMALL
            .replace("<U0061>", &format!("<U00{}61>", joins))
            .into_bytes(),
        100,
    ));
    let passed = format!("LC_X\n{}END LC_X\n{}", joins, SMALL);
    list.push(compile(passed.into_bytes(), 100));
    for items in [32_768, 32_769] {
        list.push(check(full_table(items)));
    }
    list.extend(beginnings());
    list.extend(places());
    list.extend(one_number(pieces));
    list.extend(spellings());
    list.extend(toggles());
    list.extend(long_joins());
    list.extend(comments());
    list.extend(special_bytes());
    list.extend(signs());
    list.extend(counts());
    list.extend(each_damaged());
    list.extend(one_bucket());
    list.extend(pages());
    list
}

/// A source with these lines before its order and in it.
fn collate(before: &str, order: &str) -> Request {
    let text = format!(
        "LC_COLLATE\n{}order_start\n{}order_end\nEND LC_COLLATE\n",
        before, order
    );
    compile(text.into_bytes(), 100_000)
}

/// Symbols with these names, an order line for each, and characters whose weights name them.
fn named(declared: &[String], used: &[String]) -> Request {
    let symbols = declared
        .iter()
        .map(|name| format!("collating-symbol <{}>\n", name));
    let lines = declared.iter().map(|name| format!("<{}>\n", name));
    let weighted = (0..)
        .zip(used)
        .map(|(k, name)| format!("<U{:04X}> <{}>\n", 0x4E00 + k, name));
    let order: String = lines.chain(weighted).collect();
    collate(&symbols.collect::<String>(), &order)
}

/// Names of each length that differ from a longer one, or in their last byte alone.
fn beginnings() -> Vec<Request> {
    let name = |length: usize, last: char| repeated("n", length - 1) + &last.to_string();
    let all: Vec<String> = (1..=32)
        .flat_map(|length| ['n', 'o', '.', 'N'].map(|last| name(length, last)))
        .collect();
    let mut list = vec![named(&all, &all)];
    for length in 1..=33 {
        let declared = [name(length, 'n'), name(length, 'o')];
        for other in [
            declared[1].clone(),
            name(length, 'm'),
            name(length + 1, 'n'),
        ] {
            list.push(named(&declared, &[other]));
        }
    }
    list
}

/// Declarations close to each other with names of each length, from each place modulo eight on.
fn places() -> Vec<Request> {
    let mut list = Vec::new();
    for length in 1..=32 {
        for more in 0..8 {
            let [a, b, c, d] = ["a", "b", "c", "d"].map(|byte| repeated(byte, length));
            let before = format!(
                "#{}\ncollating-symbol <{a}>\ncollating-element <{b}> from \"<U0041><U0042>\"\n\
                 collating-element <{c}> from \"<U0041><U0042><U0043><U00000044>\"\n\
                 collating-symbol <{d}>\n",
                repeated("x", more)
            );
            let names = format!("\"<{a}><{b}><{c}><{d}><U0041><U0042>\"");
            let order = format!("<{a}>\n<{d}>\n<U0041>\n<U0042>\n<{b}> {names}\n<{c}>\n");
            list.push(collate(&before, &order));
        }
    }
    list
}

/// Names with one number: all of them declared, one not, one twice.
fn one_number(pieces: &Pieces) -> Vec<Request> {
    let name = |k: usize| {
        let begin = repeated("x", k % 24) + &k.to_string();
        String::from_utf8(pieces.ended(begin.as_bytes(), 0x4E01)).expect("letters are text")
    };
    let names: Vec<String> = (0..300).map(name).collect();
    let twice = [&names[..], &names[150..151]].concat();
    vec![
        named(&names, &names),
        named(&names[1..], &names[..1]),
        named(&names[..299], &names[299..]),
        named(&twice, &[]),
    ]
}

/// A name with a join, many joins or an escape before each of its bytes in turn, and before all.
fn spelled(name: &str) -> Vec<String> {
    let many = repeated("\\\n", 40);
    let mut list = Vec::new();
    for put in ["\\\n", &many, "\\"] {
        // An escape at the end would take what stands behind the name.
        let end = name.len() - usize::from(put == "\\");
        for at in 0..=end {
            list.push([&name[..at], put, &name[at..]].concat());
        }
        list.push(
            name.chars()
                .map(|byte| format!("{}{}", put, byte))
                .collect(),
        );
    }
    list
}

/// Names and characters that are declared or listed in one spelling and named in another.
fn spellings() -> Vec<Request> {
    let mut list = Vec::new();
    for plain in ["LOW", "nnnnnnnnnnnnnnnnnnnnnnnnnnnnnnnn"] {
        let ways = spelled(plain);
        list.push(named(&[plain.to_string()], &ways));
        list.extend(
            ways.iter()
                .map(|way| named(&[way.clone()], &[plain.to_string()])),
        );
        let twice = |way: &String| named(&[plain.to_string(), way.clone()], &[]);
        list.extend(ways.iter().map(twice));
    }
    for plain in ["U0041", "U00000041"] {
        for way in spelled(plain) {
            let weight = format!("<{}>\n<U0042> <U0041>\n<U0043> <U00000041>\n", way);
            list.push(collate("", &weight));
            list.push(collate("", &format!("<{}>\n<U0041>\n", way)));
            let element = format!("collating-element <e> from \"<{}><U0042>\"\n", way);
            let same = "collating-element <f> from \"<U0041><U0042>\"\n";
            list.push(collate(&element, "<U0041>\n<e>\n"));
            list.push(collate(&[&element, same].concat(), ""));
        }
    }
    list
}

/// A line for each of these toggles, a character where it is defined and another where it is not.
fn asked_toggles(defined: &str, toggles: &[String]) -> Request {
    let chain = |(k, toggle): (usize, &String)| {
        let (code, other) = (0x4E00 + k, 0x5E00 + k);
        format!(
            "ifdef {}\n<U{:04X}>\nelse\n<U{:04X}>\nendif\n",
            toggle, code, other
        )
    };
    collate(
        defined,
        &toggles.iter().enumerate().map(chain).collect::<String>(),
    )
}

/// Toggles of each length that begin alike; 16 and 17 of them; one that is joined at each place.
fn toggles() -> Vec<Request> {
    let toggle = |length: usize, last: char| repeated("T", length - 1) + &last.to_string();
    let mut list = Vec::new();
    for length in 1..=33 {
        let defined = format!("define {}\n", toggle(length, 'T'));
        for last in ['T', 'U', 'D', '_'] {
            list.push(asked_toggles(&defined, &[toggle(length, last)]));
        }
        list.push(asked_toggles(&defined, &[toggle(length + 1, 'T')]));
    }
    for most in [16, 17] {
        for length in [1, 8, 9, 16, 31] {
            let all: Vec<String> = (0..most)
                .map(|k| format!("{}{}", repeated("T", length), (b'A' + k) as char))
                .collect();
            let defined: String = all
                .iter()
                .step_by(3)
                .map(|toggle| format!("define {}\n", toggle))
                .collect();
            list.push(asked_toggles(&defined, &all));
        }
    }
    for way in spelled("TOGGLE_1") {
        let other = "TOGGLE_2".to_string();
        let plain = ["TOGGLE_1".to_string(), other, way.clone()];
        list.push(asked_toggles(&format!("define {}\n", way), &plain));
        list.push(asked_toggles("define TOGGLE_1\n", &plain));
        list.push(asked_toggles(
            &format!("define TOGGLE_1\nundef {}\n", way),
            &plain,
        ));
    }
    list
}

/// A symbol, a character, an element and a toggle that are joined from many lines.
fn long_joins() -> Vec<Request> {
    let joins = repeated("\\\n", 10_000);
    let symbol = format!("collating-symbol <X{}Y>\n", joins);
    let element = format!("collating-element <e> from \"<U0061>{}<U0062>\"\n", joins);
    let toggle = format!("define T{}X\n", joins);
    let asked = ["TX", "T", "TY", "TX"].map(str::to_string);
    vec![
        collate(&symbol, &format!("<XY>\n{}", weights("XY"))),
        collate(&symbol, &format!("<X{}Y>\n{}", joins, weights("XZ"))),
        collate("", &format!("<U00{}41>\n{}", joins, weights("U0041"))),
        collate("", &format!("<U0041>\n<U00{}41>\n", joins)),
        collate(&element, &format!("<U0061>\n<e>\n{}", weights("e"))),
        collate(&[&element[..], &element.replace("<e>", "<f>")].concat(), ""),
        asked_toggles(&toggle, &asked),
        asked_toggles(&format!("{}undef TX\ndefine TY\n", toggle), &asked),
    ]
}

/// Order lines whose weights name one name.
fn weights(name: &str) -> String {
    (0..20)
        .map(|k| {
            format!(
                "<U{:04X}> \"{}\"\n",
                0x4E00 + k,
                repeated(&format!("<{}>", name), 8)
            )
        })
        .collect()
}

fn charmap(source: Vec<u8>) -> Request {
    Request::new("charmap", vec![Field::Bytes(source), Field::Number(512)])
}

/// Comments of up to a hundred bytes, at the end of a source and before a line that is refused, and
/// behind the entries of a charmap, where they may end in an escape.
fn comments() -> Vec<Request> {
    let mut list = Vec::new();
    for length in 0..=100 {
        let comment = format!("#{}", repeated("x", length));
        for end in ["", "\n", "\\", "\\\n", "\n\n", "\nx"] {
            list.push(compile(
                format!("{}{}{}", SMALL, comment, end).into_bytes(),
                100,
            ));
        }
        list.push(collate(&format!("{}\nx\n", comment), ""));
        list.push(collate(
            "",
            &format!("<U0061> {}\\\n{}\n<U0062> x\n", comment, comment),
        ));
        for end in ["", "\\"] {
            let text = repeated("x", length);
            let entries = format!(
                "<U0041> \\x41 {}{}\n<U0042> \\x42 {}{}\n",
                text, end, text, end
            );
            list.push(charmap(
                format!("CHARMAP\n{}END CHARMAP\n", entries).into_bytes(),
            ));
            list.push(charmap(format!("CHARMAP\n{}<U0043>", entries).into_bytes()));
        }
    }
    list
}

/// Each byte that means something, at each place among ordinary ones: in a line that is read, in an
/// unused branch, in another category, in a comment, in a name.
fn special_bytes() -> Vec<Request> {
    let mut list = Vec::new();
    for special in *b"\"<>\\#;,.! \t\n\r\x01\x1F\x7F\x80\xFF" {
        for (count, before, behind) in [
            (40, "LC_COLLATE\n", "\nx\n"),
            (40, "LC_COLLATE\nifdef T\n", "\n\nelse\nx\nendif\n"),
            (40, "LC_X\n", "\n\nEND LC_X\nx\n"),
            (40, "#", "\nx\n"),
            (31, "LC_COLLATE\ncollating-symbol <", ">\nx\n"),
        ] {
            for at in 0..=count {
                let mut line = vec![b'x'; count];
                line.insert(at, special);
                let text = [before.as_bytes(), &line, behind.as_bytes()].concat();
                list.push(compile(text, 100));
            }
        }
    }
    list
}

/// Each two bytes that may be signs, with names and comments that hold them.
fn signs() -> Vec<Request> {
    let mut list = Vec::new();
    for &comment in GOOD_SIGNS {
        for &escape in GOOD_SIGNS {
            let (c, e) = (comment as char, escape as char);
            let order =
                format!("<a{c}{e}{e}b{e}>> {c} x{e}\n<U{e}0061> <a{c}{e}{e}b{e}\n{e}>>{e}\n {c}\n");
            let text = format!(
                "comment_char {c}\nescape_char {e}\nLC_COLLATE\n{c}{e}\ncollating-symbol <a{c}{e}{e}b{e}>>\n\
                 order_start\n{order}order_end\nEND LC_COLLATE\n"
            );
            list.push(compile(text.into_bytes(), 100));
        }
    }
    list
}

fn check(table: Vec<u32>) -> Request {
    Request::new("check", vec![Field::Numbers(table)])
}

fn step(table: &[u32], string: &[u32], at: u64) -> Request {
    let fields = vec![
        Field::Numbers(table.to_vec()),
        Field::Numbers(string.to_vec()),
        Field::Number(at),
    ];
    Request::new("step", fields)
}

/// Tables around each count of items where the buckets become twice as many.
fn counts() -> Vec<Request> {
    let mut list = Vec::new();
    for lines in 1..=40 {
        list.push(compile(many_lines(lines, lines % 2 == 0), 1_000));
    }
    for power in 1..=15 {
        // Two items more than characters.
        for more in [0, 1, 2].map(|more| (1 << power) + more - 3) {
            if more >= 0 {
                let table = rising_table(FIRST, more as u32);
                list.push(step(&table, &[FIRST + more as u32 / 2, 0x2D], 0));
                list.push(check(table));
            }
        }
    }
    list
}

/// A small table with each of its numbers changed in turn, with each two neighbours changed over,
/// and cut at each place.
fn each_damaged() -> Vec<Request> {
    let table = small_table();
    let mut list = vec![check(table.clone())];
    for at in 0..table.len() {
        let number = table[at];
        let near = [1, 8, 9, 0x10000].map(|more| number.wrapping_add(more));
        let below = [1, 8, 9, 0x10000].map(|less| number.wrapping_sub(less));
        for other in [SHARP, &near, &below].concat() {
            let mut changed = table.clone();
            changed[at] = other;
            list.push(step(&changed, &[0x61, 0x62], 0));
            list.push(check(changed));
        }
        let mut swapped = table.clone();
        swapped.swap(at, (at + 1) % table.len());
        list.push(check(swapped));
        list.push(check(table[..at].to_vec()));
    }
    list
}

/// The most items, all but two in one bucket: steps that find the first, the last and none of
/// them, and damage that one place of each part shows.
fn one_bucket() -> Vec<Request> {
    const ITEMS: usize = 32_768;
    let table = one_bucket_table(ITEMS as u32 - 2);
    let mut list = vec![check(table.clone())];
    for second in [0xFFFFF, 0xFFFFE, 0xF8002, 0xF8001, 0x100000, 0x61] {
        list.push(step(&table, &[0x61, second, 0x2D], 0));
    }
    let parts = parts(1, ITEMS);
    let mut changed = |at: usize, number: u32| {
        let mut changed = table.clone();
        changed[at] = number;
        list.push(check(changed));
    };
    changed(MASK, 0xFFFF);
    changed(parts.characters - 1, ITEMS as u32 - 1);
    changed(parts.characters + 4 * 9_000 + 1, 0xFFFFF);
    changed(parts.listing + 20_000, 1);
    changed(parts.starts + 0x30, 0x10000);
    changed(parts.rules - 1, 0x7FFF_7FFE);
    changed(parts.weights + 30_000, 0);
    let mut swapped = table.clone();
    swapped.swap(parts.listing + 20_000, parts.listing + 20_001);
    list.push(check(swapped));
    list
}

/// A page by a table in which so many characters rise.
fn page(rising: u32, run: &[u32], headings: Vec<u64>, topics: Vec<u64>, room: u64) -> Request {
    let fields = vec![
        Field::Numbers(rising_table(FIRST, rising)),
        Field::Numbers(run.to_vec()),
        Field::Places(headings),
        Field::Places(topics),
        Field::Number(room),
    ];
    Request::new("directory", fields)
}

/// The first of the characters that rise.
const FIRST: u32 = 0x4E00;

/// So many headings that rise, in a run of all characters that do.
fn risen(from: u64, count: u64) -> Vec<u64> {
    (from..from + count).flat_map(|at| [at, 1]).collect()
}

/// So many topics, the last first.
fn fallen(count: u64) -> Vec<u64> {
    (0..count).rev().flat_map(|at| [at, 2]).collect()
}

/// Starts and lengths at the end of a run of 1,002, and of what a number holds.
#[rustfmt::skip]
const SHARP_PLACES: &[[u64; 2]] = &[
    [1_002, 0], [1_002, 1], [1_001, 1], [1_001, 2], [1_003, 0], [0, 1_002], [0, 1_003],
    [1, u64::MAX], [2, u64::MAX], [u64::MAX, 0], [u64::MAX, 1], [u64::MAX, 2],
    [u64::MAX, u64::MAX], [1 << 63, 1 << 63], [(1 << 63) + 1, 1 << 63],
    [1 << 32, 0], [1, 1 << 32], [(1 << 32) + 1, (1 << 32) + 1],
];

/// Pages at the limits of 1,000 headings and 1,000 topics, of a run, and of a string.
fn pages() -> Vec<Request> {
    let mut list = Vec::new();
    let all: Vec<u32> = (FIRST..FIRST + 1_002).collect();
    for headings in [0, 1_000, 1_001] {
        for topics in [0, 1_000, 1_001] {
            for room in [999, 1_000, 1_003] {
                let (titles, topics) = (risen(1, headings), fallen(topics));
                list.push(page(1_002, &all, titles, topics, room));
            }
        }
    }
    // A start with no length is not one more. The last of 1,000 headings does not rise.
    for last in [vec![1_000, 1, 9], vec![999, 3], vec![0, 1], vec![9, 0]] {
        let titles = [risen(1, 999), last].concat();
        let topics = [fallen(1_000), vec![9]].concat();
        list.push(page(1_002, &all, titles, topics, 1_000));
    }
    // The longest string, and one longer; a thousand of them, with a weight at the end or none.
    let mut run = vec![0x2D; 4_097];
    run[4_096] = FIRST + 1;
    for length in [4_096, 4_097] {
        let ends = [4_097 - length, length];
        list.push(page(2, &run, ends.to_vec(), vec![4_096, 1], 1));
        for topic in [ends, [0, length]] {
            list.push(page(2, &run, vec![4_096, 1], topic.repeat(1_000), 1_000));
        }
    }
    for place in SHARP_PLACES {
        let topics = [&[0, 1], &place[..]].concat();
        list.push(page(1_002, &all, risen(0, 3), topics, 2));
        list.push(page(1_002, &all, place.to_vec(), vec![0, 1], 1));
    }
    list
}

/// A charmap that gives every byte its own number as code.
pub fn fullest_charmap() -> Request {
    charmap(b"CHARMAP\n<U0000>..<U00FF> \\x00\nEND CHARMAP\n".to_vec())
}

/// Requests on the area of the fullest charmap.
pub fn edges_of_fullest(area: &[u32]) -> Vec<Request> {
    let area = Field::Numbers(area.to_vec());
    let mut list = Vec::new();
    for length in [4_096, 4_097] {
        for room in [4_095, 4_096, 4_097] {
            let bytes = Field::Bytes((0..length).map(|k| (k % 256) as u8).collect());
            let string = Field::Numbers((0..length).map(|k| (k % 256) as u32).collect());
            let room = Field::Number(room);
            list.push(Request::new(
                "decode",
                vec![area.clone(), bytes, room.clone()],
            ));
            list.push(Request::new("encode", vec![area.clone(), string, room]));
        }
    }
    list
}

/// Requests on the table of the widest source.
pub fn edges_of_widest(table: &[u32]) -> Vec<Request> {
    let table = Field::Numbers(table.to_vec());
    let mut list = Vec::new();
    for length in [4_096, 4_097] {
        let string = Field::Numbers(vec![0x61; length]);
        for room in [1_060_880, 1_060_879] {
            let fields = vec![table.clone(), string.clone(), Field::Number(room)];
            list.push(Request::new("key", fields));
        }
        let mut other = vec![0x61; length];
        other[length - 1] = 0x62;
        let other = Field::Numbers(other);
        let fields = vec![table.clone(), string.clone(), other.clone()];
        list.push(Request::new("compare", fields));
        list.push(Request::new(
            "compare",
            vec![table.clone(), other, string.clone()],
        ));
        let last = Field::Number(length as u64 - 1);
        list.push(Request::new("step", vec![table.clone(), string, last]));
    }
    list
}
