// Every operation by the Rust module, granted and refused. It prints what operations.c does: operations.txt.
mod zeharmeku;

use std::cmp::Ordering;
use zeharmeku::{AtLine, Part, Refusal};

// Source S of document 01, and a source with a mistake in its line 3.
const SOURCE: &[u8] = b"comment_char %
escape_char /
LC_COLLATE
collating-symbol <LOW>
collating-symbol <CAP>
order_start forward;forward
<LOW>
<CAP>
<U0061> <U0061>;<LOW>
<U0041> <U0061>;<CAP>
<U0062> <U0062>;<LOW>
<U002D> IGNORE;IGNORE
order_end
END LC_COLLATE
";
const WRONG_SOURCE: &[u8] = b"LC_COLLATE\norder_start\n<NEW>\n";

const CHARMAP_SOURCE: &[u8] = b"CHARMAP\n<U0041> \\x41\n<U0061>..<U0063> \\x61\nEND CHARMAP\n";
const WRONG_CHARMAP: &[u8] = b"CHARMAP\n<A> \\x41\nEND CHARMAP\n";

const TABLE: usize = zeharmeku::table_area(SOURCE.len());
const WORK: usize = zeharmeku::work_area(SOURCE.len());
const SIZE: usize = 66;
const MOST: usize = 8;

fn string_of(text: &str) -> Vec<u32> {
    text.chars().map(u32::from).collect()
}

fn numbers<T: ToString>(all: &[T]) -> String {
    all.iter().map(|number| format!(" {}", number.to_string())).collect()
}

/// Prints what was answered, or the refusal with its line.
fn say(what: &str, answer: Result<String, AtLine>) {
    match answer {
        Ok(text) => println!("{}:{}", what, text),
        Err(refused) => println!("{}: line {}, {}", what, refused.line, refused.refusal),
    }
}

/// A refusal that has no line.
fn nowhere(refusal: Refusal) -> AtLine {
    AtLine { refusal, line: 0 }
}

fn compile(what: &str, source: &[u8], area: &mut [u32], work: &mut [u32]) {
    say(what, zeharmeku::compile(source, area, work).map(|table| format!(" size {}", table.len())));
}

fn check(what: &str, table: &[u32]) {
    let answer = zeharmeku::check(table);
    say(what, answer.map(|a| format!(" levels {}, items {}, size {}", a.levels, a.items, a.size)).map_err(nowhere));
}

fn step(what: &str, table: &[u32], string: &[u32], at: usize) {
    let answer = zeharmeku::step(table, string, at);
    let told = answer.map(|element| element.map_or((0, 0), |e| (e.place, e.length)));
    say(what, told.map(|(place, length)| format!(" place {}, length {}", place, length)).map_err(nowhere));
}

fn sign_of(order: Ordering) -> i32 {
    match order {
        Ordering::Less => -1,
        Ordering::Equal => 0,
        Ordering::Greater => 1,
    }
}

fn compare(what: &str, table: &[u32], one: &str, other: &str) {
    let answer = zeharmeku::compare(table, &string_of(one), &string_of(other));
    say(what, answer.map(|a| format!(" sign {}, level {}, agreed {}", sign_of(a.sign), a.level, a.agreed)).map_err(nowhere));
}

fn key(what: &str, table: &[u32], text: &str, area_count: usize) {
    let mut area = vec![0; area_count];
    say(what, zeharmeku::key(table, &string_of(text), &mut area).map(numbers).map_err(nowhere));
}

/// A page of the headings a and b, or of b and a.
fn directory(what: &str, table: &[u32], first: u64, second: u64, list_count: usize) {
    let headings = [Part { start: first, length: 1 }, Part { start: second, length: 1 }];
    let topics = [Part { start: 3, length: 1 }, Part { start: 4, length: 2 }, Part { start: 2, length: 1 }];
    let mut list = vec![0; list_count];
    say(what, zeharmeku::directory(table, &string_of("ab-A-z"), &headings, &topics, &mut list).map(numbers).map_err(nowhere));
}

fn read_charmap(what: &str, source: &[u8], area: &mut [u32]) {
    say(what, zeharmeku::charmap(source, area).map(|_| " granted".to_string()));
}

fn area(what: &str, charmap: &[u32]) {
    say(what, zeharmeku::area(charmap).map(|()| " granted".to_string()).map_err(nowhere));
}

fn decode(what: &str, charmap: &[u32], text: &str, area_count: usize) {
    let mut string = vec![0; area_count];
    say(what, zeharmeku::decode(charmap, text.as_bytes(), &mut string).map(numbers).map_err(nowhere));
}

fn encode(what: &str, charmap: &[u32], text: &str, area_count: usize) {
    let mut bytes = vec![0; area_count];
    say(what, zeharmeku::encode(charmap, &string_of(text), &mut bytes).map(numbers).map_err(nowhere));
}

fn main() {
    let (mut whole, mut work) = ([0; TABLE], [0; WORK]);
    compile("compile, work area too short", SOURCE, &mut whole, &mut work[1..]);
    compile("compile, table area too short", SOURCE, &mut whole[..SIZE - 1], &mut work);
    compile("compile, a mistake", WRONG_SOURCE, &mut whole, &mut work);
    compile("compile", SOURCE, &mut whole, &mut work);
    let table = &whole[..SIZE];
    check("check", &whole);
    check("check, too short", &table[..SIZE - 1]);
    step("step", table, &string_of("ab"), 1);
    step("step, at the end", table, &string_of("ab"), 2);
    step("step, no character", table, &[0xD800, 0x62], 1);
    compare("compare, less", table, "a", "A");
    compare("compare, equal", table, "aa", "aa");
    compare("compare, greater", table, "ab", "Aa");
    compare("compare, no table", &[], "a", "A");
    key("key", table, "aA", zeharmeku::key_area(2));
    key("key, area too short", table, "aA", 17);
    directory("directory", table, 0, 1, 3);
    directory("directory, not rising", table, 1, 0, 3);
    directory("directory, outside the run", table, 0, 6, 3);
    directory("directory, list too short", table, 0, 1, 2);
    let mut charmap = [0; zeharmeku::CHARMAP_AREA];
    read_charmap("charmap, a mistake", WRONG_CHARMAP, &mut charmap);
    area("area, before", &charmap);
    read_charmap("charmap", CHARMAP_SOURCE, &mut charmap);
    area("area", &charmap);
    decode("decode", &charmap, "cab", 3);
    decode("decode, not in the charmap", &charmap, "cabz", MOST);
    encode("encode", &charmap, "Abba", MOST);
    encode("encode, area too short", &charmap, "Abba", 3);
    for refusal in zeharmeku::REFUSALS {
        println!("{}", refusal);
    }
    println!(
        "sizes: {} {} {} {} {} {} {} {}",
        zeharmeku::work_area(10),
        zeharmeku::table_area(10),
        zeharmeku::key_area(10),
        zeharmeku::KEY_MOST,
        zeharmeku::CHARMAP_AREA,
        zeharmeku::STRING_MOST,
        zeharmeku::SOURCE_MOST,
        zeharmeku::PAGE_MOST
    );
    println!("version: {}", zeharmeku::VERSION);
}
