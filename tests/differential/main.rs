// The differential test: asks two programs the same random questions and compares their answers.
//
//   differential REFERENCE OTHER [seed [count]]
//
// REFERENCE and OTHER are command lines that speak the protocol of ../reference/README.md. The
// requests depend on the seed, the count and the first program alone. At the first difference
// the request is shrunk and shown, and the exit status is 1.

mod charmaps;
mod collisions;
mod crowds;
mod edges;
// How the reference stores a meaning, to make tables that no source gives, and the first weight
// of a string, to make headings that rise.
#[allow(dead_code)]
#[path = "../reference/layout.rs"]
mod layout;
#[allow(dead_code)]
#[path = "../reference/names.rs"]
mod names;
#[allow(dead_code)]
#[path = "../reference/order.rs"]
mod order;
mod pages;
mod program;
mod random;
mod request;
mod requests;
mod shrink;
mod sources;
mod strange;
#[allow(dead_code)]
#[path = "../reference/table.rs"]
mod table;
mod tables;
mod text;

use program::{ask_both, Program, LATE};
use request::Request;
use requests::Maker;
use shrink::shrink;
use std::collections::BTreeMap;

fn main() {
    let arguments: Vec<String> = std::env::args().skip(1).collect();
    if arguments.len() < 2 || arguments.len() > 4 {
        eprintln!("differential REFERENCE OTHER [seed [count]]");
        std::process::exit(2);
    }
    let seed = number(arguments.get(2), 1);
    let count = number(arguments.get(3), 20_000);
    let mut helper = Program::new(&arguments[0]);
    let mut maker = Maker::new(seed, &mut helper);
    let mut test = Test {
        seed,
        one: Program::new(&arguments[0]),
        other: Program::new(&arguments[1]),
        asked: 0,
        seen: BTreeMap::new(),
    };
    for _ in 0..count {
        test.ask(maker.next());
    }
    for request in maker.edges {
        test.ask(request);
    }
    println!("seed {}, {} requests: no difference", seed, test.asked);
    test.print_summary();
}

fn number(argument: Option<&String>, default: u64) -> u64 {
    match argument.map(|word| word.parse()) {
        None => default,
        Some(Ok(number)) => number,
        Some(Err(_)) => {
            eprintln!("the seed and the count are numbers");
            std::process::exit(2);
        }
    }
}

struct Test {
    seed: u64,
    one: Program,
    other: Program,
    asked: usize,
    /// How often each refusal (0 for none) was given to each kind of request.
    seen: BTreeMap<(&'static str, u32), usize>,
}

impl Test {
    /// Asks both programs. Ends the run where they differ, or where both fail.
    fn ask(&mut self, request: Request) {
        self.asked += 1;
        let (ours, theirs) = ask_both(&mut self.one, &mut self.other, &request);
        let refusal: Option<u32> = ours.split(' ').next().and_then(|word| word.parse().ok());
        match refusal {
            Some(refusal) if ours == theirs => {
                *self.seen.entry((request.operation, refusal)).or_insert(0) += 1;
            }
            _ => {
                println!(
                    "seed {}, request {} differs or fails",
                    self.seed, self.asked
                );
                // A program that takes too long would do so again and again.
                let late = ours == LATE || theirs == LATE;
                let shrinks = ours != theirs && !late;
                let shown = if shrinks {
                    self.shrunk(request)
                } else {
                    request
                };
                self.report(shown);
                std::process::exit(1);
            }
        }
    }

    fn shrunk(&mut self, request: Request) -> Request {
        let (one, other) = (&mut self.one, &mut self.other);
        let differs = Box::new(|request: &Request| {
            let (ours, theirs) = ask_both(one, other, request);
            (
                ours != theirs,
                request.line().len() + ours.len() + theirs.len(),
            )
        });
        shrink(request, differs)
    }

    /// Shows a request and its two answers.
    fn report(&mut self, request: Request) {
        let (ours, theirs) = ask_both(&mut self.one, &mut self.other, &request);
        println!("{}", request.shown());
        println!("as a line\n  {}", request.line());
        println!("the first answers\n  {}", ours);
        println!("the second answers\n  {}", theirs);
        let same = ours
            .split(' ')
            .zip(theirs.split(' '))
            .take_while(|(a, b)| a == b)
            .count();
        println!("they differ from word {} on", same + 1);
    }

    fn print_summary(&self) {
        let mut shown: BTreeMap<&str, String> = BTreeMap::new();
        for ((operation, refusal), count) in &self.seen {
            *shown.entry(operation).or_default() += &format!("  {}: {}", refusal, count);
        }
        for (operation, counts) in shown {
            println!("{:9}{}", operation, counts);
        }
    }
}
