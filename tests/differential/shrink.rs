// Shrinking: a smaller request on which two programs still differ.

use crate::layout::store;
use crate::request::{Field, Request};
use crate::table::{accept, Meaning};

/// How many bytes the requests that are tried and their answers may have in all. It bounds the
/// time by something that does not depend on the machine.
const MOST_BYTES: usize = 150_000_000;

/// Whether two programs differ on a request, and how many bytes were exchanged to see that.
pub type Differs<'a> = Box<dyn FnMut(&Request) -> (bool, usize) + 'a>;

struct Shrinker<'a> {
    differs: Differs<'a>,
    best: Request,
    exchanged: usize,
}

/// The smallest request that is found, beginning with one that differs.
pub fn shrink(request: Request, differs: Differs) -> Request {
    let mut shrinker = Shrinker {
        differs,
        best: request,
        exchanged: 0,
    };
    loop {
        let before = shrinker.best.clone();
        for field in 0..before.fields.len() {
            shrinker.reduce_table(field);
            shrinker.drop_lines(field);
            shrinker.shorten(field);
            shrinker.simplify(field);
        }
        shrinker.shorten_run();
        if shrinker.best == before || shrinker.spent() {
            return shrinker.best;
        }
    }
}

impl Shrinker<'_> {
    /// Whether nothing more may be tried.
    fn spent(&self) -> bool {
        self.exchanged > MOST_BYTES
    }

    /// Takes a field with another value where the request still differs.
    fn offer(&mut self, field: usize, value: Field) -> bool {
        let mut request = self.best.clone();
        request.fields[field] = value;
        self.offer_whole(request)
    }

    /// Takes another request where it still differs.
    fn offer_whole(&mut self, request: Request) -> bool {
        if self.spent() || self.best == request {
            return false;
        }
        let (taken, bytes) = (self.differs)(&request);
        self.exchanged += bytes;
        if taken {
            self.best = request;
        }
        taken
    }

    /// Leaves out items, levels and weights of a table that is accepted, as its numbers depend
    /// on each other.
    fn reduce_table(&mut self, field: usize) {
        let mut at = 0;
        while let Some(smaller) = meaning_of(&self.best.fields[field]).and_then(|m| reduced(m, at))
        {
            if self.spent() {
                return;
            }
            if !self.offer(field, Field::Numbers(store(&smaller))) {
                at += 1;
            }
        }
    }

    /// Leaves out whole lines of a text, many first.
    fn drop_lines(&mut self, field: usize) {
        let mut stretch = lines_of(&self.best.fields[field]).len();
        while stretch > 0 {
            let mut at = 0;
            loop {
                let mut lines = lines_of(&self.best.fields[field]);
                if at >= lines.len() || self.spent() {
                    break;
                }
                let end = (at + stretch).min(lines.len());
                lines.drain(at..end);
                if !self.offer(field, Field::Bytes(lines.concat())) {
                    at += stretch;
                }
            }
            stretch /= 2;
        }
    }

    /// Leaves out stretches of an array, long ones first.
    fn shorten(&mut self, field: usize) {
        let mut stretch = length(&self.best.fields[field]);
        while stretch > 0 {
            let mut at = 0;
            while at < length(&self.best.fields[field]) && !self.spent() {
                let shorter = without(&self.best.fields[field], at, stretch);
                if !self.offer(field, shorter) {
                    at += stretch;
                }
            }
            stretch /= 2;
        }
    }

    /// Leaves out stretches of a page's run, long ones first, and moves headings and topics along.
    fn shorten_run(&mut self) {
        let mut stretch = run_of(&self.best).map_or(0, |run| run.len());
        while stretch > 0 {
            let mut at = 0;
            while at < run_of(&self.best).map_or(0, |run| run.len()) && !self.spent() {
                if !self.offer_whole(without_stretch(&self.best, at, stretch)) {
                    at += stretch;
                }
            }
            stretch /= 2;
        }
    }

    /// Puts simpler numbers in the place of others.
    fn simplify(&mut self, field: usize) {
        match self.best.fields[field].clone() {
            Field::Number(number) => {
                for simpler in [0, number / 2, number.saturating_sub(1)] {
                    if simpler < number && self.offer(field, Field::Number(simpler)) {
                        return;
                    }
                }
            }
            Field::Numbers(numbers) => {
                for at in 0..numbers.len() {
                    if self.spent() {
                        return;
                    }
                    for simpler in [0, 1, 97] {
                        if simpler < numbers[at] {
                            if let Field::Numbers(mut now) = self.best.fields[field].clone() {
                                now[at] = simpler;
                                if self.offer(field, Field::Numbers(now)) {
                                    break;
                                }
                            }
                        }
                    }
                }
            }
            Field::Places(numbers) => {
                for at in 0..numbers.len() {
                    for simpler in [0, 1, numbers[at] / 2, numbers[at].saturating_sub(1)] {
                        if simpler < numbers[at] {
                            if let Field::Places(mut now) = self.best.fields[field].clone() {
                                now[at] = simpler;
                                if self.offer(field, Field::Places(now)) {
                                    break;
                                }
                            }
                        }
                    }
                }
            }
            Field::Bytes(bytes) => {
                for at in 0..bytes.len() {
                    if self.spent() {
                        return;
                    }
                    for simpler in [b' ', b'A', b'a'] {
                        if let Field::Bytes(mut now) = self.best.fields[field].clone() {
                            if [b' ', b'A', b'a', b'\n'].contains(&now[at]) {
                                break;
                            }
                            now[at] = simpler;
                            if self.offer(field, Field::Bytes(now)) {
                                break;
                            }
                        }
                    }
                }
            }
        }
    }
}

fn meaning_of(field: &Field) -> Option<Meaning> {
    match field {
        Field::Numbers(numbers) => accept(numbers).ok(),
        _ => None,
    }
}

/// A meaning with less in it, one for each number `at` below a limit: without an item, a level,
/// or the last weight of an item at a level.
fn reduced(mut meaning: Meaning, at: usize) -> Option<Meaning> {
    let (items, levels) = (meaning.items.len(), meaning.rules.len());
    if at < items {
        meaning.items.remove(at);
    } else if at < items + levels {
        let level = at - items;
        meaning.rules.remove(level);
        for item in &mut meaning.items {
            item.weights.remove(level);
        }
    } else {
        let weights = at - items - levels;
        let item = meaning.items.get_mut(weights / levels)?;
        item.weights[weights % levels].pop();
    }
    Some(meaning)
}

/// The lines of a text, each with its LF; none of another field.
fn lines_of(field: &Field) -> Vec<Vec<u8>> {
    match field {
        Field::Bytes(bytes) => bytes
            .split_inclusive(|&byte| byte == b'\n')
            .map(|line| line.to_vec())
            .collect(),
        _ => Vec::new(),
    }
}

/// The run of a page.
fn run_of(request: &Request) -> Option<&Vec<u32>> {
    match &request.fields[..] {
        [_, Field::Numbers(run), Field::Places(_), Field::Places(_), _] => Some(run),
        _ => None,
    }
}

/// A page without a stretch of its run: what stood in it is gone, what stood behind it moves.
fn without_stretch(request: &Request, at: usize, stretch: usize) -> Request {
    let mut smaller = request.clone();
    smaller.fields[1] = without(&request.fields[1], at, stretch);
    let (at, end) = (at as u64, at as u64 + stretch as u64);
    let moved = |place: u64| match place {
        _ if place >= end => place - (end - at),
        _ => place.min(at),
    };
    for field in &mut smaller.fields[2..4] {
        if let Field::Places(numbers) = field {
            for place in numbers.chunks_exact_mut(2) {
                // One that reaches outside the run goes on to do so.
                let past = place[0].saturating_add(place[1]);
                place[0] = moved(place[0]);
                place[1] = moved(past) - place[0];
            }
        }
    }
    smaller
}

/// How many parts a field has that can be left out: a start goes with its length.
fn length(field: &Field) -> usize {
    match field {
        Field::Number(_) => 0,
        Field::Numbers(numbers) => numbers.len(),
        Field::Places(numbers) => numbers.len().div_ceil(2),
        Field::Bytes(bytes) => bytes.len(),
    }
}

/// A field without the stretch that begins at `at`.
fn without(field: &Field, at: usize, stretch: usize) -> Field {
    fn cut<T: Clone>(list: &[T], at: usize, stretch: usize) -> Vec<T> {
        let end = (at + stretch).min(list.len());
        [&list[..at], &list[end..]].concat()
    }
    match field {
        Field::Number(number) => Field::Number(*number),
        Field::Numbers(numbers) => Field::Numbers(cut(numbers, at, stretch)),
        Field::Places(numbers) => Field::Places(cut(numbers, 2 * at, 2 * stretch)),
        Field::Bytes(bytes) => Field::Bytes(cut(bytes, at, stretch)),
    }
}
