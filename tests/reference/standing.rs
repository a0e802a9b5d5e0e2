// The order lines that stand: those of the order, and the blocks that move them (01, "Inside
// LC_COLLATE"; 02, K1).

use std::collections::{BTreeMap, BTreeSet};

/// What an order line stands for and a weight names.
#[derive(Clone, PartialEq, Eq, PartialOrd, Ord)]
pub enum Subject {
    Character(u32),
    /// A declared symbol or element, by its name.
    Declared(Vec<u8>),
    Undefined,
}

pub enum Weight {
    /// "Empty or missing at the end means the line itself."
    Itself,
    /// The lines named; none for IGNORE, "IGNORE gives no weight".
    Lines(Vec<Subject>),
}

/// An order line that is used.
pub struct OrderLine {
    /// The physical line where it begins.
    pub number: usize,
    pub subject: Subject,
    pub weights: Vec<Weight>,
}

/// A block that is open: `reorder-after <name>` and the order lines so far.
pub struct Block {
    named: Subject,
    written: BTreeSet<Subject>,
    /// The subject of the line behind which the next one comes to stand.
    last: Subject,
}

impl Block {
    pub fn after(named: Subject) -> Block {
        Block {
            last: named.clone(),
            named,
            written: BTreeSet::new(),
        }
    }

    /// "5 for an item or symbol twice in one block, or a block that moves its own named line."
    pub fn forbids(&self, subject: &Subject) -> bool {
        self.named == *subject || self.written.contains(subject)
    }
}

/// The lines that stand, in the order of their ranks: the first has rank 1.
pub struct Standing {
    pub lines: Vec<OrderLine>,
    subjects: BTreeSet<Subject>,
}

impl Standing {
    pub fn new() -> Standing {
        Standing {
            lines: Vec::new(),
            subjects: BTreeSet::new(),
        }
    }

    /// Whether a subject has a line now.
    pub fn has(&self, subject: &Subject) -> bool {
        self.subjects.contains(subject)
    }

    /// How many lines stand when a subject has been given its line. "An item or symbol that
    /// already had a line leaves its old place", and its new line is not one more.
    pub fn count_with(&self, subject: &Subject) -> usize {
        self.lines.len() + usize::from(!self.has(subject))
    }

    /// A line of the order: it stands behind all others.
    pub fn append(&mut self, line: OrderLine) {
        self.subjects.insert(line.subject.clone());
        self.lines.push(line);
    }

    /// A line of a block: "the lines come to stand directly after the named line, in their
    /// written order".
    pub fn put(&mut self, line: OrderLine, block: &mut Block) {
        if let Some(old) = self.place_of(&line.subject) {
            self.lines.remove(old);
        }
        let before = self.place_of(&block.last).expect("the line stands");
        self.subjects.insert(line.subject.clone());
        block.written.insert(line.subject.clone());
        block.last = line.subject.clone();
        self.lines.insert(before + 1, line);
    }

    fn place_of(&self, subject: &Subject) -> Option<usize> {
        self.lines.iter().position(|line| line.subject == *subject)
    }

    /// "A rank is the place after all blocks", from 1.
    pub fn ranks(&self) -> BTreeMap<&Subject, u32> {
        (1..)
            .zip(&self.lines)
            .map(|(rank, line)| (&line.subject, rank))
            .collect()
    }

    /// The physical line of a line with a weight whose name has no line, if there is any: of
    /// several the one that was written first.
    pub fn first_unranked(&self) -> Option<usize> {
        let unranked = |line: &&OrderLine| {
            line.weights.iter().any(|weight| match weight {
                Weight::Itself => false,
                Weight::Lines(subjects) => subjects.iter().any(|subject| !self.has(subject)),
            })
        };
        let unranked = self.lines.iter().filter(unranked);
        unranked.map(|line| line.number).min()
    }
}
