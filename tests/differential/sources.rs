// Locale sources: good ones, and good ones that are then damaged.

use crate::random::Random;
use crate::strange::*;
use crate::text::*;

/// Characters that sources list and strings hold.
#[rustfmt::skip]
pub const CHARACTERS: &[u32] = &[
    0x61, 0x62, 0x63, 0x64, 0x68, 0x6C, 0x41, 0x42, 0x2D, 0x00, 0xE9, 0x3B1, 0xD7FF, 0xE000,
    0xFFFF, 0x1F600, 0x10FFFF,
];

/// The characters of elements, which begin alike so that the longest must be found.
#[rustfmt::skip]
pub const ELEMENTS: &[&[u32]] = &[
    &[0x63, 0x68],
    &[0x6C, 0x6C],
    &[0x61, 0x61],
    &[0x61, 0x62],
    &[0x61, 0x62, 0x63],
    &[0x61, 0x62, 0x63, 0x64],
    &[0x61, 0x61, 0x61, 0x61],
    &[0x62, 0x2D],
    &[0x1F600, 0x61, 0x10FFFF],
];

/// Names that symbols and elements are given.
#[rustfmt::skip]
const NAMES: &[&[u8]] = &[
    b"LOW", b"CAP", b"a", b"ch", b"ll", b"b>", b"x\"y", b"#1", b"%2", b"<z", b"back\\slash",
    b"U061", b"U00061", b"u0061", b"U006a", b"UNDEFINED", b"IGNORE", b"a;b,c", b"/",
    b"ABCDEFGHIJKLMNOPQRSTUVWXYZ012345",
];

#[rustfmt::skip]
const TOGGLES: &[&[u8]] =
    &[b"A", b"B", b"C", b"LONG_TOGGLE_1", b"_", b"0", b"ABCDEFGHIJKLMNOPQRSTUVWXYZ012345"];

/// What a planned source takes its names, characters and toggles from, and how it is written.
pub struct Pool {
    pub names: Vec<Vec<u8>>,
    /// Names that may stand nowhere, or that nothing declares.
    pub wrong_names: Vec<Vec<u8>>,
    /// The characters of elements.
    pub elements: Vec<Vec<u32>>,
    pub characters: Vec<u32>,
    /// At most as many toggles as a source may have.
    pub toggles: Vec<Vec<u8>>,
    pub wrong_toggles: Vec<Vec<u8>>,
    /// How many names are declared before the order, and characters listed: fewer than these.
    pub declared: usize,
    pub listed: usize,
    pub joins: Joins,
    /// How many of a hundred bytes in names are escaped.
    pub escapes: usize,
    /// How often a sign is chosen, of a hundred times.
    pub signs: usize,
}

/// A few of each, most of them plain.
pub fn plain_pool() -> Pool {
    Pool {
        names: NAMES.iter().map(|name| name.to_vec()).collect(),
        wrong_names: NAMES.iter().map(|name| name.to_vec()).collect(),
        elements: ELEMENTS.iter().map(|element| element.to_vec()).collect(),
        characters: CHARACTERS.to_vec(),
        toggles: TOGGLES.iter().map(|toggle| toggle.to_vec()).collect(),
        wrong_toggles: vec![b"T-".to_vec()],
        declared: 6,
        listed: 9,
        joins: FEW_JOINS,
        escapes: 1,
        signs: 20,
    }
}

/// What an order line stands for in a planned source.
#[derive(Clone, PartialEq)]
enum Subject {
    Character(u32),
    Symbol(Vec<u8>),
    Element(Vec<u8>),
    Undefined,
}

/// The subjects of a source, as they stand after the lines that are written.
#[derive(Default)]
struct Subjects {
    /// Those that have an order line.
    listed: Vec<Subject>,
    /// Those that have none.
    spare: Vec<Subject>,
    /// Those that a block must still list: weights name them, or the line that they have is to
    /// go, as it has a weight that nothing lists.
    due: Vec<Subject>,
}

struct Writer<'a> {
    random: &'a mut Random,
    pool: &'a Pool,
    signs: Signs,
    lines: Vec<Vec<u8>>,
    defined: Vec<Vec<u8>>,
    /// Whether names and numbers may be wrong, on lines that are well formed.
    careless: bool,
    /// Whether weights may name what has no line.
    loose: bool,
}

/// A source without a fault, which is almost always accepted.
pub fn good_source(pool: &Pool, random: &mut Random) -> Vec<u8> {
    let (lines, _) = planned_lines(pool, false, false, random);
    joined(&lines, random)
}

/// A source of well-formed lines whose names and numbers may be wrong, or which is good but for
/// weights that name what has no line.
pub fn careless_source(pool: &Pool, random: &mut Random) -> Vec<u8> {
    let loose = random.chance(25);
    let (lines, _) = planned_lines(pool, !loose, loose, random);
    joined(&lines, random)
}

/// A source with so many faults, which need not all be seen.
pub fn damaged_source(pool: &Pool, faults: usize, random: &mut Random) -> Vec<u8> {
    let (mut lines, signs) = planned_lines(pool, false, false, random);
    let to_lines = random.below(faults + 1);
    for _ in 0..to_lines {
        if random.chance(30) {
            damage_lines(&mut lines, random);
        } else {
            put_strange_line(&mut lines, signs, random);
        }
    }
    let mut text = joined(&lines, random);
    for _ in to_lines..faults {
        damage_bytes(&mut text, random);
    }
    text
}

/// Puts a strange line into its part of a source, or anywhere.
fn put_strange_line(lines: &mut Vec<Vec<u8>>, signs: Signs, random: &mut Random) {
    let place_of = |word: &[u8]| {
        let holds = |line: &Vec<u8>| line.windows(word.len()).any(|part| part == word);
        lines.iter().position(holds).unwrap_or(0)
    };
    let collate = place_of(b"LC_COLLATE");
    let (start, end) = (place_of(b"order_start"), place_of(b"order_end"));
    let last_end = lines
        .iter()
        .rposition(|line| line.starts_with(b"END"))
        .unwrap_or(0);
    let collate_end = place_of(b"END LC_COLLATE");
    let (strange, from, to) = match random.below(5) {
        0 if random.chance(70) => (STRANGE_OUTSIDE, 0, collate),
        0 => (STRANGE_OUTSIDE, last_end + 1, lines.len()),
        1 => (STRANGE_BEFORE, collate + 1, start),
        2 => (STRANGE_IN_ORDER, start + 1, end),
        3 => (STRANGE_IN_BLOCKS, end + 1, collate_end),
        _ => (STRANGE_ANYWHERE, collate + 1, lines.len()),
    };
    let (from, to) = if from > to || random.chance(20) {
        (0, lines.len())
    } else {
        (from, to)
    };
    let at = random.within(from, to);
    let line = with_signs(random.pick(strange), signs);
    lines.insert(at, line);
}

/// A source of nothing but strange lines.
pub fn hostile_source(random: &mut Random) -> Vec<u8> {
    let mut lines: Vec<Vec<u8>> = Vec::new();
    for strange in [
        STRANGE_OUTSIDE,
        STRANGE_BEFORE,
        STRANGE_IN_ORDER,
        STRANGE_IN_BLOCKS,
        STRANGE_ANYWHERE,
    ] {
        if random.chance(40) {
            lines.push(random.pick(strange).to_vec());
        }
        if random.chance(50) {
            lines.push(
                random
                    .pick(&[
                        &b"LC_COLLATE"[..],
                        b"order_start position;backward",
                        b"order_end",
                    ])
                    .to_vec(),
            );
        }
    }
    joined(&lines, random)
}

fn planned_lines(
    pool: &Pool,
    careless: bool,
    loose: bool,
    random: &mut Random,
) -> (Vec<Vec<u8>>, Signs) {
    let (lines, defined) = (Vec::new(), Vec::new());
    let mut writer = Writer {
        random,
        pool,
        signs: DEFAULT_SIGNS,
        lines,
        defined,
        careless,
        loose,
    };
    writer.sign_lines();
    writer.other_categories();
    writer.add(b"LC_COLLATE");
    writer.collate();
    writer.add(b"END LC_COLLATE");
    writer.other_categories();
    (writer.lines, writer.signs)
}

impl Writer<'_> {
    /// Whether to make a mistake here.
    fn errs(&mut self) -> bool {
        self.careless && self.random.chance(2)
    }

    /// Adds a line, with what may stand around it.
    fn add(&mut self, line: &[u8]) {
        if self.random.chance(5) {
            let idle = idle_line(self.signs, self.random);
            self.lines.push(idle);
        }
        let line = dressed(line, self.signs, self.pool.joins, self.random);
        self.lines.push(line);
    }

    fn sign_lines(&mut self) {
        let comment_first = self.random.chance(50);
        for comment in [comment_first, !comment_first] {
            if !self.random.chance(self.pool.signs) {
                continue;
            }
            let c = self.random.pick(GOOD_SIGNS);
            let other = if comment {
                self.signs.escape
            } else {
                self.signs.comment
            };
            if c == other {
                continue;
            }
            let keyword: &[u8] = if comment {
                b"comment_char"
            } else {
                b"escape_char"
            };
            let line = [keyword, blanks(self.random), &[c]].concat();
            let line = dressed(&line, self.signs, NO_JOINS, self.random);
            self.lines.push(line);
            if comment {
                self.signs.comment = c;
            } else {
                self.signs.escape = c;
            }
        }
    }

    fn other_categories(&mut self) {
        while self.random.chance(12) {
            let name: &[u8] = self.random.pick(&[
                &b"LC_CTYPE"[..],
                b"LC_A",
                b"LC__",
                b"LC_ABCDEFGHIJKLMNOPQRSTUVWXYZABC",
            ]);
            self.add(name);
            for _ in 0..self.random.below(3) {
                let line = self.passed_line();
                // A line that ends with an escape is given one to join.
                self.lines.push(line);
                self.lines.push(Vec::new());
            }
            let end = [b"END", blanks(self.random), name].concat();
            self.add(&end);
        }
    }

    /// A line that is passed over.
    fn passed_line(&mut self) -> Vec<u8> {
        if self.random.chance(25) {
            return stretch(self.random);
        }
        with_signs(self.random.pick(PASSED), self.signs)
    }

    /// The lines between LC_COLLATE and its END.
    fn collate(&mut self) {
        let mut names = self.pool.names.clone();
        let mut elements = self.pool.elements.clone();
        let mut declared: Vec<Subject> = Vec::new();
        let mut declarations: Vec<Vec<u8>> = Vec::new();
        for _ in 0..self.random.below(self.pool.declared) {
            let (line, subject) = self.declaration(&mut names, &mut elements);
            declarations.push(line);
            declared.push(subject);
        }
        self.block(&declarations, 0);
        let levels = self.order_start();
        let tailored = self.random.chance(50);
        let (orders, subjects) = self.order_lines(declared, levels, tailored);
        self.block(&orders, 0);
        self.add(b"order_end");
        let behind = if tailored {
            self.blocks(names, elements, subjects, levels)
        } else {
            Vec::new()
        };
        self.block(&behind, 0);
    }

    /// A declaration, with one of the names and, if it is an element's, one of the elements.
    fn declaration(
        &mut self,
        names: &mut Vec<Vec<u8>>,
        elements: &mut Vec<Vec<u32>>,
    ) -> (Vec<u8>, Subject) {
        let taken = self.random.below(names.len());
        let mut name = names[taken].clone();
        if self.errs() {
            name = self.random.pick(&self.pool.wrong_names);
        }
        if !self.errs() {
            names.remove(taken);
        }
        let text = self.angled(&name);
        if self.random.chance(50) || elements.is_empty() {
            let line = [b"collating-symbol", blanks(self.random), &text].concat();
            return (line, Subject::Symbol(name));
        }
        let taken = self.random.below(elements.len());
        let characters = elements[taken].clone();
        if !self.errs() {
            elements.remove(taken);
        }
        let mut line = [b"collating-element", blanks(self.random), &text].concat();
        line.extend(blanks(self.random));
        line.extend(b"from");
        line.extend(blanks(self.random));
        line.extend(self.quoted_characters(&characters));
        (line, Subject::Element(name))
    }

    fn angled(&mut self, name: &[u8]) -> Vec<u8> {
        angled(name, self.signs, self.pool.escapes, self.random)
    }

    fn quoted_characters(&mut self, characters: &[u32]) -> Vec<u8> {
        let mut text = vec![b'"'];
        for &code in characters {
            text.extend(self.character(code));
            while self.errs() {
                text.extend(self.character(code));
            }
        }
        text.push(b'"');
        text
    }

    fn character(&mut self, code: u32) -> Vec<u8> {
        let code = if self.errs() {
            self.random.pick(&[0xD800, 0x110000])
        } else {
            code
        };
        let name = character_name(code, self.random);
        self.angled(&name)
    }

    /// The line order_start. Answers the number of levels.
    fn order_start(&mut self) -> usize {
        let levels = match self.random.below(10) {
            0 => 0,
            1 => self.random.within(5, 8),
            _ if self.errs() => self.random.within(9, 12),
            _ => self.random.within(1, 4),
        };
        let mut line = b"order_start".to_vec();
        for level in 0..levels {
            line.extend(if level == 0 {
                blanks(self.random)
            } else {
                maybe_blanks(self.random)
            });
            if level > 0 {
                line.push(b';');
                line.extend(maybe_blanks(self.random));
            }
            let rule: &[u8] = self.random.pick(&[
                &b"forward"[..],
                b"forward",
                b"backward",
                b"position",
                b"forward,position",
                b"position,forward",
                b"backward,position",
                b"position , backward",
            ]);
            line.extend(rule);
            if self.errs() {
                let more: &[u8] = self
                    .random
                    .pick(&[&b",forward"[..], b",position", b",", b"x"]);
                line.extend(more);
            }
        }
        self.add(&line);
        levels.max(1)
    }

    /// Order lines for the declared subjects, some characters, and sometimes UNDEFINED, in any
    /// order. Their weights name each other, and where blocks follow also what those list.
    fn order_lines(
        &mut self,
        declared: Vec<Subject>,
        levels: usize,
        tailored: bool,
    ) -> (Vec<Vec<u8>>, Subjects) {
        let mut subjects = Subjects::default();
        let mut pool = declared;
        if self.random.chance(40) {
            pool.push(Subject::Undefined);
        } else {
            subjects.spare.push(Subject::Undefined);
        }
        let mut characters = self.pool.characters.clone();
        for _ in 0..self.random.below(self.pool.listed) {
            // The first characters stand in the elements, so they are taken more often.
            let most = if self.random.chance(70) {
                characters.len().min(6)
            } else {
                characters.len()
            };
            pool.push(Subject::Character(
                characters.remove(self.random.below(most)),
            ));
        }
        while !pool.is_empty() {
            let subject = pool.remove(self.random.below(pool.len()));
            if self.errs() {
                subjects.listed.push(subject.clone());
            }
            if self.random.chance(4) {
                subjects.spare.push(subject);
            } else if tailored && !subjects.listed.is_empty() && self.random.chance(10) {
                subjects.due.push(subject);
            } else {
                subjects.listed.push(subject);
            }
        }
        let rest = characters.into_iter().map(Subject::Character);
        let named = [&subjects.listed[..], &subjects.due[..]].concat();
        let mut lines: Vec<Vec<u8>> = Vec::new();
        for subject in &subjects.listed {
            // Of the lines that a block is to take out, some name what has no line. The first
            // one stays, for the blocks to stand after.
            let goes = tailored && !lines.is_empty() && self.random.chance(6);
            let weights = if goes || self.loose && self.random.chance(20) {
                rest.clone().collect()
            } else {
                named.clone()
            };
            let line = self.order_line(subject, levels, &weights);
            // A line that is left out may still be named by a weight.
            if !self.errs() {
                lines.push(line);
            }
            if goes {
                subjects.due.push(subject.clone());
            }
        }
        subjects.spare.extend(rest);
        (lines, subjects)
    }

    /// An order line, with weights that name some of these.
    fn order_line(&mut self, subject: &Subject, levels: usize, named: &[Subject]) -> Vec<u8> {
        let mut line = self.subject_text(subject);
        if !matches!(subject, Subject::Symbol(_)) || self.errs() {
            let more = usize::from(self.errs());
            let operands = self.random.below(levels + 1) + more;
            for operand in 0..operands {
                if operand == 0 {
                    line.extend(blanks(self.random));
                } else {
                    line.extend(maybe_blanks(self.random));
                    line.push(b';');
                    line.extend(maybe_blanks(self.random));
                }
                line.extend(self.weight(named));
            }
        }
        line
    }

    /// Blocks behind the order, with declarations between them. At their end every subject that
    /// must have a line has one.
    fn blocks(
        &mut self,
        mut names: Vec<Vec<u8>>,
        mut elements: Vec<Vec<u32>>,
        mut subjects: Subjects,
        levels: usize,
    ) -> Vec<Vec<u8>> {
        let mut lines: Vec<Vec<u8>> = Vec::new();
        let count = self.random.below(4);
        for block in (0..=count).rev() {
            while self.random.chance(20) && names.len() > self.pool.names.len() / 2 {
                let (line, subject) = self.declaration(&mut names, &mut elements);
                lines.push(line);
                subjects.spare.push(subject);
            }
            let declared = lines.len();
            lines.extend(self.one_block(&mut subjects, levels, block == 0));
            // Another `reorder-after` ends the open block too.
            while self.random.chance(25) {
                lines.extend(self.one_block(&mut subjects, levels, block == 0));
            }
            if lines.len() > declared && !self.errs() {
                lines.push(b"reorder-end".to_vec());
            }
        }
        lines
    }

    /// `reorder-after` and order lines: of what has a line, what has none, and in the last block
    /// all that must have one.
    fn one_block(&mut self, subjects: &mut Subjects, levels: usize, last: bool) -> Vec<Vec<u8>> {
        let mut pool = subjects.listed.clone();
        if self.errs() {
            pool = subjects.spare.clone();
        }
        // A line that must go, and one that is to come, are not named here.
        pool.retain(|subject| {
            !matches!(subject, Subject::Undefined) && !subjects.due.contains(subject)
        });
        if pool.is_empty() {
            return Vec::new();
        }
        let named = self.random.pick(&pool);
        let text = self.subject_text(&named);
        let mut lines = vec![[b"reorder-after", blanks(self.random), &text].concat()];
        let mut written: Vec<Subject> = Vec::new();
        // Some that must have a line get none, and weights name what has none.
        let slips = self.careless && self.random.chance(15) || self.loose && self.random.chance(50);
        if last && !slips {
            written.append(&mut subjects.due);
        }
        for _ in 0..self.random.below(5) {
            let from = match self.random.below(10) {
                0..=5 => &subjects.listed,
                6 | 7 if !subjects.due.is_empty() => &subjects.due,
                _ => &subjects.spare,
            };
            if !from.is_empty() {
                let subject = self.random.pick(from);
                if !written.contains(&subject) && subject != named {
                    let at = self.random.below(written.len() + 1);
                    written.insert(at, subject);
                }
            }
        }
        // Careless, one line stands twice, or the named one too.
        if self.careless && self.random.chance(8) {
            let mut again = written.clone();
            again.push(named.clone());
            let at = self.random.below(written.len() + 1);
            written.insert(at, self.random.pick(&again));
        }
        for subject in &written {
            for list in [&mut subjects.listed, &mut subjects.spare, &mut subjects.due] {
                list.retain(|other| other != subject);
            }
            subjects.listed.push(subject.clone());
        }
        let mut named = [&subjects.listed[..], &subjects.due[..]].concat();
        if slips {
            named.extend(subjects.spare.clone());
        }
        for subject in &written {
            lines.push(self.order_line(subject, levels, &named));
        }
        lines
    }

    fn weight(&mut self, subjects: &[Subject]) -> Vec<u8> {
        let named: Vec<&Subject> = subjects
            .iter()
            .filter(|subject| !matches!(subject, Subject::Undefined))
            .collect();
        match self.random.below(10) {
            0 | 1 => b"IGNORE".to_vec(),
            2 => Vec::new(),
            3..=6 if !named.is_empty() => {
                let subject = self.random.pick(&named);
                self.subject_text(subject)
            }
            _ if !named.is_empty() => {
                let most = match self.random.below(10) {
                    0..=6 => 3,
                    _ if self.errs() => 12,
                    _ => 8,
                };
                let mut text = vec![b'"'];
                for _ in 0..self.random.within(1, most) {
                    let subject = self.random.pick(&named);
                    text.extend(self.subject_text(subject));
                }
                text.push(b'"');
                text
            }
            _ => Vec::new(),
        }
    }

    fn subject_text(&mut self, subject: &Subject) -> Vec<u8> {
        match subject {
            Subject::Character(code) => self.character(*code),
            Subject::Symbol(name) | Subject::Element(name) => {
                let name = if self.errs() {
                    self.random.pick(&self.pool.wrong_names)
                } else {
                    name.clone()
                };
                self.angled(&name)
            }
            Subject::Undefined => b"UNDEFINED".to_vec(),
        }
    }

    /// Lines, some of them in the used branches of conditional chains.
    fn block(&mut self, lines: &[Vec<u8>], depth: usize) {
        let mut rest = lines;
        loop {
            if self.random.chance(12) {
                self.toggle_line();
            }
            if depth < 8 && self.random.chance(if depth == 0 { 12 } else { 30 }) {
                let taken = self.random.below(rest.len() + 1);
                let (here, later) = rest.split_at(taken);
                self.chain(here, depth + 1);
                rest = later;
            }
            match rest.split_first() {
                Some((line, later)) => {
                    self.add(line);
                    rest = later;
                }
                None => return,
            }
        }
    }

    fn toggle_line(&mut self) {
        if self.errs() {
            let more = self.random.within(5, 14);
            (0..more).for_each(|k| self.conditional("undef", format!("T{}", k).as_bytes()));
        }
        let mut toggle = self.random.pick(&self.pool.toggles);
        if self.errs() {
            toggle = self.random.pick(&self.pool.wrong_toggles);
        }
        let define = self.random.chance(60);
        let keyword = if define { "define" } else { "undef" };
        self.conditional(keyword, &toggle);
        self.defined.retain(|other| *other != toggle);
        if define {
            self.defined.push(toggle);
        }
    }

    fn conditional(&mut self, keyword: &str, toggle: &[u8]) {
        let line = [keyword.as_bytes(), blanks(self.random), toggle].concat();
        self.add(&line);
    }

    /// A chain whose used branch, if it has one, holds the lines; else they follow it.
    fn chain(&mut self, lines: &[Vec<u8>], depth: usize) {
        let mut used = false;
        for branch in 0..self.random.within(1, 3) {
            let toggle = self.random.pick(&self.pool.toggles);
            let keyword = match branch {
                0 => self.random.pick(&["ifdef", "ifndef"]),
                _ => "elif",
            };
            let holds = self.defined.contains(&toggle) == (keyword != "ifndef");
            self.conditional(keyword, &toggle);
            self.branch(lines, holds && !used, depth);
            used = used || holds;
        }
        if self.random.chance(50) {
            self.add(b"else");
            self.branch(lines, !used, depth);
            used = true;
        }
        self.add(b"endif");
        if !used {
            self.block(lines, 8);
        }
    }

    fn branch(&mut self, lines: &[Vec<u8>], in_use: bool, depth: usize) {
        if in_use {
            self.block(lines, depth);
            return;
        }
        for _ in 0..self.random.below(3) {
            // Deep inside, a chain in an unused branch would be one too many.
            let line = self.passed_line();
            if depth <= 6 || !line.windows(2).any(|two| two == b"if") {
                self.lines.push(line);
                self.lines.push(Vec::new());
            }
        }
    }
}
