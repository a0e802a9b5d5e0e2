// Locale sources: compiling an LC_COLLATE source to a table (01, "Reading lines" and "Inside
// LC_COLLATE"; 02, K1).

use crate::conditionals::{is_conditional, Conditionals};
use crate::layout::store;
use crate::lines::{
    count_of_lfs, is_text, passed_words, read_line, Looking, Mark, Signs, DEFAULT_SIGNS,
};
use crate::names::{character, shaped_code};
use crate::refusals::{without_line, Grounds, Refused};
use crate::signs::is_sign;
use crate::standing::{Block, OrderLine, Standing, Subject, Weight};
use crate::table::{Item, Meaning, Rule, UNDEFINED};
use crate::tokens::{is_word, operands, split, tokens, Token};
use std::collections::BTreeMap;

pub const MOST_BYTES: usize = 1_048_576;
const LONGEST_NAME: usize = 32;
const MOST_LEVELS: usize = 8;
const MOST_WEIGHTS: usize = 8;
const MOST_LINES: usize = 32_767;

/// Compiles a source, with an area of `area` numbers and a work area of `work` numbers.
pub fn compile(source: &[u8], area: usize, work: usize) -> Result<Vec<u32>, Refused> {
    if source.len() > MOST_BYTES || work < source.len() + 64 {
        return Err(without_line(1));
    }
    let mut reader = Reader::new();
    reader.read(source)?;
    let table = store(&reader.meaning()?);
    if table.len() > area {
        return Err(without_line(9));
    }
    Ok(table)
}

/// Where in the source the reader is.
enum Place {
    Outside,
    /// In another category, by its name.
    Other(Vec<u8>),
    Collate,
}

/// Where in LC_COLLATE the reader is.
enum Phase {
    BeforeOrder,
    InOrder,
    AfterOrder,
    /// Between `reorder-after` and what ends its block.
    InBlock(Block),
}

struct Reader {
    signs: Signs,
    comment_char_stood: bool,
    escape_char_stood: bool,
    category_stood: bool,
    collate_stood: bool,
    place: Place,
    phase: Phase,
    conditionals: Conditionals,
    /// The declared names, with the characters of an element, and none for a symbol.
    declared: BTreeMap<Vec<u8>, Vec<u32>>,
    rules: Vec<Rule>,
    standing: Standing,
}

impl Reader {
    fn new() -> Reader {
        Reader {
            signs: DEFAULT_SIGNS,
            comment_char_stood: false,
            escape_char_stood: false,
            category_stood: false,
            collate_stood: false,
            place: Place::Outside,
            phase: Phase::BeforeOrder,
            conditionals: Conditionals::new(),
            declared: BTreeMap::new(),
            rules: Vec::new(),
            standing: Standing::new(),
        }
    }

    /// Reads all lines in order, and then sees that nothing is missing.
    fn read(&mut self, source: &[u8]) -> Result<(), Refused> {
        let mut at = 0;
        let mut number = 1;
        while at < source.len() {
            let looking = match self.place {
                Place::Outside => Looking::ForSignLines,
                Place::Other(_) | Place::Collate => Looking::ForNothing,
            };
            let line = read_line(source, at, self.signs, looking);
            let judged = self.line(&line.marks, number);
            judged.map_err(|refusal| Refused {
                number: refusal,
                line: number,
            })?;
            number += count_of_lfs(&source[at..line.next]);
            at = line.next;
        }
        let ended = matches!(self.place, Place::Outside);
        if !ended || !self.collate_stood {
            return Err(Refused {
                number: 3,
                line: count_of_lfs(source) + 1,
            });
        }
        Ok(())
    }

    /// One joined line: passed over or read whole.
    fn line(&mut self, marks: &[Mark], number: usize) -> Result<(), u32> {
        if let Place::Other(category) = &self.place {
            if passed_words(marks) == [b"END".to_vec(), category.clone()] {
                self.place = Place::Outside;
            }
            return Ok(());
        }
        if self.conditionals.passing_over() {
            let words = passed_words(marks);
            let opening: &[u8] = words.first().map_or(b"", |word| word);
            if !self.conditionals.pass_over(opening)? {
                return Ok(());
            }
        }
        if !is_text(marks) {
            return Err(2);
        }
        let line = tokens(marks).ok_or(3u32)?;
        if line.is_empty() {
            return Ok(());
        }
        let operands = operands(&line).ok_or(3u32)?;
        match self.place {
            Place::Collate => self.collate_line(&line[0], &operands, number),
            _ => self.outside_line(&line[0], &operands),
        }
    }

    /// A line outside categories.
    fn outside_line(&mut self, first: &Token, operands: &[Token]) -> Result<(), u32> {
        let word = match first {
            Token::Word(word) => word,
            _ => return Err(3),
        };
        if word == b"comment_char" || word == b"escape_char" {
            return self.sign_line(word, operands);
        }
        if !operands.is_empty() || !is_category(word) {
            return Err(3);
        }
        self.category_stood = true;
        if word == b"LC_COLLATE" {
            // "Exactly one LC_COLLATE must stand."
            if self.collate_stood {
                return Err(3);
            }
            self.collate_stood = true;
            self.place = Place::Collate;
        } else {
            self.place = Place::Other(word.clone());
        }
        Ok(())
    }

    /// `comment_char c` or `escape_char c`: each once, before any category.
    fn sign_line(&mut self, keyword: &[u8], operands: &[Token]) -> Result<(), u32> {
        let c = match operands {
            [Token::AsIs(c)] if is_sign(*c) => *c,
            _ => return Err(3),
        };
        let stood = if keyword == b"comment_char" {
            self.signs.comment = c;
            std::mem::replace(&mut self.comment_char_stood, true)
        } else {
            self.signs.escape = c;
            std::mem::replace(&mut self.escape_char_stood, true)
        };
        if stood || self.category_stood || self.signs.comment == self.signs.escape {
            return Err(3);
        }
        Ok(())
    }

    /// A line inside LC_COLLATE that is read whole.
    fn collate_line(
        &mut self,
        first: &Token,
        operands: &[Token],
        number: usize,
    ) -> Result<(), u32> {
        match first {
            Token::Word(word) if is_conditional(word) => self.conditionals.read(word, operands),
            Token::Word(word) if word == b"END" => self.end_line(operands),
            Token::Word(word) if word == b"collating-symbol" => self.symbol_line(operands),
            Token::Word(word) if word == b"collating-element" => self.element_line(operands),
            Token::Word(word) if word == b"order_start" => self.order_start_line(operands),
            Token::Word(word) if word == b"order_end" => self.order_end_line(operands),
            Token::Word(word) if word == b"reorder-after" => self.reorder_after_line(operands),
            Token::Word(word) if word == b"reorder-end" => self.reorder_end_line(operands),
            Token::Word(word) if word == b"UNDEFINED" => self.order_line(None, operands, number),
            Token::Name(name) => self.order_line(Some(name), operands, number),
            _ => Err(3),
        }
    }

    fn end_line(&mut self, operands: &[Token]) -> Result<(), u32> {
        let too_early = !matches!(self.phase, Phase::AfterOrder) || self.conditionals.any_open();
        if !is_word(operands, b"LC_COLLATE") || too_early {
            return Err(3);
        }
        self.place = Place::Outside;
        Ok(())
    }

    /// Before order_start, and between order_end and END outside blocks.
    fn may_declare(&self) -> bool {
        matches!(self.phase, Phase::BeforeOrder | Phase::AfterOrder)
    }

    /// `collating-symbol <name>`.
    fn symbol_line(&mut self, operands: &[Token]) -> Result<(), u32> {
        let name = match operands {
            [Token::Name(name)] if self.may_declare() => name,
            _ => return Err(3),
        };
        let mut grounds = Grounds::new();
        self.judge_declared(name, &mut grounds);
        self.declared.insert(name.clone(), Vec::new());
        grounds.judge()
    }

    /// `collating-element <name> from "<U..><U..>"`, 2 to 4 characters.
    fn element_line(&mut self, operands: &[Token]) -> Result<(), u32> {
        let (name, names) = match operands {
            [Token::Name(name), Token::Word(from), Token::Quoted(names)]
                if from == b"from" && self.may_declare() =>
            {
                (name, names)
            }
            _ => return Err(3),
        };
        let mut grounds = Grounds::new();
        self.judge_declared(name, &mut grounds);
        let codes: Vec<u32> = names.iter().filter_map(|name| character(name)).collect();
        grounds.add_if(codes.len() < names.len(), 6);
        grounds.add_if(names.len() < 2 || names.len() > 4, 7);
        let all_are_characters = codes.len() == names.len();
        let same = self.declared.values().any(|other| *other == codes);
        grounds.add_if(all_are_characters && same, 5);
        self.declared.insert(name.clone(), codes);
        grounds.judge()
    }

    /// The name of a declaration.
    fn judge_declared(&self, name: &[u8], grounds: &mut Grounds) {
        grounds.add_if(self.declared.contains_key(name), 5);
        grounds.add_if(shaped_code(name).is_some(), 5);
        grounds.add_if(name.len() > LONGEST_NAME, 7);
    }

    /// `order_start r;r;..`. "No operand at all means one forward level."
    fn order_start_line(&mut self, operands: &[Token]) -> Result<(), u32> {
        if !matches!(self.phase, Phase::BeforeOrder) {
            return Err(3);
        }
        self.phase = Phase::InOrder;
        if operands.is_empty() {
            self.rules.push(Rule {
                backward: false,
                position: false,
            });
            return Ok(());
        }
        let mut grounds = Grounds::new();
        for level in split(operands, &Token::Semicolon) {
            match rule(&level) {
                Ok(rule) => self.rules.push(rule),
                Err(number) => grounds.add_if(true, number),
            }
        }
        let levels = split(operands, &Token::Semicolon).len();
        grounds.add_if(levels > MOST_LEVELS, 7);
        grounds.judge()
    }

    fn order_end_line(&mut self, operands: &[Token]) -> Result<(), u32> {
        if !matches!(self.phase, Phase::InOrder) || !operands.is_empty() {
            return Err(3);
        }
        self.phase = Phase::AfterOrder;
        Ok(())
    }

    /// `reorder-after <name>`. In an open block it ends that block as `reorder-end` does.
    fn reorder_after_line(&mut self, operands: &[Token]) -> Result<(), u32> {
        let name = match (operands, &self.phase) {
            ([Token::Name(name)], Phase::AfterOrder | Phase::InBlock(_)) => name,
            _ => return Err(3),
        };
        let named = self.subject(name)?;
        // "6 for a named line that does not stand".
        if !self.standing.has(&named) {
            return Err(6);
        }
        self.phase = Phase::InBlock(Block::after(named));
        Ok(())
    }

    fn reorder_end_line(&mut self, operands: &[Token]) -> Result<(), u32> {
        if !matches!(self.phase, Phase::InBlock(_)) || !operands.is_empty() {
            return Err(3);
        }
        self.phase = Phase::AfterOrder;
        Ok(())
    }

    /// An order line, of a name or (with none) of UNDEFINED.
    fn order_line(
        &mut self,
        name: Option<&Vec<u8>>,
        operands: &[Token],
        number: usize,
    ) -> Result<(), u32> {
        if !matches!(self.phase, Phase::InOrder | Phase::InBlock(_)) {
            return Err(3);
        }
        let mut grounds = Grounds::new();
        let subject = match name {
            Some(name) => self.subject(name),
            None => Ok(Subject::Undefined),
        };
        if let Ok(subject) = &subject {
            // "An order line is a declared symbol alone".
            grounds.add_if(self.is_symbol(subject) && !operands.is_empty(), 3);
            let again = match &self.phase {
                Phase::InBlock(block) => block.forbids(subject),
                _ => self.standing.has(subject),
            };
            grounds.add_if(again, 5);
            grounds.add_if(self.standing.count_with(subject) > MOST_LINES, 7);
        }
        let weights = self.weights(operands, &mut grounds);
        grounds.add(subject.as_ref().map(|_| ()).map_err(|&number| number));
        grounds.judge()?;
        let line = OrderLine {
            number,
            subject: subject?,
            weights,
        };
        match &mut self.phase {
            Phase::InBlock(block) => self.standing.put(line, block),
            _ => self.standing.append(line),
        }
        Ok(())
    }

    /// What a name stands for where it is used: 6 where it is undeclared or no character.
    fn subject(&self, name: &[u8]) -> Result<Subject, u32> {
        if let Some(code) = character(name) {
            Ok(Subject::Character(code))
        } else if self.declared.contains_key(name) {
            Ok(Subject::Declared(name.to_vec()))
        } else {
            Err(6)
        }
    }

    fn is_symbol(&self, subject: &Subject) -> bool {
        match subject {
            Subject::Declared(name) => self.declared[name].is_empty(),
            _ => false,
        }
    }

    /// The weights of an order line. Every operand is looked at, those beyond L too.
    fn weights(&self, operands: &[Token], grounds: &mut Grounds) -> Vec<Weight> {
        let mut weights = Vec::new();
        if operands.is_empty() {
            return weights;
        }
        for operand in split(operands, &Token::Semicolon) {
            match self.weight(&operand) {
                Ok(weight) => weights.push(weight),
                Err(number) => grounds.add_if(true, number),
            }
        }
        let count = split(operands, &Token::Semicolon).len();
        grounds.add_if(count > self.rules.len(), 7);
        weights
    }

    /// "A weight is `IGNORE`, empty, a name, or 1 to 8 names in quotes without separators."
    fn weight(&self, operand: &[Token]) -> Result<Weight, u32> {
        match operand {
            [] => Ok(Weight::Itself),
            [Token::Word(word)] if word == b"IGNORE" => Ok(Weight::Lines(Vec::new())),
            [Token::Name(name)] => Ok(Weight::Lines(vec![self.subject(name)?])),
            [Token::Quoted(names)] => {
                let mut subjects = Vec::new();
                for name in names {
                    subjects.push(self.subject(name)?);
                }
                if names.len() > MOST_WEIGHTS {
                    return Err(7);
                }
                Ok(Weight::Lines(subjects))
            }
            _ => Err(3),
        }
    }

    /// The meaning of what was read. 8 where a weight's name has no order line, "by line": of
    /// the lines that stand after the last block, the one that was written first.
    fn meaning(&self) -> Result<Meaning, Refused> {
        if let Some(line) = self.standing.first_unranked() {
            return Err(Refused { number: 8, line });
        }
        let ranks = self.standing.ranks();
        let mut items = Vec::new();
        for line in &self.standing.lines {
            let characters = match &line.subject {
                Subject::Character(code) => vec![*code],
                Subject::Declared(name) => self.declared[name].clone(),
                Subject::Undefined => UNDEFINED.to_vec(),
            };
            if self.is_symbol(&line.subject) {
                continue;
            }
            let weights = (0..self.rules.len())
                .map(|level| ranks_at(line, level, &ranks))
                .collect();
            items.push(Item {
                characters,
                weights,
            });
        }
        if !self.standing.has(&Subject::Undefined) {
            // "the rank one above the last line".
            let rank = self.standing.lines.len() as u32 + 1;
            let weights = vec![vec![rank]; self.rules.len()];
            items.push(Item {
                characters: UNDEFINED.to_vec(),
                weights,
            });
        }
        Ok(Meaning {
            rules: self.rules.clone(),
            items,
        })
    }
}

/// The weights of a line at a level, as ranks; every name has one.
fn ranks_at(line: &OrderLine, level: usize, ranks: &BTreeMap<&Subject, u32>) -> Vec<u32> {
    match line.weights.get(level) {
        None | Some(Weight::Itself) => vec![ranks[&line.subject]],
        Some(Weight::Lines(subjects)) => subjects.iter().map(|subject| ranks[subject]).collect(),
    }
}

/// "`LC_` plus 1 to 29 capitals or underscores".
fn is_category(word: &[u8]) -> bool {
    word.len() >= 4
        && word.len() <= 32
        && word.starts_with(b"LC_")
        && word[3..]
            .iter()
            .all(|&byte| byte.is_ascii_uppercase() || byte == b'_')
}

/// "A rule is `forward` or `backward`, optionally with `position`, joined by a comma in either
/// order; `position` alone is forward."
fn rule(level: &[Token]) -> Result<Rule, u32> {
    let mut grounds = Grounds::new();
    let mut words: Vec<Vec<u8>> = Vec::new();
    for part in split(level, &Token::Comma) {
        match &part[..] {
            [Token::Word(word)] => words.push(word.clone()),
            [] | [Token::Name(_)] => grounds.add_if(true, 4),
            _ => grounds.add_if(true, 3),
        }
    }
    let count = |wanted: &[u8]| {
        words
            .iter()
            .filter(|word| word.as_slice() == wanted)
            .count()
    };
    let (forward, backward) = (count(b"forward"), count(b"backward"));
    let position = count(b"position");
    grounds.add_if(forward + backward + position < words.len(), 4);
    grounds.add_if(forward + backward > 1 || position > 1, 4);
    grounds.judge()?;
    Ok(Rule {
        backward: backward == 1,
        position: position == 1,
    })
}
