// Conditionals: toggles and the chains that are open (01, "Inside LC_COLLATE").

use crate::refusals::Grounds;
use crate::tokens::Token;
use std::collections::BTreeSet;

const MOST_TOGGLES: usize = 16;
const LONGEST_TOGGLE: usize = 32;
const DEEPEST: usize = 8;

/// One open chain: `ifdef` or `ifndef`, then its `elif` and `else` branches.
struct Chain {
    /// Whether the branch that now stands is used.
    in_use: bool,
    /// Whether a branch has been used. "Of one chain at most one branch is used."
    was_used: bool,
    /// Whether `else` has stood. "No branch may follow `else`."
    else_stood: bool,
}

pub struct Conditionals {
    /// Every toggle that a line read whole has named.
    named: BTreeSet<Vec<u8>>,
    defined: BTreeSet<Vec<u8>>,
    chains: Vec<Chain>,
    /// How many chains are open inside the unused branch. They "are only counted".
    inner: usize,
}

/// Whether a word opens a line of a conditional block.
pub fn is_conditional(word: &[u8]) -> bool {
    let words: [&[u8]; 7] = [
        b"define", b"undef", b"ifdef", b"ifndef", b"elif", b"else", b"endif",
    ];
    words.contains(&word)
}

impl Conditionals {
    pub fn new() -> Conditionals {
        Conditionals {
            named: BTreeSet::new(),
            defined: BTreeSet::new(),
            chains: Vec::new(),
            inner: 0,
        }
    }

    pub fn any_open(&self) -> bool {
        !self.chains.is_empty()
    }

    /// Whether the lines that now stand are in an unused branch.
    pub fn passing_over(&self) -> bool {
        match self.chains.last() {
            Some(chain) => !chain.in_use,
            None => false,
        }
    }

    /// A line in an unused branch, by its opening word. Answers whether it is one of the own
    /// chain's lines, which are "read whole".
    pub fn pass_over(&mut self, opening: &[u8]) -> Result<bool, u32> {
        match opening {
            b"ifdef" | b"ifndef" => {
                self.inner += 1;
                if self.chains.len() + self.inner > DEEPEST {
                    return Err(7);
                }
                Ok(false)
            }
            b"endif" if self.inner > 0 => {
                self.inner -= 1;
                Ok(false)
            }
            b"elif" | b"else" | b"endif" => Ok(self.inner == 0),
            _ => Ok(false),
        }
    }

    /// A conditional line that is read whole.
    pub fn read(&mut self, keyword: &[u8], operands: &[Token]) -> Result<(), u32> {
        match keyword {
            b"else" | b"endif" => {
                if !operands.is_empty() {
                    return Err(3);
                }
                if keyword == b"else" {
                    self.read_else()
                } else {
                    self.chains.pop().map(|_| ()).ok_or(3)
                }
            }
            _ => {
                let toggle = match operands {
                    [Token::Word(word)] if is_toggle(word) => word.clone(),
                    _ => return Err(3),
                };
                self.read_with(keyword, toggle)
            }
        }
    }

    fn read_else(&mut self) -> Result<(), u32> {
        let chain = self.chains.last_mut().ok_or(3u32)?;
        if chain.else_stood {
            return Err(3);
        }
        chain.in_use = !chain.was_used;
        chain.was_used = true;
        chain.else_stood = true;
        Ok(())
    }

    /// A line with a toggle, whose bytes are good.
    fn read_with(&mut self, keyword: &[u8], toggle: Vec<u8>) -> Result<(), u32> {
        let mut grounds = Grounds::new();
        self.named.insert(toggle.clone());
        grounds.add_if(toggle.len() > LONGEST_TOGGLE, 7);
        grounds.add_if(self.named.len() > MOST_TOGGLES, 7);
        let is_defined = self.defined.contains(&toggle);
        match keyword {
            b"define" => {
                self.defined.insert(toggle);
            }
            b"undef" => {
                self.defined.remove(&toggle);
            }
            b"ifdef" | b"ifndef" => {
                let holds = is_defined == (keyword == b"ifdef");
                self.chains.push(Chain {
                    in_use: holds,
                    was_used: holds,
                    else_stood: false,
                });
                grounds.add_if(self.chains.len() > DEEPEST, 7);
            }
            _ => match self.chains.last_mut() {
                Some(chain) => {
                    grounds.add_if(chain.else_stood, 3);
                    chain.in_use = is_defined && !chain.was_used;
                    chain.was_used = chain.was_used || is_defined;
                }
                None => grounds.add_if(true, 3),
            },
        }
        grounds.judge()
    }
}

/// "letters, digits or underscores".
fn is_toggle(word: &[u8]) -> bool {
    word.iter()
        .all(|&byte| byte.is_ascii_alphanumeric() || byte == b'_')
}
