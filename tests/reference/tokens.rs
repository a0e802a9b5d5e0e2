// Tokens: the parts of a line that is read whole (01, "Reading lines").

use crate::lines::Mark;
use crate::names::is_name;
use crate::shapes::{angle, is_plain_blank};

#[derive(Clone, PartialEq)]
pub enum Token {
    /// One or more blanks.
    Gap,
    Semicolon,
    Comma,
    /// A run of bytes other than blanks, `;`, `,`, `<`, `"` and escapes.
    Word(Vec<u8>),
    /// A `<..>`, after escapes.
    Name(Vec<u8>),
    /// The names in quotes.
    Quoted(Vec<Vec<u8>>),
    /// The c of `comment_char` or `escape_char`.
    AsIs(u8),
}

/// The tokens of a line, without blanks at its ends. `None` where it is malformed.
pub fn tokens(marks: &[Mark]) -> Option<Vec<Token>> {
    let mut list: Vec<Token> = Vec::new();
    let mut at = 0;
    while at < marks.len() {
        let (token, next) = token_at(marks, at)?;
        if let Some(last) = list.last() {
            if !is_separator(last) && !is_separator(&token) {
                return None;
            }
        }
        list.push(token);
        at = next;
    }
    if list.first() == Some(&Token::Gap) {
        list.remove(0);
    }
    if list.last() == Some(&Token::Gap) {
        list.pop();
    }
    Some(list)
}

/// Whether no blank is needed beside it.
fn is_separator(token: &Token) -> bool {
    matches!(token, Token::Gap | Token::Semicolon | Token::Comma)
}

/// The token that begins at `at`, and the place past it.
fn token_at(marks: &[Mark], at: usize) -> Option<(Token, usize)> {
    match marks[at] {
        Mark::Plain(b' ') | Mark::Plain(b'\t') => {
            let mut end = at;
            while end < marks.len() && is_plain_blank(marks[end]) {
                end += 1;
            }
            Some((Token::Gap, end))
        }
        Mark::Plain(b';') => Some((Token::Semicolon, at + 1)),
        Mark::Plain(b',') => Some((Token::Comma, at + 1)),
        Mark::Plain(b'<') => {
            let (name, end) = name_at(marks, at)?;
            Some((Token::Name(name), end))
        }
        Mark::Plain(b'"') => quoted_at(marks, at),
        Mark::Plain(_) => Some(word_at(marks, at)),
        Mark::AsIs(byte) => Some((Token::AsIs(byte), at + 1)),
        // "Escape then another byte .. elsewhere it is malformed."
        Mark::Taken(_) | Mark::Dead(_) => None,
    }
}

/// The name that opens at `at`. "`<>` [is] malformed anywhere."
fn name_at(marks: &[Mark], at: usize) -> Option<(Vec<u8>, usize)> {
    angle(marks, at).filter(|(name, _)| is_name(name))
}

/// The names in the quotes that open at `at`: at least one, and nothing between them.
fn quoted_at(marks: &[Mark], at: usize) -> Option<(Token, usize)> {
    let mut names = Vec::new();
    let mut at = at + 1;
    while at < marks.len() && marks[at] != Mark::Plain(b'"') {
        let (name, end) = name_at(marks, at)?;
        names.push(name);
        at = end;
    }
    if at == marks.len() || names.is_empty() {
        return None;
    }
    Some((Token::Quoted(names), at + 1))
}

fn word_at(marks: &[Mark], at: usize) -> (Token, usize) {
    let mut word = Vec::new();
    let mut end = at;
    while end < marks.len() {
        match marks[end] {
            Mark::Plain(byte) if !b" \t;,<\"".contains(&byte) => word.push(byte),
            _ => break,
        }
        end += 1;
    }
    (Token::Word(word), end)
}

/// What follows a line's first token, without gaps. `None` where no blank stands before it:
/// "one stands before the first operand".
pub fn operands(line: &[Token]) -> Option<Vec<Token>> {
    if line.len() > 1 && line[1] != Token::Gap {
        return None;
    }
    Some(
        line[1..]
            .iter()
            .filter(|token| **token != Token::Gap)
            .cloned()
            .collect(),
    )
}

/// The parts of a list of tokens between separators of one kind; one part, an empty one, for
/// an empty list.
pub fn split(list: &[Token], separator: &Token) -> Vec<Vec<Token>> {
    list.split(|token| token == separator)
        .map(|part| part.to_vec())
        .collect()
}

/// Whether a list is one given word.
pub fn is_word(list: &[Token], word: &[u8]) -> bool {
    list.len() == 1 && list[0] == Token::Word(word.to_vec())
}
