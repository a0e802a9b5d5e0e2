// Refusals: their numbers, and which of several is given (01, "Refusals in order").

/// A refused call: 01's number and the line it carries, 0 where it carries none.
#[derive(Clone, Copy)]
pub struct Refused {
    pub number: u32,
    pub line: usize,
}

/// A refusal that carries no line.
pub fn without_line(number: u32) -> Refused {
    Refused { number, line: 0 }
}

/// The grounds for refusing one line. "Within one joined line the lowest number wins."
pub struct Grounds(Vec<u32>);

impl Grounds {
    pub fn new() -> Grounds {
        Grounds(Vec::new())
    }

    /// Notes a ground where it holds.
    pub fn add_if(&mut self, holds: bool, number: u32) {
        if holds {
            self.0.push(number);
        }
    }

    /// Notes the ground of a part of the line that was judged for itself.
    pub fn add(&mut self, judged: Result<(), u32>) {
        if let Err(number) = judged {
            self.0.push(number);
        }
    }

    /// The lowest ground, if there is any.
    pub fn judge(&self) -> Result<(), u32> {
        match self.0.iter().min() {
            Some(&number) => Err(number),
            None => Ok(()),
        }
    }
}
