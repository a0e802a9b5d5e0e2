// Requests: as lines of the protocol (../reference/README.md) and as text for a reader.

#[derive(Clone, PartialEq)]
pub enum Field {
    Number(u64),
    Numbers(Vec<u32>),
    /// Starts and lengths.
    Places(Vec<u64>),
    Bytes(Vec<u8>),
}

#[derive(Clone, PartialEq)]
pub struct Request {
    pub operation: &'static str,
    pub fields: Vec<Field>,
}

impl Request {
    pub fn new(operation: &'static str, fields: Vec<Field>) -> Request {
        Request { operation, fields }
    }

    /// The request as a line of the protocol, without its LF.
    pub fn line(&self) -> String {
        let mut line = self.operation.to_string();
        for field in &self.fields {
            match field {
                Field::Number(number) => add(&mut line, *number),
                Field::Numbers(numbers) => {
                    add(&mut line, numbers.len() as u64);
                    numbers
                        .iter()
                        .for_each(|&number| add(&mut line, u64::from(number)));
                }
                Field::Places(numbers) => {
                    add(&mut line, numbers.len() as u64);
                    numbers.iter().for_each(|&number| add(&mut line, number));
                }
                Field::Bytes(bytes) => {
                    add(&mut line, bytes.len() as u64);
                    bytes
                        .iter()
                        .for_each(|&byte| add(&mut line, u64::from(byte)));
                }
            }
        }
        line
    }

    /// The request for a reader, bytes as text.
    pub fn shown(&self) -> String {
        let mut text = self.operation.to_string();
        for field in &self.fields {
            match field {
                Field::Number(number) => text += &format!("\n  {}", number),
                Field::Numbers(numbers) => text += &format!("\n  {:?}", numbers),
                Field::Places(numbers) => {
                    text += &format!("\n  {:?}", numbers.chunks(2).collect::<Vec<_>>())
                }
                Field::Bytes(bytes) => text += &format!("\n  bytes\n{}", lines_shown(bytes)),
            }
        }
        text
    }
}

fn add(line: &mut String, number: u64) {
    line.push(' ');
    line.push_str(&number.to_string());
}

/// Each line of some bytes, with bytes that do not print as \x and two digits.
fn lines_shown(bytes: &[u8]) -> String {
    let mut shown = String::from("  | ");
    for &byte in bytes {
        match byte {
            b'\n' => shown += "<LF>\n  | ",
            b'\t' => shown += "<TAB>",
            0x20..=0x7E => shown.push(char::from(byte)),
            _ => shown += &format!("<{:02X}>", byte),
        }
    }
    shown
}
