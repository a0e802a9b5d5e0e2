// The comment character and the escape that a source may choose (01, "Reading lines").

/// "c .. is a visible byte other than a letter, a digit or one of `< > " ; , . _ -`".
pub fn is_sign(c: u8) -> bool {
    (0x21..=0x7E).contains(&c) && !c.is_ascii_alphanumeric() && !b"<>\";,._-".contains(&c)
}
