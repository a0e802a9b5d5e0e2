// Names and characters (01, "Reading lines").

/// "at most 10FFFF and not D800 to DFFF".
pub fn is_character(code: u32) -> bool {
    code <= 0x10FFFF && !(0xD800..=0xDFFF).contains(&code)
}

/// Whether every byte of a `<..>` may stand in a name: "1 to 32 bytes, 21 to 7E hex".
/// That it has at most 32 is another ground (7, not 3), and is not asked here.
pub fn is_name(bytes: &[u8]) -> bool {
    !bytes.is_empty() && bytes.iter().all(|&byte| (0x21..=0x7E).contains(&byte))
}

/// The code of a name with a character's shape, "`U` followed by exactly four or eight
/// uppercase hex digits", also where that code is no character. `None` for other names.
pub fn shaped_code(name: &[u8]) -> Option<u32> {
    if (name.len() != 5 && name.len() != 9) || name[0] != b'U' {
        return None;
    }
    let mut code = 0;
    for &byte in &name[1..] {
        let digit = match byte {
            b'0'..=b'9' => byte - b'0',
            b'A'..=b'F' => byte - b'A' + 10,
            _ => return None,
        };
        code = code * 16 + u32::from(digit);
    }
    Some(code)
}

/// The character that a name is, or `None` where it is none.
pub fn character(name: &[u8]) -> Option<u32> {
    shaped_code(name).filter(|&code| is_character(code))
}
