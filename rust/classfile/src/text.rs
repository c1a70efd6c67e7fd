//! Modified UTF-8 (Java Virtual Machine Specification, 4.4.7).

/// The text of these bytes: no byte is 0, the character 0 has two bytes, and
/// one beyond the first 65,536 is a pair of surrogates of three bytes each. A
/// surrogate that has no other half comes as U+FFFD. None where the bytes are
/// no modified UTF-8.
///
/// ```
/// assert_eq!(classfile::text(b"a\xC0\x80"), Some("a\0".to_string()));
/// assert_eq!(classfile::text(b"\0"), None);
/// ```
pub fn text(bytes: &[u8]) -> Option<String> {
    let units = units(bytes)?;
    Some(String::from_utf16_lossy(&units))
}

fn units(bytes: &[u8]) -> Option<Vec<u16>> {
    let mut units = Vec::with_capacity(bytes.len());
    let mut rest = bytes;
    while !rest.is_empty() {
        let (unit, behind) = unit(rest)?;
        units.push(unit);
        rest = behind;
    }
    Some(units)
}

/// One, two or three bytes, and what is left.
fn unit(bytes: &[u8]) -> Option<(u16, &[u8])> {
    match bytes {
        [a @ 0x01..=0x7F, rest @ ..] => Some((u16::from(*a), rest)),
        [a @ 0xC0..=0xDF, b @ 0x80..=0xBF, rest @ ..] => {
            Some((u16::from(a & 0x1F) << 6 | low(*b), rest))
        }
        [a @ 0xE0..=0xEF, b @ 0x80..=0xBF, c @ 0x80..=0xBF, rest @ ..] => {
            let unit = u16::from(a & 0x0F) << 12 | low(*b) << 6 | low(*c);
            Some((unit, rest))
        }
        _ => None,
    }
}

fn low(byte: u8) -> u16 {
    u16::from(byte & 0x3F)
}
