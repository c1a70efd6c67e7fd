//! Total reads of bytes, and bytes as text.

/// The byte there; 0 behind the end.
pub fn byte(bytes: &[u8], at: usize) -> u8 {
    bytes.get(at).copied().unwrap_or(0)
}

/// The number of two bytes there, the high byte in front.
pub fn word(bytes: &[u8], at: usize) -> u16 {
    u16::from_be_bytes([byte(bytes, at), byte(bytes, at + 1)])
}

/// The four bytes there.
pub(crate) fn four(bytes: &[u8], at: usize) -> [u8; 4] {
    [0, 1, 2, 3].map(|i| byte(bytes, at + i))
}

/// Bytes as they are written: `4C 4B`.
pub fn hex(bytes: &[u8]) -> String {
    let words: Vec<String> = bytes.iter().map(|byte| format!("{byte:02X}")).collect();
    words.join(" ")
}
