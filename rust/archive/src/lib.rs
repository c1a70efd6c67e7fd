//! Zip archives (jars among them), read with every bound checked: whatever the bytes are, what comes out is an entry's content or a word on what is wrong,
//! never a panic.

mod inflate;

pub use inflate::inflate;
use std::fmt;

/// What is wrong with an archive, and where.
#[derive(Clone, Debug, PartialEq, Eq)]
pub struct Damage {
    pub offset: usize,
    pub why: &'static str,
}

impl fmt::Display for Damage {
    fn fmt(&self, f: &mut fmt::Formatter<'_>) -> fmt::Result {
        write!(f, "damaged at {}: {}", self.offset, self.why)
    }
}

impl std::error::Error for Damage {}

/// An entry larger than this is not unpacked.
pub const LARGEST: usize = 1 << 30;

/// One entry of an archive's directory.
#[derive(Clone, Debug)]
pub struct Entry {
    pub name: String,
    method: u16,
    sum: u32,
    packed: usize,
    size: usize,
    /// Where its own header stands.
    header: usize,
}

/// An archive's bytes and its directory.
#[derive(Debug)]
pub struct Archive<B> {
    bytes: B,
    pub entries: Vec<Entry>,
}

fn number(bytes: &[u8], at: usize, size: usize) -> Option<u64> {
    let part = bytes.get(at..at.checked_add(size)?)?;
    Some(part.iter().rev().fold(0, |n, &b| n << 8 | u64::from(b)))
}

fn place(bytes: &[u8], at: usize, size: usize) -> Option<usize> {
    number(bytes, at, size).and_then(|n| usize::try_from(n).ok())
}

const END: u64 = 0x0605_4b50;
const END_64: u64 = 0x0606_4b50;
const END_64_PLACE: u64 = 0x0706_4b50;
const DIRECTORY: u64 = 0x0201_4b50;
const LOCAL: u64 = 0x0403_4b50;

/// Where the record at the end stands: the last one whose comment reaches to the end.
fn end_of(bytes: &[u8]) -> Option<usize> {
    let last = bytes.len().checked_sub(22)?;
    let first = last.saturating_sub(65_535);
    (first..=last).rev().find(|&at| {
        number(bytes, at, 4) == Some(END)
            && place(bytes, at + 20, 2).is_some_and(|n| at + 22 + n == bytes.len())
    })
}

struct Directory {
    first: usize,
    count: usize,
    /// What stands before the archive (a script, a header) shifts all its offsets.
    shift: usize,
}

fn directory(bytes: &[u8], end: usize) -> Option<Directory> {
    let place = |at, size| place(bytes, at, size);
    let (mut count, mut size, mut offset) = (
        place(end + 10, 2)?,
        place(end + 12, 4)?,
        place(end + 16, 4)?,
    );
    let mut close = end;
    let wide = end
        .checked_sub(20)
        .filter(|&at| number(bytes, at, 4) == Some(END_64_PLACE));
    if count == 0xffff || size == 0xffff_ffff || offset == 0xffff_ffff {
        if let Some(locator) = wide {
            // Its place may be shifted too: the record stands right before the locator where it has no more fields.
            let told = place(locator + 8, 8)?;
            let right = locator.checked_sub(56)?;
            let at = [told, right]
                .into_iter()
                .find(|&at| number(bytes, at, 4) == Some(END_64))?;
            (count, size, offset) = (place(at + 32, 8)?, place(at + 40, 8)?, place(at + 48, 8)?);
            close = at;
        }
    }
    let first = close.checked_sub(size)?;
    Some(Directory {
        first,
        count,
        shift: first.checked_sub(offset)?,
    })
}

/// A field of four bytes, or where it is all ones the next eight bytes of the extra field for wide sizes.
fn widened(bytes: &[u8], value: usize, extra: &mut Option<usize>) -> Option<usize> {
    if value != 0xffff_ffff {
        return Some(value);
    }
    let at = (*extra)?;
    *extra = Some(at + 8);
    place(bytes, at, 8)
}

/// Where the extra field for wide sizes begins, between two places.
fn wide_field(bytes: &[u8], mut at: usize, end: usize) -> Option<usize> {
    while at + 4 <= end {
        if number(bytes, at, 2) == Some(1) {
            return Some(at + 4);
        }
        at += 4 + place(bytes, at + 2, 2)?;
    }
    None
}

/// The entry at a place of the directory, and where the next one stands.
fn entry(bytes: &[u8], at: usize, shift: usize) -> Option<(Entry, usize)> {
    if number(bytes, at, 4) != Some(DIRECTORY) {
        return None;
    }
    let place = |offset, size| place(bytes, at + offset, size);
    let (name, extra, comment) = (place(28, 2)?, place(30, 2)?, place(32, 2)?);
    let after = at + 46 + name;
    let mut wide = wide_field(bytes, after, after + extra);
    let size = widened(bytes, place(24, 4)?, &mut wide)?;
    let packed = widened(bytes, place(20, 4)?, &mut wide)?;
    let header = widened(bytes, place(42, 4)?, &mut wide)?;
    let name = String::from_utf8_lossy(bytes.get(at + 46..after)?).into_owned();
    let sum = number(bytes, at + 16, 4)? as u32;
    let method = number(bytes, at + 10, 2)? as u16;
    let header = header.checked_add(shift)?;
    Some((
        Entry {
            name,
            method,
            sum,
            packed,
            size,
            header,
        },
        after + extra + comment,
    ))
}

impl<B: AsRef<[u8]>> Archive<B> {
    pub fn read(bytes: B) -> Result<Archive<B>, Damage> {
        let all = bytes.as_ref();
        let end = end_of(all).ok_or(Damage {
            offset: all.len(),
            why: "no archive ends here",
        })?;
        let wrong = Damage {
            offset: end,
            why: "the directory is not where its end says",
        };
        let told = directory(all, end).ok_or(wrong)?;
        let mut at = told.first;
        let mut entries = Vec::with_capacity(told.count.min(65_536));
        for _ in 0..told.count {
            let broken = Damage {
                offset: at,
                why: "an entry of the directory is broken",
            };
            let (one, next) = entry(all, at, told.shift).ok_or(broken)?;
            entries.push(one);
            at = next;
        }
        Ok(Archive { bytes, entries })
    }

    /// An entry's content.
    pub fn content(&self, entry: &Entry) -> Result<Vec<u8>, Damage> {
        let all = self.bytes.as_ref();
        let wrong = |why| Damage {
            offset: entry.header,
            why,
        };
        let begin = || {
            let at = entry.header;
            let names = place(all, at.checked_add(26)?, 2)? + place(all, at + 28, 2)?;
            Some(at + 30 + names).filter(|_| number(all, at, 4) == Some(LOCAL))
        };
        let begin = begin().ok_or_else(|| wrong("an entry's header is broken"))?;
        let end = begin
            .checked_add(entry.packed)
            .ok_or_else(|| wrong("an entry is too large"))?;
        let packed = all
            .get(begin..end)
            .ok_or_else(|| wrong("an entry is cut short"))?;
        if entry.size > LARGEST {
            return Err(wrong("an entry is too large"));
        }
        let out = match entry.method {
            0 => packed.to_vec(),
            8 => inflate(packed, entry.size).ok_or_else(|| wrong("an entry cannot be unpacked"))?,
            _ => return Err(wrong("an entry is packed in a way that is not known")),
        };
        if out.len() != entry.size || sum(&out) != entry.sum {
            return Err(wrong("an entry's sum is wrong"));
        }
        Ok(out)
    }
}

const fn table() -> [[u32; 256]; 8] {
    let mut out = [[0; 256]; 8];
    let mut n = 0;
    while n < 256 {
        let (mut c, mut k) = (n as u32, 0);
        while k < 8 {
            c = if c & 1 == 1 {
                0xedb8_8320 ^ (c >> 1)
            } else {
                c >> 1
            };
            k += 1;
        }
        out[0][n] = c;
        n += 1;
    }
    let mut row = 1;
    while row < 8 {
        let mut n = 0;
        while n < 256 {
            let before = out[row - 1][n];
            out[row][n] = out[0][(before & 255) as usize] ^ (before >> 8);
            n += 1;
        }
        row += 1;
    }
    out
}

static TABLE: [[u32; 256]; 8] = table();

/// The 32-bit cyclic sum of zip archives, eight bytes at a time.
pub fn sum(bytes: &[u8]) -> u32 {
    let mut c = !0u32;
    let mut eights = bytes.chunks_exact(8);
    for part in &mut eights {
        let low = c ^ u32::from_le_bytes([part[0], part[1], part[2], part[3]]);
        let [a, b, d, e] = low.to_le_bytes().map(usize::from);
        c = TABLE[7][a] ^ TABLE[6][b] ^ TABLE[5][d] ^ TABLE[4][e];
        c ^= TABLE[3][usize::from(part[4])] ^ TABLE[2][usize::from(part[5])];
        c ^= TABLE[1][usize::from(part[6])] ^ TABLE[0][usize::from(part[7])];
    }
    for &b in eights.remainder() {
        c = TABLE[0][((c ^ u32::from(b)) & 255) as usize] ^ (c >> 8);
    }
    !c
}

#[cfg(test)]
mod tests {
    use super::*;

    /// An archive of one entry that is stored as it is.
    fn stored(name: &str, content: &[u8]) -> Vec<u8> {
        let n = (name.len() as u16).to_le_bytes();
        let size = (content.len() as u32).to_le_bytes();
        let check = sum(content).to_le_bytes();
        let mut out = vec![b'P', b'K', 3, 4, 20, 0, 0, 0, 0, 0, 0, 0, 0, 0];
        out.extend([check, size, size].concat());
        out.extend(n);
        out.extend([0, 0]);
        out.extend(name.as_bytes());
        out.extend(content);
        let first = (out.len() as u32).to_le_bytes();
        let begin = out.len();
        out.extend([b'P', b'K', 1, 2, 20, 0, 20, 0, 0, 0, 0, 0, 0, 0, 0, 0]);
        out.extend([check, size, size].concat());
        out.extend(n);
        out.extend([0; 16]);
        out.extend(name.as_bytes());
        let long = ((out.len() - begin) as u32).to_le_bytes();
        out.extend([b'P', b'K', 5, 6, 0, 0, 0, 0, 1, 0, 1, 0]);
        out.extend([long, first].concat());
        out.extend([0, 0]);
        out
    }

    #[test]
    fn what_is_stored_comes_back() {
        let archive = Archive::read(stored("a/B.class", b"123456789")).unwrap();
        assert_eq!(archive.entries[0].name, "a/B.class");
        assert_eq!(archive.content(&archive.entries[0]).unwrap(), b"123456789");
        assert_eq!(sum(b"123456789"), 0xcbf4_3926);
    }

    #[test]
    fn something_may_stand_before_it() {
        let bytes = [b"#!/bin/sh\n".to_vec(), stored("x", b"y")].concat();
        let archive = Archive::read(&bytes).unwrap();
        assert_eq!(archive.content(&archive.entries[0]).unwrap(), b"y");
    }

    #[test]
    fn every_damage_is_told_and_none_panics() {
        let good = stored("x", b"yz");
        for at in 0..good.len() {
            for value in [0, 1, 0x7f, 0xff] {
                let mut bad = good.clone();
                bad[at] = value;
                if let Ok(archive) = Archive::read(&bad[..]) {
                    for e in &archive.entries {
                        let _ = archive.content(e);
                    }
                }
            }
            assert!(Archive::read(&good[..at]).is_err());
        }
        let mut bad = good.clone();
        bad[31] ^= 1;
        let archive = Archive::read(&bad[..]).unwrap();
        assert_eq!(
            archive.content(&archive.entries[0]).unwrap_err().why,
            "an entry's sum is wrong"
        );
    }
}
