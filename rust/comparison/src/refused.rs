//! How often a bundle was refused for its fields.

use reference::bundle::{Verdict, DIRECTORY_ENTRY, INT, TRAILER};
use reference::instructions::MAX_FIELDS;

/// Refusals by what of a field is wrong.
#[derive(Debug, Default)]
pub struct RefusedFields {
    count: u64,
    descriptor: u64,
    operand: u64,
    entry: u64,
}

/// Where the eight bytes of a class stand, and what they say of its record.
struct Head<'a> {
    bytes: &'a [u8],
    at: usize,
}

impl<'a> Head<'a> {
    /// Of a bundle without the verdicts 1 to 3.
    fn of(bytes: &'a [u8], class: u8) -> Head<'a> {
        let directory = word(bytes, bytes.len() - TRAILER);
        let at = directory + DIRECTORY_ENTRY * usize::from(class);
        Head { bytes, at }
    }

    fn number(&self, index: usize) -> usize {
        usize::from(self.bytes[self.at + index])
    }

    /// Where the fields' descriptors begin, and where the code does.
    fn fields(&self) -> (usize, usize) {
        let begin = word(self.bytes, self.at) + self.number(2);
        (begin, begin + self.number(5))
    }
}

fn word(bytes: &[u8], at: usize) -> usize {
    usize::from(u16::from_be_bytes([bytes[at], bytes[at + 1]]))
}

impl RefusedFields {
    /// Counts the verdict if a field is what it speaks of.
    pub fn add(&mut self, bundle: &[u8], verdict: Verdict) {
        if !matches!(verdict.number, 4 | 6 | 7 | 8) {
            return;
        }
        let head = Head::of(bundle, verdict.class);
        let (begin, code) = head.fields();
        let index = usize::from(verdict.address).saturating_sub(1);
        match verdict.number {
            4 => self.count += u64::from(head.number(5) > MAX_FIELDS),
            6 => {
                let classes = bundle[bundle.len() - TRAILER + 2];
                let mut fields = bundle[begin..code].iter();
                let wrong = fields.any(|&d| d != INT && d >= classes);
                self.descriptor += u64::from(wrong);
            }
            7 => self.operand += u64::from(matches!(bundle[code + 4 * index], 13 | 14)),
            _ => {
                let rows = code + 4 * word(bundle, head.at + 6);
                let width = 4 * head.number(3) + 1 + 4 * head.number(4);
                let mut variables = bundle[rows + index * width..]
                    .chunks(4)
                    .take(head.number(3));
                self.entry += u64::from(variables.any(|raw| raw[0] == 4 && raw[2..] != [0, 0]));
            }
        }
    }

    pub fn seen(&self) -> [(String, u64); 4] {
        [
            ("a field count above 4", self.count),
            ("a field's descriptor", self.descriptor),
            ("a getfield or putfield that breaks the table", self.operand),
            ("kind 4 with bytes behind its class", self.entry),
        ]
        .map(|(what, count)| (format!("refused for {what}"), count))
    }
}
