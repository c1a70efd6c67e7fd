//! The place of the first wrong byte of a text that is no usage, held against
//! the proved reader, which only tells that there is one.

use hveitmar::{usage, UsageRefusal};
use usages::LONGEST;

/// What makes a usage of bytes that one can begin with, but for brackets that
/// are still open: one of these for each byte that may stand last.
const FINISHES: [&[u8]; 4] = [b"", b"0", b".0", b"L.0"];

/// Whether a usage can begin with the bytes before this place, and none with
/// those up to it. None where no text is short enough to tell.
pub fn is_first_wrong(text: &[u8], at: usize) -> Option<bool> {
    let before = can_begin(&text[..at])?;
    match text.get(..=at) {
        Some(through) => Some(before && !can_begin(through)?),
        None => Some(before),
    }
}

fn can_begin(begun: &[u8]) -> Option<bool> {
    let count = |bracket| begun.iter().filter(|&&byte| byte == bracket).count();
    let open = count(b'(').saturating_sub(count(b')'));
    let finished = FINISHES.map(|finish| [begun, finish, &vec![b')'; open]].concat());
    let tellable = finished.iter().all(|text| text.len() <= LONGEST);
    tellable.then(|| {
        let is_usage = |text: &Vec<u8>| usage(text) != Err(UsageRefusal::Text);
        finished.iter().any(is_usage)
    })
}
