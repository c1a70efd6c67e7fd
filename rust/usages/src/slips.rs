//! Deliberate mistakes, for those who test what finds mistakes.

use crate::answer::{answer, answer_by, Answer};
use crate::law::{AsWritten, Law, DEEPEST, LONGEST};
use crate::reader::read;
use crate::usage::{Numbers, Usage};

/// A mistake in words, and what is answered by it.
pub type Slip = (&'static str, fn(&[u8]) -> Answer);

pub const SLIPS: [Slip; 12] = [
    ("* binds looser than &", answer_by::<StarLooser>),
    ("257 bytes are read", answer_by::<Longer>),
    ("17 brackets are taken", answer_by::<Deeper>),
    ("42 before 41", depth_first),
    ("43 before 42", range_first),
    ("43 of a part", range_of_parts),
    ("an end of 64 is taken", answer_by::<EndOf64>),
    ("a lock lifts Min above 0", answer_by::<MinAboveZero>),
    ("the dip of U*U by the larger", answer_by::<DipByLarger>),
    ("the end of U&U by the smaller", answer_by::<EndBySmaller>),
    ("reliable without the dip", answer_by::<WithoutDip>),
    ("reliable without the end", answer_by::<WithoutEnd>),
];

struct StarLooser;

impl Law for StarLooser {
    const TIGHTER: u8 = b'&';
    const LOOSER: u8 = b'*';
}

struct Longer;

impl Law for Longer {
    const LONGEST: usize = LONGEST + 1;
}

struct Deeper;

impl Law for Deeper {
    const DEEPEST: usize = DEEPEST + 1;
}

struct EndOf64;

impl Law for EndOf64 {
    fn in_range(u: Numbers) -> bool {
        u.fin == 64 && u.min >= -63 || AsWritten::in_range(u)
    }
}

struct MinAboveZero;

impl Law for MinAboveZero {
    fn lock(u: Numbers) -> Numbers {
        Numbers {
            min: u.min + 1,
            ..AsWritten::lock(u)
        }
    }
}

struct DipByLarger;

impl Law for DipByLarger {
    fn parallel(u: Numbers, v: Numbers) -> Numbers {
        Numbers {
            min: u.min.min(v.min),
            ..AsWritten::parallel(u, v)
        }
    }
}

struct EndBySmaller;

impl Law for EndBySmaller {
    fn choice(u: Numbers, v: Numbers) -> Numbers {
        Numbers {
            fin: u.fin.min(v.fin),
            ..AsWritten::choice(u, v)
        }
    }
}

struct WithoutDip;

impl Law for WithoutDip {
    fn is_reliable(u: Numbers) -> bool {
        u.fin == 0
    }
}

struct WithoutEnd;

impl Law for WithoutEnd {
    fn is_reliable(u: Numbers) -> bool {
        u.min == 0
    }
}

/// Gives up at the seventeenth bracket.
fn depth_first(text: &[u8]) -> Answer {
    match (answer(text), read(text)) {
        (Answer { number: 41, .. }, Err(wrong)) if wrong.depth > DEEPEST => Answer::refused(42),
        (given, _) => given,
    }
}

fn range_first(text: &[u8]) -> Answer {
    match (answer(text), read(text)) {
        (Answer { number: 42, .. }, Ok(read)) if !fits(&read.usage) => Answer::refused(43),
        (given, _) => given,
    }
}

fn range_of_parts(text: &[u8]) -> Answer {
    let all_fit = |usage: &Usage| usage.parts().into_iter().all(fits);
    match (answer(text), read(text)) {
        (Answer { number: 0, .. }, Ok(read)) if !all_fit(&read.usage) => Answer::refused(43),
        (given, _) => given,
    }
}

fn fits(usage: &Usage) -> bool {
    AsWritten::in_range(usage.numbers())
}
