//! What makes texts worth comparing on: each mark is counted, so that none
//! goes missing.

use usages::{answer, read, Answer, Numbers, Reading, Wrong, DEEPEST, LONGEST};

/// A text, what the reference answers, and how it reads it without limits.
#[derive(Debug)]
pub struct Looked {
    length: usize,
    pub answer: Answer,
    pub read: Result<Reading, Wrong>,
}

impl Looked {
    pub fn at(text: &[u8]) -> Looked {
        Looked {
            length: text.len(),
            answer: answer(text),
            read: read(text),
        }
    }

    fn is_taken(&self) -> bool {
        self.answer.number == 0
    }

    /// Refused by this number, while something is so of the usage.
    fn refused_with(&self, number: u8, has: impl Fn(&Reading, Numbers) -> bool) -> bool {
        let has = |read: &Reading| has(read, read.usage.numbers());
        self.answer.number == number && self.read.as_ref().is_ok_and(has)
    }
}

/// What is marked, and whether a text has it.
pub type Mark = (&'static str, fn(&Looked) -> bool);

pub const MARKS: [Mark; 18] = [
    ("reliable", |text| text.answer.reliable),
    ("unreliable by the dip alone", |text| {
        text.answer.dip > 0 && text.answer.end == 0
    }),
    ("unreliable by the end alone", |text| {
        text.answer.dip == 0 && text.answer.end > 0
    }),
    ("256 bytes taken", |text| {
        text.is_taken() && text.length == LONGEST
    }),
    ("257 bytes of a usage refused", |text| {
        text.refused_with(40, |_, _| true) && text.length == LONGEST + 1
    }),
    ("16 brackets taken", |text| {
        let deepest = |read: &Reading| read.depth == DEEPEST;
        text.is_taken() && text.read.as_ref().is_ok_and(deepest)
    }),
    ("17 brackets refused", |text| {
        text.refused_with(42, |read, _| read.depth == DEEPEST + 1)
    }),
    ("dip 63 taken", |text| text.answer.dip == 63),
    ("dip 64 refused", |text| {
        text.refused_with(43, |_, numbers| {
            numbers.min == -64 && numbers.fin.abs() < 64
        })
    }),
    ("end 63 taken", |text| text.answer.end == 63),
    ("end 64 refused", |text| {
        text.refused_with(43, |_, numbers| numbers.min > -64 && numbers.fin == 64)
    }),
    ("end -63 taken", |text| text.answer.end == -63),
    ("a part out of range in a usage that is taken", |text| {
        text.is_taken() && text.read.as_ref().is_ok_and(has_wider_part)
    }),
    ("a 40 that is no usage", |text| {
        text.answer.number == 40 && text.read.is_err()
    }),
    ("a 40 that is too deep", |text| {
        text.refused_with(40, |read, _| read.depth > DEEPEST)
    }),
    ("a 40 that is out of range", |text| {
        text.refused_with(40, |_, numbers| is_out_of_range(numbers))
    }),
    ("a 41 that is too deep", |text| {
        let too_deep = |wrong: &Wrong| wrong.depth > DEEPEST;
        text.answer.number == 41 && text.read.as_ref().is_err_and(too_deep)
    }),
    ("a 42 that is out of range", |text| {
        text.refused_with(42, |_, numbers| is_out_of_range(numbers))
    }),
];

fn is_out_of_range(numbers: Numbers) -> bool {
    numbers.min < -63 || numbers.fin.abs() > 63
}

fn has_wider_part(read: &Reading) -> bool {
    let mut parts = read.usage.parts().into_iter();
    parts.any(|part| is_out_of_range(part.numbers()))
}
