//! Both readers of usages on the same texts: number, dip, end and whether the
//! usage is reliable.

use crate::places::is_first_wrong;
use crate::{proved, Differences, Part};
use generator::texts::marks::{Looked, MARKS};
use generator::texts::text;
use usages::{by_steps, up_to, Answer, Usage};

/// All usages of so many nodes are written and read back.
const NODES: usize = 8;
const NUMBERS: [u8; 5] = [0, 40, 41, 42, 43];

#[derive(Debug, Default)]
pub struct Texts {
    texts: u64,
    bytes: usize,
    /// Texts of small usages, whose numbers are known by their steps too.
    written: u64,
    numbers: [u64; NUMBERS.len()],
    marks: [u64; MARKS.len()],
    /// First wrong bytes that were held against the proved reader.
    places: u64,
    differences: Differences,
}

impl Texts {
    /// All small usages, with the brackets that they need, and with a pair
    /// around each part.
    pub fn of_small_usages() -> Texts {
        let mut texts = Texts::default();
        for usage in up_to(NODES) {
            let told = told_by_steps(&usage);
            for pairs in 0..2 {
                let text = usage.written(&mut || pairs);
                let looked = texts.compare(text.as_bytes(), &text);
                let back = looked.read.is_ok_and(|read| read.usage == usage);
                if looked.answer != told || !back {
                    let what = format!("{text}: by steps {told:?}, read back {back}");
                    texts.differences.add(what, &[]);
                }
                texts.written += 1;
            }
        }
        texts
    }

    fn compare(&mut self, text: &[u8], name: &str) -> Looked {
        let looked = Looked::at(text);
        let (reference, proved) = (looked.answer, proved::usage(text));
        if proved != reference {
            let what = format!("{name}: proved {proved:?}, reference {reference:?}");
            self.differences.add(what, &[text]);
        }
        self.texts += 1;
        self.bytes += text.len();
        let number = NUMBERS.iter().position(|&n| n == reference.number);
        self.numbers[number.expect("one of these")] += 1;
        for (count, (_, has)) in self.marks.iter_mut().zip(MARKS) {
            *count += u64::from(has(&looked));
        }
        looked
    }

    /// Of a 41, where its first wrong byte is.
    fn compare_place(&mut self, text: &[u8], looked: &Looked) {
        let (Answer { number: 41, .. }, Err(wrong)) = (looked.answer, &looked.read) else {
            return;
        };
        let Some(right) = is_first_wrong(text, wrong.at) else {
            return;
        };
        self.places += 1;
        if !right {
            let what = format!("byte {} is not the first wrong one", wrong.at);
            self.differences.add(what, &[text]);
        }
    }

    fn numbers(&self) -> impl Iterator<Item = (String, u64)> + '_ {
        let named = |number: &u8| format!("answer {number}");
        NUMBERS.iter().map(named).zip(self.numbers)
    }

    fn marks(&self) -> impl Iterator<Item = (String, u64)> + '_ {
        let named = |(name, _): &(&str, _)| name.to_string();
        MARKS.iter().map(named).zip(self.marks)
    }

    fn places(&self) -> (String, u64) {
        let named = "first wrong bytes held against the proved reader";
        (named.to_string(), self.places)
    }
}

/// What the steps of a usage say of it; a small one is always in range.
fn told_by_steps(usage: &Usage) -> Answer {
    let (numbers, reliable) = by_steps(usage);
    Answer {
        number: 0,
        dip: -numbers.min,
        end: numbers.fin,
        reliable,
    }
}

impl Part for Texts {
    fn generated(&mut self, seed: u64) {
        let (family, text) = text(seed);
        let looked = self.compare(&text, &format!("text seed {seed} {family:?}"));
        self.compare_place(&text, &looked);
    }

    fn print(&self) {
        let average = self.bytes / self.texts.max(1) as usize;
        let Texts { texts, written, .. } = self;
        println!("texts {texts}, {average} bytes on average");
        println!("  of all usages of up to {NODES} nodes: {written}");
        for (named, count) in self.numbers() {
            let share = 100.0 * count as f64 / self.texts.max(1) as f64;
            println!("  {named}: {count} ({share:.2} %)");
        }
        for (named, count) in self.marks().chain([self.places()]) {
            println!("  {named}: {count}");
        }
        println!("  differences: {}", self.differences.0);
    }

    fn differences(&self) -> u64 {
        self.differences.0
    }

    fn seen(&self) -> Vec<(String, u64)> {
        let counted = self.numbers().chain(self.marks());
        counted.chain([self.places()]).collect()
    }
}
