//! Both gates on the same calls: the same number, class, address and length, and the
//! same output; nothing written beside it, nor into what was handed over. What is
//! written is accepted, and is what was handed over.

use crate::{proved, Differences, Part};
use generator::weaves::{change_names, weave, OwnedParts, Weave};
use reference::bundle::{Verdict, MAX_CLASSES, MAX_LENGTH};
use reference::gate::{gate, Gated, Parts};
use reference::verify::verify;

/// How many bytes are watched on each side of those that are lent.
const WATCHED: usize = 64;
const MARK: u8 = 0xA5;

/// All that the gate may answer.
const NUMBERS: [u8; 10] = [0, 1, 3, 4, 6, 7, 8, 22, 24, 27];

/// Something that has to come up, by what is answered to a call.
type Mark = (&'static str, fn(&Weave, Gated) -> bool);

const MARKS: [Mark; 12] = [
    ("written into just enough room", |weave, gated| {
        gated.verdict.number == 0 && weave.room == weave.whole
    }),
    ("written with room left", |weave, gated| {
        gated.verdict.number == 0 && weave.room > weave.whole
    }),
    ("written with 8 classes", |_, gated| {
        gated.verdict == Verdict::new(0, MAX_CLASSES as u8, 0)
    }),
    ("written with an exception class above 0", |weave, gated| {
        gated.verdict.number == 0 && weave.parts.exception > 0
    }),
    ("written with 65,535 bytes", |_, gated| {
        gated.length == MAX_LENGTH
    }),
    ("refused with 65,536 bytes", |weave, gated| {
        gated.verdict.number == 1 && weave.whole == MAX_LENGTH + 1
    }),
    ("too long, with room modulo 65,536", |weave, gated| {
        gated.verdict.number == 1 && weave.room == weave.whole % (MAX_LENGTH + 1)
    }),
    ("too long, with no such exception class", |weave, gated| {
        gated.verdict.number == 1 && weave.parts.exception >= weave.parts.classes
    }),
    ("one byte too little room", |weave, gated| {
        gated.verdict.number == 24 && weave.room + 1 == weave.whole
    }),
    ("no pairs, and too little room", |weave, gated| {
        gated.verdict.number == 22 && weave.room < weave.whole
    }),
    ("wrong lengths, and too little room", |weave, gated| {
        gated.verdict.number == 27 && weave.room < weave.whole
    }),
    ("exception classes of more than a byte", |weave, gated| {
        gated.verdict.number == 3 && weave.parts.exception > 255
    }),
];

#[derive(Debug)]
pub struct Gates {
    calls: u64,
    bytes: usize,
    numbers: [u64; 28],
    marks: [u64; MARKS.len()],
    changes: Vec<(&'static str, u64)>,
    differences: Differences,
}

impl Default for Gates {
    fn default() -> Gates {
        Gates {
            calls: 0,
            bytes: 0,
            numbers: [0; 28],
            marks: [0; MARKS.len()],
            changes: change_names().map(|name| (name, 0)).collect(),
            differences: Differences::default(),
        }
    }
}

/// Bytes of an output before anything is written: no two neighbours are alike.
pub fn blank(room: usize) -> Vec<u8> {
    (0..room).map(|at| (at * 37 + 11) as u8).collect()
}

fn watched(bytes: &[u8]) -> Vec<u8> {
    [&[MARK; WATCHED], bytes, &[MARK; WATCHED]].concat()
}

fn within(watched: &[u8]) -> &[u8] {
    &watched[WATCHED..watched.len() - WATCHED]
}

impl Gates {
    pub fn compare(&mut self, weave: &Weave, name: &str) {
        let mut wanted = blank(weave.room);
        let reference = gate(&weave.parts.lent(), &mut wanted);
        let found = [
            difference(weave, reference, &wanted),
            wrong(weave, reference, &wanted),
        ];
        for difference in found.into_iter().flatten() {
            let slices = weave.parts.slices();
            self.differences
                .add(format!("{name}: {difference}"), &slices);
        }
        self.count(weave, reference);
    }

    fn count(&mut self, weave: &Weave, gated: Gated) {
        self.calls += 1;
        self.bytes += weave.whole;
        self.numbers[usize::from(gated.verdict.number)] += 1;
        for (count, (_, has)) in self.marks.iter_mut().zip(MARKS) {
            *count += u64::from(has(weave, gated));
        }
        for (name, count) in &mut self.changes {
            *count += u64::from(weave.changes.contains(name));
        }
    }

    fn named(&self) -> Vec<(String, u64)> {
        let answered = |&number: &u8| {
            let count = self.numbers[usize::from(number)];
            (format!("answered {number}"), count)
        };
        let marks = MARKS.iter().zip(self.marks);
        let marks = marks.map(|((what, _), count)| (what.to_string(), count));
        let changes = self.changes.iter();
        let changes = changes.map(|(name, count)| (format!("changed: {name}"), *count));
        let numbers = NUMBERS.iter().map(answered);
        numbers.chain(marks).chain(changes).collect()
    }
}

/// What the proved call gives otherwise, or writes elsewhere.
fn difference(weave: &Weave, reference: Gated, wanted: &[u8]) -> Option<String> {
    let slices = weave.parts.slices();
    let lent = slices.map(watched);
    let [directory, descriptors, instructions, kinds, depths] = lent.each_ref().map(|s| within(s));
    let parts = Parts {
        directory,
        descriptors,
        instructions,
        kinds,
        depths,
        ..weave.parts.lent()
    };
    let mut out = watched(&blank(weave.room));
    let end = out.len() - WATCHED;
    let proved = proved::gate(&parts, &mut out[WATCHED..end]);
    let mut differing = within(&out).iter().zip(wanted);
    let first = differing.position(|(a, b)| a != b);
    if proved != reference {
        Some(format!("proved {proved:?}, reference {reference:?}"))
    } else if let Some(at) = first {
        let (one, other) = (within(&out)[at], wanted[at]);
        Some(format!(
            "byte {at} is {one} by the proved call, {other} by the reference"
        ))
    } else if out != watched(wanted) {
        Some("bytes beside the output are written".to_string())
    } else if lent != slices.map(watched) {
        Some("bytes of what is handed over are written".to_string())
    } else {
        None
    }
}

/// What is wrong with the reference's answer by what the request says of it.
fn wrong(weave: &Weave, gated: Gated, out: &[u8]) -> Option<String> {
    let Gated { verdict, length } = gated;
    let blank = blank(weave.room);
    let (written, behind) = out.split_at(length);
    let asked = OwnedParts::of(written);
    match verdict.number {
        number if !NUMBERS.contains(&number) => Some(format!("{number} never comes out")),
        0 if verify(written) != verdict => Some(format!("what is written is {}", verify(written))),
        0 if asked.as_ref() != Some(&weave.parts) => {
            Some("what is written is not what was handed over".to_string())
        }
        _ if behind != &blank[length..] => Some("what lies behind is written".to_string()),
        0 => None,
        _ => (length > 0).then(|| "a refusal has a length".to_string()),
    }
}

impl Part for Gates {
    fn generated(&mut self, seed: u64) {
        self.compare(&weave(seed), &format!("call of seed {seed}"));
    }

    fn print(&self) {
        let average = self.bytes / self.calls.max(1) as usize;
        println!("gate calls {}, {average} bytes on average", self.calls);
        for (what, count) in self.named() {
            println!("  {what}: {count}");
        }
        println!("  differences: {}", self.differences.0);
    }

    fn differences(&self) -> u64 {
        self.differences.0
    }

    fn seen(&self) -> Vec<(String, u64)> {
        let named = self.named().into_iter();
        named
            .map(|(what, count)| (format!("gate calls {what}"), count))
            .collect()
    }
}
