//! Classes grown over their limits, with slices that match: what the lengths do
//! not tell.

use super::{Kind, Line, Woven};
use crate::rng::Rng;
use reference::bundle::{Instr, DIRECTORY_ENTRY, INT, MAX_CLASSES, MAX_LENGTH, TRAILER};
use reference::entries::kind;

/// What grows, and how; there is a class at least.
type Growth = (&'static str, fn(&mut Rng, &mut Vec<Woven>));

const TOP: Kind = [kind::TOP, 0];
const UNUSED: Kind = [0, 0];

pub const GROWTHS: [Growth; 14] = [
    ("17 variables", |rng, woven| some(rng, woven).widen(17)),
    ("255 variables", |rng, woven| some(rng, woven).widen(255)),
    ("K 17", |rng, woven| some(rng, woven).deepen(17)),
    ("K 255", |rng, woven| some(rng, woven).deepen(255)),
    ("5 fields", |rng, woven| {
        some(rng, woven).fields.resize(5, INT)
    }),
    ("255 fields", |rng, woven| {
        some(rng, woven).fields.resize(255, INT)
    }),
    ("257 instructions", |rng, woven| {
        some(rng, woven).lengthen(257)
    }),
    ("no instruction", |rng, woven| {
        some(rng, woven).lines.clear()
    }),
    ("an argument of main", |_, woven| {
        woven[0].widen(1);
        woven[0].arguments.push(INT);
    }),
    ("more arguments than variables", |rng, woven| {
        let class = some(rng, woven);
        class.arguments.resize(class.variables + 1, INT);
    }),
    ("8 classes", |_, woven| again(woven, MAX_CLASSES)),
    ("9 classes", |_, woven| again(woven, MAX_CLASSES + 1)),
    ("more than 65,535 bytes", |rng, woven| {
        let class = some(rng, woven);
        let enough = MAX_LENGTH / class.line_length() + 1;
        class.lengthen(enough + rng.below(20));
    }),
    ("more than 131,071 bytes", |rng, woven| {
        let class = some(rng, woven);
        let enough = 2 * (MAX_LENGTH + 1) / class.line_length() + 1;
        class.lengthen(enough + rng.below(20));
    }),
];

fn some<'a>(rng: &mut Rng, woven: &'a mut [Woven]) -> &'a mut Woven {
    let at = rng.below(woven.len());
    &mut woven[at]
}

/// The last class again, until there are so many.
fn again(woven: &mut Vec<Woven>, classes: usize) {
    let last = woven[woven.len() - 1].clone();
    woven.resize(woven.len().max(classes), last);
}

/// A return from rows that claim nothing.
fn at_rest(variables: usize, stack: usize) -> Line {
    Line {
        instruction: Instr::Return.bytes(),
        variables: vec![TOP; variables],
        depth: 0,
        stack: vec![UNUSED; stack],
    }
}

impl Woven {
    fn widen(&mut self, variables: usize) {
        self.variables = self.variables.max(variables);
        for line in &mut self.lines {
            line.variables.resize(self.variables, TOP);
        }
    }

    fn deepen(&mut self, stack: usize) {
        self.stack = self.stack.max(stack);
        for line in &mut self.lines {
            line.stack.resize(self.stack, UNUSED);
        }
    }

    fn lengthen(&mut self, lines: usize) {
        let line = at_rest(self.variables, self.stack);
        self.lines.resize(self.lines.len().max(lines), line);
    }

    /// A class of returns.
    fn idle(variables: usize, stack: usize, lines: usize) -> Woven {
        let mut idle = Woven {
            variables,
            stack,
            ..Woven::default()
        };
        idle.lengthen(lines);
        idle
    }
}

/// Classes of returns within all limits, of 65,530 to 65,540 bytes in all: wide
/// ones, and a last one that has what is left.
pub fn brimful(rng: &mut Rng) -> Vec<Woven> {
    let whole = rng.between(65_530, 65_540);
    let classes = rng.between(3, MAX_CLASSES);
    let mut left = whole - TRAILER - DIRECTORY_ENTRY * classes;
    let mut woven = vec![];
    for wide in 1..classes {
        let line = Woven::idle(16, rng.between(12, 16), 0);
        let share = left / (classes - wide);
        let lines = (share / line.line_length()).clamp(1, 256);
        let class = Woven::idle(16, line.stack, lines - rng.below(2.min(lines)));
        left -= class.record_length().min(left);
        woven.push(class);
    }
    woven.push(remainder(left));
    match super::whole_length(&woven) == whole {
        true => woven,
        false => brimful(rng),
    }
}

/// A class of returns with so many bytes, if there is one.
fn remainder(bytes: usize) -> Woven {
    let sizes = (0..=16).flat_map(|v| (1..=256).map(move |lines| (v, lines)));
    let fits = |&(v, lines): &(usize, usize)| {
        let rest = bytes.checked_sub(lines * (5 + 4 * v));
        rest.is_some_and(|rest| rest <= v)
    };
    let Some((v, lines)) = sizes.into_iter().find(fits) else {
        return Woven::default();
    };
    let mut class = Woven::idle(v, 0, lines);
    class.arguments = vec![INT; bytes - class.record_length()];
    class
}
