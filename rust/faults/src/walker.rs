//! A walker that runs a method on concrete objects along many ways: every branch both ways, every throw, every loop a few times. What it finds unbalanced is
//! unbalanced on a way that it can show.

use crate::effect::{effect, throws};
use classfile::{ClassFile, Code, Constant, Member, MethodDescriptor, Type};
use std::collections::BTreeMap;

/// What is wrong on some way.
#[derive(Clone, Copy, Debug, PartialEq, Eq)]
pub enum Unbalanced {
    /// An object is still held when the method is left.
    Kept,
    /// An object is released that is not held.
    NotHeld,
}

/// What came of a walk.
#[derive(Clone, Copy, Debug, PartialEq, Eq)]
pub enum Walked {
    /// No way that was tried is unbalanced.
    Balanced,
    Unbalanced(Unbalanced),
    /// The code is not one that a verifier of Java's lets through.
    Wrong,
}

/// So often one way takes each edge, and so many steps are walked in all.
const TURNS: u8 = 2;
const STEPS: usize = 10_000;

/// A word: an object, or no reference.
type Word = Option<u32>;

#[derive(Clone)]
struct Thread {
    at: usize,
    variables: Vec<Word>,
    stack: Vec<Word>,
    held: BTreeMap<u32, u32>,
    objects: u32,
    taken: BTreeMap<(usize, usize), u8>,
}

struct Walker<'a> {
    class: &'a ClassFile<'a>,
    code: &'a Code<'a>,
    /// Where each instruction ends.
    ends: BTreeMap<usize, usize>,
    constants: BTreeMap<String, u32>,
}

fn signed(high: u8, low: u8) -> i64 {
    i64::from(i16::from_be_bytes([high, low]))
}

fn long(code: &[u8], at: usize) -> Option<i64> {
    let four: [u8; 4] = code.get(at..at + 4)?.try_into().ok()?;
    Some(i64::from(i32::from_be_bytes(four)))
}

impl Thread {
    fn fresh(&mut self) -> Word {
        self.objects += 1;
        Some(self.objects)
    }

    fn take(&mut self, n: usize) -> Option<()> {
        let left = self.stack.len().checked_sub(n)?;
        self.stack.truncate(left);
        Some(())
    }

    fn push_type(&mut self, of: Option<&Type>) {
        match of {
            None => {}
            Some(Type::Class(_) | Type::Array(_)) => {
                let x = self.fresh();
                self.stack.push(x);
            }
            Some(other) => self.stack.extend(vec![None; usize::from(other.size())]),
        }
    }
}

/// How an instruction ends.
enum Ended {
    On(Vec<usize>),
    Left,
    Throws,
    Bad(Unbalanced),
}

impl Walker<'_> {
    fn byte(&self, at: usize) -> Option<u8> {
        self.code.bytes.get(at).copied()
    }

    fn index(&self, at: usize) -> Option<u16> {
        Some(u16::from_be_bytes([self.byte(at)?, self.byte(at + 1)?]))
    }

    fn member(&self, index: u16) -> Option<(String, bool)> {
        let constants = &self.class.constants;
        if let Constant::InvokeDynamic(r) = constants.get(index)? {
            return Some((constants.name_and_type(r.second)?.1, true));
        }
        Some((constants.member(index)?.2, false))
    }

    fn call(&self, t: &mut Thread, op: u8) -> Option<()> {
        let (descriptor, _) = self.member(self.index(t.at + 1)?)?;
        let told = MethodDescriptor::read(&descriptor)?;
        let words: usize = told.arguments.iter().map(|a| usize::from(a.size())).sum();
        t.take(words + usize::from(!matches!(op, 0xb8 | 0xba)))?;
        t.push_type(told.result.as_ref());
        Some(())
    }

    fn field(&self, t: &mut Thread, op: u8) -> Option<()> {
        let (descriptor, _) = self.member(self.index(t.at + 1)?)?;
        let of = Type::read(&descriptor)?;
        let words = usize::from(of.size());
        match op {
            0xb2 => t.push_type(Some(&of)),
            0xb3 => t.take(words)?,
            0xb4 => {
                t.take(1)?;
                t.push_type(Some(&of));
            }
            _ => t.take(words + 1)?,
        }
        Some(())
    }

    fn constant(&self, t: &mut Thread, index: u16) -> Option<()> {
        let word = match self.class.constants.get(index)? {
            Constant::Integer(_) | Constant::Float(_) => None,
            Constant::Class(_) => Some(*self.constants.get(&self.class.constants.class(index)?)?),
            _ => t.fresh(),
        };
        t.stack.push(word);
        Some(())
    }

    /// Loads and stores; what they name, and whether it is two words.
    fn variable(&self, t: &mut Thread, op: u8, k: usize) -> Option<()> {
        match op {
            0x19 => t.stack.push(*t.variables.get(k)?),
            0x15 | 0x17 => t.stack.push(None),
            0x16 | 0x18 => t.stack.extend([None, None]),
            0x3a => {
                *t.variables.get_mut(k)? = *t.stack.last()?;
                t.take(1)?;
            }
            0x36 | 0x38 => {
                *t.variables.get_mut(k)? = None;
                t.take(1)?;
            }
            _ => {
                *t.variables.get_mut(k)? = None;
                *t.variables.get_mut(k + 1)? = None;
                t.take(2)?;
            }
        }
        Some(())
    }

    fn copies(t: &mut Thread, op: u8) -> Option<()> {
        let n = t.stack.len();
        let top = |k: usize| n.checked_sub(k).map(|p| t.stack[p]);
        let (gone, words): (usize, Vec<Option<Word>>) = match op {
            0x59 => (0, vec![top(1)]),
            0x5a => (2, vec![top(1), top(2), top(1)]),
            0x5b => (3, vec![top(1), top(3), top(2), top(1)]),
            0x5c => (0, vec![top(2), top(1)]),
            0x5d => (3, vec![top(2), top(1), top(3), top(2), top(1)]),
            0x5e => (4, vec![top(2), top(1), top(4), top(3), top(2), top(1)]),
            _ => (2, vec![top(1), top(2)]),
        };
        let words: Vec<Word> = words.into_iter().collect::<Option<_>>()?;
        t.take(gone)?;
        t.stack.extend(words);
        Some(())
    }

    fn targets(&self, at: usize, op: u8) -> Option<Vec<usize>> {
        let from = at as i64;
        let base = at + 4 - at % 4;
        let all = match op {
            0xaa => {
                let count = long(self.code.bytes, base + 8)? - long(self.code.bytes, base + 4)? + 1;
                let arms = (0..usize::try_from(count).ok()?)
                    .map(|k| long(self.code.bytes, base + 12 + 4 * k));
                std::iter::once(long(self.code.bytes, base))
                    .chain(arms)
                    .collect::<Option<Vec<_>>>()?
            }
            0xab => {
                let count = usize::try_from(long(self.code.bytes, base + 4)?).ok()?;
                let arms = (0..count).map(|k| long(self.code.bytes, base + 12 + 8 * k));
                std::iter::once(long(self.code.bytes, base))
                    .chain(arms)
                    .collect::<Option<Vec<_>>>()?
            }
            0xc8 => vec![long(self.code.bytes, at + 1)?],
            _ => vec![signed(self.byte(at + 1)?, self.byte(at + 2)?)],
        };
        let place = |d: i64| {
            usize::try_from(from + d)
                .ok()
                .filter(|p| self.ends.contains_key(p))
        };
        all.into_iter().map(place).collect()
    }

    fn lock(t: &mut Thread, op: u8) -> Option<Result<(), Unbalanced>> {
        // What is no reference, or null, cannot be locked: a verifier refuses it, or it throws before anything is held.
        let object = (*t.stack.last()?)?;
        t.take(1)?;
        let count = t.held.entry(object).or_default();
        if op == 0xc2 {
            *count += 1;
            return Some(Ok(()));
        }
        Some(match count.checked_sub(1) {
            Some(left) => {
                *count = left;
                Ok(())
            }
            None => Err(Unbalanced::NotHeld),
        })
    }

    /// One instruction, when it does not throw.
    fn step(&self, t: &mut Thread) -> Option<Ended> {
        let (at, op) = (t.at, self.byte(t.at)?);
        let next = *self.ends.get(&at)?;
        if let Some((taken, pushed)) = effect(op) {
            t.take(taken)?;
            for letter in pushed.bytes() {
                let word = if letter == b'r' { t.fresh() } else { None };
                t.stack.push(word);
            }
            return Some(Ended::On(match op {
                0x99..=0xa6 | 0xc6 | 0xc7 => [vec![next], self.targets(at, op)?].concat(),
                0xa7 | 0xaa | 0xab | 0xc8 => self.targets(at, op)?,
                _ => vec![next],
            }));
        }
        match op {
            0x12 => self.constant(t, u16::from(self.byte(at + 1)?))?,
            0x13 => self.constant(t, self.index(at + 1)?)?,
            0x15..=0x19 | 0x36..=0x3a => self.variable(t, op, usize::from(self.byte(at + 1)?))?,
            0x1a..=0x2d => {
                self.variable(t, 0x15 + (op - 0x1a) / 4, usize::from((op - 0x1a) % 4))?
            }
            0x3b..=0x4e => {
                self.variable(t, 0x36 + (op - 0x3b) / 4, usize::from((op - 0x3b) % 4))?
            }
            0xc4 if self.byte(at + 1)? == 0x84 => {}
            0xc4 => self.variable(t, self.byte(at + 1)?, usize::from(self.index(at + 2)?))?,
            0x59..=0x5f => Walker::copies(t, op)?,
            0xac..=0xb1 => return Some(Ended::Left),
            0xbf => return Some(Ended::Throws),
            0xb2..=0xb5 => self.field(t, op)?,
            0xb6..=0xba => self.call(t, op)?,
            0xc2 | 0xc3 => {
                if let Err(bad) = Walker::lock(t, op)? {
                    return Some(Ended::Bad(bad));
                }
            }
            0xc5 => {
                t.take(usize::from(self.byte(at + 3)?))?;
                let word = t.fresh();
                t.stack.push(word);
            }
            _ => return None,
        }
        Some(Ended::On(vec![next]))
    }

    /// The handlers that may get a throw, and whether it may get past them.
    fn handlers(&self, at: usize) -> (Vec<usize>, bool) {
        let mut out = Vec::new();
        for h in &self.code.handlers {
            if (usize::from(h.start)..usize::from(h.end)).contains(&at) {
                out.push(usize::from(h.handler));
                let all = h.catch == 0
                    || self.class.constants.class(h.catch).as_deref()
                        == Some("java/lang/Throwable");
                if all {
                    return (out, false);
                }
            }
        }
        (out, true)
    }
}

fn left(t: &Thread) -> Result<(), Unbalanced> {
    match t.held.values().all(|&n| n == 0) {
        true => Ok(()),
        false => Err(Unbalanced::Kept),
    }
}

fn start(method: &Member, code: &Code) -> Option<Thread> {
    let told = method.method_descriptor()?;
    let mut t = Thread {
        at: 0,
        variables: Vec::new(),
        stack: Vec::new(),
        held: BTreeMap::new(),
        objects: 1 << 31,
        taken: BTreeMap::new(),
    };
    if method.access & 8 == 0 {
        let this = t.fresh();
        t.variables.push(this);
    }
    for argument in &told.arguments {
        let words = match argument {
            Type::Class(_) | Type::Array(_) => vec![t.fresh()],
            other => vec![None; usize::from(other.size())],
        };
        t.variables.extend(words);
    }
    t.variables
        .resize(t.variables.len().max(usize::from(code.max_locals)), None);
    Some(t)
}

/// Walks a method.
pub fn walked(class: &ClassFile, method: &Member, code: &Code) -> Walked {
    let all: Vec<usize> = classfile::instructions(code.bytes).map(|i| i.at).collect();
    let after = all.iter().skip(1).copied().chain([code.bytes.len()]);
    let ends: BTreeMap<usize, usize> = all.iter().copied().zip(after).collect();
    let mut constants = BTreeMap::new();
    for index in 0..=u16::MAX {
        match class.constants.get(index) {
            None => break,
            Some(Constant::Class(_)) => {
                if let Some(name) = class.constants.class(index) {
                    let number = constants.len() as u32;
                    constants.entry(name).or_insert(number);
                }
            }
            Some(_) => {}
        }
    }
    let walker = Walker {
        class,
        code,
        ends,
        constants,
    };
    let Some(first) = start(method, code) else {
        return Walked::Wrong;
    };
    let mut todo = vec![first];
    let mut steps = 0;
    while let Some(mut t) = todo.pop() {
        steps += 1;
        if steps > STEPS {
            break;
        }
        let at = t.at;
        let Some(op) = walker.byte(at) else {
            return Walked::Wrong;
        };
        let before = t.clone();
        let Some(ended) = walker.step(&mut t) else {
            return Walked::Wrong;
        };
        let thrown = matches!(ended, Ended::Throws) || throws(op);
        if thrown {
            let (to, past) = walker.handlers(at);
            if past {
                if let Err(bad) = left(&before) {
                    return Walked::Unbalanced(bad);
                }
            }
            for handler in to {
                let mut u = before.clone();
                let caught = u.fresh();
                u.stack = vec![caught];
                u.at = handler;
                push(&mut todo, u, at);
            }
        }
        match ended {
            Ended::Throws => {}
            Ended::Bad(bad) => return Walked::Unbalanced(bad),
            Ended::Left => {
                if let Err(bad) = left(&t) {
                    return Walked::Unbalanced(bad);
                }
            }
            Ended::On(to) => {
                for next in to {
                    let mut u = t.clone();
                    u.at = next;
                    push(&mut todo, u, at);
                }
            }
        }
    }
    Walked::Balanced
}

/// The thread goes on, unless it took this edge often enough.
fn push(todo: &mut Vec<Thread>, mut t: Thread, from: usize) {
    let turns = t.taken.entry((from, t.at)).or_default();
    *turns += 1;
    if *turns <= TURNS {
        todo.push(t);
    }
}
