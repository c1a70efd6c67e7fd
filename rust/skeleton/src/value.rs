//! Which reference lies in each variable and stack place before each instruction, by name: two places with one name hold one and the same reference.

use crate::instruction::{op, Instruction};
use crate::throw::{targets, Thrown};
use crate::{Loaded, Method, Obstacle, Throws};
use std::collections::{BTreeSet, HashMap};

/// The name of a reference. The numbers are offsets, and places: a variable by its number, a stack place from the bottom by -1, -2, ..
#[derive(Clone, Copy, Debug, PartialEq, Eq, Hash, PartialOrd, Ord)]
pub enum Name {
    /// What the method was given in a variable; 0 is `this` of an instance method.
    Argument(u16),
    /// What the instruction at an offset pushed last.
    Made(u32),
    /// A class constant.
    Class(u32),
    /// What the handler at an offset was given last.
    Caught(u32),
    /// What came to a place where ways meet, from wherever it came last.
    Join(u32, i32),
    /// What the instruction pushed before it pushed anew, told by a place that held it then.
    Stale(u32, i32),
    /// The operand of a lock instruction that is no single known reference.
    Unknown(u32),
    /// A reference that nothing has locked.
    Fresh,
}

/// A place without a name holds no reference, or one that is not told from others.
pub type Place = Option<Name>;

#[derive(Clone, Debug, PartialEq, Eq)]
pub struct Places {
    pub variables: Vec<Place>,
    pub stack: Vec<Place>,
}

/// What is known of a method before each instruction; nothing of one that is not reached.
#[derive(Debug)]
pub struct Values {
    pub before: Vec<Option<Places>>,
    /// What `new` and its like made: never null.
    pub made: BTreeSet<u32>,
    /// The class constants that were met.
    pub classes: Classes,
}

/// The width of a value by its descriptor's first letter.
fn width(letter: u8) -> usize {
    match letter {
        b'V' => 0,
        b'J' | b'D' => 2,
        _ => 1,
    }
}

fn is_reference(letter: u8) -> bool {
    matches!(letter, b'L' | b'[')
}

/// The widths of a method's arguments, whether each is a reference, and the result's first letter.
pub fn arguments(descriptor: &str) -> Option<(Vec<(usize, bool)>, u8)> {
    let text = descriptor.as_bytes();
    if text.first() != Some(&b'(') {
        return None;
    }
    let (mut out, mut at) = (Vec::new(), 1);
    while *text.get(at)? != b')' {
        let first = text[at];
        while *text.get(at)? == b'[' {
            at += 1;
        }
        if *text.get(at)? == b'L' {
            at += text[at..].iter().position(|&c| c == b';')?;
        }
        at += 1;
        out.push((width(first), is_reference(first)));
    }
    Some((out, *text.get(at + 1)?))
}

/// Words that an instruction on a field, or a call, takes and pushes, and whether it pushes a reference.
pub fn member_effect(method: &Method, i: &Instruction) -> Result<(usize, usize, bool), Obstacle> {
    let broken = || Obstacle::new(i.at, "the constant that the instruction names is not there");
    let member = method.pool.member(i.operand).ok_or_else(broken)?;
    if i.op >= op::INVOKEVIRTUAL {
        let (given, result) = arguments(&member.descriptor).ok_or_else(broken)?;
        let receiver = usize::from(!matches!(i.op, op::INVOKESTATIC | op::INVOKEDYNAMIC));
        let taken = given.iter().map(|&(n, _)| n).sum::<usize>() + receiver;
        return Ok((taken, width(result), is_reference(result)));
    }
    let letter = *member.descriptor.as_bytes().first().ok_or_else(broken)?;
    let n = width(letter);
    Ok(match i.op {
        op::GETSTATIC => (0, n, is_reference(letter)),
        op::PUTSTATIC => (n, 0, false),
        op::GETFIELD => (1, n, is_reference(letter)),
        _ => (n + 1, 0, false),
    })
}

/// Words taken and pushed by the instructions that copy no reference and make none.
fn plain(op: u8) -> Option<(usize, usize)> {
    Some(match op {
        0 | op::IINC | op::GOTO | op::GOTO_W | op::RETURN => (0, 0),
        2..=8 | 11..=13 | 16 | 17 => (0, 1),
        9 | 10 | 14 | 15 | 20 => (0, 2),
        46 | 48 | 51..=53 => (2, 1),
        47 | 49 => (2, 2),
        79 | 81 | 83..=86 => (3, 0),
        80 | 82 => (4, 0),
        87 | 153..=158 | 170 | 171 | 172 | 174 | 176 | 191 | 194 | 195 | 198 | 199 => (1, 0),
        88 | 159..=166 | 173 | 175 => (2, 0),
        96 | 98 | 100 | 102 | 104 | 106 | 108 | 110 | 112 | 114 => (2, 1),
        97 | 99 | 101 | 103 | 105 | 107 | 109 | 111 | 113 | 115 => (4, 2),
        116 | 118 => (1, 1),
        117 | 119 => (2, 2),
        120 | 122 | 124 => (2, 1),
        121 | 123 | 125 => (3, 2),
        126 | 128 | 130 => (2, 1),
        127 | 129 | 131 => (4, 2),
        133 | 135 | 140 | 141 => (1, 2),
        134 | 139 | 145..=147 => (1, 1),
        136 | 137 | 142 | 144 => (2, 1),
        138 | 143 => (2, 2),
        148 | 151 | 152 => (4, 1),
        149 | 150 => (2, 1),
        op::ARRAYLENGTH | op::INSTANCEOF => (1, 1),
        _ => return None,
    })
}

impl Places {
    fn short(i: &Instruction) -> Obstacle {
        Obstacle::new(i.at, "the stack is too short")
    }

    fn take(&mut self, n: usize, i: &Instruction) -> Result<(), Obstacle> {
        let left = self
            .stack
            .len()
            .checked_sub(n)
            .ok_or_else(|| Places::short(i))?;
        self.stack.truncate(left);
        Ok(())
    }

    fn push_nameless(&mut self, n: usize) {
        self.stack.resize(self.stack.len() + n, None);
    }

    /// The place `n` words under the top.
    pub fn under(&self, n: usize) -> Option<Place> {
        self.stack.len().checked_sub(n + 1).map(|k| self.stack[k])
    }

    /// The instruction's own name for what it pushes. What it pushed before gets another name wherever it still lies.
    fn push_made(&mut self, i: &Instruction) {
        let made = Some(Name::Made(i.at));
        let first = self
            .variables
            .iter()
            .position(|&x| x == made)
            .map(|k| k as i32);
        let first = first.or_else(|| {
            self.stack
                .iter()
                .position(|&x| x == made)
                .map(|k| -1 - k as i32)
        });
        if let Some(place) = first {
            let old = Some(Name::Stale(i.at, place));
            for x in self.variables.iter_mut().chain(&mut self.stack) {
                if *x == old {
                    *x = None;
                } else if *x == made {
                    *x = old;
                }
            }
        }
        self.stack.push(made);
    }

    fn copy_words(&mut self, i: &Instruction) -> Result<(), Obstacle> {
        let n = self.stack.len();
        let (need, order): (usize, &[usize]) = match i.op {
            89 => (1, &[1, 1]),
            90 => (2, &[1, 2, 1]),
            91 => (3, &[1, 3, 2, 1]),
            92 => (2, &[2, 1, 2, 1]),
            93 => (3, &[2, 1, 3, 2, 1]),
            94 => (4, &[2, 1, 4, 3, 2, 1]),
            _ => (2, &[1, 2]),
        };
        if n < need {
            return Err(Places::short(i));
        }
        let words: Vec<Place> = order.iter().map(|&k| self.stack[n - k]).collect();
        self.stack.truncate(n - need);
        self.stack.extend(words);
        Ok(())
    }

    fn variable(&mut self, k: usize, i: &Instruction) -> Result<&mut Place, Obstacle> {
        self.variables
            .get_mut(k)
            .ok_or_else(|| Obstacle::new(i.at, "a variable past the method's"))
    }

    /// The places after the instruction, when it does not throw.
    pub fn after(
        mut self,
        method: &Method,
        i: &Instruction,
        classes: &mut Classes,
    ) -> Result<Places, Obstacle> {
        if let Some((taken, pushed)) = plain(i.op) {
            self.take(taken, i)?;
            self.push_nameless(pushed);
            return Ok(self);
        }
        let k = usize::from(i.operand);
        match i.op {
            op::ALOAD => {
                let x = *self.variable(k, i)?;
                self.stack.push(x);
            }
            op::ILOAD..=24 => self.push_nameless(if matches!(i.op, 22 | 24) { 2 } else { 1 }),
            op::ASTORE => {
                let x = self.under(0).ok_or_else(|| Places::short(i))?;
                self.take(1, i)?;
                *self.variable(k, i)? = x;
            }
            op::ISTORE..=57 => {
                let wide = matches!(i.op, 55 | 57);
                self.take(if wide { 2 } else { 1 }, i)?;
                *self.variable(k, i)? = None;
                if wide {
                    *self.variable(k + 1, i)? = None;
                }
            }
            op::LDC | op::LDC_W => match method.pool.loaded(i.operand) {
                Some(Loaded::Class(name)) => {
                    let named = classes.named(&name);
                    self.stack.push(Some(named));
                }
                Some(Loaded::Number) => self.push_nameless(1),
                Some(_) => self.push_made(i),
                None => {
                    return Err(Obstacle::new(
                        i.at,
                        "the constant that ldc names is not there",
                    ))
                }
            },
            1 | op::NEW => self.push_made(i),
            50 => {
                self.take(2, i)?;
                self.push_made(i);
            }
            op::NEWARRAY | op::ANEWARRAY => {
                self.take(1, i)?;
                self.push_made(i);
            }
            op::MULTIANEWARRAY => {
                self.take(k, i)?;
                self.push_made(i);
            }
            op::CHECKCAST => {}
            op::DUP..=op::SWAP => self.copy_words(i)?,
            op::GETSTATIC..=op::INVOKEDYNAMIC => {
                let (taken, pushed, reference) = member_effect(method, i)?;
                self.take(taken, i)?;
                if reference && pushed == 1 {
                    self.push_made(i);
                } else {
                    self.push_nameless(pushed);
                }
            }
            other => {
                return Err(Obstacle::new(
                    i.at,
                    format!("no instruction has the opcode {other}"),
                ))
            }
        }
        Ok(self)
    }

    /// What a throw brings to the handler at an offset. What was caught there earlier is not it.
    pub(crate) fn caught(&self, handler: u32) -> Places {
        let x = Some(Name::Caught(handler));
        let variables = self
            .variables
            .iter()
            .map(|&y| if y == x { None } else { y })
            .collect();
        Places {
            variables,
            stack: vec![x],
        }
    }
}

/// Class constants by name: one name, one reference.
#[derive(Clone, Debug, Default)]
pub struct Classes(HashMap<String, u32>);

impl Classes {
    /// The class that a number stands for.
    pub fn name(&self, number: u32) -> Option<&str> {
        self.0
            .iter()
            .find(|(_, &n)| n == number)
            .map(|(name, _)| name.as_str())
    }

    fn named(&mut self, name: &str) -> Name {
        let next = self.0.len() as u32;
        Name::Class(*self.0.entry(name.to_owned()).or_insert(next))
    }
}

/// One place where ways meet: the one name that all bring, where what the place was named here does not count; otherwise the meeting's own.
fn joined(at: u32, place: i32, brought: impl Iterator<Item = Place>) -> Place {
    let own = Name::Join(at, place);
    let (mut one, mut differ) = (own, false);
    for x in brought {
        let x = x?;
        if x == own {
            continue;
        }
        differ |= one != own && one != x;
        one = x;
    }
    match one {
        // A name that this meeting gave in an earlier round.
        Name::Join(from, _) if from == at => Some(own),
        _ if differ => Some(own),
        _ => Some(one),
    }
}

fn met(at: u32, incoming: &[(Edge, Places)]) -> Result<Places, Obstacle> {
    let first = &incoming[0].1;
    if incoming
        .iter()
        .any(|(_, p)| p.stack.len() != first.stack.len())
    {
        return Err(Obstacle::new(at, "stack depths differ where ways meet"));
    }
    let variables = (0..first.variables.len())
        .map(|k| joined(at, k as i32, incoming.iter().map(|(_, p)| p.variables[k])))
        .collect();
    let stack = (0..first.stack.len())
        .map(|k| joined(at, -1 - k as i32, incoming.iter().map(|(_, p)| p.stack[k])))
        .collect();
    Ok(Places { variables, stack })
}

/// The instruction that an edge comes from, and whether by a throw; the method's start has none.
type Edge = Option<(usize, bool)>;

/// Reverse postorder over jumps and throws, from the first instruction: the rank of each that is reached.
fn ranks(all: &[Instruction]) -> (Vec<Option<usize>>, Vec<usize>) {
    let onward = |k: usize| {
        let mut to: Vec<usize> = all[k].handlers.iter().map(|&(h, _)| h).collect();
        to.extend(all[k].successors().into_iter().rev());
        to
    };
    let mut seen = vec![false; all.len()];
    seen[0] = true;
    let mut post = Vec::new();
    let mut todo = vec![(0, onward(0), 0)];
    while let Some((k, to, next)) = todo.last_mut() {
        if let Some(&t) = to.get(*next) {
            *next += 1;
            if !seen[t] {
                seen[t] = true;
                todo.push((t, onward(t), 0));
            }
        } else {
            post.push(*k);
            todo.pop();
        }
    }
    post.reverse();
    let mut rank = vec![None; all.len()];
    for (r, &k) in post.iter().enumerate() {
        rank[k] = Some(r);
    }
    (rank, post)
}

/// Rounds through one instruction after which the names are given up.
const MOST_ROUNDS: u32 = 60;

struct Search {
    rank: Vec<Option<usize>>,
    incoming: Vec<Vec<(Edge, Places)>>,
    work: BTreeSet<usize>,
}

impl Search {
    fn send(&mut self, edge: Edge, to: usize, places: Places) {
        let table = &mut self.incoming[to];
        match table.iter_mut().find(|(e, _)| *e == edge) {
            Some((_, old)) if *old == places => return,
            Some((_, old)) => *old = places,
            None => table.push((edge, places)),
        }
        self.work.extend(self.rank[to]);
    }
}

/// The names in all places before each instruction that is reached.
pub fn values(method: &Method, all: &[Instruction], throws: &Throws) -> Result<Values, Obstacle> {
    let (rank, order) = ranks(all);
    let made = |i: &&Instruction| {
        matches!(
            i.op,
            op::NEW | op::NEWARRAY | op::ANEWARRAY | op::MULTIANEWARRAY
        )
    };
    let made: BTreeSet<u32> = all.iter().filter(made).map(|i| i.at).collect();
    let mut values = Values {
        before: vec![None; all.len()],
        made,
        classes: Classes::default(),
    };
    let mut search = Search {
        rank,
        incoming: vec![Vec::new(); all.len()],
        work: BTreeSet::new(),
    };
    search.send(None, 0, given(method)?);
    let mut rounds = vec![0; all.len()];
    while let Some(r) = search.work.pop_first() {
        let k = order[r];
        let i = &all[k];
        let table = &search.incoming[k];
        let places = if table.len() == 1 {
            table[0].1.clone()
        } else {
            met(i.at, table)?
        };
        if values.before[k].as_ref() == Some(&places) {
            continue;
        }
        rounds[k] += 1;
        if rounds[k] > MOST_ROUNDS {
            return Err(Obstacle::new(i.at, "the references do not settle"));
        }
        values.before[k] = Some(places.clone());
        let operand = if i.op == op::MONITORENTER {
            places.under(0).flatten()
        } else {
            None
        };
        for to in targets(
            method,
            i,
            operand.is_some_and(|v| values.is_made(method, v)),
            throws,
        ) {
            if let Thrown::To(h) = to {
                search.send(Some((k, true)), h, places.caught(all[h].at));
            }
        }
        let after = places.after(method, i, &mut values.classes)?;
        for to in i.successors() {
            search.send(Some((k, false)), to, after.clone());
        }
    }
    Ok(values)
}

/// The places at the method's start.
fn given(method: &Method) -> Result<Places, Obstacle> {
    let broken = || {
        Obstacle::new(
            0,
            "the method's descriptor or its number of variables is wrong",
        )
    };
    let (mut widths, _) = arguments(method.descriptor).ok_or_else(broken)?;
    if !method.is_static {
        widths.insert(0, (1, true));
    }
    let mut variables = vec![None; usize::from(method.max_locals)];
    let mut slot = 0;
    for (n, reference) in widths {
        if reference {
            *variables.get_mut(slot).ok_or_else(broken)? = Some(Name::Argument(slot as u16));
        }
        slot += n;
    }
    Ok(Places {
        variables,
        stack: Vec::new(),
    })
}

impl Values {
    /// Whether a reference cannot be null by what it is.
    pub fn is_made(&self, method: &Method, name: Name) -> bool {
        match name {
            Name::Argument(slot) => slot == 0 && !method.is_static,
            Name::Class(_) | Name::Caught(_) => true,
            Name::Made(at) => self.made.contains(&at),
            _ => false,
        }
    }
}

#[cfg(test)]
mod tests {
    use super::*;
    use crate::instruction::decoded;
    use crate::tests::method;

    fn before(code: &[u8], at: u32) -> Places {
        let m = method(code);
        let all = decoded(&m).unwrap();
        let k = all.iter().position(|i| i.at == at).unwrap();
        values(&m, &all, &Throws::default()).unwrap().before[k]
            .clone()
            .unwrap()
    }

    #[test]
    fn copies_keep_the_name() {
        // aload_1; dup; astore_2; monitorenter; aload_2; monitorexit; return
        let code = [0x2b, 0x59, 0x4d, 0xc2, 0x2c, 0xc3, 0xb1];
        assert_eq!(before(&code, 3).stack, [Some(Name::Argument(1))]);
        assert_eq!(before(&code, 5).stack, [Some(Name::Argument(1))]);
    }

    #[test]
    fn one_name_from_two_ways_stays() {
        // iconst_0; ifeq 8; aload_1; goto 9; aload_1; astore_2; return
        let code = [0x03, 0x99, 0, 7, 0x2b, 0xa7, 0, 4, 0x2b, 0x4d, 0xb1];
        assert_eq!(before(&code, 9).stack, [Some(Name::Argument(1))]);
    }

    #[test]
    fn two_names_meet_as_the_meetings_own() {
        let code = [0x03, 0x99, 0, 7, 0x2a, 0xa7, 0, 4, 0x2b, 0x4d, 0xb1];
        assert_eq!(before(&code, 9).stack, [Some(Name::Join(9, -1))]);
    }

    #[test]
    fn what_a_loop_makes_anew_is_told_from_the_last() {
        // 0: new; 3: dup; 4: astore_2; 5: astore_3; 6: goto 0
        let code = [0xbb, 0, 2, 0x59, 0x4d, 0x4e, 0xa7, 0xff, 0xfa];
        assert_eq!(before(&code, 3).stack, [Some(Name::Made(0))]);
        assert_ne!(before(&code, 3).variables[2], Some(Name::Made(0)));
    }

    #[test]
    fn descriptors() {
        assert_eq!(
            arguments("(J[DLA;I)[I"),
            Some((vec![(2, false), (1, true), (1, true), (1, false)], b'['))
        );
        for wrong in ["", "()", "(L", "(LA", "(["] {
            assert_eq!(arguments(wrong), None, "{wrong}");
        }
    }
}
