//! Methods whose kinds fit along every way, with jumps and handlers anywhere:
//! only their pairs are left to be worked out, if there are any that do.
//!
//! An entry's pair stands for how often its lock is held, (m,-m). Most jumps go
//! where these agree, and then pairs exist; some go where kinds alone do.

use crate::builder::{Draft, Method, Row};
use crate::rng::Rng;
use reference::bundle::{Addr, Instr, Var};
use reference::entries::Entry;

/// How large a method may be.
#[derive(Clone, Copy, Debug)]
pub struct Size {
    pub variables: usize,
    pub stack_limit: usize,
    pub code: usize,
}

/// A bundle of one to three classes.
pub fn unpaired(rng: &mut Rng) -> Draft {
    let classes = rng.between(1, 3);
    let methods = (0..classes).map(|class| {
        let size = Size {
            variables: rng.between(1, 4),
            stack_limit: rng.between(1, 3),
            code: rng.pick(&[4, 8, 12, 20, 40, 120]),
        };
        let arguments = if class == 0 { 0 } else { rng.below(3) };
        method(rng, size, arguments.min(size.variables))
    });
    let methods = methods.collect();
    Draft {
        methods,
        exception: 0,
    }
}

/// A bundle with one small method.
pub fn tiny(rng: &mut Rng) -> Draft {
    let size = Size {
        variables: rng.below(2),
        stack_limit: rng.between(1, 2),
        code: rng.between(2, 6),
    };
    let methods = vec![method(rng, size, 0)];
    Draft {
        methods,
        exception: 0,
    }
}

/// All references are of class 0; some ways lead to what has been thrown.
fn method(rng: &mut Rng, size: Size, arguments: usize) -> Method {
    let mut variables = vec![Entry::fresh(0); arguments];
    variables.resize(size.variables, Entry::Top);
    let mut line = Line {
        rng,
        size,
        code: vec![],
        rows: vec![],
        now: Row::new(&variables, &[]),
    };
    while line.code.len() + 1 < size.code {
        line.add();
    }
    line.end();
    let (code, rows) = line.aimed();
    Method {
        arguments: vec![0; arguments],
        variables: size.variables,
        stack_limit: size.stack_limit,
        code,
        rows,
        ..Method::default()
    }
}

/// Code so far, and the row that comes next. Targets are chosen at the end.
struct Line<'a> {
    rng: &'a mut Rng,
    size: Size,
    code: Vec<Instr>,
    rows: Vec<Row>,
    now: Row,
}

/// A target that is yet to be chosen.
const SOMEWHERE: Addr = Addr(0);

fn held(entry: Entry) -> i16 {
    match entry {
        Entry::Ref { pair, .. } => pair.dip,
        _ => 0,
    }
}

/// The same reference, its lock held so often.
fn holding(times: i16) -> Entry {
    Entry::reference(0, times, -times)
}

impl Line<'_> {
    fn put(&mut self, instr: Instr) {
        self.code.push(instr);
        self.rows.push(self.now.clone());
    }

    fn handler(&mut self) -> Option<Addr> {
        self.rng.chance(1, 2).then_some(SOMEWHERE)
    }

    fn any_variable(&mut self) -> Option<Var> {
        (self.size.variables > 0).then(|| Var(self.rng.below(self.size.variables) as u8))
    }

    /// One instruction that can stand here, if chance names one.
    fn add(&mut self) {
        let room = self.now.stack.len() < self.size.stack_limit;
        let top = self.now.stack.first().copied();
        match (self.rng.below(20), top) {
            (0 | 1, _) if room => self.push(Instr::Push0, Entry::Int),
            (2..=4, _) if room && self.lightly_held() => {
                let handler = self.handler();
                self.push(Instr::New(0, handler), Entry::fresh(0));
            }
            (5, Some(top)) if held(top) == 0 || self.rng.chance(1, 20) => self.drop_top(Instr::Pop),
            (6, Some(Entry::Int)) => self.put(Instr::Inc),
            (7 | 8, Some(Entry::Int)) => self.drop_top(Instr::If(SOMEWHERE)),
            (9, Some(Entry::Ref { .. })) if self.rng.chance(1, 4) => {
                self.put(Instr::Athrow(Some(SOMEWHERE)));
                self.begin_again();
            }
            (10, _) if self.rng.chance(1, 8) => {
                self.put(Instr::Return);
                self.begin_again();
            }
            (kind, _) => {
                if let Some(v) = self.any_variable() {
                    self.with_variable(kind, v, room);
                }
            }
        }
        self.forget();
    }

    fn with_variable(&mut self, kind: usize, v: Var, room: bool) {
        let at = usize::from(v.0);
        let (entry, top) = (self.now.variables[at], self.now.stack.first().copied());
        match (kind, entry, top) {
            (11 | 12, _, _) if room => self.load(v, entry),
            (13 | 14, _, Some(top)) if held(entry) == 0 => {
                self.drop_top(Instr::Store(v));
                self.now.variables[at] = top;
            }
            (15..=17, Entry::Ref { pair, .. }, _) if pair.dip < 60 => {
                self.put(Instr::Enter(v, None));
                self.now.variables[at] = holding(pair.dip + 1);
            }
            (18 | 19, Entry::Ref { pair, .. }, _) if pair.dip > 0 || self.rng.chance(1, 30) => {
                self.put(Instr::Exit(v));
                self.now.variables[at] = holding((pair.dip - 1).max(0));
            }
            (15..=19, Entry::Nullable { .. }, _) if self.lightly_held() => {
                let handler = self.handler();
                self.put(Instr::Enter(v, handler));
                self.now.variables[at] = holding(1);
            }
            _ => {}
        }
    }

    /// What is held is shared out between both places.
    fn load(&mut self, v: Var, entry: Entry) {
        let given = match entry {
            Entry::Ref { pair, .. } => {
                let kept = self.rng.between(0, pair.dip as usize) as i16;
                self.put(Instr::Load(v));
                self.now.variables[usize::from(v.0)] = holding(kept);
                holding(pair.dip - kept)
            }
            other => {
                self.put(Instr::Load(v));
                other
            }
        };
        self.now.stack.insert(0, given);
    }

    fn push(&mut self, instr: Instr, entry: Entry) {
        self.put(instr);
        self.now.stack.insert(0, entry);
    }

    fn drop_top(&mut self, instr: Instr) {
        self.put(instr);
        self.now.stack.remove(0);
    }

    /// Whether nothing on the stack is held: all of it may go. At times that is
    /// not looked at.
    fn lightly_held(&mut self) -> bool {
        self.now.stack.iter().all(|&entry| held(entry) == 0) || self.rng.chance(1, 20)
    }

    /// After a return or a throw: as in some row before, or with what is thrown.
    fn begin_again(&mut self) {
        if let Some(at) = self.rows.len().checked_sub(1) {
            self.now = self.rows[self.rng.between(0, at)].clone();
        }
        if self.rng.chance(1, 2) {
            self.now.stack = vec![Entry::fresh(0)];
        }
    }

    /// At times an entry is known less of than before.
    fn forget(&mut self) {
        if self.code.is_empty() || !self.rng.chance(1, 12) {
            return;
        }
        let weaker = self.rng.pick(&[Entry::Top, Entry::Nullable { class: 0 }]);
        let mut entries = self.now.variables.iter_mut().chain(&mut self.now.stack);
        if let Some(entry) = entries.find(|e| matches!(e, Entry::Ref { .. }) && held(**e) == 0) {
            *entry = weaker;
        }
    }

    /// The last address: mostly nothing is held there.
    fn end(&mut self) {
        let thrown = matches!(self.now.stack.first(), Some(Entry::Ref { .. }));
        match thrown && self.rng.chance(1, 2) {
            true => self.put(Instr::Athrow(Some(SOMEWHERE))),
            false => self.put(Instr::Return),
        }
    }

    /// Every target and handler is a row that its kinds fit, mostly one that
    /// agrees in what is held too; where there is none, there is no handler.
    fn aimed(self) -> (Vec<Instr>, Vec<Row>) {
        let Line {
            rng, code, rows, ..
        } = self;
        let aimed = code.iter().zip(&rows).map(|(&instr, row)| {
            if instr.jump().is_none() {
                return instr;
            }
            let left = left_by(instr, row);
            let fitting = |strict: bool| -> Vec<u16> {
                let addresses = (1..).zip(&rows);
                let fitting = addresses.filter(|(_, to)| comes_to(&left, to, strict));
                fitting.map(|(address, _)| address).collect()
            };
            let alike = fitting(true);
            let targets = match alike.is_empty() || rng.chance(1, 24) {
                true => fitting(false),
                false => alike,
            };
            match targets.is_empty() {
                true => without(instr),
                false => instr.aimed(Addr(rng.pick(&targets))),
            }
        });
        (aimed.collect(), rows.clone())
    }
}

/// What an instruction leaves on the way to its target or handler.
fn left_by(instr: Instr, row: &Row) -> Row {
    let stack = match instr {
        Instr::If(_) => &row.stack[1..],
        Instr::Athrow(_) => &row.stack[..1],
        _ => &[Entry::fresh(0)],
    };
    Row::new(&row.variables, stack)
}

fn comes_to(left: &Row, to: &Row, strict: bool) -> bool {
    let all = |one: &[Entry], other: &[Entry]| {
        let mut entries = one.iter().zip(other);
        one.len() == other.len() && entries.all(|(&a, &b)| becomes(a, b, strict))
    };
    all(&left.variables, &to.variables) && all(&left.stack, &to.stack)
}

/// Whether an entry's kind fits another's; strictly, its pair too.
fn becomes(from: Entry, to: Entry, strict: bool) -> bool {
    match strict {
        true => from.fits(to),
        false => match (from, to) {
            (Entry::Ref { .. }, Entry::Ref { .. } | Entry::Nullable { .. } | Entry::Top) => true,
            _ => from.fits(to),
        },
    }
}

fn without(instr: Instr) -> Instr {
    match instr {
        Instr::Enter(v, _) => Instr::Enter(v, None),
        Instr::New(class, _) => Instr::New(class, None),
        Instr::Athrow(_) => Instr::Athrow(None),
        other => other,
    }
}
