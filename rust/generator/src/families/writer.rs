//! Writes code while carrying its types forward, so that every instruction
//! gets the row it needs.

use super::interface::Interface;
use crate::builder::{Method, Row};
use crate::rng::Rng;
use reference::bundle::{Addr, Field, Instr, Var};
use reference::entries::{Entry, Pair, MAX_WEIGHT};
use reference::slips::{AsWritten, Slip};

/// What holds between two instructions; the stack is bottom first.
#[derive(Clone, Debug, PartialEq, Eq)]
pub struct Shape {
    pub variables: Vec<Entry>,
    pub stack: Vec<Entry>,
}

impl Shape {
    pub fn fits(&self, next: &Shape) -> bool {
        let all = |a: &[Entry], b: &[Entry]| a.iter().zip(b).all(|(x, y)| x.fits(*y));
        self.stack.len() == next.stack.len()
            && all(&self.stack, &next.stack)
            && all(&self.variables, &next.variables)
    }

    pub fn variables_fit(&self, next: &Shape) -> bool {
        self.variables
            .iter()
            .zip(&next.variables)
            .all(|(x, y)| x.fits(*y))
    }

    /// The same variables over another stack.
    pub fn with_stack(&self, stack: &[Entry]) -> Shape {
        Shape {
            variables: self.variables.clone(),
            stack: stack.to_vec(),
        }
    }
}

/// A place in the code that is jumped to, perhaps before it is written.
#[derive(Clone, Copy, Debug, PartialEq, Eq)]
pub struct Label(pub usize);

#[derive(Clone, Debug)]
struct Spot {
    shape: Shape,
    address: Option<u16>,
    used: bool,
}

/// The method under way.
#[derive(Debug)]
pub struct Writer<'r> {
    pub rng: &'r mut Rng,
    pub interface: &'r Interface,
    pub stack_limit: usize,
    /// Past this many instructions, statements are no longer begun.
    pub budget: usize,
    pub now: Shape,
    /// A slip to exploit, once, inside a lock region.
    pub temptation: Option<Slip>,
    code: Vec<Instr>,
    rows: Vec<Shape>,
    spots: Vec<Spot>,
}

/// Whether an entry may be dropped under the law.
pub fn free(entry: Entry) -> bool {
    entry.may_go::<AsWritten>()
}

impl<'r> Writer<'r> {
    pub fn new(
        rng: &'r mut Rng,
        interface: &'r Interface,
        first: Vec<Entry>,
        stack_limit: usize,
        budget: usize,
    ) -> Writer<'r> {
        Writer {
            rng,
            interface,
            stack_limit,
            budget,
            now: Shape {
                variables: first,
                stack: vec![],
            },
            temptation: None,
            code: vec![],
            rows: vec![],
            spots: vec![],
        }
    }

    fn emit(&mut self, instr: Instr) {
        self.rows.push(self.now.clone());
        self.code.push(instr);
    }

    pub fn tired(&self) -> bool {
        self.code.len() >= self.budget
    }

    pub fn room(&self) -> usize {
        self.stack_limit - self.now.stack.len()
    }

    pub fn stack_free(&self) -> bool {
        self.now.stack.iter().all(|&entry| free(entry))
    }

    pub fn variables_free(&self) -> bool {
        self.now.variables.iter().all(|&entry| free(entry))
    }

    pub fn push0(&mut self) {
        self.emit(Instr::Push0);
        self.now.stack.push(Entry::Int);
    }

    pub fn inc(&mut self) {
        self.emit(Instr::Inc);
    }

    pub fn pop(&mut self) {
        self.emit(Instr::Pop);
        self.now.stack.pop();
    }

    /// Loads `v`, which keeps one part of its pair and gives the other.
    pub fn load(&mut self, v: usize, kept: Entry, given: Entry) {
        self.emit(Instr::Load(Var(v as u8)));
        self.now.variables[v] = kept;
        self.now.stack.push(given);
    }

    pub fn store(&mut self, v: usize) {
        self.emit(Instr::Store(Var(v as u8)));
        if let Some(top) = self.now.stack.pop() {
            self.now.variables[v] = top;
        }
    }

    /// A handler at a reference that is not null is looked at by nobody.
    pub fn enter(&mut self, v: usize) {
        let handler = self.idle_handler();
        self.enter_to(v, handler);
        self.shift(v, Pair::entered);
    }

    /// Takes the lock of a reference that may be null, or throws.
    pub fn enter_nullable(&mut self, v: usize, handler: Option<Label>) {
        self.enter_to(v, handler);
        if let Entry::Nullable { class } = self.now.variables[v] {
            let pair = Pair::ZERO.entered();
            self.now.variables[v] = Entry::Ref { class, pair };
        }
    }

    fn enter_to(&mut self, v: usize, handler: Option<Label>) {
        let handler = handler.map(|label| self.refer(label));
        self.emit(Instr::Enter(Var(v as u8), handler));
    }

    /// Mostly none, at times whatever label there is.
    pub fn idle_handler(&mut self) -> Option<Label> {
        let all = self.labels(|shape| shape.stack.len() <= self.stack_limit);
        let any = self.rng.chance(1, 8) && !all.is_empty();
        any.then(|| self.rng.pick(&all))
    }

    pub fn getfield(&mut self, field: Field, handler: Option<Label>) {
        let handler = handler.map(|label| self.refer(label));
        self.emit(Instr::Getfield(field, handler));
        self.now.stack.pop();
        let held = Entry::held(self.interface.descriptor(field));
        self.now.stack.push(held);
    }

    pub fn putfield(&mut self, field: Field, handler: Option<Label>) {
        let handler = handler.map(|label| self.refer(label));
        self.emit(Instr::Putfield(field, handler));
        self.now.stack.truncate(self.now.stack.len() - 2);
    }

    pub fn exit(&mut self, v: usize) {
        self.emit(Instr::Exit(Var(v as u8)));
        self.shift(v, Pair::exited);
    }

    fn shift(&mut self, v: usize, moved: fn(Pair) -> Pair) {
        if let Entry::Ref { pair, .. } = &mut self.now.variables[v] {
            let Pair { dip, end } = moved(*pair);
            *pair = Pair::new(dip.max(0), end);
        }
    }

    /// Whether one more enter can be written down in a pair.
    pub fn can_enter(&self, v: usize) -> bool {
        matches!(self.now.variables[v], Entry::Ref { pair, .. }
            if pair.dip < MAX_WEIGHT && pair.end > -MAX_WEIGHT)
    }

    pub fn new_object(&mut self, class: u8, handler: Option<Label>) {
        let handler = handler.map(|label| self.refer(label));
        self.emit(Instr::New(class, handler));
        self.now.stack.push(Entry::fresh(class));
    }

    pub fn start(&mut self, class: u8) {
        self.emit(Instr::Start(class));
        let taken = self.interface.signatures[usize::from(class)].len() + 1;
        self.now.stack.truncate(self.now.stack.len() - taken);
    }

    pub fn branch(&mut self, label: Label) {
        let target = self.refer(label);
        self.emit(Instr::If(target));
        self.now.stack.pop();
    }

    pub fn throw(&mut self, handler: Option<Label>) {
        let handler = handler.map(|label| self.refer(label));
        self.emit(Instr::Athrow(handler));
    }

    pub fn ret(&mut self) {
        self.emit(Instr::Return);
    }

    /// Until the end, an address in the code is a label's number.
    fn refer(&mut self, label: Label) -> Addr {
        self.spots[label.0].used = true;
        Addr(label.0 as u16)
    }

    pub fn label(&mut self, shape: Shape) -> Label {
        self.spots.push(Spot {
            shape,
            address: None,
            used: false,
        });
        Label(self.spots.len() - 1)
    }

    pub fn shape(&self, label: Label) -> Shape {
        self.spots[label.0].shape.clone()
    }

    /// The labels at which this holds of the shape.
    pub fn labels(&self, ok: impl Fn(&Shape) -> bool) -> Vec<Label> {
        (0..self.spots.len())
            .filter(|&i| ok(&self.spots[i].shape))
            .map(Label)
            .collect()
    }

    pub fn is_placed(&self, label: Label) -> bool {
        self.spots[label.0].address.is_some()
    }

    /// The label's code begins here, in the label's shape.
    pub fn place(&mut self, label: Label) {
        self.spots[label.0].address = Some(self.code.len() as u16 + 1);
        self.now = self.shape(label);
    }

    /// A label jumped to whose code isn't written yet.
    pub fn unplaced(&self) -> Option<Label> {
        self.spots
            .iter()
            .position(|spot| spot.used && spot.address.is_none())
            .map(Label)
    }

    /// The method of this class, unless it has grown past 256 instructions.
    pub fn into_method(self, class: usize) -> Option<Method> {
        if self.code.is_empty() || self.code.len() > 256 {
            return None;
        }
        let at = |label: Addr| self.spots[usize::from(label.0)].address.map(Addr);
        // Addresses in the place of label numbers.
        let resolved = |&instr: &Instr| match instr.jump() {
            Some(label) => at(label).map(|address| instr.aimed(address)),
            None => Some(instr),
        };
        let code: Option<Vec<Instr>> = self.code.iter().map(resolved).collect();
        let rows = self.rows.iter().map(finished_row).collect();
        let variables = self.now.variables.len();
        Some(Method {
            arguments: self.interface.signatures[class].clone(),
            fields: self.interface.fields[class].clone(),
            variables,
            stack_limit: self.stack_limit,
            code: code?,
            rows,
        })
    }
}

fn finished_row(shape: &Shape) -> Row {
    let stack: Vec<Entry> = shape.stack.iter().rev().copied().collect();
    Row::new(&shape.variables, &stack)
}
