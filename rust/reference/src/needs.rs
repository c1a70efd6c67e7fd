//! What the rules ask of the pairs of one class, whatever these are.
//!
//! Of a reference's pair a rule says that it is at least the sum of what some
//! next entries weigh, moved by one where a lock is taken or given back; of a
//! pair that is given, such as the (0,0) of a new object, that it is at least
//! what the next entry weighs. All else that a rule asks is of kinds, classes
//! and depths, which no pair mends.

use crate::bundle::{Addr, Bundle, Class, Field, Instr, Var, INT};
use crate::entries::{Entry, Pair, MAX_WEIGHT};
use crate::slips::{Law, Slip};
use std::marker::PhantomData;

/// A reference in use, by its number in the class: row by row, in each the
/// variables and then the stack from the top.
pub type Node = u32;

/// At least the sum of these weights and of what it is moved by.
#[derive(Clone, Copy, Debug, PartialEq, Eq)]
pub struct Need {
    pub of: [Option<Node>; 2],
    pub moved: Pair,
}

/// What is asked of one reference's pair.
#[derive(Clone, Copy, Debug)]
pub struct Asked {
    /// Its address, and its place in the row: the variables, then the stack.
    pub address: u16,
    pub place: u8,
    pub at_least: Pair,
    pub at_most: Pair,
    /// On the way to the next row, and to a target's or a handler's.
    pub next: Option<Need>,
    pub jump: Option<Need>,
}

/// What is asked of all pairs of a class.
#[derive(Clone, Debug, Default)]
pub struct Needs {
    pub nodes: Vec<Asked>,
    /// Whether something is asked that no pair mends.
    pub beyond_mending: bool,
}

/// A rule asks something that no pair mends.
struct Beyond;

type Mending = Result<(), Beyond>;

/// An entry apart from its pair.
#[derive(Clone, Copy, Debug, PartialEq, Eq)]
enum Shape {
    Int,
    Top,
    Nullable(u8),
    Reference(u8, Node),
}

/// A row apart from its pairs; the stack is its part in use, top first.
#[derive(Clone, Copy)]
struct Row<'a> {
    variables: &'a [Shape],
    stack: &'a [Shape],
}

/// Which row an entry comes to.
#[derive(Clone, Copy, PartialEq, Eq)]
enum Way {
    Next,
    Target,
    Handler,
}

const LOWEST: Pair = Pair::new(0, -MAX_WEIGHT);
const HIGHEST: Pair = Pair::new(MAX_WEIGHT, MAX_WEIGHT);
/// What a lock that is taken adds to what comes after it: d >= d'-1, e >= e'+1.
const TAKEN: Pair = Pair::new(-1, 1);
const GIVEN_BACK: Pair = Pair::new(1, -1);

impl Needs {
    pub fn of<L: Law>(bundle: &Bundle, class: &Class) -> Needs {
        let mut needs = Needs::default();
        let shapes = Shapes::read::<L>(class, &mut needs.nodes);
        let rules = Rules::<L> {
            bundle,
            class,
            shapes: &shapes,
            law: PhantomData,
        };
        let mut beyond = rules.first_row(&mut needs).is_err();
        for address in 1..=class.code_length() {
            beyond |= rules.rule(&mut needs, Addr(address)).is_err();
        }
        needs.beyond_mending = beyond;
        needs
    }

    fn asked(&mut self, node: Node) -> &mut Asked {
        &mut self.nodes[node as usize]
    }

    /// The rule "May go".
    fn may_go(&mut self, shape: Shape) {
        if let Shape::Reference(_, node) = shape {
            self.at_least(node, Pair::ZERO);
        }
    }

    fn all_may_go(&mut self, shapes: &[Shape]) {
        shapes.iter().for_each(|&shape| self.may_go(shape));
    }

    fn at_least(&mut self, node: Node, pair: Pair) {
        let own = &mut self.asked(node).at_least;
        *own = Pair::new(own.dip.max(pair.dip), own.end.max(pair.end));
    }

    fn at_most(&mut self, node: Node, pair: Pair) {
        let own = &mut self.asked(node).at_most;
        *own = Pair::new(own.dip.min(pair.dip), own.end.min(pair.end));
    }

    fn need(&mut self, node: Node, way: Way, need: Need) {
        match (way, need.of) {
            (_, [None, None]) => self.at_least(node, need.moved),
            (Way::Next, _) => self.asked(node).next = Some(need),
            (Way::Target | Way::Handler, _) => self.asked(node).jump = Some(need),
        }
    }

    /// The rule "Fits".
    fn fits<L: Law>(&mut self, way: Way, from: Shape, to: Shape) -> Mending {
        match (from, to) {
            (Shape::Int, Shape::Int | Shape::Top) => Ok(()),
            (Shape::Top | Shape::Nullable(_), Shape::Top) => Ok(()),
            (Shape::Nullable(class), Shape::Nullable(own)) => beyond_unless(class == own),
            (Shape::Reference(class, node), _) => {
                let of = [weighs(class, to)?, None];
                let moved = match L::slips(Slip::HandlerKeepsDip) && way == Way::Handler {
                    true => Pair::new(-MAX_WEIGHT, 0),
                    false => Pair::ZERO,
                };
                self.need(node, way, Need { of, moved });
                Ok(())
            }
            _ => Err(Beyond),
        }
    }

    /// A reference of this class that comes with this pair fits.
    fn gives(&mut self, class: u8, pair: Pair, to: Shape) -> Mending {
        match weighs(class, to)? {
            Some(node) => self.at_most(node, pair),
            None => beyond_unless(pair.end >= 0)?,
        }
        Ok(())
    }

    /// All variables but one fit, and the stack without its `taken` first
    /// entries comes out as the other row's without its `given` first ones.
    fn rest_fits<L: Law>(
        &mut self,
        way: Way,
        from: Row,
        to: Row,
        but: Option<Var>,
        [taken, given]: [usize; 2],
    ) -> Mending {
        let left = from.stack.get(taken..).ok_or(Beyond)?;
        let wanted = to.stack.get(given..).ok_or(Beyond)?;
        beyond_unless(left.len() == wanted.len())?;
        for (v, (&from, &to)) in from.variables.iter().zip(to.variables).enumerate() {
            if but.is_none_or(|but| usize::from(but.0) != v) {
                self.fits::<L>(way, from, to)?;
            }
        }
        let mut stack = left.iter().zip(wanted);
        stack.try_for_each(|(&from, &to)| self.fits::<L>(way, from, to))
    }
}

fn beyond_unless(holds: bool) -> Mending {
    match holds {
        true => Ok(()),
        false => Err(Beyond),
    }
}

/// Whose pair an entry weighs as the next one of a reference to `class`; as Top
/// or as one that may be null it weighs (0,0).
fn weighs(class: u8, shape: Shape) -> Result<Option<Node>, Beyond> {
    match shape {
        Shape::Top => Ok(None),
        Shape::Nullable(own) if own == class => Ok(None),
        Shape::Reference(own, node) if own == class => Ok(Some(node)),
        _ => Err(Beyond),
    }
}

/// All rows of a class, apart from their pairs.
struct Shapes {
    variables: usize,
    width: usize,
    entries: Vec<Shape>,
    depths: Vec<usize>,
}

impl Shapes {
    /// Numbers the references as it reads them.
    fn read<L: Law>(class: &Class, nodes: &mut Vec<Asked>) -> Shapes {
        let width = class.variables + class.stack_limit;
        let mut shapes = Shapes {
            variables: class.variables,
            width,
            entries: Vec::with_capacity(width * usize::from(class.code_length())),
            depths: vec![],
        };
        let lowest = match L::slips(Slip::EndFromMinus62) {
            true => Pair::new(LOWEST.dip, LOWEST.end + 1),
            false => LOWEST,
        };
        for (address, row) in (1..).zip(class.raw_rows()) {
            let used = row.variables.iter().chain(&row.stack[..row.depth]);
            for (place, &raw) in (0..).zip(used) {
                shapes.entries.push(match Entry::read(raw) {
                    Entry::Int => Shape::Int,
                    Entry::Top => Shape::Top,
                    Entry::Nullable { class } => Shape::Nullable(class),
                    Entry::Ref { class, .. } => {
                        nodes.push(Asked {
                            address,
                            place,
                            at_least: lowest,
                            at_most: HIGHEST,
                            next: None,
                            jump: None,
                        });
                        Shape::Reference(class, nodes.len() as Node - 1)
                    }
                });
            }
            shapes.depths.push(row.depth);
            shapes
                .entries
                .resize(width * usize::from(address), Shape::Top);
        }
        shapes
    }

    fn row(&self, address: Addr) -> Row<'_> {
        let at = usize::from(address.0) - 1;
        let (variables, stack) =
            self.entries[at * self.width..(at + 1) * self.width].split_at(self.variables);
        Row {
            variables,
            stack: &stack[..self.depths[at]],
        }
    }
}

struct Rules<'a, L> {
    bundle: &'a Bundle<'a>,
    class: &'a Class<'a>,
    shapes: &'a Shapes,
    law: PhantomData<L>,
}

impl<L: Law> Rules<'_, L> {
    /// Row 1: depth 0, arguments fit their variables, the others are Top.
    fn first_row(&self, needs: &mut Needs) -> Mending {
        let row = self.shapes.row(Addr(1));
        beyond_unless(row.stack.is_empty())?;
        for (v, &shape) in row.variables.iter().enumerate() {
            match self.class.arguments.get(v) {
                Some(&INT) => needs.fits::<L>(Way::Next, Shape::Int, shape)?,
                Some(&class) => needs.gives(class, Pair::ZERO, shape)?,
                None => beyond_unless(shape == Shape::Top)?,
            }
        }
        Ok(())
    }

    fn rule(&self, needs: &mut Needs, address: Addr) -> Mending {
        let row = self.shapes.row(address);
        let next = || self.shapes.row(Addr(address.0 + 1));
        match self.class.instruction(address) {
            Instr::Inc => {
                beyond_unless(row.stack.first() == Some(&Shape::Int))?;
                self.pushes(needs, row, next(), 1, Shape::Int)
            }
            Instr::Pop => {
                needs.may_go(top(row)?);
                needs.rest_fits::<L>(Way::Next, row, next(), None, [1, 0])
            }
            Instr::Push0 => self.pushes(needs, row, next(), 0, Shape::Int),
            Instr::Load(v) => self.load(needs, row, next(), v),
            Instr::Store(v) => {
                needs.may_go(at(row, v));
                needs.rest_fits::<L>(Way::Next, row, next(), Some(v), [1, 0])?;
                needs.fits::<L>(Way::Next, top(row)?, at(next(), v))
            }
            Instr::If(target) => {
                beyond_unless(row.stack.first() == Some(&Shape::Int))?;
                let target = self.shapes.row(target);
                needs.rest_fits::<L>(Way::Next, row, next(), None, [1, 0])?;
                needs.rest_fits::<L>(Way::Target, row, target, None, [1, 0])
            }
            Instr::Enter(v, handler) => match at(row, v) {
                Shape::Nullable(class) => {
                    self.failure(needs, row, handler)?;
                    needs.rest_fits::<L>(Way::Next, row, next(), Some(v), [0, 0])?;
                    needs.gives(class, Pair::ZERO.entered(), at(next(), v))
                }
                _ => self.lock(needs, row, next(), v, TAKEN),
            },
            Instr::Exit(v) => self.lock(needs, row, next(), v, GIVEN_BACK),
            Instr::New(class, handler) => {
                self.failure(needs, row, handler)?;
                needs.rest_fits::<L>(Way::Next, row, next(), None, [0, 1])?;
                needs.gives(class, Pair::ZERO, top(next())?)
            }
            Instr::Start(class) => self.start(needs, row, next(), class),
            Instr::Athrow(handler) => self.athrow(needs, row, handler),
            Instr::Return => {
                needs.all_may_go(row.variables);
                needs.all_may_go(row.stack);
                Ok(())
            }
            Instr::Getfield(field, handler) => {
                self.owner(needs, row, 0, field, handler)?;
                let held = self.held(field);
                self.pushes(needs, row, next(), 1, held)
            }
            Instr::Putfield(field, handler) => {
                self.value(needs, top(row)?, field)?;
                self.owner(needs, row, 1, field, handler)?;
                needs.rest_fits::<L>(Way::Next, row, next(), None, [2, 0])
            }
        }
    }

    /// What has no pair is pushed in the stead of so many entries.
    fn pushes(&self, needs: &mut Needs, row: Row, next: Row, taken: usize, new: Shape) -> Mending {
        needs.rest_fits::<L>(Way::Next, row, next, None, [taken, 1])?;
        needs.fits::<L>(Way::Next, new, top(next)?)
    }

    fn load(&self, needs: &mut Needs, row: Row, next: Row, v: Var) -> Mending {
        needs.rest_fits::<L>(Way::Next, row, next, Some(v), [0, 1])?;
        let (kept, given) = (at(next, v), top(next)?);
        let Shape::Reference(class, node) = at(row, v) else {
            needs.fits::<L>(Way::Next, at(row, v), kept)?;
            return needs.fits::<L>(Way::Next, at(row, v), given);
        };
        let (of, moved) = ([weighs(class, kept)?, weighs(class, given)?], Pair::ZERO);
        if L::slips(Slip::LoadNeedsLarger) {
            let only = |of| Need {
                of: [of, None],
                moved,
            };
            needs.need(node, Way::Next, only(of[0]));
            needs.need(node, Way::Target, only(of[1]));
            return Ok(());
        }
        needs.need(node, Way::Next, Need { of, moved });
        Ok(())
    }

    /// monitorenter and monitorexit of a reference.
    fn lock(&self, needs: &mut Needs, row: Row, next: Row, v: Var, moved: Pair) -> Mending {
        let Shape::Reference(class, node) = at(row, v) else {
            return Err(Beyond);
        };
        needs.rest_fits::<L>(Way::Next, row, next, Some(v), [0, 0])?;
        let of = [weighs(class, at(next, v))?, None];
        needs.need(node, Way::Next, Need { of, moved });
        Ok(())
    }

    /// The arguments from the top, and the object below them.
    fn start(&self, needs: &mut Needs, row: Row, next: Row, class: u8) -> Mending {
        let descriptors = self.bundle.class(class).arguments;
        let taken = row.stack.get(..=descriptors.len()).ok_or(Beyond)?;
        let wanted = descriptors.iter().copied().chain([class]);
        for (&shape, descriptor) in taken.iter().zip(wanted) {
            beyond_unless(match (shape, descriptor) {
                (shape, INT) => shape == Shape::Int,
                (Shape::Reference(own, _), class) => own == class,
                _ => false,
            })?;
        }
        needs.all_may_go(taken);
        needs.rest_fits::<L>(Way::Next, row, next, None, [taken.len(), 0])
    }

    fn athrow(&self, needs: &mut Needs, row: Row, handler: Option<Addr>) -> Mending {
        let (&thrown, rest) = row.stack.split_first().ok_or(Beyond)?;
        let exception = self.bundle.exception();
        beyond_unless(matches!(thrown, Shape::Reference(class, _) if class == exception))?;
        needs.all_may_go(rest);
        match self.caught(needs, row, handler)? {
            Some(entry) => needs.fits::<L>(Way::Handler, thrown, entry),
            None => {
                needs.may_go(thrown);
                Ok(())
            }
        }
    }

    /// The throw of a failed new, and of null: (0,0) of the exception class.
    fn failure(&self, needs: &mut Needs, row: Row, handler: Option<Addr>) -> Mending {
        needs.all_may_go(row.stack);
        match self.caught(needs, row, handler)? {
            Some(entry) => needs.gives(self.bundle.exception(), Pair::ZERO, entry),
            None => Ok(()),
        }
    }

    /// The variables of a throw fit the handler's row, whose only stack entry is
    /// given back; with no handler they may go.
    fn caught(
        &self,
        needs: &mut Needs,
        row: Row,
        handler: Option<Addr>,
    ) -> Result<Option<Shape>, Beyond> {
        let Some(handler) = handler else {
            needs.all_may_go(row.variables);
            return Ok(None);
        };
        let handler = self.shapes.row(handler);
        let &[entry] = handler.stack else {
            return Err(Beyond);
        };
        let mut variables = row.variables.iter().zip(handler.variables);
        variables.try_for_each(|(&from, &to)| needs.fits::<L>(Way::Handler, from, to))?;
        Ok(Some(entry))
    }

    fn held(&self, field: Field) -> Shape {
        match self.bundle.descriptor(field) {
            INT => Shape::Int,
            class => Shape::Nullable(class),
        }
    }

    /// A value that is put into a field.
    fn value(&self, needs: &mut Needs, value: Shape, field: Field) -> Mending {
        beyond_unless(match (value, self.bundle.descriptor(field)) {
            (value, INT) => value == Shape::Int,
            (value, class) => may_be_of(value, class),
        })?;
        needs.may_go(value);
        Ok(())
    }

    /// The owner of a field, so far below the top; where it may be null, the
    /// throw is asked for too.
    fn owner(
        &self,
        needs: &mut Needs,
        row: Row,
        below: usize,
        field: Field,
        handler: Option<Addr>,
    ) -> Mending {
        let &owner = row.stack.get(below).ok_or(Beyond)?;
        beyond_unless(may_be_of(owner, field.class))?;
        needs.may_go(owner);
        match owner {
            Shape::Nullable(_) => self.failure(needs, row, handler),
            _ => Ok(()),
        }
    }
}

fn top(row: Row) -> Result<Shape, Beyond> {
    row.stack.first().copied().ok_or(Beyond)
}

fn at(row: Row, v: Var) -> Shape {
    row.variables[usize::from(v.0)]
}

/// Null or a reference of this class.
fn may_be_of(shape: Shape, class: u8) -> bool {
    matches!(shape, Shape::Nullable(own) | Shape::Reference(own, _) if own == class)
}
