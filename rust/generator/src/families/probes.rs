//! One instruction between rows of its own making. Address 1 ends the
//! thread, so that nothing flows into row 2 and it may say anything.

use super::faults;
use super::interface::Interface;
use super::random;
use super::writer::{free, Label, Shape, Writer};
use crate::builder::{Draft, Method};
use crate::rng::Rng;
use reference::bundle::{Instr, INT};
use reference::entries::{Entry, Pair};

/// Where the instruction stands that is looked at.
const PROBED: usize = 1;

/// A bundle whose rule at address 2 of some class mostly fails.
pub fn probe(rng: &mut Rng) -> Vec<u8> {
    let interface = Interface::any(rng);
    let classes = interface.signatures.len();
    let chosen = rng.below(classes);
    let mut methods: Vec<Method> = (0..classes).map(|class| idle(&interface, class)).collect();
    methods[chosen] = method(rng, &interface, chosen);
    if rng.chance(9, 10) {
        faults::break_rule(rng, &mut methods[chosen], PROBED, classes);
    }
    let draft = Draft {
        methods,
        exception: interface.exception,
    };
    draft.lay_out()
}

/// A method that returns at once.
fn idle(interface: &Interface, class: usize) -> Method {
    let arguments = &interface.signatures[class];
    Method {
        arguments: arguments.clone(),
        fields: interface.fields[class].clone(),
        variables: arguments.len(),
        code: vec![Instr::Return],
        rows: vec![random::first_row(arguments, arguments.len())],
        ..Method::default()
    }
}

fn method(rng: &mut Rng, interface: &Interface, class: usize) -> Method {
    let arguments = &interface.signatures[class];
    let variables = (arguments.len() + rng.between(1, 4)).min(16);
    // start takes as many entries and one more, and some should lie below them.
    let stack_limit = (interface.widest() + rng.between(2, 4)).min(16);
    let opcode = rng.between(1, Instr::NAMES.len());
    let first = random::first_row(arguments, variables).variables;
    let mut writer = Writer::new(rng, interface, first, stack_limit, 0);
    writer.ret();
    writer.now = writer.scattered(variables);
    writer.probed(opcode);
    writer.ret();
    while let Some(label) = writer.unplaced() {
        writer.place(label);
        writer.ret();
    }
    let method = writer.into_method(class);
    method.expect("four instructions at most, every label placed")
}

impl Writer<'_> {
    /// Entries of all kinds, with room on the stack for one more.
    pub(super) fn scattered(&mut self, variables: usize) -> Shape {
        let depth = self.rng.below(self.stack_limit);
        let mut some = |count: usize| (0..count).map(|_| self.any_entry()).collect();
        Shape {
            variables: some(variables),
            stack: some(depth),
        }
    }

    fn any_entry(&mut self) -> Entry {
        match self.rng.below(7) {
            0 => Entry::Int,
            1 => Entry::Top,
            2 => Entry::Nullable {
                class: self.pick_class(),
            },
            _ => self.any_reference(),
        }
    }

    fn any_reference(&mut self) -> Entry {
        let class = self.pick_class();
        let (dip, end) = (self.rng.below(4), self.rng.below(7));
        Entry::reference(class, dip as i16, end as i16 - 3)
    }

    /// Writes the instruction of this opcode so that its rule holds.
    fn probed(&mut self, opcode: usize) {
        let v = self.rng.below(self.now.variables.len());
        match opcode {
            1 => self.probed_on(Entry::Int, Writer::inc),
            2 => {
                let top = freed(self.any_entry());
                self.probed_on(top, Writer::pop);
            }
            3 => self.push0(),
            4 => self.probed_load(v),
            5 => {
                self.now.variables[v] = freed(self.now.variables[v]);
                let top = self.any_entry();
                self.probed_on(top, |writer| writer.store(v));
            }
            6 => self.probed_on(Entry::Int, Writer::probed_branch),
            7 if self.rng.chance(1, 2) => self.probed_enter_nullable(v),
            7 | 8 => self.probed_lock(v, opcode == 7),
            9 => self.probed_new(),
            10 => self.probed_start(),
            11 => self.probed_throw(),
            13 | 14 => self.probed_access(opcode == 13),
            _ => {
                self.free_all();
                self.ret();
            }
        }
    }

    /// With `top` on the stack, which always has room for it.
    fn probed_on(&mut self, top: Entry, write: impl Fn(&mut Self)) {
        self.now.stack.push(top);
        write(self);
    }

    fn probed_load(&mut self, v: usize) {
        let Entry::Ref { class, pair } = self.now.variables[v] else {
            return self.load(v, self.now.variables[v], self.now.variables[v]);
        };
        let dip = self.rng.between(0, pair.dip as usize) as i16;
        let end = self.rng.below(5) as i16 - 2;
        let kept = self.perhaps_top(class, Pair::new(pair.dip - dip, pair.end - end));
        let given = self.perhaps_top(class, Pair::new(dip, end));
        self.load(v, kept, given);
    }

    /// At times both ways lead to the next address.
    fn probed_branch(&mut self) {
        let mut after = self.now.clone();
        after.stack.pop();
        let target = self.label(after);
        self.branch(target);
        if self.rng.chance(1, 8) {
            self.place(target);
        }
    }

    /// At times the pair is left behind as Top.
    fn probed_lock(&mut self, v: usize, enters: bool) {
        let class = self.pick_class();
        let (dip, end) = (self.rng.below(4), self.rng.below(5));
        self.now.variables[v] = Entry::reference(class, dip as i16, end as i16 - 2);
        match enters {
            true => self.enter(v),
            false => self.exit(v),
        }
        if free(self.now.variables[v]) && self.rng.chance(1, 3) {
            self.now.variables[v] = Entry::Top;
        }
    }

    fn probed_enter_nullable(&mut self, v: usize) {
        let class = self.pick_class();
        self.now.variables[v] = Entry::Nullable { class };
        let handler = self.probed_failure();
        self.enter_nullable(v, handler);
    }

    /// An instruction of some field, whose owner may be null or not; what
    /// reads or writes none is written as a return.
    fn probed_access(&mut self, reads: bool) {
        let fields = self.interface.fields(|_, _| true);
        if fields.is_empty() {
            self.free_all();
            return self.ret();
        }
        let field = self.rng.pick(&fields);
        let owner = self.probed_reference(field.class);
        self.now.stack.truncate(self.stack_limit - 2);
        self.now.stack.push(owner);
        if !reads {
            let value = match self.interface.descriptor(field) {
                INT => Entry::Int,
                class => self.probed_reference(class),
            };
            self.now.stack.push(value);
        }
        let handler = match owner {
            Entry::Nullable { .. } => self.probed_failure(),
            _ => self.idle_handler(),
        };
        match reads {
            true => self.getfield(field, handler),
            false => self.putfield(field, handler),
        }
    }

    /// A reference that owes nothing, and may be null or not.
    fn probed_reference(&mut self, class: u8) -> Entry {
        let (dip, end) = (self.rng.below(3) as i16, self.rng.below(3) as i16);
        match self.rng.chance(1, 2) {
            true => Entry::Nullable { class },
            false => Entry::reference(class, dip, end),
        }
    }

    /// The handler of what a failure throws, or none, and then all may go.
    fn probed_failure(&mut self) -> Option<Label> {
        self.now.stack.iter_mut().for_each(|e| *e = freed(*e));
        self.probed_handler(Entry::fresh(self.interface.exception))
    }

    /// At times the handler is the next address.
    fn probed_new(&mut self) {
        let class = self.pick_class();
        let handler = self.probed_failure();
        self.new_object(class, handler);
        if let Some(label) = handler.filter(|_| self.rng.chance(1, 8)) {
            self.place(label);
        }
    }

    fn probed_throw(&mut self) {
        self.now.stack.iter_mut().for_each(|e| *e = freed(*e));
        let (dip, end) = (self.rng.below(4), self.rng.below(7));
        let thrown = Entry::reference(self.interface.exception, dip as i16, end as i16 - 3);
        self.now.stack.push(thrown);
        let handler = self.probed_handler(thrown);
        self.throw(handler);
    }

    /// Some handler for what is thrown, or none, and then all may go.
    fn probed_handler(&mut self, thrown: Entry) -> Option<Label> {
        if self.rng.chance(2, 3) {
            return Some(self.handler(thrown));
        }
        self.free_all();
        None
    }

    fn free_all(&mut self) {
        let Shape { variables, stack } = &mut self.now;
        variables
            .iter_mut()
            .chain(stack)
            .for_each(|e| *e = freed(*e));
    }

    fn probed_start(&mut self) {
        let mut class = self.pick_class();
        let mut arguments = &self.interface.signatures[usize::from(class)];
        // No stack has room for the most arguments and an object below them.
        if arguments.len() == self.stack_limit {
            (class, arguments) = (0, &self.interface.signatures[0]);
        }
        let below = self.stack_limit - arguments.len() - 1;
        self.now.stack.truncate(below);
        // The object lies lowest, argument 0 on top.
        for descriptor in [class].into_iter().chain(arguments.iter().rev().copied()) {
            let (dip, end) = (self.rng.below(3) as i16, self.rng.below(3) as i16);
            self.now.stack.push(match descriptor {
                INT => Entry::Int,
                wanted => Entry::reference(wanted, dip, end),
            });
        }
        self.start(class);
    }
}

/// The same entry, owing nothing.
pub(super) fn freed(entry: Entry) -> Entry {
    match entry {
        Entry::Ref { class, pair } if !free(entry) => Entry::reference(class, pair.dip, -pair.end),
        other => other,
    }
}
