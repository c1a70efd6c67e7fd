//! Well-typed methods: nested lock regions, branches, loops, throws, handlers,
//! aliases, fields and started threads, each with the rows that make it hold.

use super::interface::{claimed, size, Interface};
use super::writer::{free, Writer};
use crate::builder::{Draft, Method};
use crate::rng::Rng;
use reference::bundle::{INT, MAX_LENGTH};
use reference::entries::{Entry, Pair};
use reference::slips::Slip;

/// A bundle of well-typed methods, accepted but for rare bad luck.
pub fn well_typed(rng: &mut Rng) -> Vec<u8> {
    draft(rng, None).lay_out()
}

/// A bundle that only a verifier with this slip accepts, but for bad luck.
pub fn tempting(rng: &mut Rng, slip: Slip) -> Vec<u8> {
    draft(rng, Some(slip)).lay_out()
}

/// The methods of a whole bundle; only main is tempted, so that it is run.
pub fn draft(rng: &mut Rng, temptation: Option<Slip>) -> Draft {
    let interface = Interface::any(rng);
    let interface = match temptation {
        Some(_) => interface.with_rich_fields(),
        None => interface,
    };
    draft_of(rng, interface, temptation)
}

/// Methods of these signatures, again and again until they are short enough.
pub fn draft_of(rng: &mut Rng, interface: Interface, temptation: Option<Slip>) -> Draft {
    loop {
        let methods: Vec<Method> = (0..interface.signatures.len())
            .map(|class| method(rng, &interface, class, temptation.filter(|_| class == 0)))
            .collect();
        let length: usize = methods.iter().map(|m| m.record().len() + 8).sum();
        if length + 8 <= MAX_LENGTH {
            return Draft {
                methods,
                exception: interface.exception,
            };
        }
    }
}

/// One method; tries again, shorter, when it grows too long.
fn method(rng: &mut Rng, interface: &Interface, class: usize, slip: Option<Slip>) -> Method {
    let arguments = &interface.signatures[class];
    let mut budget = match rng.below(40) {
        0 => rng.between(100, 220),
        1..=10 => rng.between(1, 12),
        _ => rng.between(12, 45),
    };
    written(rng, |rng| {
        let variables = (arguments.len() + size(rng)).min(16);
        let stack_limit = interface.stack_limit(rng);
        let first = claimed(rng, arguments, variables, stack_limit);
        let mut writer = Writer::new(rng, interface, first, stack_limit, budget);
        writer.temptation = slip;
        writer.body();
        budget = (budget / 2).max(1);
        writer.into_method(class)
    })
}

/// What is written at last, when it isn't too long.
pub fn written(rng: &mut Rng, mut write: impl FnMut(&mut Rng) -> Option<Method>) -> Method {
    loop {
        if let Some(method) = write(rng) {
            return method;
        }
    }
}

impl Writer<'_> {
    /// The whole method: its main path, then the handlers it has named.
    fn body(&mut self) {
        // Where there is neither variable nor stack, nothing can be written.
        for _ in 0..self.budget {
            if !self.tired() {
                self.block(3);
            }
        }
        self.finish();
        if self.stack_limit > 0 && self.rng.chance(1, 6) {
            self.unreached();
        }
        while let Some(handler) = self.unplaced() {
            self.place(handler);
            self.meet_thrown();
            if !self.tired() || self.rng.chance(1, 8) {
                self.block(1);
            }
            self.finish();
        }
    }

    pub(super) fn block(&mut self, nest: usize) {
        for _ in 0..self.rng.between(1, 3) {
            if self.tired() {
                return;
            }
            self.statement(nest);
        }
    }

    fn statement(&mut self, nest: usize) {
        match self.rng.below(if nest == 0 { 16 } else { 34 }) {
            0 => self.number(),
            1 | 2 => self.object(),
            3 | 4 => self.alias(),
            5 => self.start_thread(),
            6 => self.weaken(),
            7 | 8 => self.throw_ahead(),
            9 | 10 => self.object_or_thrown(),
            11 | 12 => self.read_field(),
            13 | 14 => self.write_field(),
            15 => self.doubt(),
            16..=21 => self.lock_region(nest),
            22 | 23 => self.lock_from_field(nest),
            24 | 25 => self.if_skips(nest - 1),
            26 => self.if_else(nest - 1),
            27 => self.if_ends(nest - 1),
            28 | 29 => self.if_throws(nest - 1),
            30 => self.do_loop(nest - 1),
            31 => self.while_loop(nest - 1),
            32 => self.try_region(nest - 1),
            _ => self.over_stack(nest - 1),
        }
    }

    pub(super) fn pick(&mut self, ok: impl Fn(Entry) -> bool) -> Option<usize> {
        let found: Vec<usize> = (0..self.now.variables.len())
            .filter(|&v| ok(self.now.variables[v]))
            .collect();
        (!found.is_empty()).then(|| self.rng.pick(&found))
    }

    pub(super) fn pick_class(&mut self) -> u8 {
        self.rng.below(self.interface.signatures.len()) as u8
    }

    /// An integer made, and dropped or kept.
    pub(super) fn number(&mut self) {
        if self.room() == 0 {
            return;
        }
        self.condition();
        self.keep_or_drop();
    }

    /// An integer on the stack: 0 or a small one.
    pub(super) fn condition(&mut self) {
        self.push0();
        for _ in 0..self.rng.below(3) {
            self.inc();
        }
    }

    /// The top goes into a variable that may be overwritten, or away.
    pub(super) fn keep_or_drop(&mut self) {
        match self.pick(free) {
            Some(v) if self.rng.chance(2, 3) => self.store(v),
            _ => self.pop(),
        }
    }

    /// A new object, mostly kept.
    pub(super) fn object(&mut self) {
        let class = self.pick_class();
        if !self.make(class) {
            return;
        }
        match self.pick(|entry| matches!(entry, Entry::Top | Entry::Int)) {
            Some(v) => self.store(v),
            None if self.rng.chance(1, 8) => {}
            None => self.keep_or_drop(),
        }
    }

    /// A second name for an object: its pair is shared between both.
    fn alias(&mut self) {
        let reference = self.pick(|entry| matches!(entry, Entry::Ref { .. }));
        let (Some(v), true) = (reference, self.room() > 0) else {
            return self.object();
        };
        let (kept, given) = self.share(v);
        // The variable itself may take it back if it has given all.
        let place = self.pick(free).or((free(kept)).then_some(v));
        match place {
            Some(w) if w != v || free(kept) => {
                self.load(v, kept, given);
                self.store(w);
            }
            _ if free(given) => {
                self.load(v, kept, given);
                self.pop();
            }
            _ => {}
        }
    }

    /// The parts of a pair that stay with `v` and that go to the stack.
    pub(super) fn share(&mut self, v: usize) -> (Entry, Entry) {
        let Entry::Ref { class, pair } = self.now.variables[v] else {
            return (self.now.variables[v], self.now.variables[v]);
        };
        let given = match pair.end > 0 {
            // Nothing is owing, however it is shared.
            true => Pair::new(self.part(pair.dip), self.part(pair.end)),
            false => {
                let levels = self.part(pair.dip.min(-pair.end));
                Pair::new(levels, -levels)
            }
        };
        let kept = Pair::new(pair.dip - given.dip, pair.end - given.end);
        (
            self.perhaps_top(class, kept),
            self.perhaps_top(class, given),
        )
    }

    /// None, all, or some of so many.
    fn part(&mut self, whole: i16) -> i16 {
        match self.rng.below(3) {
            0 => 0,
            1 => whole,
            _ => self.rng.between(0, whole as usize) as i16,
        }
    }

    pub(super) fn perhaps_top(&mut self, class: u8, pair: Pair) -> Entry {
        match pair == Pair::ZERO && self.rng.chance(1, 10) {
            true => Entry::Top,
            false => Entry::Ref { class, pair },
        }
    }

    /// Takes a lock, does something under it, and mostly gives it back.
    fn lock_region(&mut self, nest: usize) {
        match self.pick(|entry| matches!(entry, Entry::Ref { .. } | Entry::Nullable { .. })) {
            Some(v) => self.lock_region_of(v, nest),
            None => self.object(),
        }
    }

    pub(super) fn lock_region_of(&mut self, v: usize, nest: usize) {
        self.take(v);
        self.yield_to_temptation(v);
        if self.rng.chance(1, 2) {
            self.alias();
        }
        // A thread started under a lock may want that very lock.
        if self.rng.chance(1, 4) {
            self.start_thread();
        }
        match nest {
            0 => {}
            _ if self.rng.chance(1, 2) => self.branch_under_lock(nest - 1),
            _ => self.block(nest - 1),
        }
        if self.rng.chance(2, 3) {
            self.release_all();
        }
    }

    /// Enters once, at times again and again up to the edge of a pair. What may
    /// be null is left alone where a throw can't be written.
    pub(super) fn take(&mut self, v: usize) {
        if let Some(handler) = self.handler_of_null(self.now.variables[v]) {
            self.enter_nullable(v, handler);
        }
        let times = match self.rng.below(60) {
            0 => 63,
            1..=9 => 2,
            10..=12 => self.rng.between(3, 6),
            _ => 1,
        };
        for _ in 0..times {
            if self.can_enter(v) {
                self.enter(v);
            }
        }
    }

    /// A row may say less than is known; rarely, so little that the lock can
    /// never be given back and only an endless loop will do.
    fn weaken(&mut self) {
        let Some(v) = self.pick(|entry| entry != Entry::Top) else {
            return;
        };
        // Such a loop throws, so the stack needs a place.
        let doom = self.stack_limit > 0 && self.rng.chance(1, 20);
        let entry = &mut self.now.variables[v];
        match entry {
            Entry::Ref { pair, .. } if doom && pair.end > -63 => pair.end -= 1,
            Entry::Ref { pair, .. } if doom && pair.dip > 0 => pair.dip -= 1,
            _ if free(*entry) && self.rng.chance(1, 3) => *entry = Entry::Top,
            _ => {}
        }
    }

    /// start, with its object and arguments pushed in their order.
    fn start_thread(&mut self) {
        let class = self.pick_class();
        let depth = self.now.stack.len();
        let arguments = &self.interface.signatures[usize::from(class)];
        if self.room() < arguments.len() + 1 {
            return;
        }
        // The object lies lowest, argument 0 on top.
        let pushed = self.push_reference(class)
            && arguments.iter().rev().all(|&descriptor| match descriptor {
                INT => {
                    self.condition();
                    true
                }
                wanted => self.push_reference(wanted),
            });
        match pushed {
            true => self.start(class),
            false => {
                self.drop_stack_to(depth);
            }
        }
    }

    /// A reference that owes nothing, from a variable or new.
    fn push_reference(&mut self, class: u8) -> bool {
        match self.pick(|entry| entry.is_of(class)) {
            Some(v) if self.rng.chance(4, 5) => {
                self.load(v, self.now.variables[v], Entry::fresh(class));
                true
            }
            _ => self.make(class),
        }
    }
}
