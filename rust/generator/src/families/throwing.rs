//! Throws, by athrow and by a new that may fail, and the handlers they go to.

use super::writer::{free, Label, Writer};
use reference::entries::{Entry, MAX_WEIGHT};

impl Writer<'_> {
    /// `new` with its handler settled; false if it can't be written here.
    pub(super) fn make(&mut self, class: u8) -> bool {
        if self.room() == 0 || !self.stack_free() {
            return false;
        }
        let failure = Entry::fresh(self.interface.exception);
        let Some(handler) = self.choose_handler(failure) else {
            return false;
        };
        self.new_object(class, handler);
        true
    }

    /// A handler that catches this here, or none if all may go.
    pub(super) fn choose_handler(&mut self, thrown: Entry) -> Option<Option<Label>> {
        let catching = self.labels(|shape| match shape.stack[..] {
            [only] => thrown.fits(only) && self.now.variables_fit(shape),
            _ => false,
        });
        if !catching.is_empty() && self.rng.chance(3, 4) {
            return Some(Some(self.rng.pick(&catching)));
        }
        if !self.tired() && self.rng.chance(2, 3) {
            return Some(Some(self.handler(thrown)));
        }
        if !self.variables_free() {
            self.release_all();
        }
        (self.variables_free() && free(thrown)).then_some(None)
    }

    /// A handler for what is thrown here, whose row may say less of it;
    /// rarely, so little that it can never end.
    pub(super) fn handler(&mut self, thrown: Entry) -> Label {
        let caught = match (self.rng.below(40), thrown) {
            (0..=3, _) if free(thrown) => Entry::Top,
            (4, Entry::Ref { class, pair }) if pair.end > -MAX_WEIGHT => {
                Entry::reference(class, pair.dip, pair.end - 1)
            }
            _ => thrown,
        };
        self.label(self.now.with_stack(&[caught]))
    }

    /// What a handler does with what it finds on its stack.
    pub(super) fn meet_thrown(&mut self) {
        match self.now.stack[..] {
            // A slip let the row say nothing is there: it may fill the stack.
            [] => (0..self.room()).for_each(|_| self.push0()),
            [thrown] if free(thrown) => match self.rng.below(4) {
                0 => {}
                1 => self.lock_thrown(),
                _ => self.keep_or_drop(),
            },
            // It owes a lock, or a slip let the row say there is more.
            _ => {
                self.drop_stack_to(0);
            }
        }
    }

    /// Keeps what was thrown, and takes its lock.
    fn lock_thrown(&mut self) {
        match self.pick(free) {
            Some(v) => {
                self.store(v);
                self.take(v);
            }
            None => self.pop(),
        }
    }

    /// Something to throw on top of the stack, with nothing below it that
    /// owes: what lies there, part of a variable, or a new object.
    pub(super) fn push_thrown(&mut self) -> Option<Entry> {
        let class = self.interface.exception;
        if let [rest @ .., top] = &self.now.stack[..] {
            let again = top.is_of(class) && rest.iter().all(|&entry| free(entry));
            if again && self.rng.chance(2, 3) {
                return Some(*top);
            }
        }
        if self.room() == 0 || !self.stack_free() {
            return None;
        }
        match self.pick(|entry| entry.is_of(class)) {
            Some(v) if self.rng.chance(4, 5) => {
                let (kept, given) = self.share(v);
                // Top weighs the same, but can't be thrown.
                let thrown = match given {
                    Entry::Top => Entry::fresh(class),
                    reference => reference,
                };
                self.load(v, kept, thrown);
                Some(thrown)
            }
            _ => self.make(class).then_some(Entry::fresh(class)),
        }
    }

    /// A throw to the next address, which goes on with what it finds.
    pub(super) fn throw_ahead(&mut self) {
        let Some(thrown) = self.push_thrown() else {
            return self.number();
        };
        let here = self.handler(thrown);
        self.throw(Some(here));
        self.place(here);
        self.meet_thrown();
    }

    /// Made or thrown, the next address finds an object of the same class.
    pub(super) fn object_or_thrown(&mut self) {
        if self.room() == 0 || !self.now.stack.is_empty() {
            return self.object();
        }
        let class = self.interface.exception;
        let here = self.handler(Entry::fresh(class));
        self.new_object(class, Some(here));
        self.place(here);
        self.meet_thrown();
    }

    /// A block whose failures go to one handler, written later.
    pub(super) fn try_region(&mut self, nest: usize) {
        self.handler(Entry::fresh(self.interface.exception));
        self.object();
        self.block(nest);
    }

    /// Ends the path by a throw, caught or not, if one can be written.
    pub(super) fn throw_or_close(&mut self) {
        let thrown = self.push_thrown();
        match thrown.and_then(|thrown| self.choose_handler(thrown)) {
            Some(handler) => self.throw(handler),
            None => self.close(),
        }
    }

    /// A throw that its own handler throws again, for ever: nothing need go.
    /// False if there is nothing to throw.
    pub(super) fn spin(&mut self) -> bool {
        let class = self.interface.exception;
        let alone = matches!(self.now.stack[..], [only] if only.is_of(class));
        if !alone && self.room() == 0 {
            return false;
        }
        let here = match alone {
            true => self.label(self.now.clone()),
            false => self.label(self.now.with_stack(&[Entry::fresh(class)])),
        };
        if !alone {
            self.new_object(class, Some(here));
        }
        self.place(here);
        self.throw(Some(here));
        true
    }
}
