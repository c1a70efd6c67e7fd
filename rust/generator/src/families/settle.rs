//! Bringing a path to where it must be: locks given back, the stack emptied,
//! variables made to fit a label's shape, or the thread ended.

use super::writer::{free, Label, Shape, Writer};
use reference::entries::Entry;

impl Writer<'_> {
    /// Gives back what `v` still owes.
    pub(super) fn release(&mut self, v: usize) {
        while matches!(self.now.variables[v], Entry::Ref { pair, .. } if pair.end < 0 && pair.dip > 0)
        {
            self.exit(v);
        }
    }

    pub(super) fn release_all(&mut self) {
        (0..self.now.variables.len()).for_each(|v| self.release(v));
    }

    /// Pops down to `depth`; what still owes a lock is stored first.
    pub(super) fn drop_stack_to(&mut self, depth: usize) -> bool {
        while let Some(&top) = self.now.stack.get(depth..).and_then(|above| above.last()) {
            if free(top) {
                self.pop();
                continue;
            }
            self.release_all();
            let Some(v) = self.pick(free) else {
                return false;
            };
            self.store(v);
            self.release(v);
        }
        true
    }

    /// Writes what it takes for the present shape to fit `to`.
    pub(super) fn settle(&mut self, to: &Shape) -> bool {
        if !self.drop_stack_to(to.stack.len()) || self.now.stack.len() != to.stack.len() {
            return false;
        }
        for (v, &want) in to.variables.iter().enumerate() {
            self.remake(v, want);
        }
        for (v, &want) in to.variables.iter().enumerate() {
            self.level(v, want);
        }
        self.now.fits(to)
    }

    /// Fills a variable anew if it is of the wrong kind or class.
    pub(super) fn remake(&mut self, v: usize, want: Entry) {
        match (self.now.variables[v], want) {
            (_, Entry::Top) | (Entry::Int, Entry::Int) => {}
            (Entry::Ref { class: a, .. }, Entry::Ref { class: b, .. }) if a == b => {}
            (own, Entry::Nullable { class }) if own.may_be_of(class) => {}
            (_, Entry::Int) => {
                self.release(v);
                if self.room() > 0 && free(self.now.variables[v]) {
                    self.push0();
                    self.store(v);
                }
            }
            (_, Entry::Ref { class, .. } | Entry::Nullable { class }) => {
                self.release_all();
                if free(self.now.variables[v]) && self.make(class) {
                    self.store(v);
                }
            }
        }
    }

    /// Enters or exits until the pair covers the wanted one, if it ever can.
    pub(super) fn level(&mut self, v: usize, want: Entry) {
        let Entry::Ref { class, .. } = self.now.variables[v] else {
            return;
        };
        let Ok(goal) = want.weight_after(class) else {
            return;
        };
        for _ in 0..64 {
            match self.now.variables[v] {
                Entry::Ref { pair, .. } if pair.end < goal.end && pair.dip > 0 => self.exit(v),
                Entry::Ref { pair, .. } if pair.dip < goal.dip && self.can_enter(v) => {
                    self.enter(v)
                }
                _ => return,
            }
        }
    }

    /// Falls into the label, or ends before it if the shapes can't meet.
    pub(super) fn join(&mut self, label: Label) {
        if !self.settle(&self.shape(label)) {
            self.close();
        }
        self.place(label);
    }

    /// Goes to a label; false if the shapes can't meet. What comes next is
    /// never reached, but must hold in the label's shape.
    pub(super) fn jump(&mut self, label: Label) -> bool {
        let meets = self.settle(&self.shape(label)) && self.room() > 0;
        if meets {
            self.push0();
            self.inc();
            self.branch(label);
        }
        meets
    }

    /// Goes to a label, or ends if the shapes can't meet.
    pub(super) fn jump_or_close(&mut self, label: Label) {
        if !self.jump(label) {
            self.close();
        }
    }

    /// Ends the path: mostly the thread ends, at times it goes back.
    pub(super) fn finish(&mut self) {
        match self.rng.below(8) {
            0 => self.go_back(),
            1..=3 => self.throw_or_close(),
            _ => self.close(),
        }
    }

    /// Goes back to where the stack was empty, if it can; the code has to end
    /// all the same.
    fn go_back(&mut self) {
        let mut back = self.labels(|shape| shape.stack.is_empty());
        back.retain(|&label| self.is_placed(label));
        if !back.is_empty() {
            let label = self.rng.pick(&back);
            self.jump(label);
        }
        self.close();
    }

    /// Gives back every lock and ends; if that can't be, spins.
    pub(super) fn close(&mut self) {
        self.release_all();
        if !self.stack_free() || !self.variables_free() {
            self.drop_stack_to(0);
        }
        match self.stack_free() && self.variables_free() {
            false if self.spin() => {}
            true if self.rng.chance(1, 5) && self.push_thrown().is_some() => self.throw(None),
            _ => self.ret(),
        }
    }
}
