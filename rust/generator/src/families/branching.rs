//! Branches and loops, and blocks over something left on the stack.

use super::writer::Writer;
use reference::entries::Entry;

impl Writer<'_> {
    pub(super) fn branch_under_lock(&mut self, nest: usize) {
        match self.rng.below(6) {
            0 => self.if_skips(nest),
            1 => self.if_else(nest),
            2 | 3 => self.if_ends(nest),
            4 => self.if_throws(nest),
            _ => self.while_loop(nest),
        }
    }

    /// if over a block: both ways meet in the shape before it.
    pub(super) fn if_skips(&mut self, nest: usize) {
        if self.room() == 0 {
            return self.block(nest);
        }
        let after = self.label(self.now.clone());
        self.condition();
        self.branch(after);
        self.block(nest);
        self.join(after);
    }

    /// Two arms that meet behind the second.
    pub(super) fn if_else(&mut self, nest: usize) {
        if self.room() == 0 {
            return self.block(nest);
        }
        let other = self.label(self.now.clone());
        let after = self.label(self.now.clone());
        self.condition();
        self.branch(other);
        self.block(nest);
        self.jump_or_close(after);
        self.place(other);
        self.block(nest);
        self.join(after);
    }

    /// An arm that ends the thread, as in case A.
    pub(super) fn if_ends(&mut self, nest: usize) {
        self.if_leaves(nest, Writer::finish);
    }

    /// An arm that throws.
    pub(super) fn if_throws(&mut self, nest: usize) {
        self.if_leaves(nest, Writer::throw_or_close);
    }

    /// An arm that does not come back.
    fn if_leaves(&mut self, nest: usize, leave: impl Fn(&mut Self)) {
        if self.room() == 0 {
            return self.block(nest);
        }
        let other = self.label(self.now.clone());
        self.condition();
        self.branch(other);
        if self.rng.chance(1, 2) {
            self.block(nest);
        }
        leave(self);
        self.place(other);
    }

    pub(super) fn do_loop(&mut self, nest: usize) {
        let top = self.label(self.now.clone());
        self.place(top);
        self.block(nest);
        if self.settle(&self.shape(top)) && self.room() > 0 {
            self.condition();
            self.branch(top);
        }
    }

    pub(super) fn while_loop(&mut self, nest: usize) {
        if self.room() == 0 {
            return self.do_loop(nest);
        }
        let top = self.label(self.now.clone());
        self.place(top);
        let after = self.label(self.now.clone());
        self.condition();
        self.branch(after);
        self.block(nest);
        self.jump_or_close(top);
        self.place(after);
    }

    /// A block run over something left on the stack.
    pub(super) fn over_stack(&mut self, nest: usize) {
        let depth = self.now.stack.len();
        if self.room() == 0 {
            return;
        }
        match self.pick(|entry| entry != Entry::Top) {
            Some(v) if self.rng.chance(1, 2) => {
                let (kept, given) = self.share(v);
                self.load(v, kept, given);
            }
            _ => self.condition(),
        }
        self.block(nest);
        self.drop_stack_to(depth);
    }
}
