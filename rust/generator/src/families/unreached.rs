//! Code that nothing reaches. It is checked like any other, and its first row
//! may claim any pair, which reached code seldom can.

use super::probes::freed;
use super::writer::{Shape, Writer};

impl Writer<'_> {
    /// A block between rows of its own making, once the path before it has
    /// ended.
    pub(super) fn unreached(&mut self) {
        let Shape {
            variables,
            mut stack,
        } = self.scattered(self.now.variables.len());
        // What owes on a stack may be in the way of every throw.
        stack.iter_mut().for_each(|entry| *entry = freed(*entry));
        self.now = Shape { variables, stack };
        self.block(1);
        self.finish();
    }
}
