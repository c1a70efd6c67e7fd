//! What only a verifier with a slip lets through.

use super::writer::{free, Writer};
use reference::entries::{Entry, Pair};
use reference::slips::Slip;

impl Writer<'_> {
    /// Does what only a slipped verifier lets through, on `v` just locked.
    pub(super) fn yield_to_temptation(&mut self, v: usize) {
        let (Some(slip), Entry::Ref { pair, .. }) = (self.temptation, self.now.variables[v]) else {
            return;
        };
        if self.room() > 0 && self.stack_free() && pair.end < 0 && self.yields(slip, v) {
            self.temptation = None;
        }
    }

    /// False if this isn't the place for it.
    fn yields(&mut self, slip: Slip, v: usize) -> bool {
        match slip {
            Slip::LoadCopiesPair => self.copy_pair(v),
            Slip::IfChecksFallThroughOnly => self.skip_release(v),
            Slip::FailedNewSkipsVariables => self.leave_lock_to_new(),
            Slip::StoreKeepsOld => self.store_over(v),
            Slip::MayGoMinusOne => self.pop_lock(v),
            Slip::ExitIgnoresDip => self.exit_once_more(v),
            Slip::HandlerMayBeEmpty => self.new_to_handler(&[]),
            Slip::HandlerMayBeDeeper => self.new_to_handler(&[Entry::Top, Entry::Top]),
            Slip::HandlerEntryUnchecked => {
                let locked = Entry::reference(self.interface.exception, 1, -1);
                self.new_to_handler(&[locked])
            }
            Slip::AthrowOfAnyClass => self.throw_other(),
            Slip::CaughtKeepsRest => self.throw_over(v, true),
            Slip::UncaughtKeepsTop => self.throw_locked(v),
            Slip::UncaughtKeepsRest => self.throw_over(v, false),
            Slip::UncaughtKeepsVariables => self.throw_beside(v),
            Slip::NullableFitsAnyClass => self.mistake_class(v),
            Slip::NullableFitsReference => self.throw_recast_null(),
            Slip::OwingFitsNullable => self.doubt_lock(v),
            Slip::StartOfNull => self.start_null(),
            Slip::NullKeepsStack => self.lose_stack_to_null(v),
            Slip::CaughtNullKeepsVariables => self.lose_variable_to_null(v),
            Slip::UncaughtNullKeepsVariables => self.end_by_null(v),
            Slip::EnteredFromNullIsFree => self.lock_doubted(v),
            Slip::GetfieldPushesReference => self.throw_field(),
            Slip::OwnerOfAnyClass => self.read_from_other(v),
            Slip::FieldDropsOwner => self.read_from_locked(v),
            Slip::PutfieldOfTop => self.put_top(v),
            Slip::PutfieldOfAnyClass => self.put_other(v),
            Slip::PutfieldDropsValue => self.put_lock_away(v),
            // Those that are not the verifier's.
            _ => false,
        }
    }

    /// Another variable, which may be overwritten.
    pub(super) fn other_free(&self, v: usize) -> Option<usize> {
        (0..self.now.variables.len()).find(|&w| w != v && free(self.now.variables[w]))
    }

    fn copy_pair(&mut self, v: usize) -> bool {
        let Some(w) = self.other_free(v) else {
            return false;
        };
        let whole = self.now.variables[v];
        self.load(v, whole, whole);
        self.store(w);
        true
    }

    /// A branch over the release, to a row that claims it was done.
    fn skip_release(&mut self, v: usize) -> bool {
        let mut claimed = self.now.clone();
        if let Entry::Ref { pair, .. } = &mut claimed.variables[v] {
            *pair = Pair::ZERO;
        }
        let after = self.label(claimed);
        self.push0();
        self.inc();
        self.branch(after);
        self.join(after);
        true
    }

    fn leave_lock_to_new(&mut self) -> bool {
        let class = self.pick_class();
        self.new_object(class, None);
        self.pop();
        true
    }

    fn store_over(&mut self, v: usize) -> bool {
        self.push0();
        self.store(v);
        true
    }

    /// The variable's whole pair goes to the stack.
    pub(super) fn load_whole(&mut self, v: usize) {
        if let Entry::Ref { class, pair } = self.now.variables[v] {
            self.load(v, Entry::fresh(class), Entry::Ref { class, pair });
        }
    }

    fn pop_lock(&mut self, v: usize) -> bool {
        let once = matches!(self.now.variables[v], Entry::Ref { pair, .. } if pair.end == -1);
        if once {
            self.load_whole(v);
            self.pop();
        }
        once
    }

    fn exit_once_more(&mut self, v: usize) -> bool {
        self.release(v);
        self.exit(v);
        true
    }

    /// A new object whose handler's row has this stack.
    fn new_to_handler(&mut self, stack: &[Entry]) -> bool {
        if stack.len() > self.stack_limit {
            return false;
        }
        let handler = self.label(self.now.with_stack(stack));
        let class = self.pick_class();
        self.new_object(class, Some(handler));
        self.pop();
        true
    }

    /// A way aside that is always taken and ends in a throw.
    pub(super) fn aside(&mut self, throw: impl Fn(&mut Self)) -> bool {
        let other = self.label(self.now.clone());
        self.push0();
        self.branch(other);
        throw(self);
        self.place(other);
        true
    }

    /// A reference that owes nothing of a variable's class.
    pub(super) fn load_free(&mut self, v: usize) {
        if let Entry::Ref { class, .. } = self.now.variables[v] {
            self.load(v, self.now.variables[v], Entry::fresh(class));
        }
    }

    /// A variable of the exception class.
    fn pick_thrown(&mut self) -> Option<usize> {
        let thrown = self.interface.exception;
        self.pick(|entry| entry.is_of(thrown))
    }

    /// Whether all variables but `v` may go.
    fn others_free(&self, v: usize) -> bool {
        (0..self.now.variables.len()).all(|w| w == v || free(self.now.variables[w]))
    }

    fn throw_other(&mut self) -> bool {
        let class = self.pick_class();
        class != self.interface.exception
            && self.aside(|writer| {
                let handler = writer.label(writer.now.with_stack(&[Entry::Top]));
                writer.new_object(class, Some(handler));
                writer.throw(Some(handler));
            })
    }

    /// The lock lies on the stack below what is thrown.
    fn throw_over(&mut self, v: usize, caught: bool) -> bool {
        let Some(w) = self.pick_thrown().filter(|_| self.room() > 1) else {
            return false;
        };
        (caught || self.others_free(v))
            && self.aside(|writer| {
                writer.load_whole(v);
                writer.load_free(w);
                let handler = writer.now.with_stack(&[Entry::Top]);
                let handler = caught.then(|| writer.label(handler));
                writer.throw(handler);
            })
    }

    /// The lock is on what is thrown.
    fn throw_locked(&mut self, v: usize) -> bool {
        self.now.variables[v].is_of(self.interface.exception)
            && self.others_free(v)
            && self.aside(|writer| {
                writer.load_whole(v);
                writer.throw(None);
            })
    }

    /// The lock stays with its variable.
    fn throw_beside(&mut self, v: usize) -> bool {
        let Some(w) = self.pick_thrown() else {
            return false;
        };
        self.others_free(v)
            && self.aside(|writer| {
                writer.load_free(w);
                writer.throw(None);
            })
    }
}
