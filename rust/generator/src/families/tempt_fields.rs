//! What only a verifier with a slip about fields or null lets through.

use super::writer::{Label, Writer};
use reference::bundle::{Field, INT};
use reference::entries::Entry;

impl Writer<'_> {
    /// The class of a variable that is known to be a reference.
    fn class_of(&self, v: usize) -> u8 {
        match self.now.variables[v] {
            Entry::Ref { class, .. } => class,
            other => unreachable!("a lock was taken on {other:?}"),
        }
    }

    fn field_where(&mut self, ok: impl Fn(Field, u8) -> bool) -> Option<Field> {
        let found = self.interface.fields(ok);
        (!found.is_empty()).then(|| self.rng.pick(&found))
    }

    /// A handler here for what a failure throws.
    fn failure_handler(&mut self) -> Label {
        self.handler(Entry::fresh(self.interface.exception))
    }

    fn make_caught(&mut self, class: u8) {
        let handler = self.failure_handler();
        self.new_object(class, Some(handler));
    }

    /// Null on top of the stack, from a new object's field of this class.
    fn push_null(&mut self, class: u8) -> bool {
        let Some(field) = self.field_where(|_, descriptor| descriptor == class) else {
            return false;
        };
        self.make_caught(field.class);
        self.getfield(field, None);
        true
    }

    /// Null of some class in another variable.
    fn null_beside(&mut self, v: usize) -> Option<usize> {
        let (w, class) = (self.other_free(v)?, self.pick_class());
        self.push_null(class).then(|| {
            self.store(w);
            w
        })
    }

    /// The next row but one claims this of the top.
    fn recast(&mut self, entry: Entry) {
        self.push0();
        let below = self.now.stack.len() - 2;
        self.now.stack[below] = entry;
        self.pop();
    }

    fn throw_to_top(&mut self) {
        let handler = self.label(self.now.with_stack(&[Entry::Top]));
        self.throw(Some(handler));
    }

    /// An object taken for one of another class.
    pub(super) fn mistake_class(&mut self, v: usize) -> bool {
        let class = self.class_of(v);
        let other = self.field_where(|field, _| field.class != class);
        let Some(field) = other.filter(|_| self.room() > 1) else {
            return false;
        };
        self.load(v, self.now.variables[v], Entry::Nullable { class });
        self.recast(Entry::Nullable { class: field.class });
        let handler = self.failure_handler();
        self.getfield(field, Some(handler));
        self.pop();
        true
    }

    /// Null taken for an object.
    pub(super) fn throw_recast_null(&mut self) -> bool {
        let class = self.interface.exception;
        self.room() > 1
            && self.aside(|writer| {
                if writer.push_null(class) {
                    writer.recast(Entry::fresh(class));
                    writer.throw_to_top();
                }
            })
    }

    /// A field taken to hold an object.
    pub(super) fn throw_field(&mut self) -> bool {
        let class = self.interface.exception;
        self.aside(|writer| {
            if writer.push_null(class) {
                writer.now.stack.pop();
                writer.now.stack.push(Entry::fresh(class));
                writer.throw_to_top();
            }
        })
    }

    /// A lock forgotten where null might be.
    pub(super) fn doubt_lock(&mut self, v: usize) -> bool {
        let class = self.class_of(v);
        let room = self.room() > 1;
        if room {
            self.load_whole(v);
            self.recast(Entry::Nullable { class });
            self.pop();
        }
        room
    }

    /// Main's class takes no argument, so null is all that it needs.
    pub(super) fn start_null(&mut self) -> bool {
        let pushed = self.push_null(0);
        if pushed {
            self.start(0);
        }
        pushed
    }

    /// The lock lies on the stack where null is thrown.
    pub(super) fn lose_stack_to_null(&mut self, v: usize) -> bool {
        let Some(w) = self.null_beside(v) else {
            return false;
        };
        self.load_whole(v);
        let handler = self.failure_handler();
        self.enter_nullable(w, Some(handler));
        self.store(v);
        self.release(w);
        true
    }

    /// The handler's row claims that the lock was given back.
    pub(super) fn lose_variable_to_null(&mut self, v: usize) -> bool {
        let Some(w) = self.null_beside(v) else {
            return false;
        };
        let thrown = Entry::fresh(self.interface.exception);
        let mut claimed = self.now.with_stack(&[thrown]);
        claimed.variables[v] = Entry::fresh(self.class_of(v));
        let handler = self.label(claimed);
        self.enter_nullable(w, Some(handler));
        self.release(w);
        true
    }

    /// Nobody catches null while the lock is held.
    pub(super) fn end_by_null(&mut self, v: usize) -> bool {
        let Some(w) = self.null_beside(v) else {
            return false;
        };
        self.enter_nullable(w, None);
        self.release(w);
        true
    }

    /// A lock taken where null might be, and never given back.
    pub(super) fn lock_doubted(&mut self, v: usize) -> bool {
        let class = self.class_of(v);
        let Some(w) = self.other_free(v) else {
            return false;
        };
        self.load(v, self.now.variables[v], Entry::Nullable { class });
        self.store(w);
        let handler = self.failure_handler();
        self.enter_nullable(w, Some(handler));
        self.now.variables[w] = Entry::fresh(class);
        true
    }

    /// A field of a class that the owner is not of.
    pub(super) fn read_from_other(&mut self, v: usize) -> bool {
        let class = self.class_of(v);
        let Some(field) = self.field_where(|field, _| field.class != class) else {
            return false;
        };
        self.load_free(v);
        self.getfield(field, None);
        self.pop();
        true
    }

    /// The lock is on the owner, which goes.
    pub(super) fn read_from_locked(&mut self, v: usize) -> bool {
        let class = self.class_of(v);
        let Some(field) = self.field_where(|field, _| field.class == class) else {
            return false;
        };
        self.load_whole(v);
        self.getfield(field, None);
        self.pop();
        true
    }

    /// A reference, of which nothing is known, for an integer.
    pub(super) fn put_top(&mut self, v: usize) -> bool {
        let fits = |_, descriptor| descriptor == INT;
        self.put_into_own(v, fits, Entry::Top)
    }

    /// A reference of another class than the field's.
    pub(super) fn put_other(&mut self, v: usize) -> bool {
        let fits = |class, descriptor| descriptor != INT && descriptor != class;
        self.put_into_own(v, fits, Entry::fresh(self.class_of(v)))
    }

    /// The variable's own object goes into some field of itself.
    fn put_into_own(&mut self, v: usize, fits: fn(u8, u8) -> bool, value: Entry) -> bool {
        let class = self.class_of(v);
        let own = |field: Field, descriptor| field.class == class && fits(class, descriptor);
        let Some(field) = self.field_where(own).filter(|_| self.room() > 1) else {
            return false;
        };
        self.load_free(v);
        self.load(v, self.now.variables[v], value);
        self.putfield(field, None);
        true
    }

    /// The lock is on the value, which goes.
    pub(super) fn put_lock_away(&mut self, v: usize) -> bool {
        let class = self.class_of(v);
        let found = self.field_where(|_, descriptor| descriptor == class);
        let Some(field) = found.filter(|_| self.room() > 1) else {
            return false;
        };
        self.make_caught(field.class);
        self.load_whole(v);
        self.putfield(field, None);
        true
    }
}
