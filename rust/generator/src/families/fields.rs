//! Fields read and written, and references that may be null.

use super::writer::{free, Label, Writer};
use reference::bundle::{Field, INT};
use reference::entries::Entry;

impl Writer<'_> {
    /// The handler, or none, of an entry that may be null; nothing if it can't
    /// be null, or if a throw can't be written here.
    pub(super) fn handler_of_null(&mut self, entry: Entry) -> Option<Option<Label>> {
        let thrown = Entry::fresh(self.interface.exception);
        match entry {
            Entry::Nullable { .. } if self.stack_free() && self.stack_limit > 0 => {
                self.choose_handler(thrown)
            }
            _ => None,
        }
    }

    /// The same of an owner, whose handler is looked at by nobody if it can't
    /// be null.
    fn handler_of_owner(&mut self, owner: Entry) -> Option<Option<Label>> {
        match owner {
            Entry::Nullable { .. } => self.handler_of_null(owner),
            _ => Some(self.idle_handler()),
        }
    }

    /// A reference that owes nothing and may be null, from a variable or new.
    fn push_perhaps_null(&mut self, class: u8) -> bool {
        let known = self.pick(|entry| entry.may_be_of(class));
        match known {
            Some(v) if self.rng.chance(5, 6) => {
                let kept = self.now.variables[v];
                let given = match kept {
                    Entry::Ref { .. } if self.rng.chance(2, 3) => Entry::fresh(class),
                    _ => Entry::Nullable { class },
                };
                self.load(v, kept, given);
                true
            }
            _ => self.make(class),
        }
    }

    /// Some field, rather of an object that a variable names.
    fn pick_field(&mut self, ok: impl Fn(u8) -> bool) -> Option<Field> {
        let all = self.interface.fields(|_, descriptor| ok(descriptor));
        let near: Vec<Field> = all
            .iter()
            .copied()
            .filter(|field| {
                let mut known = self.now.variables.iter();
                known.any(|entry| entry.may_be_of(field.class))
            })
            .collect();
        match near.is_empty() || self.rng.chance(1, 6) {
            true if all.is_empty() => None,
            true => Some(self.rng.pick(&all)),
            false => Some(self.rng.pick(&near)),
        }
    }

    /// What the field of some object holds on top of the stack; false if it
    /// can't be.
    fn push_field(&mut self, field: Field) -> bool {
        let depth = self.now.stack.len();
        if self.room() == 0 || !self.push_perhaps_null(field.class) {
            return false;
        }
        match self.handler_of_owner(self.now.stack[depth]) {
            Some(handler) => self.getfield(field, handler),
            None => self.pop(),
        }
        self.now.stack.len() > depth
    }

    /// Puts something that owes nothing into the field of some object, if it
    /// can be.
    fn put_field(&mut self, field: Field) {
        let depth = self.now.stack.len();
        let pushed = self.room() > 1
            && self.push_perhaps_null(field.class)
            && match self.interface.descriptor(field) {
                INT => {
                    self.condition();
                    true
                }
                class => self.push_perhaps_null(class),
            };
        let handler = match pushed {
            true => self.handler_of_owner(self.now.stack[depth]),
            false => None,
        };
        match handler {
            Some(handler) => self.putfield(field, handler),
            None => {
                self.drop_stack_to(depth);
            }
        }
    }

    /// What a field holds, kept or dropped.
    pub(super) fn read_field(&mut self) {
        match self.pick_field(|_| true) {
            Some(field) if self.push_field(field) => self.keep_or_drop(),
            _ => self.object(),
        }
    }

    pub(super) fn write_field(&mut self) {
        match self.pick_field(|_| true) {
            Some(field) => self.put_field(field),
            None => self.object(),
        }
    }

    /// A lock read from a field, mostly put there just before, and taken.
    pub(super) fn lock_from_field(&mut self, nest: usize) {
        let Some(field) = self.pick_field(|descriptor| descriptor != INT) else {
            return self.object();
        };
        if self.rng.chance(3, 4) {
            self.put_field(field);
        }
        if !self.push_field(field) {
            return;
        }
        match self.pick(free) {
            Some(v) => {
                self.store(v);
                self.lock_region_of(v, nest);
            }
            None => self.pop(),
        }
    }

    /// A row may forget that a reference is not null.
    pub(super) fn doubt(&mut self) {
        let known = self.pick(|entry| matches!(entry, Entry::Ref { .. }) && free(entry));
        if let Some(v) = known {
            if let Entry::Ref { class, .. } = self.now.variables[v] {
                self.now.variables[v] = Entry::Nullable { class };
            }
        }
    }
}
