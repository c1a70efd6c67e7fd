//! What the machine moves: values, threads, counts and held words, objects and
//! their fields.

use crate::bundle::{Addr, Class, Field, Var, INT};
use crate::instructions::MAX_FIELDS;
use crate::known::Known;

pub const THREADS: usize = 8;
pub const OBJECTS: usize = 32;
pub const PLACES: usize = 16;
pub const MAX_COUNT: u16 = 2_047;
/// The object that is there from the start, and that a failed new and null
/// throw.
pub const OBJECT_0: u8 = 0;

/// A value: a 32-bit integer, a reference to an object, or null.
#[derive(Clone, Copy, Debug, PartialEq, Eq)]
pub enum Value {
    Int(i32),
    Ref(u8),
    Null,
}

impl Value {
    /// What every place out of use becomes.
    pub const ZERO: Value = Value::Int(0);

    /// What a new object's field of this descriptor holds.
    fn unset(descriptor: u8) -> Value {
        match descriptor {
            INT => Value::ZERO,
            _ => Value::Null,
        }
    }
}

/// One thread; stack place 0 is the bottom.
#[derive(Clone, Copy, Debug, PartialEq, Eq)]
pub struct Thread {
    pub live: bool,
    pub class: u8,
    pub address: u16,
    pub depth: u8,
    pub variables: [Value; PLACES],
    pub stack: [Value; PLACES],
}

/// The whole machine; the count of thread t on object o is at t * 32 + o, and
/// field f of object o is at o * 4 + f. A state that is read may have any held
/// words; those of a machine's own are worked out from its counts.
#[derive(Clone, Debug, PartialEq, Eq)]
pub struct State {
    pub threads: [Thread; THREADS],
    pub counts: [u16; THREADS * OBJECTS],
    pub objects: u8,
    pub classes: [u8; OBJECTS],
    pub fields: [Value; OBJECTS * MAX_FIELDS],
    /// A word for each thread: bit i stands for object i.
    pub held: [u32; THREADS],
}

impl Thread {
    pub const EMPTY: Thread = Thread {
        live: false,
        class: 0,
        address: 0,
        depth: 0,
        variables: [Value::ZERO; PLACES],
        stack: [Value::ZERO; PLACES],
    };

    pub(crate) fn push(&mut self, value: Value) {
        *self.stack.known_mut(usize::from(self.depth)) = value;
        self.depth += 1;
    }

    /// Takes the top; its place falls out of use.
    pub(crate) fn pop(&mut self) -> Value {
        self.depth -= 1;
        std::mem::replace(self.stack.known_mut(usize::from(self.depth)), Value::ZERO)
    }

    pub(crate) fn empty_stack(&mut self) {
        self.stack
            .known_mut(..usize::from(self.depth))
            .fill(Value::ZERO);
        self.depth = 0;
    }

    pub(crate) fn variable(&self, v: Var) -> Value {
        *self.variables.known(usize::from(v.0))
    }

    /// inc; the top is an integer.
    pub(crate) fn increase(&mut self) {
        let top = usize::from(self.depth) - 1;
        if let Value::Int(i) = self.stack.known_mut(top) {
            *i = i.wrapping_add(1);
        }
    }

    pub(crate) fn store(&mut self, v: Var) {
        let value = self.pop();
        *self.variables.known_mut(usize::from(v.0)) = value;
    }

    /// The handler finds what is thrown alone on its stack.
    pub(crate) fn catch(&mut self, thrown: Value, handler: Addr) {
        self.empty_stack();
        self.push(thrown);
        self.address = handler.0;
    }

    /// Only places in use become 0; the others keep what they held.
    pub(crate) fn end(&mut self, variables: usize) {
        self.empty_stack();
        self.variables.known_mut(..variables).fill(Value::ZERO);
        self.live = false;
        self.class = 0;
        self.address = 0;
    }

    /// The value `below` places under the top.
    pub(crate) fn peek(&self, below: usize) -> Value {
        *self.stack.known(usize::from(self.depth) - 1 - below)
    }
}

impl State {
    /// No live thread, no object, and all else 0.
    pub const EMPTY: State = State {
        threads: [Thread::EMPTY; THREADS],
        counts: [0; THREADS * OBJECTS],
        objects: 0,
        classes: [0; OBJECTS],
        fields: [Value::ZERO; OBJECTS * MAX_FIELDS],
        held: [0; THREADS],
    };

    pub fn count(&self, thread: usize, object: usize) -> u16 {
        *self.counts.known(thread * OBJECTS + object)
    }

    pub(crate) fn count_mut(&mut self, thread: usize, object: u8) -> &mut u16 {
        self.counts
            .known_mut(thread * OBJECTS + usize::from(object))
    }

    /// Whether there is no room for a further object.
    pub(crate) fn is_full(&self) -> bool {
        usize::from(self.objects) >= OBJECTS
    }

    /// The thread's counts, one for each object.
    pub fn counts_of(&self, thread: usize) -> &[u16] {
        self.counts.known(thread * OBJECTS..(thread + 1) * OBJECTS)
    }

    /// How many objects the thread holds, by its counts.
    pub fn number_held(&self, thread: usize) -> u8 {
        let held = self.counts_of(thread).iter().filter(|&&count| count > 0);
        held.count() as u8
    }

    /// The word that the thread's counts ask for: bit i is set exactly when its
    /// count for object i is above zero.
    pub fn word(&self, thread: usize) -> u32 {
        let counts = self.counts_of(thread).iter().enumerate();
        counts.fold(0, |word, (object, &count)| {
            word | u32::from(count > 0) << object
        })
    }

    /// Gives every thread the word that its counts ask for.
    pub fn settle_words(&mut self) {
        self.held = std::array::from_fn(|thread| self.word(thread));
    }

    /// An object's four field places.
    pub fn fields_of(&self, object: usize) -> &[Value] {
        self.fields
            .known(object * MAX_FIELDS..(object + 1) * MAX_FIELDS)
    }

    /// One more object of this class; gives its number.
    pub(crate) fn add_object(&mut self, class: u8) -> u8 {
        let object = self.objects;
        *self.classes.known_mut(usize::from(object)) = class;
        self.objects += 1;
        object
    }

    /// The lowest free thread begins, with so many arguments from the starter's
    /// stack, below which the object lies; its stack places are left alone. Gives
    /// its number; None where no thread is free.
    pub(crate) fn start(&mut self, starter: usize, class: u8, arguments: usize) -> Option<usize> {
        let free = self.threads.iter().position(|t| !t.live)?;
        let mut variables = [Value::ZERO; PLACES];
        let starter = self.threads.known_mut(starter);
        for variable in variables.known_mut(..arguments) {
            *variable = starter.pop();
        }
        starter.pop();
        let thread = self.threads.known_mut(free);
        *thread = Thread {
            live: true,
            class,
            address: 1,
            depth: 0,
            variables,
            ..*thread
        };
        Some(free)
    }

    /// Where the field of an object stands.
    pub(crate) fn place(owner: u8, field: Field) -> usize {
        usize::from(owner) * MAX_FIELDS + usize::from(field.number)
    }

    /// Writes an object's four places: null for those that its class uses for
    /// references, 0 for the others.
    pub(crate) fn unset_fields(&mut self, object: u8, class: &Class) {
        let places = &mut self.fields[usize::from(object) * MAX_FIELDS..][..MAX_FIELDS];
        places.fill(Value::ZERO);
        for (place, &descriptor) in places.iter_mut().zip(class.fields) {
            *place = Value::unset(descriptor);
        }
    }

    pub(crate) fn is_of_class(&self, value: Value, class: u8) -> bool {
        matches!(value, Value::Ref(o) if *self.classes.known(usize::from(o)) == class)
    }
}
