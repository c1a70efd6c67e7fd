//! Threads that find their locks in the fields of one object, where others
//! put them.

use super::interface::{self, Interface};
use super::typed;
use super::writer::Writer;
use crate::builder::{Draft, Method};
use crate::rng::Rng;
use reference::bundle::Field;
use reference::entries::Entry;

/// Where the shared object stands, and the lock that was found.
const OWNER: usize = 0;
const LOCK: usize = 1;
const VARIABLES: usize = 2;
const STACK: usize = 3;

/// A main thread that makes the object and starts threads that share it; all
/// of them put locks into its field, and take those that they find there.
pub fn sharing(rng: &mut Rng) -> Draft {
    let workers = rng.between(1, 3);
    let class = |rng: &mut Rng| rng.below(workers + 1) as u8;
    let (owner, lock, exception) = (class(rng), class(rng), class(rng));
    let mut fields: Vec<Vec<u8>> = (0..=workers)
        .map(|_| interface::fields(rng, workers + 1))
        .collect();
    let own = &mut fields[usize::from(owner)];
    own.truncate(3);
    let number = rng.between(0, own.len());
    own.insert(number, lock);
    let mut signatures = vec![vec![]];
    signatures.extend(vec![vec![owner]; workers]);
    let interface = Interface {
        signatures,
        fields,
        exception,
    };
    let field = Field {
        class: owner,
        number: number as u8,
    };
    let methods = (0..=workers)
        .map(|class| method(rng, &interface, class, field))
        .collect();
    Draft { methods, exception }
}

/// Class 0 begins by itself, the others with the object.
fn method(rng: &mut Rng, interface: &Interface, class: usize, field: Field) -> Method {
    typed::written(rng, |rng| {
        let mut first = vec![Entry::Top; VARIABLES];
        if class > 0 {
            first[OWNER] = match rng.chance(1, 3) {
                true => Entry::Nullable { class: field.class },
                false => Entry::fresh(field.class),
            };
        }
        let mut writer = Writer::new(rng, interface, first, STACK, 40);
        if class == 0 {
            writer.begin_sharing(field);
        }
        writer.use_shared(field);
        writer.into_method(class)
    })
}

impl Writer<'_> {
    /// Makes the object, puts a lock into it early or late, and starts threads.
    fn begin_sharing(&mut self, field: Field) {
        self.new_object(field.class, None);
        self.store(OWNER);
        let early = self.rng.chance(1, 2);
        if early {
            self.put_lock(field);
        }
        for _ in 0..self.rng.between(1, 5) {
            let worker = self.rng.between(1, self.interface.signatures.len() - 1) as u8;
            self.new_object(worker, None);
            self.load(OWNER, Entry::fresh(field.class), Entry::fresh(field.class));
            self.start(worker);
        }
        if !early {
            self.put_lock(field);
        }
    }

    fn load_owner(&mut self) {
        let owner = self.now.variables[OWNER];
        self.load(OWNER, owner, owner);
    }

    fn put_lock(&mut self, field: Field) {
        self.load_owner();
        self.new_object(self.interface.descriptor(field), None);
        self.putfield(field, None);
    }

    /// Takes the lock that the field holds, does a little under it, and gives
    /// it back, for ever; null is caught, and looked for again.
    fn use_shared(&mut self, field: Field) {
        let top = self.label(self.now.clone());
        self.place(top);
        let thrown = Entry::fresh(self.interface.exception);
        let missing = self.label(self.now.with_stack(&[thrown]));
        for _ in 0..self.rng.between(1, 2) {
            if self.rng.chance(1, 4) {
                self.put_lock(field);
            }
            self.load_owner();
            self.getfield(field, Some(missing));
            self.store(LOCK);
            self.enter_nullable(LOCK, Some(missing));
            for _ in 0..self.rng.below(3) {
                self.condition();
                self.pop();
            }
            self.release(LOCK);
        }
        self.jump_or_close(top);
        self.close();
        self.place(missing);
        self.meet_missing();
        self.jump_or_close(top);
        self.close();
    }

    /// What null threw is dropped, or locked for a while.
    fn meet_missing(&mut self) {
        if self.rng.chance(1, 3) {
            return self.pop();
        }
        self.store(LOCK);
        self.enter(LOCK);
        self.condition();
        self.pop();
        self.release(LOCK);
    }
}
