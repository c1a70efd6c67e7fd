//! Threads that want the same locks, again and again.

use super::interface::Interface;
use super::typed;
use super::writer::Writer;
use crate::builder::{Draft, Method};
use crate::rng::Rng;
use reference::entries::Entry;

/// A main thread that makes a few objects, starts threads that share them,
/// and then joins in.
pub fn contending(rng: &mut Rng) -> Draft {
    let workers = rng.between(1, 3);
    let shared = rng.pick(&[1, 1, 2, 3, 5]);
    let class = |rng: &mut Rng| rng.below(workers + 1) as u8;
    let objects: Vec<u8> = (0..shared).map(|_| class(rng)).collect();
    let mut signatures = vec![vec![]];
    signatures.extend(vec![objects.clone(); workers]);
    let interface = Interface {
        fields: vec![vec![]; signatures.len()],
        signatures,
        exception: class(rng),
    };
    let mut methods = vec![main_method(rng, &interface, &objects)];
    for class in 1..=workers {
        methods.push(worker(rng, &interface, class));
    }
    Draft {
        methods,
        exception: interface.exception,
    }
}

/// Variable i holds object i.
fn main_method(rng: &mut Rng, interface: &Interface, objects: &[u8]) -> Method {
    typed::written(rng, |rng| {
        let first = vec![Entry::Top; objects.len() + 1];
        let mut writer = Writer::new(rng, interface, first, objects.len() + 2, 40);
        for (v, &class) in objects.iter().enumerate() {
            writer.new_object(class, None);
            writer.store(v);
        }
        for _ in 0..writer.rng.between(2, 7) {
            writer.start_sharing(objects);
        }
        writer.contend(objects.len());
        writer.into_method(0)
    })
}

fn worker(rng: &mut Rng, interface: &Interface, class: usize) -> Method {
    let objects = &interface.signatures[class];
    typed::written(rng, |rng| {
        let mut first: Vec<Entry> = objects.iter().map(|&class| Entry::fresh(class)).collect();
        first.push(Entry::Top);
        let mut writer = Writer::new(rng, interface, first, 2, 40);
        writer.contend(objects.len());
        writer.into_method(class)
    })
}

impl Writer<'_> {
    /// Starts a thread of some worker's class with all shared objects.
    pub(super) fn start_sharing(&mut self, objects: &[u8]) {
        let worker = self.rng.between(1, self.interface.signatures.len() - 1) as u8;
        self.new_object(worker, None);
        for (v, &class) in objects.iter().enumerate().rev() {
            self.load(v, self.now.variables[v], Entry::fresh(class));
        }
        self.start(worker);
    }

    /// Takes locks of the first variables, does a little under them, and gives
    /// them back, for ever.
    fn contend(&mut self, shared: usize) {
        let top = self.label(self.now.clone());
        self.place(top);
        for _ in 0..self.rng.between(1, 3) {
            let v = self.rng.below(shared);
            self.take(v);
            for _ in 0..self.rng.below(3) {
                self.number();
            }
            if self.rng.chance(1, 2) {
                self.release(v);
            }
        }
        self.jump_or_close(top);
        self.close();
    }
}
