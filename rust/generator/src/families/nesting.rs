//! Threads that hold two or three locks at once: taken in an order of their
//! classes, or in any.

use super::interface::Interface;
use super::typed;
use super::writer::{free, Writer};
use crate::builder::{Draft, Method};
use crate::rng::Rng;
use reference::entries::{Entry, Pair};

/// Which locks may be taken while others are held.
#[derive(Clone, Debug)]
enum Manner {
    /// By the classes' ranks, strictly falling.
    Orderly(Vec<usize>),
    /// Any, the same class and the same object among them.
    Any,
}

/// What all threads of a bundle share, and how they use it.
struct Plan {
    interface: Interface,
    /// The class of each object; variable i holds object i, and behind them
    /// stands one that is spare.
    objects: Vec<u8>,
    manner: Manner,
}

/// Some levels do for this bundle.
pub fn orderly(rng: &mut Rng) -> Draft {
    let classes = rng.between(2, 5);
    let mut ranks: Vec<usize> = (0..classes).collect();
    for i in 1..classes {
        ranks.swap(i, rng.below(i + 1));
    }
    nesting(rng, classes, Manner::Orderly(ranks))
}

/// Mostly no levels do for this one, and its threads may all wait.
pub fn any(rng: &mut Rng) -> Draft {
    let classes = rng.between(2, 5);
    nesting(rng, classes, Manner::Any)
}

/// A main thread that makes a few objects, starts threads that share them, and
/// then joins in.
fn nesting(rng: &mut Rng, classes: usize, manner: Manner) -> Draft {
    let shared = rng.between(2, 4);
    let first = rng.below(classes);
    // Of classes one behind the other, or of any.
    let apart = rng.chance(1, 2);
    let class = |rng: &mut Rng, object: usize| match apart {
        true => (first + object) % classes,
        false => rng.below(classes),
    };
    let objects: Vec<u8> = (0..shared).map(|o| class(rng, o) as u8).collect();
    let mut signatures = vec![objects.clone(); classes];
    signatures[0].clear();
    let interface = Interface {
        fields: vec![vec![]; classes],
        signatures,
        exception: rng.below(classes) as u8,
    };
    let plan = Plan {
        interface,
        objects,
        manner,
    };
    let mut methods = vec![plan.main_method(rng)];
    methods.extend((1..classes).map(|class| plan.worker(rng, class)));
    Draft {
        methods,
        exception: plan.interface.exception,
    }
}

impl Plan {
    fn main_method(&self, rng: &mut Rng) -> Method {
        let objects = &self.objects;
        typed::written(rng, |rng| {
            let first = vec![Entry::Top; objects.len() + 1];
            let mut writer = Writer::new(rng, &self.interface, first, objects.len() + 2, 60);
            for (v, &class) in objects.iter().enumerate() {
                writer.new_object(class, None);
                writer.store(v);
            }
            for _ in 0..writer.rng.between(1, 4) {
                writer.start_sharing(objects);
            }
            writer.nest_for_ever(self);
            writer.into_method(0)
        })
    }

    fn worker(&self, rng: &mut Rng, class: usize) -> Method {
        let objects = &self.objects;
        typed::written(rng, |rng| {
            let given = objects.iter().map(|&class| Entry::fresh(class));
            let first = given.chain([Entry::Top]).collect();
            let mut writer = Writer::new(rng, &self.interface, first, objects.len() + 2, 60);
            writer.nest_for_ever(self);
            writer.into_method(class)
        })
    }

    /// The variables whose locks are taken, the outermost first.
    fn locks(&self, rng: &mut Rng) -> Vec<usize> {
        let wanted = rng.pick(&[1, 2, 2, 3, 3]);
        let mut locks: Vec<usize> = (0..wanted).map(|_| rng.below(self.objects.len())).collect();
        if let Manner::Orderly(ranks) = &self.manner {
            let rank = |&v: &usize| ranks[usize::from(self.objects[v])];
            locks.sort_by_key(|v| std::cmp::Reverse(rank(v)));
            locks.dedup_by_key(|v| rank(v));
        }
        locks
    }

    /// The variable that holds nothing of its own.
    fn spare(&self) -> usize {
        self.objects.len()
    }
}

/// Where the debt of a lock is kept while others are taken.
#[derive(Clone, Copy)]
enum Debt {
    /// With its own variable.
    Own,
    /// On the stack.
    Stack,
    /// There, below a number.
    Covered,
    /// With the spare variable, all of it or a part.
    Spare,
}

impl Writer<'_> {
    /// Takes locks within each other and gives them back, mostly for ever.
    /// Some variables may be null by their rows, though none is.
    fn nest_for_ever(&mut self, plan: &Plan) {
        for (v, &class) in plan.objects.iter().enumerate() {
            if self.rng.chance(1, 4) {
                self.now.variables[v] = Entry::Nullable { class };
            }
        }
        let top = self.label(self.now.clone());
        self.place(top);
        let ends = self.rng.chance(1, 4);
        for _ in 0..self.rng.between(1, 2) {
            let locks = plan.locks(self.rng);
            self.nest(plan, &locks);
        }
        if !ends {
            self.jump_or_close(top);
        }
        self.close();
        while let Some(handler) = self.unplaced() {
            self.place(handler);
            self.drop_stack_to(0);
            self.jump_or_close(top);
            self.close();
        }
    }

    /// Takes the first of these locks, the others within it, and gives it back.
    fn nest(&mut self, plan: &Plan, locks: &[usize]) {
        let Some((&v, inner)) = locks.split_first() else {
            return self.number_apart();
        };
        self.lock(v);
        let debt = self.put_debt(v, plan.spare());
        self.nest(plan, inner);
        match debt {
            Debt::Own => {}
            Debt::Stack => self.store(v),
            Debt::Covered => {
                self.pop();
                self.store(v);
            }
            Debt::Spare => self.release(plan.spare()),
        }
        self.release(v);
    }

    /// A little work that touches no variable.
    fn number_apart(&mut self) {
        if self.room() > 0 && self.rng.chance(1, 2) {
            self.condition();
            self.pop();
        }
    }

    /// Enters once or twice; not where null would have to be thrown and can't.
    fn lock(&mut self, v: usize) {
        if let Entry::Nullable { .. } = self.now.variables[v] {
            if !self.stack_free() {
                return;
            }
            let thrown = Entry::fresh(self.interface.exception);
            let caught = !self.variables_free() || self.rng.chance(1, 2);
            let handler = caught.then(|| self.label(self.now.with_stack(&[thrown])));
            self.enter_nullable(v, handler);
        }
        for _ in 0..self.rng.pick(&[0, 1, 1, 2]) {
            if self.can_enter(v) {
                self.enter(v);
            }
        }
    }

    /// Puts what `v` owes where it stays while other locks are taken.
    fn put_debt(&mut self, v: usize, spare: usize) -> Debt {
        let Entry::Ref { class, pair } = self.now.variables[v] else {
            return Debt::Own;
        };
        // One place of the stack is left for numbers.
        let place = match self.rng.below(6) {
            0 if self.room() > 1 => Debt::Stack,
            1 if self.room() > 2 => Debt::Covered,
            2 | 3 if free(self.now.variables[spare]) => Debt::Spare,
            _ => return Debt::Own,
        };
        let part = match place {
            Debt::Spare if pair.end < -1 => Pair::new(1, -1),
            _ => pair,
        };
        let kept = Pair::new(pair.dip - part.dip, pair.end - part.end);
        let entry = |pair| Entry::Ref { class, pair };
        self.load(v, entry(kept), entry(part));
        match place {
            Debt::Spare => self.store(spare),
            Debt::Covered => self.push0(),
            Debt::Own | Debt::Stack => {}
        }
        place
    }
}
