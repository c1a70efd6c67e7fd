//! What of a lock order came up: in bundles that it accepts, and where it
//! refuses.

use reference::bundle::{Addr, Bundle, Class, Instr, Row, Var, Verdict};
use reference::entries::Entry;
use reference::order::{nestings, Levels, Nesting, Place};

/// A bundle and levels under which it is accepted.
pub struct Accepted<'a> {
    pub opened: Bundle<'a>,
    pub levels: Levels,
}

/// What is marked of an accepted bundle.
type Mark = (&'static str, fn(&Accepted) -> bool);

pub const ACCEPTED: [Mark; 9] = [
    ("a lock taken while a higher one is held", |a| {
        a.takes(|lock| lock.nestings().next().is_some())
    }),
    ("one that is a single level higher", |a| {
        a.takes(|lock| lock.nestings().any(|n| a.apart(&n) == 1))
    }),
    ("two of different classes held", |a| {
        a.takes(|lock| {
            let first = lock.nestings().next();
            lock.nestings()
                .any(|n| first.is_some_and(|f| f.held != n.held))
        })
    }),
    ("one held on the stack", |a| {
        a.takes(|lock| lock.nestings().any(|n| matches!(n.place, Place::Stack(_))))
    }),
    ("a lock that may be null, taken while one is held", |a| {
        a.takes(|lock| may_be_null(lock.entry()) && lock.nestings().next().is_some())
    }),
    ("a lock taken again", |a| a.takes(|lock| owes(lock.entry()))),
    ("an end of 0 beside it that is no higher", |a| {
        a.takes(|lock| a.beside(lock, is_free))
    }),
    ("what may be null beside it that is no higher", |a| {
        a.takes(|lock| a.beside(lock, may_be_null))
    }),
    ("one given back while one no higher is held", |a| {
        a.gives_back(|lock| a.beside(lock, owes))
    }),
];

fn owes(entry: Entry) -> bool {
    matches!(entry, Entry::Ref { pair, .. } if pair.end < 0)
}

fn is_free(entry: Entry) -> bool {
    matches!(entry, Entry::Ref { pair, .. } if pair.end == 0)
}

fn may_be_null(entry: Entry) -> bool {
    matches!(entry, Entry::Nullable { .. })
}

fn class_of(entry: Entry) -> Option<u8> {
    match entry {
        Entry::Ref { class, .. } | Entry::Nullable { class } => Some(class),
        Entry::Int | Entry::Top => None,
    }
}

/// A monitorenter or monitorexit of a variable.
struct Lock<'a> {
    class: &'a Class<'a>,
    address: Addr,
    v: Var,
}

impl<'a> Lock<'a> {
    fn row(&self) -> Row<'a> {
        self.class.row(self.address)
    }

    fn entry(&self) -> Entry {
        Entry::read(self.row().variables[usize::from(self.v.0)])
    }

    fn nestings(&self) -> impl Iterator<Item = Nesting> + 'a {
        nestings(self.class, self.address)
    }
}

impl Accepted<'_> {
    /// Whether this holds of some monitorenter.
    fn takes(&self, holds: impl Fn(&Lock) -> bool) -> bool {
        self.any(
            |instr| match instr {
                Instr::Enter(v, _) => Some(v),
                _ => None,
            },
            holds,
        )
    }

    /// Whether it holds of some monitorexit.
    fn gives_back(&self, holds: impl Fn(&Lock) -> bool) -> bool {
        self.any(
            |instr| match instr {
                Instr::Exit(v) => Some(v),
                _ => None,
            },
            holds,
        )
    }

    fn any(&self, named: fn(Instr) -> Option<Var>, holds: impl Fn(&Lock) -> bool) -> bool {
        self.opened.classes().any(|(_, class)| {
            let mut addresses = (1..=class.code_length()).map(Addr);
            addresses.any(|address| {
                let v = named(class.instruction(address));
                v.is_some_and(|v| holds(&Lock { class, address, v }))
            })
        })
    }

    /// By how much what is held is the higher.
    fn apart(&self, nesting: &Nesting) -> u8 {
        self.levels.of(nesting.held) - self.levels.of(nesting.taken)
    }

    /// Whether some other entry of the row is such and of no higher level.
    fn beside(&self, lock: &Lock, is: fn(Entry) -> bool) -> bool {
        let level = |entry| class_of(entry).map(|class| self.levels.of(class));
        let row = lock.row();
        let all = row.variables.iter().chain(row.stack).enumerate();
        let mut others = all.filter(|&(place, _)| place != usize::from(lock.v.0));
        others.any(|(_, &raw)| {
            let entry = Entry::read(raw);
            is(entry) && level(entry) <= level(lock.entry())
        })
    }
}

/// A monitorenter that draws 25.
pub struct Disorder {
    /// What refuses it.
    refused: Vec<Nesting>,
    levels: Levels,
    v: usize,
    may_be_null: bool,
}

/// What is marked of a 25: that all which refuses there is such.
type Kind = (&'static str, fn(&Disorder) -> bool);

pub const DISORDERS: [Kind; 8] = [
    ("by a variable before v", |d| {
        d.all(|n| matches!(n.place, Place::Variable(w) if w < d.v))
    }),
    ("by a variable behind v", |d| {
        d.all(|n| matches!(n.place, Place::Variable(w) if w > d.v))
    }),
    ("by the top of the stack", |d| {
        d.all(|n| n.place == Place::Stack(0))
    }),
    ("by an entry below the top", |d| {
        d.all(|n| matches!(n.place, Place::Stack(1..)))
    }),
    ("by its own class", |d| d.all(|n| n.held == n.taken)),
    ("by another class of the same level", |d| {
        d.all(|n| n.held != n.taken && d.levels.of(n.held) == d.levels.of(n.taken))
    }),
    ("by a lower level", |d| {
        d.all(|n| d.levels.of(n.held) < d.levels.of(n.taken))
    }),
    ("where the lock may be null", |d| d.may_be_null),
];

impl Disorder {
    /// What the verdict tells of, if it is a 25.
    pub fn told(opened: &Bundle, levels: Levels, verdict: Verdict) -> Option<Disorder> {
        if verdict.number != 25 {
            return None;
        }
        let (class, address) = (opened.class(verdict.class), Addr(verdict.address));
        let Instr::Enter(v, _) = class.instruction(address) else {
            return None;
        };
        let lock = Lock { class, address, v };
        let refused = lock.nestings().filter(|nesting| !levels.allow(nesting));
        Some(Disorder {
            refused: refused.collect(),
            levels,
            v: usize::from(v.0),
            may_be_null: may_be_null(lock.entry()),
        })
    }

    fn all(&self, holds: impl Fn(&Nesting) -> bool) -> bool {
        self.refused.iter().all(holds)
    }
}
