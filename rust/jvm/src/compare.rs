//! What the probes told, held against the proved machine.

use crate::code::Done;
use crate::java::{End, Told};
use crate::machine::{Machine, CLASSES};
use crate::method::Method;
use reference::machine::answer;
use reference::take::{instructions, Does, Instruction};
use std::io::Error;

/// What came up.
#[derive(Debug, Default)]
pub struct Figures {
    methods: u64,
    /// Probes that were compared, by what was done.
    compared: u64,
    jumps: u64,
    caught: u64,
    caught_null: u64,
    locks: u64,
    news: u64,
    increases: u64,
    returned: u64,
    uncaught: u64,
    /// Methods left behind their 60th probe, at a fault, and with all objects
    /// made.
    long: u64,
    faults: u64,
    pub differences: u64,
}

/// Why a method is compared no further.
enum Stop {
    Fault,
    Full,
    Different(String),
}

impl Figures {
    pub fn differ(&mut self, seed: u64, what: &str) {
        self.differences += 1;
        println!("DIFFERENCE seed {seed}: {what}");
    }

    pub fn add(
        &mut self,
        seed: u64,
        method: &Method,
        machine: Machine,
        told: &Told,
    ) -> Result<(), Error> {
        self.methods += 1;
        let mut walk = Walk {
            read: instructions(&method.attribute(), &CLASSES),
            machine,
            figures: self,
        };
        match walk.all(told)? {
            Ok(()) => {}
            Err(Stop::Fault) => self.faults += 1,
            Err(Stop::Full) => self.long += 1,
            Err(Stop::Different(what)) => self.differ(seed, &what),
        }
        Ok(())
    }

    pub fn print(&self) {
        println!(
            "methods {}, probes compared {}",
            self.methods, self.compared
        );
        println!(
            "  jumps {}, iincs {}, news {}",
            self.jumps, self.increases, self.news
        );
        println!("  locks taken or given back {}", self.locks);
        println!(
            "  throws caught {}, of them null {}",
            self.caught, self.caught_null
        );
        println!(
            "  methods that returned {}, that threw {}",
            self.returned, self.uncaught
        );
        println!(
            "  left at a fault {}, as too long {}",
            self.faults, self.long
        );
        println!("differences: {}", self.differences);
    }
}

struct Walk<'a> {
    read: Vec<Instruction>,
    machine: Machine,
    figures: &'a mut Figures,
}

impl Walk<'_> {
    fn all(&mut self, told: &Told) -> Result<Result<(), Stop>, Error> {
        for (done, seen) in &told.probes {
            if let Err(stop) = self.one(*done, seen)? {
                return Ok(Err(stop));
            }
        }
        self.end(told.end)
    }

    /// The steps of the machine for what was done, and what is seen then.
    fn one(&mut self, done: Done, seen: &str) -> Result<Result<(), Stop>, Error> {
        let begun = match done {
            Done::Next(at) | Done::Jumped(at) => self.begun_at(at),
            Done::Caught(_) => self.next(),
        };
        let Some(instruction) = begun else {
            // The aload of a pair: its lock comes.
            return Ok(Ok(()));
        };
        if instruction.does != Does::Nop && instruction.before + 1 != self.machine.address() {
            return Ok(Err(self.different(done, "it stands elsewhere", seen)));
        }
        for _ in 0..instruction.does.yields() {
            let given = self.machine.step()?;
            if given > answer::UNCAUGHT {
                return Ok(Err(stopped(given, instruction.does)));
            }
        }
        if self.machine.is_full() {
            return Ok(Err(Stop::Full));
        }
        if self.machine.seen() != seen {
            return Ok(Err(self.different(done, "it has other values", seen)));
        }
        self.count(done, instruction, seen);
        Ok(Ok(()))
    }

    /// The instruction that this offset's ends; none for the aload of a pair.
    fn begun_at(&self, at: usize) -> Option<Instruction> {
        let last = |i: &Instruction| match i.does.is_pair() {
            true => i.at as usize + usize::from(i.size) - 1,
            false => i.at as usize,
        };
        self.read.iter().find(|i| last(i) == at).copied()
    }

    /// The one that the machine stands at.
    fn next(&self) -> Option<Instruction> {
        let address = self.machine.address();
        let here = |i: &&Instruction| i.does != Does::Nop && i.before + 1 == address;
        self.read.iter().find(here).copied()
    }

    fn count(&mut self, done: Done, instruction: Instruction, seen: &str) {
        let figures = &mut *self.figures;
        figures.compared += 1;
        match (done, instruction.does) {
            (Done::Jumped(_), _) => figures.jumps += 1,
            (Done::Caught(_), _) => {
                figures.caught += 1;
                figures.caught_null += u64::from(seen.contains("| r0 |"));
            }
            (_, does) if does.is_pair() => figures.locks += 1,
            (_, Does::New(_)) => figures.news += 1,
            (_, Does::Increase(_)) => figures.increases += 1,
            _ => {}
        }
    }

    fn different(&self, done: Done, what: &str, seen: &str) -> Stop {
        let (own, address) = (self.machine.seen(), self.machine.address());
        Stop::Different(format!(
            "{done:?}: {what}: proved address {address},{own}; Java{seen}"
        ))
    }

    fn end(&mut self, end: End) -> Result<Result<(), Stop>, Error> {
        if end == End::Enough {
            self.figures.long += 1;
            return Ok(Ok(()));
        }
        let last = self
            .next()
            .map_or(Does::Nop, |instruction| instruction.does);
        let given = self.machine.step()?;
        match (end, given) {
            (_, given) if given > answer::UNCAUGHT => Ok(Err(stopped(given, last))),
            (End::Returned, answer::RETURNED) => {
                self.figures.returned += 1;
                Ok(Ok(()))
            }
            (End::Uncaught, answer::UNCAUGHT) => {
                self.figures.uncaught += 1;
                Ok(Ok(()))
            }
            _ => Ok(Err(Stop::Different(format!(
                "{end:?}, and the machine answers {given}"
            )))),
        }
    }
}

/// A lock given back that isn't held or is null, or one held at the end, is the
/// method's own fault; it has no other.
fn stopped(given: u8, does: Does) -> Stop {
    match (given, does) {
        (answer::EXIT_AT_ZERO | answer::ENDS_HOLDING, _) => Stop::Fault,
        (answer::WRONG_KIND, Does::Exit(_)) => Stop::Fault,
        _ => Stop::Different(format!("the machine answers {given} to {does:?}")),
    }
}
