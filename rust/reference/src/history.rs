//! The history of a run: each step, its answer and what it met. Who is live,
//! and how often a thread took and gave back a lock since it started, is told
//! from that alone.

use crate::bundle::{Bundle, Instr};
use crate::machine::{answer, step_in};
use crate::met::{met_in, Met};
use crate::slips::{AsWritten, Law, Slip};
use crate::state::{State, THREADS};

/// One step: whose it was, what it answered, and what it met.
#[derive(Clone, Copy, Debug, PartialEq, Eq)]
pub struct Event {
    pub thread: u8,
    pub answer: u8,
    pub met: Option<Met>,
}

/// The steps of a run from the fresh machine of a bundle that can be run, in
/// their order.
#[derive(Clone, Debug, Default, PartialEq, Eq)]
pub struct History(Vec<Event>);

/// How often a thread took the lock of an object, and gave it back, since it
/// started.
#[derive(Clone, Copy, Debug, PartialEq, Eq)]
pub struct Numbers {
    pub entered: usize,
    pub left: usize,
}

impl Event {
    fn is_start(&self) -> bool {
        self.met.is_some_and(|m| matches!(m.instr, Instr::Start(_)))
    }

    fn is_enter_of(&self, object: u8) -> bool {
        self.met
            .is_some_and(|m| matches!(m.instr, Instr::Enter(..)) && m.object == Some(object))
    }

    fn is_exit_of(&self, object: u8) -> bool {
        self.met
            .is_some_and(|m| matches!(m.instr, Instr::Exit(_)) && m.object == Some(object))
    }
}

impl History {
    pub fn add(&mut self, event: Event) {
        self.0.push(event);
    }

    /// Takes a step and writes it down; gives the answer.
    pub fn step_in(&mut self, bundle: &Bundle, state: &mut State, thread: u8, fails: bool) -> u8 {
        let met = met_in(bundle, state, thread);
        let answer = step_in(bundle, state, thread, fails);
        self.add(Event {
            thread,
            answer,
            met,
        });
        answer
    }

    pub fn events(&self) -> &[Event] {
        &self.0
    }

    /// Whether the number is a live thread's.
    pub fn is_live(&self, thread: u8) -> bool {
        self.since_start(thread).is_some()
    }

    /// All that happened since the thread of this number started; None where
    /// the number is free.
    pub fn since_start(&self, thread: u8) -> Option<&[Event]> {
        let started = *self.started().get(usize::from(thread))?;
        Some(&self.0[started?..])
    }

    /// For each number, how many steps there were before its thread started;
    /// None where the number is free. Thread 0 is live at first; a start that
    /// answers 0 takes the lowest free number; 1 and 2 end a thread.
    fn started(&self) -> [Option<usize>; THREADS] {
        let mut started = [None; THREADS];
        started[0] = Some(0);
        for (before, event) in self.0.iter().enumerate() {
            match event.answer {
                answer::WENT_ON if event.is_start() => {
                    if let Some(free) = started.iter_mut().find(|s| s.is_none()) {
                        *free = Some(before + 1);
                    }
                }
                answer::RETURNED | answer::UNCAUGHT => {
                    started[usize::from(event.thread)] = None;
                }
                _ => {}
            }
        }
        started
    }

    /// The thread's monitorenters on the object that answered 0 since it
    /// started, and its monitorexits; None where the number is free.
    pub fn numbers(&self, thread: u8, object: u8) -> Option<Numbers> {
        self.numbers_by::<AsWritten>(thread, object)
    }

    pub(crate) fn numbers_by<L: Law>(&self, thread: u8, object: u8) -> Option<Numbers> {
        let since = match self.since_start(thread)? {
            _ if L::slips(Slip::EarlierThreadCounted) => self.events(),
            since => since,
        };
        let own = since.iter().filter(|event| event.thread == thread);
        let done = own.filter(|event| match event.answer {
            answer::WENT_ON => true,
            given => L::slips(Slip::WaitsCounted) && given == answer::HELD,
        });
        let count = |is: fn(&Event, u8) -> bool| done.clone().filter(|e| is(e, object)).count();
        Some(Numbers {
            entered: count(Event::is_enter_of),
            left: count(Event::is_exit_of),
        })
    }
}
