//! What a step would meet after a schedule: of every thread number, in runs of
//! bundles of all kinds.

use crate::{proved, Differences, Part};
use generator::families::{self, contending, recurring, sharing, typed};
use generator::lively::Lively;
use generator::rng::Rng;
use generator::schedule::Scheduler;
use reference::bundle::{Bundle, Instr};
use reference::machine::{answer, fresh, step_in, State};
use reference::met::{met_in, Met};
use reference::state::{Value, OBJECT_0, THREADS};
use trace::Turn;

/// After so many steps of a run or so, the next one is asked about.
const ASKED: usize = 6;
/// One run in so many is asked at its end of every number that there can be.
const RUNS_A_FULL_QUESTION: usize = 32;

#[derive(Debug, Default)]
pub struct Meetings {
    runs: u64,
    questions: u64,
    /// By opcode from 1.
    instructions: [u64; Instr::NAMES.len()],
    locks: Locks,
    nobody: Nobody,
    differences: Differences,
}

/// What lock instructions meet.
#[derive(Debug, Default)]
struct Locks {
    entered: u64,
    left: u64,
    object_0: u64,
    /// The step would wait.
    held_elsewhere: u64,
    null_with_handler: u64,
    null_without: u64,
    integer: u64,
}

/// Questions about who does not live.
#[derive(Debug, Default)]
struct Nobody {
    unreadable: u64,
    ended: u64,
    never_started: u64,
    beyond: u64,
    far_beyond: u64,
}

/// How far a run has come.
struct Course {
    state: State,
    /// Numbers of which a thread has ended.
    ended: [bool; THREADS],
}

impl Course {
    fn step(&mut self, opened: Option<&Bundle>, turn: Turn) {
        let given = opened.map(|opened| {
            let (thread, fails) = (turn.thread(), turn.fails());
            step_in(opened, &mut self.state, thread, fails)
        });
        if let Some(answer::RETURNED | answer::UNCAUGHT) = given {
            self.ended[usize::from(turn.thread())] = true;
        }
    }
}

/// A run at one of its steps.
struct Moment<'a> {
    bytes: &'a [u8],
    opened: Option<&'a Bundle<'a>>,
    /// What has been run.
    schedule: &'a [u8],
    course: &'a Course,
}

impl Moment<'_> {
    fn met(&self, thread: u8) -> Option<Met> {
        met_in(self.opened?, &self.course.state, thread)
    }

    /// Whether the thread is at a lock instruction that meets no object: few
    /// steps are.
    fn finds_no_lock(&self, thread: u8) -> bool {
        let is_lock = |instr| matches!(instr, Instr::Enter(..) | Instr::Exit(_));
        self.met(thread)
            .is_some_and(|met| is_lock(met.instr) && met.object.is_none())
    }
}

impl Meetings {
    fn ask(&mut self, moment: &Moment, thread: u8, seed: u64) {
        let met = moment.met(thread);
        let reference = met.map(|met| (met.instr.bytes(), met.object));
        let proved = proved::meets(moment.bytes, moment.schedule, thread);
        if proved != reference {
            let what = format!(
                "meets seed {seed} thread {thread}: proved {proved:?}, reference {reference:?}"
            );
            let inputs = [moment.bytes, moment.schedule, &[thread]];
            self.differences.add(what, &inputs);
        }
        self.questions += 1;
        match met {
            Some(met) => {
                self.instructions[usize::from(met.instr.opcode()) - 1] += 1;
                self.locks.add(moment, thread, met);
            }
            None => self.nobody.add(moment, thread),
        }
    }

    /// Every thread at the end of a run, and numbers that none has.
    fn ask_all(&mut self, moment: &Moment, rng: &mut Rng, seed: u64) {
        let threads: Vec<u8> = match rng.chance(1, RUNS_A_FULL_QUESTION) {
            true => (0..=255).collect(),
            false => {
                let beyond = [THREADS as u8, rng.byte(), 255];
                (0..THREADS as u8).chain(beyond).collect()
            }
        };
        for thread in threads {
            self.ask(moment, thread, seed);
        }
    }

    fn named(&self) -> impl Iterator<Item = (String, u64)> + '_ {
        let instructions = Instr::NAMES.iter().zip(self.instructions);
        let instructions = instructions.map(|(name, count)| (format!("{name} met"), count));
        let others = self.locks.seen().into_iter().chain(self.nobody.seen());
        instructions.chain(others.map(|(what, count)| (what.to_string(), count)))
    }
}

impl Locks {
    fn add(&mut self, moment: &Moment, thread: u8, met: Met) {
        let (mover, state) = (usize::from(thread), &moment.course.state);
        let (v, handler) = match met.instr {
            Instr::Enter(v, handler) => (v, handler),
            Instr::Exit(v) => (v, None),
            _ => return,
        };
        let enters = matches!(met.instr, Instr::Enter(..));
        let value = state.threads[mover].variables[usize::from(v.0)];
        match (value, handler) {
            (Value::Ref(object), _) if enters => {
                let others = (0..THREADS).filter(|&other| other != mover);
                let counts = others.map(|other| state.count(other, usize::from(object)));
                self.held_elsewhere += u64::from(counts.max() > Some(0));
                self.entered += 1;
            }
            (Value::Ref(_), _) => self.left += 1,
            (Value::Null, Some(_)) => self.null_with_handler += 1,
            (Value::Null, None) => self.null_without += u64::from(enters),
            (Value::Int(_), _) => self.integer += 1,
        }
        self.object_0 += u64::from(met.object == Some(OBJECT_0));
    }

    fn seen(&self) -> [(&'static str, u64); 7] {
        [
            ("an object that monitorenter meets", self.entered),
            ("an object that monitorexit meets", self.left),
            ("object 0 met", self.object_0),
            ("an object met that another holds", self.held_elsewhere),
            (
                "null at a monitorenter that catches",
                self.null_with_handler,
            ),
            ("null at one that does not", self.null_without),
            ("an integer in the place of a lock", self.integer),
        ]
    }
}

impl Nobody {
    fn add(&mut self, moment: &Moment, thread: u8) {
        let ended = moment.course.ended.get(usize::from(thread));
        match ended {
            Some(_) if moment.opened.is_none() => self.unreadable += 1,
            Some(true) => self.ended += 1,
            Some(false) => self.never_started += 1,
            None => self.beyond += 1,
        }
        self.far_beyond += u64::from(thread > Turn::HIGHEST);
    }

    fn seen(&self) -> [(&'static str, u64); 5] {
        [
            ("a thread of a bundle that can't be run", self.unreadable),
            ("a thread that has ended", self.ended),
            ("a thread that was never started", self.never_started),
            ("a question of a number above 7", self.beyond),
            ("a question of a number above 15", self.far_beyond),
        ]
    }
}

fn bundle(rng: &mut Rng, seed: u64) -> Vec<u8> {
    match rng.below(8) {
        0 => contending::contending(rng).lay_out(),
        1 | 2 => sharing::sharing(rng).lay_out(),
        3 => recurring::recurring(rng).lay_out(),
        4 | 5 => families::bundle(seed).1,
        _ => typed::well_typed(rng),
    }
}

/// A bundle and a schedule for it.
fn run(rng: &mut Rng, seed: u64) -> (Vec<u8>, Vec<u8>) {
    let bundle = bundle(rng, seed);
    let steps = match rng.below(8) {
        0 => rng.below(3),
        1 => rng.between(60, 200),
        _ => rng.between(3, 60),
    };
    let scheduler = match rng.chance(1, 3) {
        true => Scheduler::restless(rng.number()),
        false => Scheduler::new(rng.number()),
    };
    let state = fresh(&bundle).1;
    let run = Lively::follow(rng, &bundle, state, scheduler, steps);
    (bundle, run.schedule)
}

impl Part for Meetings {
    /// The thread of the next step after some steps of a run, and all threads
    /// at its end.
    fn generated(&mut self, seed: u64) {
        let mut rng = Rng::new(seed ^ 0x3EE7_0000_0000_0000);
        let (bundle, schedule) = run(&mut rng, seed);
        let opened = Bundle::open_with_code(&bundle).ok();
        let mut course = Course {
            state: fresh(&bundle).1,
            ended: [false; THREADS],
        };
        for (steps, &byte) in schedule.iter().enumerate() {
            let turn = Turn(byte);
            let moment = Moment {
                bytes: &bundle,
                opened: opened.as_ref(),
                schedule: &schedule[..steps],
                course: &course,
            };
            let chosen = rng.chance(ASKED, schedule.len().max(ASKED));
            if chosen || moment.finds_no_lock(turn.thread()) {
                self.ask(&moment, turn.thread(), seed);
            }
            course.step(opened.as_ref(), turn);
        }
        let moment = Moment {
            bytes: &bundle,
            opened: opened.as_ref(),
            schedule: &schedule,
            course: &course,
        };
        self.ask_all(&moment, &mut rng, seed);
        self.runs += 1;
    }

    fn print(&self) {
        println!(
            "runs asked for what a step meets {}, {} questions",
            self.runs, self.questions
        );
        for (what, count) in self.named() {
            println!("  {what}: {count}");
        }
        println!("  differences: {}", self.differences.0);
    }

    fn differences(&self) -> u64 {
        self.differences.0
    }

    fn seen(&self) -> Vec<(String, u64)> {
        self.named().collect()
    }
}
