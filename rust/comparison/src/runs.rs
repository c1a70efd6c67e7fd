//! Both machines on the same schedules from the fresh state: every answer; each
//! as a list that is run at once; and the reference's history of each against
//! its counts.

use crate::digest::{mixed, of_turns};
use crate::histories::Histories;
use crate::lists::Lists;
use crate::{proved, Answers, Differences, Part};
use generator::families::{self, contending, recurring, sharing, typed};
use generator::lively::{FieldUse, Lively};
use generator::rng::Rng;
use generator::schedule::Scheduler;
use reference::machine::{answer, fresh};
use reference::state::THREADS;
use trace::Turn;

/// In schedules of threads that want the same locks, one step in so many
/// waits at least.
const STEPS_A_WAIT: u64 = 20;

#[derive(Debug, Default)]
pub struct Runs {
    schedules: u64,
    /// Schedules whose bundle can be run at all.
    running: u64,
    steps: u64,
    answers: Answers,
    contention: Contention,
    /// Runs in which a handler was entered, by athrow and by a failed new.
    caught_athrow: u64,
    caught_new: u64,
    /// Threads started with more than three arguments.
    started_with_many: u64,
    fields: FieldUse,
    histories: Histories,
    lists: Lists,
    /// Steps of a number that no thread has: all, and those that no
    /// schedule's byte can name.
    beyond: u64,
    far_beyond: u64,
    differences: Differences,
}

/// Schedules of threads that want the same locks.
#[derive(Debug, Default)]
struct Contention {
    schedules: u64,
    steps: u64,
    waits: u64,
}

impl Contention {
    fn add(&mut self, run: &Lively) {
        let waits = |answers: &[u8]| answers.iter().filter(|&&a| a == answer::HELD).count();
        self.schedules += 1;
        self.steps += run.answers.len() as u64;
        self.waits += waits(&run.answers) as u64;
    }

    /// The waits, if there are enough of them.
    fn enough(&self) -> u64 {
        match self.waits * STEPS_A_WAIT >= self.steps {
            true => self.waits,
            false => 0,
        }
    }
}

/// A bundle, and how it was run.
fn run(seed: u64) -> (Vec<u8>, Lively, bool) {
    let mut rng = Rng::new(!seed);
    let (contends, shares, recurs) = (seed.is_multiple_of(8), seed % 8 == 4, seed % 8 == 6);
    let bundle = match seed % 3 {
        _ if contends => contending::contending(&mut rng).lay_out(),
        _ if shares => sharing::sharing(&mut rng).lay_out(),
        _ if recurs => recurring::recurring(&mut rng).lay_out(),
        0 => families::bundle(seed).1,
        _ => typed::well_typed(&mut rng),
    };
    let steps = match rng.below(10) {
        0 => rng.below(4),
        1 => rng.between(300, 1_000),
        _ => rng.between(10, 200),
    };
    let (_, state) = fresh(&bundle);
    let scheduler = match contends || shares || recurs {
        true => Scheduler::restless(rng.number()),
        false => Scheduler::new(rng.number()),
    };
    let run = Lively::follow(&mut rng, &bundle, state, scheduler, steps);
    (bundle, run, contends)
}

impl Runs {
    /// The same run, with all the numbers that no thread has.
    fn compare_far(&mut self, seed: u64, bundle: &[u8], run: &Lively) {
        let mut rng = Rng::new(seed);
        let turns: Vec<(u8, bool)> = run
            .schedule
            .iter()
            .map(|&byte| match Turn(byte).thread() {
                live if usize::from(live) < THREADS => (live, Turn(byte).fails()),
                _ => (rng.between(THREADS, 255) as u8, Turn(byte).fails()),
            })
            .collect();
        let (proved, reference) = (proved::answers(bundle, &turns), of_turns(bundle, &turns));
        if proved != reference {
            let what = format!("turns seed {seed}: proved digest {proved}, reference {reference}");
            let turns: Vec<u8> = turns.iter().map(|&(thread, _)| thread).collect();
            self.differences.add(what, &[bundle, &turns]);
        }
        let far = turns.iter().filter(|&&(thread, _)| thread > Turn::HIGHEST);
        self.far_beyond += far.count() as u64;
    }

    fn count(&mut self, run: &Lively) {
        self.schedules += 1;
        self.steps += run.schedule.len() as u64;
        run.answers
            .iter()
            .for_each(|&given| self.answers.add(given));
        self.caught_athrow += u64::from(run.caught_athrow);
        self.caught_new += u64::from(run.caught_new);
        self.started_with_many += run.started_with_many;
        self.fields.add(&run.fields);
        let beyond = |&&byte: &&u8| usize::from(Turn(byte).thread()) >= THREADS;
        self.beyond += run.schedule.iter().filter(beyond).count() as u64;
    }
}

impl Part for Runs {
    /// Well-typed bundles, any bundle, threads that want the same locks, threads
    /// that find them in fields, and threads that are started again and again.
    fn generated(&mut self, seed: u64) {
        let (bundle, run, contends) = run(seed);
        let (first, _) = fresh(&bundle);
        let answers = run.answers.iter();
        let reference = answers.fold(u64::from(first), |d, &a| mixed(d, a));
        let proved = proved::digest(&bundle, &run.schedule);
        if proved != reference {
            let what =
                format!("schedule seed {seed}: proved digest {proved}, reference {reference}");
            self.differences.add(what, &[&bundle, &run.schedule]);
        }
        self.compare_far(seed, &bundle, &run);
        self.histories
            .add(&bundle, &run.schedule, seed, &mut self.differences);
        self.lists.add(&bundle, &run, seed, &mut self.differences);
        self.running += u64::from(first == answer::WENT_ON);
        self.count(&run);
        if contends {
            self.contention.add(&run);
        }
    }

    fn print(&self) {
        println!(
            "schedules {} ({} of bundles that run), {} steps",
            self.schedules, self.running, self.steps
        );
        println!("  steps by answer: {}", self.answers.text());
        println!(
            "  runs that entered a handler: {} by athrow, {} by a failed new",
            self.caught_athrow, self.caught_new
        );
        println!(
            "  threads started with more than three arguments: {}",
            self.started_with_many
        );
        for (what, count) in self.fields.named() {
            println!("  {what}: {count}");
        }
        for (what, count) in self.histories.named() {
            println!("  {what}: {count}");
        }
        println!(
            "  steps of thread numbers 8 to 15: {}, 16 to 255: {}",
            self.beyond, self.far_beyond
        );
        let Contention {
            schedules,
            steps,
            waits,
        } = self.contention;
        println!("  schedules of threads that want the same locks: {schedules}, {steps} steps, {waits} of them waits");
        self.lists.print();
        println!("  differences: {}", self.differences.0);
    }

    fn differences(&self) -> u64 {
        self.differences.0
    }

    fn seen(&self) -> Vec<(String, u64)> {
        // A schedule is too short for 16, and a fresh machine never draws 18.
        let mut seen = self.answers.seen((0..=5).chain(11..=15).chain([17]));
        let named = [
            ("a handler entered by athrow", self.caught_athrow),
            ("a handler entered by a failed new", self.caught_new),
            (
                "a start with more than three arguments",
                self.started_with_many,
            ),
            ("a thread number above 7", self.beyond),
            ("a thread number above 15", self.far_beyond),
            (
                "waits, one step in twenty where threads want the same locks",
                self.contention.enough(),
            ),
        ];
        let named = named.into_iter().chain(self.fields.named());
        let named = named.chain(self.histories.named());
        seen.extend(named.map(|(what, count)| (what.to_string(), count)));
        seen.extend(self.lists.named());
        seen
    }
}
