//! Counts that agree with the history: the locks are counted once more, from
//! nothing but what a trace prints of its steps.

mod common;

use common::{root, tool};
use generator::families::{contending, recurring, sharing};
use generator::rng::Rng;
use generator::schedule::Scheduler;
use reference::bundle::Bundle;
use reference::machine::{fresh, step_in};
use std::collections::{BTreeMap, BTreeSet};

/// A printed step.
#[derive(Debug)]
struct Step {
    thread: u8,
    instruction: String,
    /// None where it is null or not told.
    object: Option<u8>,
    answer: u8,
}

/// How often a lock was taken and given back, and its count.
type Lock = (usize, usize, usize);

/// The locks of each live thread, by object.
type Locks = BTreeMap<u8, BTreeMap<u8, Lock>>;

/// The table and what is told behind it.
fn blocks(text: &str) -> (&str, &str) {
    let mut blocks = text.trim_end().split("\n\n").skip(1);
    let mut block = || blocks.next().expect("a block");
    (block(), block())
}

fn steps(table: &str) -> Vec<Step> {
    let mut lines = table.lines();
    let heading = lines.next().expect("a heading");
    let at = |name: &str| heading.find(name).expect("the column");
    let (thread, instruction, object) = (at("thread"), at("instruction"), at("object"));
    let (class, holds, answer) = (at("class"), at("holds"), at("answer"));
    lines
        .map(|line| Step {
            thread: number(line[thread..class].trim().trim_end_matches('!')),
            instruction: line[instruction..object].trim().to_string(),
            object: line[object..holds].trim().parse().ok(),
            answer: number(line[answer..].split(' ').next().expect("a word")),
        })
        .collect()
}

fn number<T: std::str::FromStr>(word: &str) -> T {
    word.parse()
        .unwrap_or_else(|_| panic!("{word} is no number"))
}

/// Goes through the steps: thread 0 lives at first, a start that answers 0
/// takes the lowest number that is free, 1 and 2 end a thread.
#[derive(Debug)]
struct Count {
    locks: Locks,
    /// Numbers that had a thread which took a lock.
    before: BTreeSet<u8>,
    seen: Seen,
}

/// What the steps had in them.
#[derive(Debug, Default)]
struct Seen {
    steps: usize,
    entered_again: usize,
    caught_null: usize,
    waits: usize,
    started_again: usize,
}

impl Count {
    fn of(steps: &[Step]) -> Count {
        let mut count = Count {
            locks: Locks::from([(0, BTreeMap::new())]),
            before: BTreeSet::new(),
            seen: Seen::default(),
        };
        steps.iter().for_each(|step| count.add(step));
        count
    }

    fn add(&mut self, step: &Step) {
        let name = step.instruction.split(' ').next().expect("a word");
        self.seen.steps += 1;
        match (step.answer, name) {
            (0, "monitorenter") => self.enter(step),
            (0, "monitorexit") => self.lock(step).1 += 1,
            (0, "start") => self.start(),
            (1 | 2, _) => self.end(step.thread),
            (3, "monitorenter") => self.seen.waits += 1,
            _ => {}
        }
    }

    fn lock(&mut self, step: &Step) -> &mut Lock {
        let locks = self.locks.get_mut(&step.thread).expect("it lives");
        locks.entry(step.object.expect("an object")).or_default()
    }

    fn enter(&mut self, step: &Step) {
        if step.object.is_none() {
            self.seen.caught_null += 1;
            return;
        }
        let (entered, left, _) = self.lock(step);
        let again = *entered > *left;
        *entered += 1;
        self.seen.entered_again += usize::from(again);
    }

    fn start(&mut self) {
        let free = (0..8).find(|t| !self.locks.contains_key(t));
        let free = free.expect("a free number");
        self.seen.started_again += usize::from(self.before.contains(&free));
        self.locks.insert(free, BTreeMap::new());
    }

    fn end(&mut self, thread: u8) {
        let locks = self.locks.remove(&thread).expect("it lived");
        if !locks.is_empty() {
            self.before.insert(thread);
        }
    }

    /// What each live thread holds by this count.
    fn held(&self) -> Locks {
        let held = |(&object, &(entered, left, _)): (&u8, &Lock)| {
            (entered > left).then_some((object, (entered, left, entered - left)))
        };
        let threads = self.locks.iter();
        threads
            .map(|(&thread, locks)| (thread, locks.iter().filter_map(held).collect()))
            .collect()
    }
}

/// What is told of the locks at the end of a trace.
fn told(end: &str) -> Locks {
    let mut locks = Locks::new();
    let mut thread = None;
    for line in end.lines().filter(|&line| line != "no thread lives") {
        match line.strip_prefix("  object ") {
            Some(rest) => {
                let of = locks
                    .get_mut(&thread.expect("a thread's line"))
                    .expect("it");
                let (object, lock) = lock_line(rest);
                assert_eq!(of.insert(object, lock), None, "{end}");
            }
            None => {
                let word = line.strip_prefix("thread ").expect("a thread's line");
                let number: u8 = number(word.split(' ').next().expect("a word"));
                assert!(locks.insert(number, BTreeMap::new()).is_none(), "{end}");
                thread = Some(number);
            }
        }
    }
    locks
}

/// `1: taken 3 times, given back 1, count 2`.
fn lock_line(line: &str) -> (u8, Lock) {
    let (object, rest) = line.split_once(": taken ").expect("taken");
    let (taken, rest) = rest.split_once(", given back ").expect("given back");
    let (back, count) = rest.split_once(", count ").expect("count");
    let taken = match taken {
        "once" => 1,
        times => number(times.strip_suffix(" times").expect("times")),
    };
    (number(object), (taken, number(back), number(count)))
}

/// Counts a trace, and compares with what it tells.
fn check(text: &str) -> Seen {
    let (table, end) = blocks(text);
    let count = Count::of(&steps(table));
    assert_eq!(told(end), count.held(), "{text}");
    count.seen
}

#[test]
fn the_readme_s_trace() {
    let readme = std::fs::read_to_string(root().join("README.md")).expect("README.md");
    let prompt = "    ./hveitmar trace ";
    let (_, rest) = readme.split_once(prompt).expect("a trace");
    let (words, rest) = rest.split_once("\n\n").expect("its words");
    let block = rest
        .lines()
        .take_while(|l| l.is_empty() || l.starts_with("    "));
    let shown: Vec<&str> = block.map(|l| l.strip_prefix("    ").unwrap_or(l)).collect();
    assert_eq!(check(&shown.join("\n")).steps, words.split(' ').count() - 1);
    let words: Vec<&str> = ["trace"].into_iter().chain(words.split(' ')).collect();
    check(&tool(&words, &[]).out);
}

/// A trace of so many steps.
fn trace(bundle: &[u8], seed: u64, steps: usize) -> String {
    let opened = Bundle::open_with_code(bundle).expect("it is accepted");
    let mut state = fresh(bundle).1;
    let mut scheduler = match seed % 2 {
        0 => Scheduler::restless(seed),
        _ => Scheduler::new(seed),
    };
    let mut words = vec!["trace".to_string(), "-".to_string()];
    for _ in 0..steps {
        let turn = scheduler.turn(&state);
        let fails = if turn.fails() { "!" } else { "" };
        words.push(format!("{}{fails}", turn.thread()));
        step_in(&opened, &mut state, turn.thread(), turn.fails());
    }
    let words: Vec<&str> = words.iter().map(String::as_str).collect();
    tool(&words, bundle).out
}

#[test]
fn generated_runs() {
    let mut all = Seen::default();
    let mut held = 0;
    for seed in 0..45 {
        let mut rng = Rng::new(seed);
        let draft = match seed % 3 {
            0 => contending::contending(&mut rng),
            1 => sharing::sharing(&mut rng),
            _ => recurring::recurring(&mut rng),
        };
        let text = trace(&draft.lay_out(), seed, 70);
        let seen = check(&text);
        assert_eq!(seen.steps, 70);
        all.entered_again += seen.entered_again;
        all.caught_null += seen.caught_null;
        all.waits += seen.waits;
        all.started_again += seen.started_again;
        held += text.matches(": taken ").count();
    }
    let came_up = [
        all.entered_again,
        all.caught_null,
        all.waits,
        all.started_again,
        held,
    ];
    assert!(came_up.iter().all(|&n| n >= 5), "{all:?} {held}");
}

/// Its own parser tells when a trace is wrong.
#[test]
fn a_wrong_trace_is_noticed() {
    let readme = tool(&["trace", "cases/a.bundle", "0", "0", "0", "0"], &[]).out;
    let (right, wrong) = ("taken once, given back 0", "taken 2 times, given back 1");
    assert!(readme.contains(right), "{readme}");
    let checked = |text: String| std::panic::catch_unwind(|| check(&text)).is_ok();
    assert!(checked(readme.clone()));
    assert!(!checked(readme.replace(right, wrong)));
    assert!(!checked(readme.replace("count 1", "count 2")));
    assert!(!checked(
        readme.replace("monitorenter 0  1", "monitorenter 0  2")
    ));
}
