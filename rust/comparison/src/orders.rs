//! Both verifiers under lock orders: bundles of all kinds with lists of levels
//! of all kinds, and the place of 25 in the order of verdicts.

mod inputs;
mod marks;

pub use inputs::{inputs, Input, Known};

use crate::order::place;
use crate::{proved, Differences, Part};
use generator::families::breaches::REFUSALS;
use marks::{Accepted, Disorder, ACCEPTED, DISORDERS};
use reference::bundle::{Bundle, Verdict};
use reference::order::Levels;
use reference::verify::{verify, verify_ordered};
use std::cmp::Ordering;

/// The verdict of a lock taken out of order, and of a list that is none.
const DISORDERED: u8 = 25;
const NO_LIST: u8 = 26;

#[derive(Debug, Default)]
pub struct Orders {
    bundles: u64,
    lists: u64,
    numbers: [u64; NO_LIST as usize + 1],
    no_list: NoList,
    /// Accepted bundles for which some levels do, and for which none do.
    levels_do: u64,
    circles: u64,
    accepted: [u64; ACCEPTED.len()],
    disorders: [u64; DISORDERS.len()],
    beside: Beside,
    differences: Differences,
}

/// 26: by what the bundle draws without levels, and by the list.
#[derive(Debug, Default)]
struct NoList {
    before: [u64; 11],
    shorter: u64,
    longer: u64,
}

/// A 25 beside a breach of another verdict, by its number and by which of them
/// is placed first.
#[derive(Debug, Default)]
struct Beside {
    before: [u64; 11],
    behind: [u64; 11],
    at_one_address: u64,
}

impl NoList {
    fn add(&mut self, input: &Input) {
        self.before[usize::from(verify(&input.bundle).number)] += 1;
        match input.list.len() < 8 {
            true => self.shorter += 1,
            false => self.longer += 1,
        }
    }

    fn named(&self) -> Vec<(String, u64)> {
        let before = (0..).zip(self.before);
        let before = before.map(|(number, count)| (format!("26 before a {number}"), count));
        let lists = [
            ("a list that is too short".to_string(), self.shorter),
            ("a list that is too long".to_string(), self.longer),
        ];
        before.chain(lists).collect()
    }
}

impl Beside {
    fn add(&mut self, disorder: &Verdict, other: &Verdict) {
        let number = usize::from(other.number);
        match place(disorder).cmp(&place(other)) {
            Ordering::Less => self.before[number] += 1,
            Ordering::Equal => self.at_one_address += 1,
            Ordering::Greater => self.behind[number] += 1,
        }
    }

    fn named(&self) -> Vec<(String, u64)> {
        let count = |of: [u64; 11], number: u8| of[usize::from(number)];
        let first = |number| {
            (
                format!("a {number} placed before a 25"),
                count(self.behind, number),
            )
        };
        let last = |number| {
            (
                format!("a 25 placed before a {number}"),
                count(self.before, number),
            )
        };
        let there = (
            "a 9 and a 25 at one address".to_string(),
            self.at_one_address,
        );
        // 1, 2 and 3 are the trailer's, and placed before all.
        let last = REFUSALS.filter(|&number| number > 3).map(last);
        REFUSALS.map(first).chain(last).chain([there]).collect()
    }
}

impl Orders {
    fn compare(&mut self, input: &Input, seed: u64) {
        let Input {
            bundle,
            list,
            known,
        } = input;
        let reference = verify_ordered(bundle, list);
        let proved = proved::ordered(bundle, list);
        if proved != reference || !known.allows(reference) {
            let what = format!(
                "levels seed {seed}: proved {proved:?}, reference {reference:?}, known {known:?}"
            );
            self.differences.add(what, &[bundle, list]);
        }
        self.lists += 1;
        self.numbers[usize::from(reference.number)] += 1;
        match reference.number {
            NO_LIST => self.no_list.add(input),
            0 | DISORDERED => self.mark(input, reference),
            _ => {}
        }
        match known {
            Known::Nothing => {}
            Known::Accepted => self.levels_do += 1,
            Known::Disordered => self.circles += 1,
            Known::Alone([disorder, other]) => self.beside.add(disorder, other),
        }
    }

    /// What a bundle shows that is accepted under its list, or refused by it.
    fn mark(&mut self, input: &Input, verdict: Verdict) {
        let opened = Bundle::open_with_code(&input.bundle).expect("its rows were looked at");
        let levels = Levels::read(&input.list).expect("it is a list");
        match Disorder::told(&opened, levels, verdict) {
            Some(disorder) => {
                for (count, (_, is)) in self.disorders.iter_mut().zip(DISORDERS) {
                    *count += u64::from(is(&disorder));
                }
            }
            None => {
                let shown = Accepted { opened, levels };
                for (count, (_, has)) in self.accepted.iter_mut().zip(ACCEPTED) {
                    *count += u64::from(has(&shown));
                }
            }
        }
    }

    fn named(&self) -> Vec<(String, u64)> {
        let accepted = ACCEPTED.iter().zip(self.accepted);
        let accepted = accepted.map(|((what, _), n)| (format!("accepted with {what}"), n));
        let disorders = DISORDERS.iter().zip(self.disorders);
        let disorders = disorders.map(|((what, _), n)| (format!("a 25 {what}"), n));
        let found = [
            ("accepted bundles for which some levels do", self.levels_do),
            ("accepted bundles for which none do", self.circles),
        ];
        let found = found.map(|(what, count)| (what.to_string(), count));
        found
            .into_iter()
            .chain(accepted)
            .chain(disorders)
            .chain(self.no_list.named())
            .chain(self.beside.named())
            .collect()
    }
}

impl Part for Orders {
    fn generated(&mut self, seed: u64) {
        self.bundles += 1;
        for input in inputs(seed) {
            self.compare(&input, seed);
        }
    }

    fn print(&self) {
        println!(
            "bundles under lock orders {}, {} with their lists of levels",
            self.bundles, self.lists
        );
        let numbers = self.numbers.iter().enumerate().filter(|(_, &n)| n > 0);
        let numbers: Vec<String> = numbers.map(|(v, n)| format!("{v}: {n}")).collect();
        println!("  by verdict: {}", numbers.join(", "));
        for (what, count) in self.named() {
            println!("  {what}: {count}");
        }
        println!("  differences: {}", self.differences.0);
    }

    fn differences(&self) -> u64 {
        self.differences.0
    }

    fn seen(&self) -> Vec<(String, u64)> {
        let numbers = (0..=10).chain([DISORDERED, NO_LIST]);
        let numbers = numbers.map(|number| {
            let count = self.numbers[usize::from(number)];
            (format!("verdict {number} under a lock order"), count)
        });
        numbers.chain(self.named()).collect()
    }
}
