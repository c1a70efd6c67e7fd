//! Bundles with two breaches: both verifiers tell the same one, the first in
//! the law's order.

use crate::{proved, Differences, Part};
use generator::families::breaches::{TwoBreaches, REFUSALS};
use generator::rng::Rng;
use reference::bundle::Verdict;
use reference::verify::verify;

/// A verdict for each number, none for 0.
const NUMBERS: usize = *REFUSALS.end() as usize + 1;

#[derive(Debug, Default)]
pub struct Order {
    bundles: u64,
    /// By the verdict of the breach that is placed first, and of the other.
    placed: [[u64; NUMBERS]; NUMBERS],
    differences: Differences,
}

/// Which of two breaches is told: 1, 2, 3; then class by class 4, 5, 6; then
/// all 7; all 8; then class by class 10 and, address by address, 9 and 25.
pub(crate) fn rank(verdict: &Verdict) -> [u16; 5] {
    let Verdict { class, address, .. } = *verdict;
    let (number, class) = (u16::from(verdict.number), u16::from(class));
    match number {
        1..=3 => [0, number, 0, 0, 0],
        4..=6 => [1, class, number, 0, 0],
        7 | 8 => [number, class, address, 0, 0],
        10 => [9, class, 0, 0, 0],
        _ => [9, class, 1, address, number],
    }
}

/// Where a breach stands: the trailer's before all, then by class and address.
pub(crate) fn place(verdict: &Verdict) -> [u16; 3] {
    match verdict.number {
        1..=3 => [0, u16::from(verdict.number), 0],
        _ => [1, u16::from(verdict.class), verdict.address],
    }
}

/// Whether a breach of this verdict can stand before or beside one of the other.
fn possible(first: u8, second: u8) -> bool {
    second > 3 || first < second
}

impl Part for Order {
    fn generated(&mut self, seed: u64) {
        let TwoBreaches { bundle, mut alone } = TwoBreaches::any(&mut Rng::new(seed));
        alone.sort_by_key(rank);
        let law = alone[0];
        let (reference, proved) = (verify(&bundle), proved::verdict(&bundle));
        if proved != law || reference != law {
            let what = format!(
                "two breaches seed {seed}: alone {alone:?}, proved {proved:?}, reference {reference:?}"
            );
            self.differences.add(what, &[&bundle]);
        }
        alone.sort_by_key(place);
        let [first, second] = alone.map(|verdict| usize::from(verdict.number));
        self.placed[first][second] += 1;
        self.bundles += 1;
    }

    fn print(&self) {
        println!("bundles with two breaches {}", self.bundles);
        println!("  by the verdicts of the one placed first (down) and of the other (across):");
        let header: String = REFUSALS.map(|number| format!("{number:>7}")).collect();
        println!("    {:>2}{header}", "");
        for first in REFUSALS {
            let counts = &self.placed[usize::from(first)];
            let cells: String = REFUSALS
                .map(|second| match possible(first, second) {
                    true => format!("{:>7}", counts[usize::from(second)]),
                    false => format!("{:>7}", "-"),
                })
                .collect();
            println!("    {first:>2}{cells}");
        }
        println!("  differences: {}", self.differences.0);
    }

    fn differences(&self) -> u64 {
        self.differences.0
    }

    fn seen(&self) -> Vec<(String, u64)> {
        REFUSALS
            .flat_map(|first| REFUSALS.map(move |second| (first, second)))
            .filter(|&(first, second)| possible(first, second))
            .map(|(first, second)| {
                let count = self.placed[usize::from(first)][usize::from(second)];
                (format!("a {first} placed before a {second}"), count)
            })
            .collect()
    }
}
