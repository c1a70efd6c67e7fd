//! The proved code held against the reference on generated inputs.

pub mod choices;
mod differences;
pub mod digest;
pub mod fillings;
pub mod gates;
mod histories;
pub mod holdings;
pub mod lists;
pub mod meetings;
pub mod order;
pub mod orders;
mod places;
pub mod progress;
pub mod proved;
pub mod records;
mod refused;
pub mod runs;
pub mod states;
pub mod takings;
pub mod texts;
pub mod traces;
pub mod verdicts;
pub mod whys;
mod words;

pub use differences::Differences;

/// One part of the comparison.
pub trait Part {
    /// Compares on the input of this seed.
    fn generated(&mut self, seed: u64);

    fn print(&self);

    fn differences(&self) -> u64;

    /// What has to come up, and how often it did: where something never does,
    /// it was not compared.
    fn seen(&self) -> Vec<(String, u64)>;
}

/// How often each answer of the machine came up.
#[derive(Debug, Default)]
struct Answers([u64; 19]);

impl Answers {
    fn add(&mut self, answer: u8) {
        self.0[usize::from(answer)] += 1;
    }

    /// As `answer: count` words.
    fn text(&self) -> String {
        let named: Vec<String> = self
            .0
            .iter()
            .enumerate()
            .filter(|(_, &count)| count > 0)
            .map(|(answer, count)| format!("{answer}: {count}"))
            .collect();
        named.join(", ")
    }

    fn seen(&self, wanted: impl Iterator<Item = u8>) -> Vec<(String, u64)> {
        wanted
            .map(|answer| (format!("answer {answer}"), self.0[usize::from(answer)]))
            .collect()
    }
}
