//! Both workers-out of pairs on the same bundles: the same answer and the same
//! bytes, and nothing written but what was lent; what is filled in is accepted,
//! and no pair of it is above one that was accepted before.

use crate::{proved, Differences, Part};
use generator::pairs::{pair, references, unpaired, Unpaired};
use reference::bundle::Verdict;
use reference::fill::fill;
use reference::verify::verify;

/// How many bytes are watched on each side of those that are lent.
const WATCHED: usize = 64;
const MARK: u8 = 0xA5;

#[derive(Debug, Default)]
pub struct Fillings {
    bundles: u64,
    bytes: usize,
    numbers: [u64; 24],
    /// Filled, where the bundle was accepted before its pairs were changed; and
    /// of these, with a pair that is below the one that was given.
    accepted: u64,
    lower: u64,
    /// Filled, with a dip of 63; an end of -63; a dip that is not the end's
    /// opposite.
    highest: u64,
    endless: u64,
    uneven: u64,
    /// Filled, where a pair byte that came in was no pair's.
    wiped: u64,
    differences: Differences,
}

impl Fillings {
    pub fn compare(&mut self, input: &Unpaired, name: &str) {
        let Unpaired { given, bundle } = input;
        let mut wanted = bundle.clone();
        let reference = fill(&mut wanted);
        let found = [
            self.difference(bundle, reference, &wanted),
            wrong(given, bundle, reference, &wanted),
        ];
        for difference in found.into_iter().flatten() {
            self.differences
                .add(format!("{name}: {difference}"), &[bundle]);
        }
        self.bundles += 1;
        self.bytes += bundle.len();
        self.numbers[usize::from(reference.number)] += 1;
        if reference.number == 0 {
            self.count(input, &wanted);
        }
    }

    /// What the proved call gives otherwise, or writes elsewhere.
    fn difference(&self, bundle: &[u8], reference: Verdict, wanted: &[u8]) -> Option<String> {
        let mut lent = vec![MARK; WATCHED];
        lent.extend(bundle);
        lent.resize(lent.len() + WATCHED, MARK);
        let (proved, bytes) = {
            let within = &mut lent[WATCHED..WATCHED + bundle.len()];
            (proved::fill(within), within.to_vec())
        };
        let around = lent[..WATCHED]
            .iter()
            .chain(&lent[WATCHED + bundle.len()..]);
        let first = bytes.iter().zip(wanted).position(|(a, b)| a != b);
        match first {
            _ if proved != reference => Some(format!("proved {proved:?}, reference {reference:?}")),
            Some(at) => Some(format!(
                "byte {at} is {} by the proved call, {} by the reference",
                bytes[at], wanted[at]
            )),
            None if around.into_iter().any(|&byte| byte != MARK) => {
                Some("bytes beside the bundle are written".to_string())
            }
            None => None,
        }
    }

    fn count(&mut self, input: &Unpaired, filled: &[u8]) {
        let places = references(filled);
        let pairs = || places.iter().filter_map(|&at| pair(filled, at));
        self.highest += u64::from(pairs().any(|(dip, _)| dip == 63));
        self.endless += u64::from(pairs().any(|(_, end)| end == -63));
        self.uneven += u64::from(pairs().any(|(dip, end)| dip != -end));
        self.wiped += u64::from(verify(&input.bundle).number == 8);
        if verify(&input.given).number == 0 {
            self.accepted += 1;
            self.lower += u64::from(filled != input.given);
        }
    }

    fn named(&self) -> Vec<(String, u64)> {
        let numbers = (0..=8).chain([22, 23]);
        let numbers = numbers.map(|n| (format!("answered {n}"), self.numbers[n]));
        let others = [
            ("filled that were accepted before", self.accepted),
            ("of these with a pair below the one given", self.lower),
            ("filled with a dip of 63", self.highest),
            ("filled with an end of -63", self.endless),
            ("filled with a pair other than (m,-m)", self.uneven),
            ("filled whose pair bytes were no pairs", self.wiped),
        ];
        let others = others.map(|(what, count)| (what.to_string(), count));
        numbers.chain(others).collect()
    }
}

/// What is wrong with the reference's answer by what the request says of it: on
/// a refusal nothing is written; what is filled in is accepted, differs in pair
/// bytes alone, and is nowhere above pairs that were accepted; and where some
/// were, it is not refused.
fn wrong(given: &[u8], bundle: &[u8], answer: Verdict, filled: &[u8]) -> Option<String> {
    let was_accepted = verify(given).number == 0;
    if answer.number != 0 {
        let changed = (bundle != filled).then(|| "a refused bundle is changed".to_string());
        let lost = was_accepted && answer.number == 22;
        return changed.or(lost.then(|| "accepted pairs are not found".to_string()));
    }
    let accepted = verify(filled);
    if accepted != answer {
        return Some(format!("what is filled in is {accepted}"));
    }
    let places = references(filled);
    let mut beside = filled.to_vec();
    for &at in &places {
        beside[at + 2..at + 4].copy_from_slice(&bundle[at + 2..at + 4]);
    }
    if beside != bundle {
        return Some("more than pair bytes is changed".to_string());
    }
    let above = |&at: &usize| {
        let (found, had) = (pair(filled, at), pair(given, at));
        found.zip(had).is_some_and(|(f, h)| f.0 > h.0 || f.1 > h.1)
    };
    let first = places.iter().find(|&at| was_accepted && above(at));
    first.map(|at| format!("the pair at {at} is above the one given"))
}

impl Part for Fillings {
    fn generated(&mut self, seed: u64) {
        self.compare(&unpaired(seed), &format!("pairs of seed {seed}"));
    }

    fn print(&self) {
        let average = self.bytes / self.bundles.max(1) as usize;
        println!(
            "bundles filled {}, {average} bytes on average",
            self.bundles
        );
        for (what, count) in self.named() {
            println!("  {what}: {count}");
        }
        println!("  differences: {}", self.differences.0);
    }

    fn differences(&self) -> u64 {
        self.differences.0
    }

    fn seen(&self) -> Vec<(String, u64)> {
        let named = self.named().into_iter();
        named
            .map(|(what, count)| (format!("bundles {what}"), count))
            .collect()
    }
}
