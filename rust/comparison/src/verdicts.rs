//! Both verifiers on the same bundles: number, class, address and why.

use crate::refused::RefusedFields;
use crate::whys::Whys;
use crate::{proved, Differences, Part};
use generator::builder::{case_a, lay_out};
use generator::families;
use generator::marks::MARKS;
use reference::bundle::Bundle;
use reference::verify::verify;

#[derive(Debug, Default)]
pub struct Verdicts {
    bundles: u64,
    bytes: usize,
    numbers: [u64; 11],
    whys: Whys,
    refused: RefusedFields,
    /// Accepted bundles by what they have.
    marks: [u64; MARKS.len()],
    differences: Differences,
}

impl Verdicts {
    /// Case A with one byte changed, all of them to all values, and cut short
    /// everywhere.
    pub fn around_case_a() -> Verdicts {
        let mut verdicts = Verdicts::default();
        let good = lay_out(&[case_a()]);
        for at in 0..good.len() {
            for byte in 0..=255 {
                let mut bundle = good.clone();
                bundle[at] = byte;
                verdicts.compare(&bundle, &format!("case A with {byte} at {at}"));
            }
            verdicts.compare(&good[..at], &format!("case A cut at {at}"));
        }
        verdicts
    }

    fn compare(&mut self, bundle: &[u8], name: &str) {
        let reference = verify(bundle);
        let proved = proved::verdict(bundle);
        if proved != reference {
            // All four numbers, whatever the verdict: any of them may differ.
            let what = format!("{name}: proved {proved:?}, reference {reference:?}");
            self.differences.add(what, &[bundle]);
        }
        self.bundles += 1;
        self.bytes += bundle.len();
        self.numbers[usize::from(reference.number)] += 1;
        self.whys.add(bundle, reference);
        self.refused.add(bundle, reference);
        if reference.number == 0 {
            self.mark(bundle);
        }
    }

    fn mark(&mut self, bundle: &[u8]) {
        let bundle = Bundle::open_with_code(bundle).expect("it is accepted");
        for (count, (_, has)) in self.marks.iter_mut().zip(MARKS) {
            *count += u64::from(has(&bundle));
        }
    }

    fn marks(&self) -> impl Iterator<Item = (String, u64)> + '_ {
        let named = |(name, _): &(&str, _)| format!("accepted with {name}");
        MARKS.iter().map(named).zip(self.marks)
    }
}

impl Part for Verdicts {
    fn generated(&mut self, seed: u64) {
        let (family, bundle) = families::bundle(seed);
        self.compare(&bundle, &format!("bundle seed {seed} {family:?}"));
    }

    fn print(&self) {
        let average = self.bytes / self.bundles.max(1) as usize;
        println!("bundles {}, {average} bytes on average", self.bundles);
        for (number, count) in self.numbers.iter().enumerate() {
            let share = 100.0 * *count as f64 / self.bundles.max(1) as f64;
            println!("  verdict {number}: {count} ({share:.2} %)");
        }
        self.whys.print();
        println!("  accepted: {}", self.numbers[0]);
        for (what, count) in self.marks().chain(self.refused.seen()) {
            println!("  {what}: {count}");
        }
        println!("  differences: {}", self.differences.0);
    }

    fn differences(&self) -> u64 {
        self.differences.0
    }

    fn seen(&self) -> Vec<(String, u64)> {
        let verdicts = self.numbers.iter().enumerate();
        let verdicts = verdicts.map(|(number, &count)| (format!("verdict {number}"), count));
        verdicts
            .chain(self.whys.seen())
            .chain(self.marks())
            .chain(self.refused.seen())
            .collect()
    }
}
