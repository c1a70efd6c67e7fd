//! Both lookups of a class's record: the same bytes of the same bundle.

use crate::{proved, Differences, Part};
use generator::families;
use reference::bundle::{find_record, MAX_CLASSES};
use reference::verify::verify;

#[derive(Debug, Default)]
pub struct Records {
    /// Records found, by the verdict of their bundle.
    found: [u64; 11],
    /// Lookups that find none.
    empty: u64,
    differences: Differences,
}

impl Records {
    fn compare(&mut self, bundle: &[u8], class: u8, number: u8, seed: u64) {
        let (proved, reference) = (proved::record(bundle, class), find_record(bundle, class));
        // Where in the bundle an empty part lies says nothing.
        let both_empty = proved.is_empty() && reference.is_empty();
        if !both_empty && !std::ptr::eq(proved, reference) {
            let (found, wanted) = (proved.len(), reference.len());
            let what =
                format!("record {class} seed {seed}: proved {found} bytes, reference {wanted}");
            self.differences.add(what, &[bundle]);
        }
        match reference.is_empty() {
            true => self.empty += 1,
            false => self.found[usize::from(number)] += 1,
        }
    }
}

impl Part for Records {
    /// Every class that there can be, and numbers that no class has.
    fn generated(&mut self, seed: u64) {
        let (_, bundle) = families::bundle(seed);
        let number = verify(&bundle).number;
        for class in (0..=MAX_CLASSES as u8).chain([255]) {
            self.compare(&bundle, class, number, seed);
        }
    }

    fn print(&self) {
        let found: u64 = self.found.iter().sum();
        println!("records found {found}, none found {}", self.empty);
        println!("  found by verdict of the bundle: {:?}", self.found);
        println!("  differences: {}", self.differences.0);
    }

    fn differences(&self) -> u64 {
        self.differences.0
    }

    fn seen(&self) -> Vec<(String, u64)> {
        // Verdicts 1 to 6 leave no record.
        let found = [0, 7, 8, 9, 10].map(|number: usize| {
            let what = format!("a record of a bundle that draws {number}");
            (what, self.found[number])
        });
        let mut seen = found.to_vec();
        seen.push(("no record".to_string(), self.empty));
        seen
    }
}
