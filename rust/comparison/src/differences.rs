//! Where the two sides differ.

use std::fmt::Display;

/// How many differences are printed in full.
const SHOWN: u64 = 5;

/// Differences so far; the first few are printed as they are found.
#[derive(Debug, Default)]
pub struct Differences(pub u64);

impl Differences {
    /// `inputs` are what both sides were given.
    pub(crate) fn add(&mut self, what: impl Display, inputs: &[&[u8]]) {
        self.0 += 1;
        if self.0 <= SHOWN {
            println!("DIFFERENCE {what}");
            for input in inputs {
                println!("  {}", hex(input));
            }
        }
    }
}

fn hex(bytes: &[u8]) -> String {
    bytes.iter().map(|byte| format!("{byte:02x}")).collect()
}
