//! How often a state was refused for a held word.

use generator::words::{WrongWord, MARKS};
use reference::bundle::Bundle;
use reference::state::State;

/// States whose only breach is a word, by what is wrong with it.
#[derive(Debug, Default)]
pub struct WrongWords([u64; MARKS.len()]);

impl WrongWords {
    /// Counts the state if a word is all that is wrong with it.
    pub fn add(&mut self, bundle: &[u8], state: &State) {
        let wrong = Bundle::open_with_code(bundle)
            .ok()
            .and_then(|bundle| WrongWord::alone(&bundle, state));
        let Some(wrong) = wrong else {
            return;
        };
        for (count, (_, has)) in self.0.iter_mut().zip(MARKS) {
            *count += u64::from(has(&wrong));
        }
    }

    pub fn seen(&self) -> impl Iterator<Item = (String, u64)> + '_ {
        let named = |(name, _): &(&str, _)| format!("a word wrong {name}");
        MARKS.iter().map(named).zip(self.0)
    }

    /// Whether it was at a live thread or not; all that few states show.
    pub fn seen_by_thread(&self) -> impl Iterator<Item = (String, u64)> + '_ {
        self.seen().take(2)
    }
}
