//! The table: a line for each input, times as medians, ratios with their
//! spread over the rounds.

use crate::measure::{Side, Times};

/// The sides' places in a line.
const PROVED: usize = 0;
const RUST: usize = 1;
const UNCHECKED: usize = 2;

/// What the last side of a line is, if there is one.
#[derive(Clone, Copy, PartialEq)]
pub enum Last {
    None,
    /// One read of the bytes.
    Read,
    /// So many steps, each a call of the proved machine.
    Steps(usize),
    /// The proved call of this name; there is no unchecked side beside it.
    Proved(&'static str),
}

impl Last {
    fn has_unchecked(self) -> bool {
        !matches!(self, Last::Proved(_))
    }
}

/// One line: the inputs, and the sides in their places.
pub struct Line<'a> {
    pub name: String,
    pub bundles: &'a [Vec<u8>],
    /// The machine's times are told a step.
    pub steps: usize,
    pub sides: Vec<Side<'a>>,
    pub last: Last,
}

/// The head of lines with this last side.
pub fn header(last: Last) {
    let against = |side: &str| format!("{side:>12} {:>6}  {:<14}", "ratio", "min .. max");
    let has_unchecked = last.has_unchecked();
    let last = match last {
        Last::None => String::new(),
        Last::Read => format!(
            "{:>9} {:>6} {:>8} {:>6}",
            "read ns", "ratio", "ns/byte", "GB/s"
        ),
        Last::Steps(_) => format!(
            "{:>9} {:>6}  {:<14} {:>8}",
            "step ns", "times", "min .. max", "Msteps/s"
        ),
        Last::Proved(name) => {
            let name = format!("{name} ns");
            format!("{name:>9} {:>6}  {:<14}", "times", "min .. max")
        }
    };
    let unchecked = match has_unchecked {
        true => against("unchecked ns"),
        false => String::new(),
    };
    let line = format!(
        "{:<47} {:>6} {:>10} {} {unchecked} {last}",
        "what",
        "bytes",
        "proved ns",
        against("Rust ns"),
    );
    println!("{}", line.trim_end());
}

impl Line<'_> {
    /// Times the line and prints it.
    pub fn print(&self, rounds: usize) {
        let times = Times::measure(rounds, self.bundles, &self.sides);
        let bytes = self.bundles.iter().map(Vec::len).sum::<usize>() / self.bundles.len();
        let proved = times.of(PROVED) / self.steps as f64;
        let against = |side| {
            let (ratio, own) = (times.ratio(PROVED, side), times.of(side));
            let spread = format!("{:.2} .. {:.2}", ratio.low, ratio.high);
            let own = own / self.steps as f64;
            format!("{own:>12.1} {:>6.2}  {spread:<14}", ratio.middle)
        };
        let unchecked = match self.last.has_unchecked() {
            true => against(UNCHECKED),
            false => String::new(),
        };
        let line = format!(
            "{:<47} {bytes:>6} {proved:>10.1} {} {unchecked} {}",
            self.name,
            against(RUST),
            self.last_columns(&times, bytes as f64, proved)
        );
        println!("{}", line.trim_end());
    }

    fn last_columns(&self, times: &Times, bytes: f64, proved: f64) -> String {
        let last = self.sides.len() - 1;
        match self.last {
            Last::None => String::new(),
            Last::Read => format!(
                "{:>9.1} {:>6.1} {:>8.3} {:>6.2}",
                times.of(last),
                times.ratio(PROVED, last).middle,
                proved / bytes,
                bytes / proved
            ),
            Last::Steps(steps) => {
                let ratio = times.ratio(last, PROVED);
                let by_list = |ratio: f64| ratio * self.steps as f64 / steps as f64;
                let spread = format!("{:.0} .. {:.0}", by_list(ratio.low), by_list(ratio.high));
                format!(
                    "{:>9.1} {:>6.0}  {spread:<14} {:>8.1}",
                    times.of(last) / steps as f64,
                    by_list(ratio.middle),
                    1_000.0 / proved
                )
            }
            Last::Proved(_) => {
                let ratio = times.ratio(PROVED, last);
                let spread = format!("{:.2} .. {:.2}", ratio.low, ratio.high);
                format!(
                    "{:>9.1} {:>6.2}  {spread:<14}",
                    times.of(last),
                    ratio.middle
                )
            }
        }
    }
}
