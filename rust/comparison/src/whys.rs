//! How often each instruction's rule failed, and why.

use reference::bundle::{Addr, Bundle, Instr, Verdict};

const INSTRUCTIONS: usize = Instr::NAMES.len();
const WHYS: usize = 4;

/// Verdicts 9 by the instruction at the address they name (opcodes from 1)
/// and by why.
#[derive(Debug, Default)]
pub struct Whys([[u64; WHYS]; INSTRUCTIONS]);

/// Whether an instruction's rule can fail for this reason. Every rule asks
/// something (0). Every rule but return's hands variables to another row,
/// where kind or class, dip or end may fall short (1, 2, 3); return only asks.
fn possible(name: &str, why: usize) -> bool {
    why == 0 || name != "return"
}

impl Whys {
    /// Counts the verdict if it is a 9.
    pub fn add(&mut self, bundle: &[u8], verdict: Verdict) {
        if verdict.number != 9 {
            return;
        }
        let bundle = Bundle::open_with_code(bundle).expect("a rule of it was looked at");
        let class = bundle.class(verdict.class);
        let opcode = class.instruction(Addr(verdict.address)).opcode();
        self.0[usize::from(opcode) - 1][usize::from(verdict.why)] += 1;
    }

    /// Each instruction with its counts by why, `None` where there can be none.
    pub fn rows(&self) -> impl Iterator<Item = (&'static str, [Option<u64>; WHYS])> + '_ {
        Instr::NAMES.into_iter().zip(&self.0).map(|(name, counts)| {
            let counted = |why| possible(name, why).then_some(counts[why]);
            (name, std::array::from_fn(counted))
        })
    }

    /// Each reason that there can be, and how often it was given.
    pub fn seen(&self) -> impl Iterator<Item = (String, u64)> + '_ {
        self.rows().flat_map(|(name, counts)| {
            let counted = counts.into_iter().enumerate();
            counted
                .filter_map(move |(why, count)| Some((format!("{name} fails, why {why}"), count?)))
        })
    }

    /// The refusals whose reason `possible` denies.
    pub fn impossible(&self) -> u64 {
        let possible: u64 = self.rows().flat_map(|(_, counts)| counts).flatten().sum();
        self.0.iter().flatten().sum::<u64>() - possible
    }

    pub fn print(&self) {
        println!("  verdict 9 by instruction and why 0, 1, 2, 3:");
        for (name, counts) in self.rows() {
            let [asked, kind, dip, end] =
                counts.map(|count| count.map_or("-".to_string(), |count| count.to_string()));
            println!("    {name:<12} {asked:>7} {kind:>7} {dip:>7} {end:>7}");
        }
    }
}
