//! All choices of pairs tried one by one on tiny bundles: whether the verifier
//! accepts any, and what is the least of each dip and each end that it accepts.

use crate::proved;
use generator::families::damage::damage;
use generator::families::unpaired::tiny;
use generator::pairs::references;
use generator::rng::Rng;
use reference::bundle::Verdict;
use reference::fill::fill;

/// Dip bytes are 0 to 63, end bytes 1 to 127.
const DIPS: std::ops::RangeInclusive<u8> = 0..=63;
const ENDS: std::ops::RangeInclusive<u8> = 1..=127;

/// What all choices come to.
#[derive(Clone, Copy, Debug, Default, PartialEq, Eq)]
pub struct Tried {
    /// Bundles of which some choice is accepted, and of which none is.
    pub filled: u64,
    pub none: u64,
    /// Choices in all, and those that are accepted.
    pub choices: u64,
    pub accepted: u64,
}

/// So many tiny bundles with so many references, each with its seed: of one half
/// the reference says that there are pairs, of the other that there are none. Every
/// other seed has something broken.
pub fn bundles(first: u64, references: usize, wanted: usize) -> Vec<(u64, Vec<u8>)> {
    let of = |answer: u8, wanted: usize| {
        let all = (first..).map(|seed| (seed, bundle(seed)));
        all.filter(move |(_, bundle)| has(bundle, references, answer))
            .take(wanted)
    };
    let filled = wanted.div_ceil(2);
    of(0, filled).chain(of(22, wanted - filled)).collect()
}

fn bundle(seed: u64) -> Vec<u8> {
    let mut rng = Rng::new(seed);
    let bundle = tiny(&mut rng).lay_out();
    match seed.is_multiple_of(2) {
        true => bundle,
        false => damage(&mut rng, bundle),
    }
}

fn has(bundle: &[u8], wanted: usize, answer: u8) -> bool {
    references(bundle).len() == wanted && fill(&mut bundle.to_vec()).number == answer
}

impl Tried {
    /// Tries all choices, and says what either side fills in otherwise.
    pub fn add(&mut self, bundle: &[u8]) -> Result<(), String> {
        let places = references(bundle);
        let mut least = Least::default();
        let mut chosen = bundle.to_vec();
        self.choices += try_all(&mut chosen, &places, &mut |chosen| {
            if proved::verdict(chosen).number == 0 {
                least.add(chosen, &places);
            }
        });
        self.accepted += least.accepted;
        let (answer, wanted) = match least.accepted {
            0 => (Verdict::new(22, 0, 0), bundle.to_vec()),
            _ => (Verdict::new(0, 1, 0), least.written(bundle, &places)),
        };
        match least.accepted {
            0 => self.none += 1,
            _ => self.filled += 1,
        }
        let sides: [(&str, fn(&mut [u8]) -> Verdict); 2] =
            [("proved", proved::fill), ("reference", fill)];
        for (name, fill) in sides {
            let mut filled = bundle.to_vec();
            let told = fill(&mut filled);
            if told != answer || filled != wanted {
                return Err(format!(
                    "{name}: {told} for {answer}: {filled:?} for {wanted:?}"
                ));
            }
        }
        Ok(())
    }
}

/// Calls with every choice at these places; gives how many there are.
fn try_all(chosen: &mut [u8], places: &[usize], call: &mut impl FnMut(&[u8])) -> u64 {
    let Some((&at, rest)) = places.split_first() else {
        call(chosen);
        return 1;
    };
    let mut count = 0;
    for dip in DIPS {
        for end in ENDS {
            (chosen[at + 2], chosen[at + 3]) = (dip, end);
            count += try_all(chosen, rest, call);
        }
    }
    count
}

/// The least of each byte over the accepted choices.
#[derive(Default)]
struct Least {
    accepted: u64,
    bytes: Vec<[u8; 2]>,
}

impl Least {
    fn add(&mut self, chosen: &[u8], places: &[usize]) {
        self.accepted += 1;
        self.bytes.resize(places.len(), [u8::MAX; 2]);
        for (least, &at) in self.bytes.iter_mut().zip(places) {
            *least = [least[0].min(chosen[at + 2]), least[1].min(chosen[at + 3])];
        }
    }

    fn written(&self, bundle: &[u8], places: &[usize]) -> Vec<u8> {
        let mut written = bundle.to_vec();
        for (least, &at) in self.bytes.iter().zip(places) {
            written[at + 2..at + 4].copy_from_slice(least);
        }
        written
    }
}
