//! Every refusal of the generator is explained, and every explanation of a
//! rule that fails comes to the proved why.

use explanation::explain;
use generator::families::{self, damage::damage, Family};
use generator::rng::Rng;
use hveitmar::{verify, Refusal, Verdict};

const REFUSALS: usize = 100_000;
/// A well-typed bundle is damaged so often, each time in another way: that is
/// quicker than to make as many.
const DAMAGED: usize = 4;

/// The bundle of a seed, and what comes of it.
fn bundles(seed: u64) -> Vec<Vec<u8>> {
    let (family, bundle) = families::bundle(seed);
    let mut rng = Rng::new(!seed);
    let times = if family == Family::Typed { DAMAGED } else { 0 };
    let mut all: Vec<Vec<u8>> = (0..times)
        .map(|_| damage(&mut rng, bundle.clone()))
        .collect();
    all.push(bundle);
    all
}

/// Its own comparison is the proved one, and it has found something.
fn is_explained(seed: u64, bundle: &[u8], refusal: Refusal) {
    let explanation = explain(bundle, refusal);
    let text = explanation.to_string();
    let about = format!("seed {seed} {refusal}\n{text}");
    assert_eq!(explanation.why(), refusal.why(), "{about}");
    assert!(explanation.is_complete(), "{about}");
}

/// Explains so many refusals of these seeds; how many they are by verdict.
fn explained(seeds: impl Iterator<Item = u64>, wanted: usize) -> [usize; 11] {
    let mut refusals = [0; 11];
    for seed in seeds {
        for bundle in bundles(seed) {
            if let Verdict::Refused(refusal) = verify(&bundle) {
                is_explained(seed, &bundle, refusal);
                refusals[usize::from(refusal.number())] += 1;
            }
        }
        if refusals.iter().sum::<usize>() >= wanted {
            break;
        }
    }
    refusals
}

#[test]
fn every_refusal_is_explained_as_it_was_given() {
    let halves = std::thread::scope(|scope| {
        let even = scope.spawn(|| explained((0..).step_by(2), REFUSALS / 2));
        let odd = explained((1..).step_by(2), REFUSALS / 2);
        [even.join().expect("the other half"), odd]
    });
    let often = |n: usize| halves[0][n] + halves[1][n] > 500;
    assert!((1..=10).all(often), "{halves:?}");
}
