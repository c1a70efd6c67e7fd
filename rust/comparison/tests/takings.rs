//! The generated attributes are worth comparing on, and the proved taker is
//! held against slips of the reference.

use comparison::proved;
use comparison::takings::{taken_by, Takings};
use comparison::Part;
use generator::attributes::taking;
use reference::take::slips::SLIPS;

#[test]
fn everything_comes_up_and_nothing_differs() {
    let mut takings = Takings::default();
    (0..20_000).for_each(|seed| takings.generated(seed));
    assert_eq!(takings.differences(), 0);
    let seen = takings.seen();
    assert!(seen.iter().all(|&(_, count)| count > 0), "{seen:#?}");
}

/// Were one side to make a slip, the comparison would show it.
#[test]
fn a_slipped_taker_differs_from_the_proved_one() {
    let mut differing = SLIPS.map(|(name, slipped)| (name, slipped, 0));
    for seed in 0..10_000 {
        let (_, taking) = taking(seed);
        let proved = taken_by(proved::take, &taking, seed);
        for (_, slipped, count) in &mut differing {
            *count += usize::from(taken_by(*slipped, &taking, seed) != proved);
        }
    }
    let counts = differing.map(|(name, _, count)| (name, count));
    assert!(counts.iter().all(|&(_, n)| n >= 5), "{counts:#?}");
}
