//! The generated texts are worth comparing on, and the proved reader is held
//! against slips of the reference.

use comparison::proved;
use comparison::texts::Texts;
use comparison::Part;
use generator::texts::text;
use usages::slips::SLIPS;

#[test]
fn everything_comes_up_and_nothing_differs() {
    let mut texts = Texts::of_small_usages();
    (0..10_000).for_each(|seed| texts.generated(seed));
    assert_eq!(texts.differences(), 0);
    let seen = texts.seen();
    assert!(seen.iter().all(|&(_, count)| count >= 20), "{seen:#?}");
}

/// Were one side to make a slip, the comparison would show it.
#[test]
fn a_slipped_reader_differs_from_the_proved_one() {
    let mut differing = SLIPS.map(|(name, slipped)| (name, slipped, 0));
    for seed in 0..10_000 {
        let (_, text) = text(seed);
        let proved = proved::usage(&text);
        for (_, slipped, count) in &mut differing {
            *count += usize::from(slipped(&text) != proved);
        }
    }
    let counts = differing.map(|(name, _, count)| (name, count));
    assert!(counts.iter().all(|&(_, n)| n >= 20), "{counts:#?}");
}
