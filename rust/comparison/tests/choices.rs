//! All choices of one reference's pair, tried one by one.

use comparison::choices::{bundles, Tried};

#[test]
fn the_least_of_all_accepted_choices_is_filled_in() {
    let mut tried = Tried::default();
    for (seed, bundle) in bundles(0, 1, 200) {
        let same = tried.add(&bundle);
        assert_eq!(same, Ok(()), "seed {seed}");
    }
    assert_eq!(tried.choices, 200 * 64 * 127);
    assert_eq!((tried.filled, tried.none), (100, 100));
}
