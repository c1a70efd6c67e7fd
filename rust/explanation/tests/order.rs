//! What is told of a lock that is taken out of order, by hand and of every such
//! refusal of the generator.

use explanation::{explain_ordered, nested};
use generator::families::nesting;
use generator::levels::levels;
use generator::rng::Rng;
use generator::two_locks::two_locks;
use hveitmar::{verify_ordered, Refusal, Verdict};
use reference::bundle::Addr;
use reference::levels::Site;
use reference::order::{Nesting, Place};

/// The text of an explanation, in one line.
fn told(bytes: &[u8], levels: &[u8]) -> String {
    let Verdict::Refused(refusal) = verify_ordered(bytes, levels) else {
        panic!("it is accepted");
    };
    let text = explain_ordered(bytes, levels, refusal).to_string();
    text.replace('\n', " ")
}

#[test]
fn the_entry_and_the_levels() {
    let text = told(&two_locks(false).lay_out(), &[3, 4, 0, 0, 0, 0, 0, 0]);
    for part in [
        "At address 10 of class 0 stands monitorenter 1.",
        "row 10  C0(1,-1) C1(0,0) |",
        "levels  C0 3, C1 4 ",
        "Variable 0 is C0(1,-1), whose level 3 is not above the level 4 of C1",
        "takes C1 while C0 is held.",
    ] {
        assert!(text.contains(part), "{part}\n{text}");
    }
}

#[test]
fn a_list_that_is_none() {
    let bundle = two_locks(false).lay_out();
    let text = told(&bundle, &[]);
    assert!(text.contains("levels  none") && text.contains("There are 0: 8 too few."));
    let text = told(&bundle, &[1; 10]);
    assert!(text.contains("levels  1,1,1") && text.contains("There are 10: 2 too many."));
}

#[test]
fn places() {
    let site = |place| Site {
        class: 2,
        address: Addr(256),
        nesting: Nesting {
            taken: 1,
            held: 7,
            place,
        },
    };
    let told = "C1 is taken at class 2 address 256 while C7 is held";
    for (place, name) in [
        (Place::Variable(15), "variable 15"),
        (Place::Stack(0), "the top"),
        (Place::Stack(3), "stack entry 3"),
    ] {
        assert_eq!(nested(&site(place)), format!("{told} ({name})"));
    }
}

#[test]
fn every_disorder_is_explained() {
    let mut explained = 0;
    for seed in 0..1_000 {
        let mut rng = Rng::new(seed);
        let bytes = nesting::any(&mut rng).lay_out();
        let list = levels(&mut rng, &bytes);
        if let Verdict::Refused(refusal @ Refusal::Order { .. }) = verify_ordered(&bytes, &list) {
            let explanation = explain_ordered(&bytes, &list, refusal);
            assert!(explanation.is_complete(), "seed {seed} {refusal}");
            assert_eq!(explanation.why(), None);
            explained += 1;
        }
    }
    assert!(explained > 500, "{explained}");
}
