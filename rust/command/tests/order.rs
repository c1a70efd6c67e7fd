//! The command `order`: the line under a lock order, the levels that would do,
//! and in `explain` what 25 and 26 mean.

mod common;

use common::{root, tool, Ran};
use generator::families::nesting;
use generator::levels::levels;
use generator::rng::Rng;
use generator::two_locks::two_locks;
use reference::bundle::Bundle;
use reference::levels::Demands;
use reference::verify::verify_ordered;
use std::fs;

/// Two threads take a lock of class 0 and within it one of class 1; in the
/// second bundle one of them does so the other way round.
const NESTED: &str = "cases/nested.bundle";
const OPPOSED: &str = "cases/opposed.bundle";
const B: &str = "cases/b.bundle";

fn says(words: &[&str], out: &str, status: i32) {
    let ran = tool(words, &[]);
    let wanted = Ran {
        out: format!("{out}\n"),
        err: String::new(),
        status: Some(status),
    };
    assert_eq!(ran, wanted, "{words:?}");
}

fn is_complaint(words: &[&str], about: &str) {
    let ran = tool(words, &[]);
    assert_eq!((ran.out.as_str(), ran.status), ("", Some(2)), "{ran:?}");
    assert_eq!(ran.err.lines().count(), 1, "{ran:?}");
    assert!(
        ran.err.starts_with(&format!("hveitmar: {about}")),
        "{ran:?}"
    );
}

#[test]
fn the_cases_are_as_laid_out() {
    for (name, opposed) in [(NESTED, false), (OPPOSED, true)] {
        let bytes = fs::read(root().join(name)).expect("a case");
        assert_eq!(bytes, two_locks(opposed).lay_out(), "{name}");
    }
}

#[test]
fn the_line_under_levels() {
    let told = [
        (NESTED, "1,0,0,0,0,0,0,0", "accepted classes 2", 0),
        (NESTED, "255,254,9,9,9,9,9,9", "accepted classes 2", 0),
        (
            NESTED,
            "0,0,0,0,0,0,0,0",
            "refused 25 class 0 address 10",
            1,
        ),
        (
            NESTED,
            "0,1,0,0,0,0,0,0",
            "refused 25 class 0 address 10",
            1,
        ),
        (
            OPPOSED,
            "0,1,0,0,0,0,0,0",
            "refused 25 class 0 address 10",
            1,
        ),
        (
            OPPOSED,
            "1,0,0,0,0,0,0,0",
            "refused 25 class 1 address 2",
            1,
        ),
        (B, "1,0,0,0,0,0,0,0", "refused 9 class 0 address 5 why 3", 1),
    ];
    for (file, list, line, status) in told {
        says(&["order", file, list], line, status);
    }
}

#[test]
fn other_lists_draw_26_whatever_the_bundle() {
    for list in ["", "1", "1,0,0,0,0,0,0", "1,0,0,0,0,0,0,0,0", "9,8,7"] {
        for file in [NESTED, B, "hveitmar"] {
            says(&["order", file, list], "refused 26 class 0 address 0", 1);
        }
    }
}

#[test]
fn standard_input() {
    let bundle = two_locks(false).lay_out();
    let ran = tool(&["order", "-", "1,0,0,0,0,0,0,0"], &bundle);
    assert_eq!(
        (ran.out.as_str(), ran.status),
        ("accepted classes 2\n", Some(0))
    );
    let searched = tool(&["order", "-"], &bundle);
    assert!(searched.out.starts_with("levels 1,0,0,0,0,0,0,0\n"));
}

#[test]
fn levels_that_would_do() {
    let above = "C0 above C1: C1 is taken at class 0 address 10 while C0 is held (variable 0)";
    says(
        &["order", NESTED],
        &format!("levels 1,0,0,0,0,0,0,0\n\n{above}"),
        0,
    );
    let none = "levels 0,0,0,0,0,0,0,0\n\nno lock is taken while another is held";
    says(&["order", "cases/a.bundle"], none, 0);
}

#[test]
fn a_circle_where_none_would() {
    let circle = "no levels: C0 above C1 above C0\n\n\
        C0 above C1: C1 is taken at class 0 address 10 while C0 is held (variable 0)\n\
        C1 above C0: C0 is taken at class 1 address 2 while C1 is held (variable 1)";
    says(&["order", OPPOSED], circle, 1);
}

#[test]
fn what_is_refused_anyway_has_no_levels() {
    says(&["order", B], "refused 9 class 0 address 5 why 3", 1);
    says(&["order", "hveitmar"], "refused 2 class 0 address 0", 1);
}

#[test]
fn bad_command_lines() {
    is_complaint(&["order"], "order: no file; ");
    is_complaint(&["explain"], "explain: no file; ");
    is_complaint(&["order", "no such file"], "no such file: cannot be read");
    is_complaint(&["order", NESTED, "-1"], "order: unknown option -1; ");
    for command in ["order", "explain"] {
        let file = format!("{command}: {B} is no list of levels; ");
        is_complaint(&[command, NESTED, B], &file);
        for list in ["1,0,", "256,0,0,0,0,0,0,0", "1 0 0 0 0 0 0 0", "one"] {
            let about = format!("{command}: {list} is no list of levels; ");
            is_complaint(&[command, NESTED, list], &about);
        }
        let many = format!("{command}: more than a file and a list of levels; ");
        is_complaint(&[command, NESTED, "1,0", "1,0"], &many);
    }
}

#[test]
fn explain_says_what_25_means() {
    let told = "cases/opposed.bundle: refused 25 class 1 address 2\n\n\
        At address 2 of class 1 stands monitorenter 0. Every other reference of its row\n\
        on which a release is owing must be of a higher level than what is taken.\n\n    \
        row 2   C0(0,0) C1(1,-1) |\n    \
        levels  C0 1, C1 0\n\n\
        Variable 1 is C1(1,-1), whose level 0 is not above the level 1 of C0: address 2\n\
        takes C0 while C1 is held.\n\
        Another thread may hold the one and wait for the other, and then both wait for\n\
        ever.";
    says(&["explain", OPPOSED, "1,0,0,0,0,0,0,0"], told, 1);
}

#[test]
fn explain_of_other_verdicts_under_levels() {
    let ran = tool(&["explain", NESTED, "1,0,0"], &[]);
    assert!(ran
        .out
        .starts_with(&format!("{NESTED}: refused 26 class 0 address 0\n")));
    assert!(ran.out.ends_with("There are 3: 5 too few.\n"), "{ran:?}");
    let fine = format!(
        "{NESTED}: accepted classes 2\n\nNo rule is broken, and no lock is taken out of order."
    );
    says(&["explain", NESTED, "1,0,0,0,0,0,0,0"], &fine, 0);
    let broken = tool(&["explain", B, "1,0,0,0,0,0,0,0"], &[]);
    assert_eq!(broken, tool(&["explain", B], &[]));
}

/// The reference's line under generated levels, and levels that it accepts.
#[test]
fn generated_bundles() {
    let (mut found, mut none) = (0, 0);
    for seed in 0..60 {
        let mut rng = Rng::new(seed);
        let bytes = match seed % 2 {
            0 => nesting::orderly(&mut rng).lay_out(),
            _ => nesting::any(&mut rng).lay_out(),
        };
        let list = levels(&mut rng, &bytes);
        let words = list.map(|level| level.to_string()).join(",");
        let ran = tool(&["order", "-", &words], &bytes);
        let wanted = verify_ordered(&bytes, &list);
        assert_eq!(ran.out, format!("{wanted}\n"), "seed {seed}");
        let bundle = Bundle::open_with_code(&bytes).expect("it is accepted");
        let demands = Demands::of(&bundle);
        let searched = tool(&["order", "-"], &bytes);
        let first = match demands.levels() {
            Some(levels) => {
                found += 1;
                format!("levels {}\n", levels.0.map(|l| l.to_string()).join(","))
            }
            None => {
                none += 1;
                "no levels: C".to_string()
            }
        };
        assert!(searched.out.starts_with(&first), "seed {seed} {searched:?}");
        let places = demands
            .circle()
            .map_or(demands.sites().count().max(1), |c| c.len());
        assert_eq!(searched.out.lines().count(), 2 + places, "seed {seed}");
    }
    assert!(found >= 30 && none >= 10, "{found} {none}");
}
