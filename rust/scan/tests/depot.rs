//! What javac wrote of a depot's belt, and the same woven so that one arm keeps the lock.

mod common;

use common::{class, gate};
use scan::method::Judgement;
use scan::{class_report, report, words, FileReport};
use skeleton::Throws;

#[test]
fn what_javac_writes_is_accepted() {
    for name in [
        "java/Depot.class",
        "java/Locks.class",
        "java/Counts.class",
        "java/Things.class",
    ] {
        for strict in [false, true] {
            let throws = Throws {
                strict,
                ..Throws::default()
            };
            let report = class_report(&class(name), &throws, &gate).expect("a class");
            for method in &report.judged {
                assert!(
                    matches!(method.judgement, Judgement::Accepted),
                    "{name} {method:?}"
                );
            }
        }
    }
}

#[test]
fn the_arm_that_keeps_the_lock_is_named() {
    let report =
        class_report(&class("woven/Depot.class"), &Throws::default(), &gate).expect("a class");
    let names: Vec<&str> = report.judged.iter().map(|m| m.name.as_str()).collect();
    assert_eq!(names, ["sort", "both", "turns", "again", "check"]);
    for method in &report.judged[1..] {
        assert!(
            matches!(method.judgement, Judgement::Accepted),
            "{method:?}"
        );
    }
    let Judgement::Refused(found) = &report.judged[0].judgement else {
        panic!("sort is refused")
    };
    assert_eq!(
        words::sentence(found),
        "the lock taken at line 9 is still held when the method returns at line 16"
    );
    assert_eq!(found.lock, "the reference fetched at line 8");
    assert_eq!(
        words::turn(found).as_deref(),
        Some("it is on the way where the branch at line 10 is taken")
    );
    assert_eq!(
        words::way(found),
        "8 > 9 (takes) > 10 (jumps) > 14 > 15 > 16 (returns)"
    );
}

#[test]
fn the_summary_counts() {
    let mut totals = report::Summary::default();
    for name in ["java/Depot.class", "woven/Depot.class"] {
        let class = class_report(&class(name), &Throws::default(), &gate);
        totals.add(&FileReport {
            name: name.to_owned(),
            class,
        });
    }
    totals.add(&FileReport {
        name: "x".to_owned(),
        class: Err("damaged at 0".to_owned()),
    });
    assert_eq!(
        (totals.files, totals.unreadable, totals.methods),
        (3, 1, 12)
    );
    assert_eq!(
        (totals.with_monitors, totals.accepted, totals.refused),
        (10, 9, 1)
    );
    assert_eq!(totals.status(), 2);
}
