//! Faults seeded into what javac wrote: what a walker on concrete objects finds unbalanced is refused, what is harmless by what it is accepted.

mod common;

use classfile::ClassFile;
use common::{class, gate};
use faults::{mutants, walked, Walked};
use scan::method::{judged, Judgement};
use skeleton::Throws;
use std::collections::BTreeSet;

#[test]
fn unbalanced_mutants_are_refused_and_harmless_ones_accepted() {
    let (mut refused, mut kinds) = (0, BTreeSet::new());
    for name in ["java/Depot.class", "java/Locks.class"] {
        for mutant in mutants(&class(name)) {
            let class = ClassFile::read(&mutant.bytes).expect("a class");
            let member = &class.methods[mutant.method];
            let code = member.code.as_ref().expect("code");
            let (said, _) = judged(
                &class.name,
                member,
                code,
                &class.constants,
                &Throws::default(),
                &gate,
            );
            let told = format!("{name} {} {}: {said:?}", member.name, mutant.kind);
            match walked(&class, member, code) {
                Walked::Unbalanced(_) => {
                    assert!(!matches!(said, Judgement::Accepted), "{told}");
                    kinds.insert(mutant.kind);
                    refused += usize::from(matches!(said, Judgement::Refused(_)));
                }
                Walked::Balanced if mutant.harmless => {
                    assert!(matches!(said, Judgement::Accepted), "{told}")
                }
                _ => {}
            }
        }
    }
    assert!(refused > 100 && kinds.len() >= 10, "{refused} {kinds:?}");
}

#[test]
fn damaged_class_files_never_panic() {
    let good = class("java/Depot.class");
    let mut seed = 5u64;
    let mut draw = |n: usize| {
        seed = seed
            .wrapping_mul(6_364_136_223_846_793_005)
            .wrapping_add(1_442_695_040_888_963_407);
        (seed >> 33) as usize % n
    };
    for _ in 0..5_000 {
        let mut bad = good.clone();
        for _ in 0..1 + draw(4) {
            let at = draw(bad.len());
            bad[at] = draw(256) as u8;
        }
        bad.truncate(bad.len() - draw(3) * draw(40));
        let _ = scan::class_report(&bad, &Throws::default(), &gate);
    }
}
