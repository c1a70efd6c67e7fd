//! Proved code against the reference, both in one run on the same inputs.
//!
//! `bench [rounds] [verify | run | fill | gate]` prints, for each input or for those of
//! one table, nanoseconds a call (medians) and the ratios proved / another side:
//! their median over the rounds, and their spread. The other sides are the
//! reference, the same without checks of its indices, which is the limit of its
//! algorithm, and one read of the bytes, which is memory's; of lists that are run
//! at once, the proved single steps; of pairs that are worked out, the proved
//! verifier; of the weaver's gate, the proved call that works pairs out.

mod flags;
mod measure;
mod table;
mod takes;

use comparison::digest;
use comparison::proved;
use generator::builder::{case_a, lay_out};
use generator::families::sized;
use generator::weaves::OwnedParts;
use measure::{side, side_of};
use reference::entries::Entry;
use reference::fill::fill;
use reference::gate::gate;
use reference::run::run;
use reference::verify::{verify, Verdict};
use std::hint::black_box;
use table::{Last, Line};
use trace::encode_state;

/// How many steps are timed one by one: few, so that a call is short; and how
/// many as a list: enough that the one look at the bundle takes no part of its
/// time that could be told.
const STEPS: usize = 400;
const LIST: usize = 500_000;

fn main() {
    let mut arguments = std::env::args().skip(1);
    let rounds = arguments
        .next()
        .map_or(21, |a| a.parse().expect("a number"));
    let only = arguments.next();
    let wanted = |what: &str| only.as_ref().is_none_or(|only| only == what);
    flags::print();
    println!(
        "command: cargo run --release --offline --bin bench -- {rounds} (ratios: proved / other side, median of {rounds} rounds)"
    );
    if wanted("verify") {
        table::header(Last::Read);
        verify_lines(rounds);
        machine_lines(rounds);
        size_lines(rounds);
    }
    if wanted("run") {
        println!(
            "\nlists of {LIST} steps, each run by one call; ns a step, steps that wait among them. proved: \
             hveitmar_run; Rust: the safe machine that judges once and changes one state in place; step: \
             the first {STEPS} of the list by the proved single step, and times: step / proved"
        );
        table::header(Last::Steps(STEPS));
        run_lines(rounds);
    }
    if wanted("fill") {
        println!(
            "\npairs worked out, each call in a copy of the bundle that it makes first. proved: \
             hveitmar_fill; Rust: the reference's longest paths; verify: the proved verifier on the \
             bundle as it is filled, and times: proved / verify"
        );
        table::header(Last::Proved("verify"));
        fill_lines(rounds);
    }
    if wanted("take") {
        println!("\nmethods taken from class files; bytes are those of the code");
        takes::print(rounds);
    }
    if wanted("gate") {
        println!(
            "\nthe weaver's gate, each call into an output that it makes first. proved: hveitmar_gate; \
             Rust: the reference's; fill: the proved call that works the pairs of the same bundle out, \
             in a copy that it makes first, and times: proved / fill"
        );
        table::header(Last::Proved("fill"));
        gate_lines(rounds);
    }
}

fn verify_lines(rounds: usize) {
    let mut owing = case_a();
    owing.rows[8].variables[0] = Entry::reference(0, 0, -1);
    let small = vec![lay_out(&[case_a()])];
    kinds(rounds, "case A", &small, vec![lay_out(&[owing])]);
    let typical = sized::typical(2_000, 32);
    let late = typical.iter().filter_map(|b| sized::refused_late(b));
    kinds(rounds, "typical", &typical, late.collect());
    let full = sized::full(8);
    let late = full.iter().filter_map(|b| sized::refused_late(b));
    kinds(rounds, "full", &full, late.collect());
}

/// The bundles as they are, accepted, and refused in three places.
fn kinds(rounds: usize, name: &str, accepted: &[Vec<u8>], late: Vec<Vec<u8>>) {
    let changed = |change: fn(&[u8]) -> Vec<u8>| accepted.iter().map(|b| change(b)).collect();
    assert!(accepted.iter().all(|b| verify(b).number == 0));
    let early: Vec<Vec<u8>> = changed(sized::refused_early);
    let first: Vec<Vec<u8>> = changed(sized::refused_at_first_instruction);
    assert!(first.iter().all(|b| verify(b) == Verdict::new(7, 0, 1)));
    let named = [
        ("accepted", accepted, Last::Read),
        ("refused 2", &early, Last::None),
        ("refused 7 at class 0 address 1", &first, Last::None),
        ("refused 9 at the last address", &late, Last::Read),
    ];
    for (fate, bundles, last) in named {
        verify_line(rounds, format!("verify {name}, {fate}"), bundles, last);
    }
}

fn verify_line(rounds: usize, name: String, bundles: &[Vec<u8>], last: Last) {
    for b in bundles {
        assert_eq!(proved::verdict(b), verify(b));
        assert_eq!(unchecked::verify(b).number, verify(b).number);
    }
    let mut sides = vec![
        side(|b| u64::from(hveitmar::verify(b).number())),
        side(|b| u64::from(verify(b).number)),
        side(|b| u64::from(unchecked::verify(b).number)),
    ];
    if last == Last::Read {
        sides.push(side(sum));
    }
    let line = Line {
        name,
        bundles,
        steps: 1,
        sides,
        last,
    };
    line.print(rounds);
}

/// All bytes read once, eight at a time.
fn sum(bytes: &[u8]) -> u64 {
    let (words, rest) = bytes.as_chunks();
    let words = words.iter().map(|&word| u64::from_ne_bytes(word));
    let rest = rest.iter().map(|&byte| u64::from(byte));
    words.chain(rest).fold(0, u64::wrapping_add)
}

/// Every step checks the bundle (17) and the state (18) on all sides.
fn machine_lines(rounds: usize) {
    for (name, others) in [("small", 0), ("full", 6)] {
        for threads in [1, 8] {
            let bundle = sized::endless(threads, others);
            let schedule = sized::turns(threads, STEPS);
            let wanted = digest::of_run(&bundle, &schedule);
            assert_eq!(proved::digest(&bundle, &schedule), wanted);
            assert_eq!(unchecked_run(&bundle, &schedule), wanted);
            let line = Line {
                name: format!("step on a {name} bundle, live threads: {threads}"),
                bundles: &[bundle],
                steps: STEPS,
                sides: vec![
                    side(|b| proved::digest(b, black_box(&schedule))),
                    side(|b| digest::of_run(b, black_box(&schedule))),
                    side(|b| unchecked_run(b, black_box(&schedule))),
                ],
                last: Last::None,
            };
            line.print(rounds);
        }
    }
}

/// The digest of a schedule by the machine that doesn't check its indices.
fn unchecked_run(bundle: &[u8], schedule: &[u8]) -> u64 {
    let fresh = unchecked::fresh(bundle);
    digest::follow(fresh, schedule, |state, turn| {
        unchecked::step(bundle, state, turn.thread(), turn.fails())
    })
}

fn size_lines(rounds: usize) {
    for kilobytes in [1, 2, 4, 8, 16, 32, 64] {
        let bundle = sized::striped(1_024 * kilobytes, 4, 3);
        let name = format!("verify {kilobytes} KB, one block again and again");
        verify_line(rounds, name, &[bundle], Last::Read);
    }
    let wide = sized::striped(65_000, 16, 16);
    let name = "verify 64 KB, the same with V 16, K 16".to_string();
    verify_line(rounds, name, &[wide], Last::Read);
}

/// The bundle is looked at once on all sides.
fn run_lines(rounds: usize) {
    for (name, others) in [("small", 0), ("full", 6)] {
        let lists = [
            ("1", sized::endless(1, others), sized::turns(1, LIST)),
            ("8", sized::endless(8, others), sized::turns(8, LIST)),
            (
                "8, one lock",
                sized::wanting(8, others),
                sized::wanting_turns(8, LIST),
            ),
        ];
        for (threads, bundle, list) in lists {
            let name = format!("run on a {name} bundle, live threads: {threads}");
            run_line(rounds, name, bundle, &list);
        }
    }
}

fn run_line(rounds: usize, name: String, bundle: Vec<u8>, list: &[u8]) {
    let ran = run(&bundle, list);
    let (told, state) = proved::run(&bundle, list);
    assert_eq!(
        (told, &state[..]),
        (Ok(ran.number), &encode_state(&ran.state)[..])
    );
    assert_eq!(unchecked::run(&bundle, list).number, ran.number);
    let first = &list[..STEPS];
    let line = Line {
        name,
        bundles: &[bundle],
        steps: LIST,
        sides: vec![
            side(|b| hveitmar::run(b, black_box(list)).steps.unwrap_or(0)),
            side(|b| run(b, black_box(list)).number),
            side(|b| unchecked::run(b, black_box(list)).number),
            side(|b| proved::digest(b, black_box(first))),
        ],
        last: Last::Steps(STEPS),
    };
    line.print(rounds);
}

fn fill_lines(rounds: usize) {
    fill_line(rounds, "case A", &[lay_out(&[case_a()])]);
    fill_line(rounds, "typical", &sized::typical(2_000, 32));
    fill_line(rounds, "full", &sized::full(8));
    let block = sized::striped(65_000, 4, 3);
    fill_line(rounds, "64 KB, one block again and again", &[block]);
    let wide = sized::striped(65_000, 16, 16);
    fill_line(rounds, "64 KB, the same with V 16, K 16", &[wide]);
    fill_line(rounds, "64 KB, locks that grow, 22", &[sized::growing()]);
}

fn fill_line(rounds: usize, name: &str, bundles: &[Vec<u8>]) {
    let filled = bundles.iter().map(|bundle| {
        let (mut proved, mut reference) = (bundle.clone(), bundle.clone());
        assert_eq!(proved::fill(&mut proved), fill(&mut reference));
        assert_eq!(proved, reference);
        proved
    });
    let filled: Vec<Vec<u8>> = filled.collect();
    // Pairs are ignored as they come in, so a filled bundle is as much work.
    let line = Line {
        name: format!("fill {name}"),
        bundles: &filled,
        steps: 1,
        sides: vec![
            side(|b| u64::from(hveitmar::fill(&mut b.to_vec()).unwrap_or(0))),
            side(|b| u64::from(fill(&mut b.to_vec()).number)),
            side(|b| u64::from(hveitmar::verify(b).number())),
        ],
        last: Last::Proved("verify"),
    };
    line.print(rounds);
}

fn gate_lines(rounds: usize) {
    gate_line(rounds, "case A", &[lay_out(&[case_a()])]);
    gate_line(rounds, "typical", &sized::typical(2_000, 32));
    gate_line(rounds, "full", &sized::full(8));
    let block = sized::striped(65_000, 4, 3);
    gate_line(rounds, "64 KB, one block again and again", &[block]);
    let wide = sized::striped(65_000, 16, 16);
    gate_line(rounds, "64 KB, the same with V 16, K 16", &[wide]);
}

fn gate_line(rounds: usize, name: &str, bundles: &[Vec<u8>]) {
    let apart = bundles.iter().filter_map(|bundle| {
        let (parts, mut filled) = (OwnedParts::of(bundle)?, bundle.clone());
        let room = bundle.len();
        let (mut proved, mut reference) = (vec![0; room], vec![0; room]);
        let gated = proved::gate(&parts.lent(), &mut proved);
        assert_eq!(gated, gate(&parts.lent(), &mut reference));
        assert_eq!(gated.verdict, proved::fill(&mut filled));
        assert!(proved == reference && proved == filled);
        Some((parts, room))
    });
    let apart: Vec<(OwnedParts, usize)> = apart.collect();
    assert_eq!(apart.len(), bundles.len());
    let line = Line {
        name: format!("gate {name}"),
        bundles,
        steps: 1,
        sides: vec![
            side_of(&apart, |(parts, room)| {
                let written = weaver::gate(&proved::lent(&parts.lent()), &mut vec![0; *room]);
                written.map_or(0, |written| written.length as u64)
            }),
            side_of(&apart, |(parts, room)| {
                gate(&parts.lent(), &mut vec![0; *room]).length as u64
            }),
            side(|b| u64::from(hveitmar::fill(&mut b.to_vec()).unwrap_or(0))),
        ],
        last: Last::Proved("fill"),
    };
    line.print(rounds);
}
