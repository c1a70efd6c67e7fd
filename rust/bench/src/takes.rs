//! Methods of class files taken, by the proved code and by the reference.

use crate::measure::{side, Times};
use comparison::proved;
use generator::rng::Rng;
use reference::take::take;

/// The longest code that a class file has.
const LONGEST: usize = 65_535;
/// Room for all that is ever written.
const ROOM: usize = 1_024;
const CLASSES: [u16; 2] = [7, 9];

/// A Code attribute.
fn attribute(code: &[u8], table: &[[u16; 4]]) -> Vec<u8> {
    let mut bytes = vec![0; 10];
    bytes.extend((code.len() as u32).to_be_bytes());
    bytes.extend(code);
    bytes.extend((table.len() as u16).to_be_bytes());
    bytes.extend(table.iter().flatten().flat_map(|field| field.to_be_bytes()));
    bytes
}

/// All kinds of instructions, and branches to the last one or the first.
fn mixed(length: usize) -> Vec<u8> {
    let mut rng = Rng::new(length as u64);
    let mut code = vec![];
    while code.len() + 3 <= length {
        let branch = match code.len() < 0x7000 {
            true => -(code.len() as i64),
            false => 0,
        };
        let [high, low] = (branch as i16).to_be_bytes();
        let v = rng.below(16) as u8;
        let next: &[u8] = match rng.below(10) {
            0 => &[0x57],
            1 => &[0x03],
            2 => &[0x15, v],
            3 => &[0x1A],
            4 => &[0x36, v],
            5 => &[0x2B, 0xC2],
            6 => &[0x19, v, 0xC3],
            7 => &[0x9A, high, low],
            8 => &[0xBB, 0, 9],
            _ => &[0x84, v, 1],
        };
        code.extend(next);
    }
    code.resize(length, 0xB1);
    code
}

/// Nops, with an instruction now and then, 256 in all; every other is a branch
/// back to the first one.
fn sparse() -> Vec<u8> {
    let mut code = vec![0; LONGEST];
    for i in 0..256 {
        let at = i * 250;
        match i % 2 == 1 && at < 0x7000 {
            true => {
                let [high, low] = (-(at as i64) as i16).to_be_bytes();
                code[at..at + 3].copy_from_slice(&[0x9A, high, low]);
            }
            false => code[at..at + 2].copy_from_slice(&[0x2A, 0xC2]),
        }
    }
    code
}

/// Nothing but branches, each as far as it gets.
fn branches() -> Vec<u8> {
    let branch = |at: usize| {
        let distance = match at < LONGEST / 2 {
            true => 0x7FFE,
            false => -0x7FFE,
        };
        let [high, low] = (distance as i16).to_be_bytes();
        [0x9A, high, low]
    };
    (0..LONGEST).step_by(3).flat_map(branch).collect()
}

/// 256 athrows that none of so many entries covers.
fn uncovered() -> Vec<u8> {
    attribute(&[0xBF; 256], &[[400, 500, 0, 0]; 4_096])
}

/// A line for each method.
pub fn print(rounds: usize) {
    println!(
        "{:<47} {:>6} {:>10} {:>12} {:>6}  {:<14} {:>8} {:>6}",
        "what", "bytes", "proved ns", "Rust ns", "ratio", "min .. max", "ns/byte", "MB/s"
    );
    let plain = |code: &[u8]| attribute(code, &[]);
    line(rounds, "take 32 bytes, all kinds", plain(&mixed(32)), 32);
    for kilobytes in [1, 4, 16] {
        let name = format!("take {kilobytes} KB, all kinds");
        let length = 1_024 * kilobytes;
        line(rounds, &name, plain(&mixed(length)), length);
    }
    let longest = [
        ("take the longest, all kinds", mixed(LONGEST)),
        ("take the longest, 256 among nops", sparse()),
        ("take the longest, pops", vec![0x57; LONGEST]),
        ("take the longest, branches", branches()),
    ];
    for (name, code) in longest {
        line(rounds, name, plain(&code), LONGEST);
    }
    line(rounds, "take 256 athrows, 4096 handlers", uncovered(), 256);
}

fn line(rounds: usize, name: &str, attribute: Vec<u8>, bytes: usize) {
    let mut outs = [[0; ROOM]; 2];
    let [ours, theirs] = &mut outs;
    let answer = proved::take(&attribute, &CLASSES, ours);
    assert_eq!(answer, take(&attribute, &CLASSES, theirs));
    assert_eq!(ours, theirs);
    let sides = [
        side(|a| u64::from(proved::take(a, &CLASSES, &mut [0; ROOM]).value)),
        side(|a| u64::from(take(a, &CLASSES, &mut [0; ROOM]).value)),
    ];
    let times = Times::measure(rounds, &[attribute], &sides);
    let (proved, ratio) = (times.of(0), times.ratio(0, 1));
    println!(
        "{:<47} {bytes:>6} {proved:>10.1} {:>12.1} {:>6.2}  {:<14} {:>8.1} {:>6.0}",
        format!("{name}: {}", told(answer.number)),
        times.of(1),
        ratio.middle,
        format!("{:.2} .. {:.2}", ratio.low, ratio.high),
        proved / bytes as f64,
        1_000.0 * bytes as f64 / proved
    );
}

fn told(number: u8) -> String {
    match number {
        0 => "taken".to_string(),
        number => format!("refused {number}"),
    }
}
