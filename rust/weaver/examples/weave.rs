//! A timing probe is woven into a method that holds a lock: once well, and once so
//! that the lock's release slips into one arm of the probe's `if`. The gate passes the
//! first and refuses the second, and says where the lock stays.

use explanation::explain_filling;
use hveitmar::Refusal;
use weaver::{Bundle, Class, GateRefusal, Instruction, Kind};
use Instruction::{If, MonitorEnter, MonitorExit, New, Push0, Return, Store};
use Kind::{Int, Reference, Top};

/// An instruction, and what variables and stack hold before it. Variable 0 is the
/// object whose lock is taken, variable 1 the probe's time.
type Line = (Instruction, [Kind; 2], &'static [Kind]);

const LOCK: Kind = Reference(0);

/// The method as it was compiled: a lock is taken and given back.
const METHOD: [Line; 5] = [
    (New(0, None), [Top, Top], &[]),
    (Store(0), [Top, Top], &[LOCK]),
    (MonitorEnter(0, None), [LOCK, Top], &[]),
    (MonitorExit(0), [LOCK, Top], &[]),
    (Return, [LOCK, Top], &[]),
];

/// The address of the release, before which the probe is woven in.
const RELEASE: usize = 4;

/// The probe asks whether time is kept, and notes it if so; `past` is where it goes on
/// if not.
fn probe(past: u16) -> [Line; 4] {
    [
        (Push0, [LOCK, Top], &[]),
        (If(past), [LOCK, Top], &[Int]),
        (Push0, [LOCK, Top], &[]),
        (Store(1), [LOCK, Top], &[Int]),
    ]
}

/// The method with the probe before its release. The probe is four instructions long,
/// and where time is not kept, it goes on at so many behind them.
fn woven(passed_over: u16) -> Bundle {
    let (before, behind) = METHOD.split_at(RELEASE - 1);
    let past = RELEASE as u16 + 4 + passed_over;
    let lines = [before, &probe(past), behind].concat();
    let add = |class: Class, (instruction, variables, stack): Line| {
        class.line(instruction, &variables, stack)
    };
    let method = lines.into_iter().fold(Class::new(), add);
    Bundle::new().class(method)
}

fn main() {
    for (what, passed_over) in [
        ("The release follows both arms", 0),
        ("The release is in one arm", 1),
    ] {
        let bundle = woven(passed_over);
        match bundle.finish() {
            Ok(bytes) => {
                let verdict = hveitmar::verify(&bytes);
                println!("{what}: {} bytes, {verdict}.\n", bytes.len());
            }
            Err(GateRefusal::Pairs) => {
                println!("{what}: {}.\n", GateRefusal::Pairs);
                print!("{}", explain_filling(&bundle.draft(), Refusal::Pairs));
            }
            Err(refusal) => println!("{what}: {refusal}."),
        }
    }
}
