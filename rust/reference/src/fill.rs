//! The pairs worked out: the least that the verifier accepts, written into the
//! lent bundle.

use crate::bundle::{Addr, Bundle, Class, Verdict};
use crate::entries::{kind, Entry, Pair};
use crate::needs::{Asked, Needs};
use crate::paths::{is_met, least};
use crate::shape::{check_rows, shares_a_byte};
use crate::slips::{AsWritten, Law, Slip};

/// Fills in the least pairs. Verdict 0 names the class count; with 1 to 8, 23
/// and 22 the bundle stays as it was.
pub fn fill(b: &mut [u8]) -> Verdict {
    fill_by::<AsWritten>(b)
}

pub(crate) fn fill_by<L: Law>(b: &mut [u8]) -> Verdict {
    match work_out::<L>(b) {
        Ok(filled) => {
            b.copy_from_slice(&filled.bytes);
            filled.verdict
        }
        Err(verdict) => verdict,
    }
}

/// The bundle with the least pairs, stopped at their bounds: what `fill` leaves,
/// or where it answers 22, what comes nearest to it. None with the other refusals.
pub fn nearest(b: &[u8]) -> Option<Vec<u8>> {
    let bundle = Bundle::open_with_code(b).ok()?;
    check_rows::<AsWritten>(&bundle).ok()?;
    let shared = shares_a_byte::<AsWritten>(b, &bundle);
    (!shared).then(|| work_out_in::<AsWritten>(b, &bundle).bytes)
}

/// The bundle with its pairs, and whether the verifier accepts it.
struct Filled {
    bytes: Vec<u8>,
    verdict: Verdict,
}

const SHARED: Verdict = Verdict::new(23, 0, 0);
const NONE: Verdict = Verdict::new(22, 0, 0);

/// 1 to 8, then 23, then 22.
fn work_out<L: Law>(b: &[u8]) -> Result<Filled, Verdict> {
    let bundle = Bundle::open_with_code(b)?;
    let shared = match shares_a_byte::<L>(b, &bundle) {
        true => Err(SHARED),
        false => Ok(()),
    };
    if L::slips(Slip::SharedBeforeRows) {
        shared?;
    }
    check_rows::<L>(&bundle)?;
    if !L::slips(Slip::NoneBeforeShared) {
        shared?;
    }
    let filled = work_out_in::<L>(b, &bundle);
    if filled.verdict == NONE && !L::slips(Slip::RefusedIsFilled) {
        return Err(NONE);
    }
    shared?;
    Ok(filled)
}

fn work_out_in<L: Law>(b: &[u8], bundle: &Bundle) -> Filled {
    let mut filled = Filled {
        bytes: b.to_vec(),
        verdict: Verdict::new(0, bundle.count(), 0),
    };
    for (_, class) in bundle.classes() {
        let Needs {
            nodes,
            beyond_mending,
        } = Needs::of::<L>(bundle, class);
        let pairs = least::<L>(&nodes);
        if beyond_mending || !nodes.iter().all(|asked| is_met(asked, &pairs)) {
            filled.verdict = NONE;
        }
        filled.write::<L>(class, &nodes, &pairs);
    }
    filled
}

impl Filled {
    fn write<L: Law>(&mut self, class: &Class, nodes: &[Asked], pairs: &[Pair]) {
        for (asked, &pair) in nodes.iter().zip(pairs) {
            let at = class.entry_offset(Addr(asked.address), usize::from(asked.place));
            let pair = match L::slips(Slip::SumNotNegative) {
                true => Pair::new(pair.dip, pair.end.max(-pair.dip)),
                false => pair,
            };
            self.put(at, pair);
        }
        if L::slips(Slip::NullableIsWritten) {
            self.write_nullable(class);
        }
    }

    fn put(&mut self, entry: usize, pair: Pair) {
        let of = self.bytes[entry + 1];
        let [_, _, dip, end] = Entry::Ref { class: of, pair }.bytes();
        self.bytes[entry + 2..entry + 4].copy_from_slice(&[dip, end]);
    }

    fn write_nullable(&mut self, class: &Class) {
        for (address, row) in (1..).zip(class.raw_rows()) {
            let used = row.variables.iter().chain(&row.stack[..row.depth]);
            for (place, raw) in used.enumerate() {
                if raw[0] == kind::NULLABLE {
                    self.put(class.entry_offset(Addr(address), place), Pair::ZERO);
                }
            }
        }
    }
}
