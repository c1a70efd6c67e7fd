//! The verifier: every verdict in the document's order.

use crate::bundle::{Addr, Bundle, Class, RawRow};
use crate::entries::{well_formed, UNUSED};
use crate::order::Levels;
use crate::rules;
use crate::slips::{AsWritten, Law, Slip};

pub use crate::bundle::Verdict;

/// Judges a bundle. Verdict 0 names the class count and address 0.
pub fn verify(b: &[u8]) -> Verdict {
    verify_by::<AsWritten>(b)
}

pub(crate) fn verify_by<L: Law>(b: &[u8]) -> Verdict {
    told(judge::<L>(b, |_, _| true))
}

/// Judges a bundle under the profile of a list of levels: 26 when it isn't
/// eight bytes long, before all else; otherwise every verdict in its order,
/// with 25 after 9 at the same address.
pub fn verify_ordered(b: &[u8], levels: &[u8]) -> Verdict {
    verify_ordered_by::<AsWritten>(b, levels)
}

pub(crate) fn verify_ordered_by<L: Law>(b: &[u8], levels: &[u8]) -> Verdict {
    match Levels::read_by::<L>(levels) {
        Some(levels) => told(judge::<L>(b, |class, at| levels.allow_at::<L>(class, at))),
        None if L::slips(Slip::ListJudgedLast) && verify(b).number > 0 => verify(b),
        None => Verdict::new(26, 0, 0),
    }
}

fn told(judged: Result<Bundle<'_>, Verdict>) -> Verdict {
    match judged {
        Ok(bundle) => Verdict::new(0, bundle.count(), 0),
        Err(verdict) => verdict,
    }
}

/// The bundle, if its verdict is 0.
pub(crate) fn accept(b: &[u8]) -> Result<Bundle<'_>, Verdict> {
    judge::<AsWritten>(b, |_, _| true)
}

/// The bundle, or the first breach; `ordered` is what a profile asks of
/// an address beside its rule.
#[inline]
fn judge<L: Law>(b: &[u8], ordered: impl Fn(&Class, Addr) -> bool) -> Result<Bundle<'_>, Verdict> {
    let bundle = Bundle::open_with_code(b)?;
    check_rows(&bundle)?;
    if L::slips(Slip::OrderBehindRules) {
        check_rules::<L>(&bundle, |_, _| true)?;
    }
    check_rules::<L>(&bundle, ordered)?;
    Ok(bundle)
}

/// Verdict 8 over all classes and addresses.
fn check_rows(bundle: &Bundle) -> Result<(), Verdict> {
    for (number, class) in bundle.classes() {
        for (address, row) in (1..).zip(class.raw_rows()) {
            if !row_well_formed(row, bundle.count()) {
                return Err(Verdict::new(8, number, address));
            }
        }
    }
    Ok(())
}

fn row_well_formed(row: RawRow, classes: u8) -> bool {
    let Some((used, unused)) = row.stack.split_at_checked(row.depth) else {
        return false;
    };
    // The unused ones without an early end, so that many are compared at once.
    row.variables.iter().all(|&raw| well_formed(raw, classes))
        && used.iter().all(|&raw| well_formed(raw, classes))
        && unused.iter().fold(true, |all, &raw| all & (raw == UNUSED))
}

/// Class by class, verdict 10 and then, address by address, 9 and 25.
fn check_rules<L: Law>(
    bundle: &Bundle,
    ordered: impl Fn(&Class, Addr) -> bool,
) -> Result<(), Verdict> {
    for (number, class) in bundle.classes() {
        if !rules::first_row_holds(class) {
            return Err(Verdict::new(10, number, 0));
        }
        for address in 1..=class.code_length() {
            let order = || match ordered(class, Addr(address)) {
                true => Ok(()),
                false => Err(Verdict::new(25, number, address)),
            };
            if L::slips(Slip::OrderBeforeRule) {
                order()?;
            }
            rules::check::<L>(bundle, class, Addr(address))
                .map_err(|why| Verdict::new(9, number, address).because(why as u8))?;
            order()?;
        }
    }
    Ok(())
}
