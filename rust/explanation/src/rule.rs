//! Verdict 9: the rule of an address fails.

use crate::address::{Address, Broken};
use crate::{table, Explanation};
use hveitmar::Why;
use listing::Program;

pub fn explain(program: &Program, class: u8, number: u16) -> Explanation {
    let Some(address) = Address::read(program, class, number) else {
        // Such four bytes draw verdict 7 before any rule is asked.
        return table::explain(program, class, number);
    };
    let rule = format!(
        "At address {number} of class {class} stands {}. {}",
        address.instruction,
        address.law()
    );
    let (reached, found, why) = match address.broken() {
        None => (None, vec![], None),
        Some(Broken::Asked(asked)) => (asked.reached(), asked.told(number), Some(Why::Asked)),
        Some(Broken::Misfit(misfit)) => {
            let why = misfit.short.why();
            (Some(misfit.to), misfit.told(number), Some(why))
        }
    };
    let row = |name: String, at: u16| (name, address.method.row(at).to_string());
    let own = row(format!("row {number}"), number);
    let reached = reached.map(|to| row(format!("row {to} claims"), to));
    Explanation {
        rule,
        seen: [own].into_iter().chain(reached).collect(),
        found,
        why,
    }
}
