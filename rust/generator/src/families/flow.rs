//! What flows where in a method: used to count how hard the inputs are.

use reference::bundle::{Addr, Class, Instr, Row};
use reference::entries::Entry;

/// Addresses of one method, by their index.
type Reach = [bool; 257];

/// Whether a method whose rows are well formed branches on a way that leads
/// from its start over a monitorenter to a monitorexit, while a reference in
/// the row still owes a lock that it may give back.
pub fn branches_under_lock(class: &Class) -> bool {
    let code = code_of(class);
    let at = |address: usize| code[address - 1];
    let from_start = reach(&code, &[1]);
    let enters = filtered(&from_start, |a| matches!(at(a), Instr::Enter(_, _)));
    let from_enter = reach(&code, &enters);
    filtered(&from_enter, |a| {
        is_branch(at(a), a) && owes(class.row(Addr(a as u16)))
    })
    .into_iter()
    .any(|a| {
        let beyond = reach(&code, &[a]);
        !filtered(&beyond, |x| matches!(at(x), Instr::Exit(_))).is_empty()
    })
}

/// The addresses that a thread may come to, if its values allow.
pub fn reached(class: &Class) -> Vec<Addr> {
    let reached = reach(&code_of(class), &[1]);
    filtered(&reached, |_| true)
        .into_iter()
        .map(|address| Addr(address as u16))
        .collect()
}

fn code_of(class: &Class) -> Vec<Instr> {
    (1..=class.code_length())
        .map(|address| class.instruction(Addr(address)))
        .collect()
}

/// An if whose two ways differ.
fn is_branch(instr: Instr, address: usize) -> bool {
    matches!(instr, Instr::If(target) if usize::from(target.0) != address + 1)
}

fn owes(row: Row) -> bool {
    row.variables.iter().chain(row.stack).any(
        |&raw| matches!(Entry::read(raw), Entry::Ref { pair, .. } if pair.dip > 0 && pair.end < 0),
    )
}

fn filtered(reach: &Reach, ok: impl Fn(usize) -> bool) -> Vec<usize> {
    (1..reach.len()).filter(|&a| reach[a] && ok(a)).collect()
}

/// All addresses that can follow those given, themselves among them.
fn reach(code: &[Instr], from: &[usize]) -> Reach {
    let mut seen = [false; 257];
    let mut left = from.to_vec();
    while let Some(address) = left.pop() {
        if !std::mem::replace(&mut seen[address], true) {
            left.extend(successors(code[address - 1], address));
        }
    }
    seen
}

fn successors(instr: Instr, address: usize) -> impl Iterator<Item = usize> {
    let next = instr.goes_on().then_some(address + 1);
    let other = instr.jump().map(|target| usize::from(target.0));
    next.into_iter().chain(other)
}
