//! The rules at each address: row 1 (verdict 10) and the instructions (9).
//!
//! Rows here are well formed already. A rule first asks for all that gives
//! why 0: depths, kinds named in row l, what may go. Then it compares entries
//! in the order that decides which misfit is told: row l+1 before another
//! row, in each the variables ascending, then the stack from the top.

use crate::bundle::{Addr, Bundle, Class, Field, Instr, Row, Var, INT};
use crate::entries::{all_fit, all_may_go, ask, Entry, Outcome, Pair, Raw, Why, MAX_WEIGHT};
use crate::known::Known;
use crate::slips::{Law, Slip};
use crate::throws::Throw;

/// Row 1: depth 0, arguments fit their variables, the others are exactly Top.
pub fn first_row_holds(class: &Class) -> bool {
    let row = class.row(Addr(1));
    let (given, others) = row.variables.split_known(class.arguments.len());
    let arguments_fit = class
        .arguments
        .iter()
        .zip(given)
        .all(|(&descriptor, &raw)| argument(descriptor).fits(Entry::read(raw)));
    row.stack.is_empty()
        && arguments_fit
        && others.iter().all(|&raw| Entry::read(raw) == Entry::Top)
}

fn argument(descriptor: u8) -> Entry {
    match descriptor {
        INT => Entry::Int,
        class => Entry::fresh(class),
    }
}

/// The rule of the instruction at `address`.
pub fn check<L: Law>(bundle: &Bundle, class: &Class, address: Addr) -> Outcome {
    let row = class.row(address);
    // Only athrow and return may stand at address k; they look at no next row.
    let next = || class.row(Addr(address.0 + 1));
    let at = |handler: Option<Addr>| handler.map(|address| class.row(address));
    let by_null = |handler| Throw::by_null::<L>(row, at(handler), bundle.exception());
    match class.instruction(address) {
        Instr::Inc => inc::<L>(row, next()),
        Instr::Pop => pop::<L>(row, next()),
        Instr::Push0 => push0::<L>(row, next()),
        Instr::Load(v) => load::<L>(row, next(), v),
        Instr::Store(v) => store::<L>(row, next(), v),
        Instr::If(target) => branch::<L>(row, next(), class.row(target)),
        Instr::Enter(v, handler) => enter::<L>(row, next(), v, by_null(handler)),
        Instr::Exit(v) => exit::<L>(row, next(), v),
        Instr::New(c, handler) => {
            let failed = Throw::by_new::<L>(row, at(handler), bundle.exception());
            new::<L>(row, next(), c, failed)
        }
        Instr::Start(c) => start::<L>(row, next(), c, bundle.class(c).arguments),
        Instr::Athrow(handler) => {
            let throw = Throw::by_athrow::<L>(row, at(handler), bundle.exception())?;
            throw.asks::<L>()?;
            throw.fits::<L>()
        }
        Instr::Return => ends::<L>(row),
        Instr::Getfield(field, handler) => {
            let pushed = gotten::<L>(bundle.descriptor(field));
            getfield::<L>(row, next(), field, pushed, by_null(handler))
        }
        Instr::Putfield(field, handler) => {
            let descriptor = bundle.descriptor(field);
            putfield::<L>(row, next(), field, descriptor, by_null(handler))
        }
    }
}

/// The stacks of row l and of a row it goes to: `T` entries are taken, `G`
/// are given, and the rest stays. Depths come out exact.
struct Stacks<'a, const T: usize, const G: usize> {
    taken: [Entry; T],
    given: [Entry; G],
    rest: &'a [Raw],
    next_rest: &'a [Raw],
}

impl<'a, const T: usize, const G: usize> Stacks<'a, T, G> {
    fn split(row: Row<'a>, next: Row<'a>) -> Result<Stacks<'a, T, G>, Why> {
        let (taken, rest) = row.stack.split_first_chunk().ok_or(Why::Asked)?;
        let (given, next_rest) = next.stack.split_first_chunk().ok_or(Why::Asked)?;
        ask(rest.len() == next_rest.len())?;
        Ok(Stacks {
            taken: taken.map(Entry::read),
            given: given.map(Entry::read),
            rest,
            next_rest,
        })
    }

    fn rest_fits<L: Law>(&self) -> Outcome {
        all_fit::<L>(self.rest, self.next_rest)
    }
}

fn variables_fit<L: Law>(row: Row, next: Row) -> Outcome {
    all_fit::<L>(row.variables, next.variables)
}

/// The variables in their order, `v` by a comparison of its own.
fn variables_fit_but<L: Law>(row: Row, next: Row, v: Var, own: Outcome) -> Outcome {
    let at = usize::from(v.0);
    all_fit::<L>(row.variables.known(..at), next.variables.known(..at))?;
    own?;
    let (rest, next_rest) = (
        row.variables.known(at + 1..),
        next.variables.known(at + 1..),
    );
    all_fit::<L>(rest, next_rest)
}

fn entry_at(row: Row, v: Var) -> Entry {
    Entry::read(*row.variables.known(usize::from(v.0)))
}

fn inc<L: Law>(row: Row, next: Row) -> Outcome {
    let stacks = Stacks::<1, 1>::split(row, next)?;
    ask(stacks.taken == [Entry::Int])?;
    variables_fit::<L>(row, next)?;
    Entry::Int.compare::<L>(stacks.given[0])?;
    stacks.rest_fits::<L>()
}

fn pop<L: Law>(row: Row, next: Row) -> Outcome {
    let stacks = Stacks::<1, 0>::split(row, next)?;
    ask(stacks.taken[0].may_go::<L>())?;
    variables_fit::<L>(row, next)?;
    stacks.rest_fits::<L>()
}

fn push0<L: Law>(row: Row, next: Row) -> Outcome {
    pushes::<L>(Entry::Int, row, next, Stacks::split(row, next)?)
}

/// `entry` fits the new top, the rest fits: push0, and new that succeeds.
fn pushes<L: Law>(entry: Entry, row: Row, next: Row, stacks: Stacks<0, 1>) -> Outcome {
    variables_fit::<L>(row, next)?;
    entry.compare::<L>(stacks.given[0])?;
    stacks.rest_fits::<L>()
}

fn load<L: Law>(row: Row, next: Row, v: Var) -> Outcome {
    let stacks = Stacks::<0, 1>::split(row, next)?;
    let (kept, given) = (entry_at(next, v), stacks.given[0]);
    match entry_at(row, v) {
        // Both places are compared at once, at v.
        Entry::Ref { class, pair } => {
            variables_fit_but::<L>(row, next, v, shares::<L>(class, pair, kept, given))?;
        }
        plain => {
            variables_fit_but::<L>(row, next, v, plain.compare::<L>(kept))?;
            plain.compare::<L>(given)?;
        }
    }
    stacks.rest_fits::<L>()
}

/// One reference becomes two: its pair is shared out between them.
fn shares<L: Law>(class: u8, pair: Pair, kept: Entry, given: Entry) -> Outcome {
    let (kept, given) = (kept.weight_after(class)?, given.weight_after(class)?);
    let copies = |entry: Pair| L::slips(Slip::LoadCopiesPair) && pair.covers(entry).is_ok();
    if copies(kept) && copies(given) {
        return Ok(());
    }
    pair.covers(kept.plus(given))
}

fn store<L: Law>(row: Row, next: Row, v: Var) -> Outcome {
    let stacks = Stacks::<1, 0>::split(row, next)?;
    ask(L::slips(Slip::StoreKeepsOld) || entry_at(row, v).may_go::<L>())?;
    let stored = stacks.taken[0].compare::<L>(entry_at(next, v));
    variables_fit_but::<L>(row, next, v, stored)?;
    stacks.rest_fits::<L>()
}

fn branch<L: Law>(row: Row, next: Row, target: Row) -> Outcome {
    let target = match L::slips(Slip::IfChecksFallThroughOnly) {
        true => next,
        false => target,
    };
    let falls = Stacks::<1, 0>::split(row, next)?;
    let jumps = Stacks::<1, 0>::split(row, target)?;
    ask(falls.taken == [Entry::Int])?;
    variables_fit::<L>(row, next)?;
    falls.rest_fits::<L>()?;
    variables_fit::<L>(row, target)?;
    jumps.rest_fits::<L>()
}

/// On a reference that may be null, the pair is (0,0) and null is thrown.
fn enter<L: Law>(row: Row, next: Row, v: Var, null: Throw) -> Outcome {
    match entry_at(row, v) {
        Entry::Ref { class, pair } => lock::<L>(row, next, v, class, pair.entered()),
        Entry::Nullable { class } => {
            null.asks::<L>()?;
            lock::<L>(row, next, v, class, entered_from_null::<L>())?;
            null.fits::<L>()
        }
        Entry::Int | Entry::Top => Err(Why::Asked),
    }
}

fn exit<L: Law>(row: Row, next: Row, v: Var) -> Outcome {
    match entry_at(row, v) {
        Entry::Ref { class, pair } => lock::<L>(row, next, v, class, exited::<L>(pair)),
        _ => Err(Why::Asked),
    }
}

/// monitorenter and monitorexit of a reference: its `moved` pair is compared
/// with its class, or with what weighs (0,0) here.
fn lock<L: Law>(row: Row, next: Row, v: Var, class: u8, moved: Pair) -> Outcome {
    let stacks = Stacks::<0, 0>::split(row, next)?;
    let after = entry_at(next, v).weight_after(class);
    let own = after.and_then(|weight| moved.covers(weight));
    variables_fit_but::<L>(row, next, v, own)?;
    stacks.rest_fits::<L>()
}

fn entered_from_null<L: Law>() -> Pair {
    match L::slips(Slip::EnteredFromNullIsFree) {
        true => Pair::ZERO,
        false => Pair::ZERO.entered(),
    }
}

fn exited<L: Law>(pair: Pair) -> Pair {
    let exited = pair.exited();
    match L::slips(Slip::ExitIgnoresDip) {
        true => Pair::new(MAX_WEIGHT, exited.end),
        false => exited,
    }
}

fn start<L: Law>(row: Row, next: Row, class: u8, descriptors: &[u8]) -> Outcome {
    let split = row.stack.split_at_checked(descriptors.len() + 1);
    let (taken, rest) = split.ok_or(Why::Asked)?;
    // The object stands below the arguments, so its class closes the list.
    let wanted = descriptors.iter().copied().chain([class]);
    let mut pairs = taken.iter().zip(wanted);
    ask(rest.len() == next.stack.len())?;
    ask(pairs.all(|(&raw, descriptor)| matches::<L>(Entry::read(raw), descriptor)))?;
    ask(all_may_go::<L>(taken))?;
    variables_fit::<L>(row, next)?;
    all_fit::<L>(rest, next.stack)
}

/// Int for the descriptor FF, else a reference of that class, not null.
fn matches<L: Law>(entry: Entry, descriptor: u8) -> bool {
    match descriptor {
        INT => entry == Entry::Int,
        class => entry.is_of(class) || L::slips(Slip::StartOfNull) && entry.may_be_of(class),
    }
}

fn new<L: Law>(row: Row, next: Row, class: u8, failed: Throw) -> Outcome {
    let stacks = Stacks::split(row, next)?;
    failed.asks::<L>()?;
    pushes::<L>(Entry::fresh(class), row, next, stacks)?;
    failed.fits::<L>()
}

/// return: every entry, variables and stack, may go.
fn ends<L: Law>(row: Row) -> Outcome {
    ask(all_may_go::<L>(row.variables) && all_may_go::<L>(row.stack))
}

/// What getfield pushes for this descriptor.
fn gotten<L: Law>(descriptor: u8) -> Entry {
    match Entry::held(descriptor) {
        Entry::Nullable { class } if L::slips(Slip::GetfieldPushesReference) => Entry::fresh(class),
        held => held,
    }
}

/// The owner makes way for what its field holds.
fn getfield<L: Law>(row: Row, next: Row, field: Field, pushed: Entry, null: Throw) -> Outcome {
    let stacks = Stacks::<1, 1>::split(row, next)?;
    let [owner] = stacks.taken;
    let null = asks_owner::<L>(owner, field.class, null)?;
    variables_fit::<L>(row, next)?;
    pushed.compare::<L>(stacks.given[0])?;
    stacks.rest_fits::<L>()?;
    null.map_or(Ok(()), |throw| throw.fits::<L>())
}

/// Value and owner go.
fn putfield<L: Law>(row: Row, next: Row, field: Field, descriptor: u8, null: Throw) -> Outcome {
    let stacks = Stacks::<2, 0>::split(row, next)?;
    let [value, owner] = stacks.taken;
    ask(value_matches::<L>(value, descriptor))?;
    ask(value.may_go::<L>() || L::slips(Slip::PutfieldDropsValue))?;
    let null = asks_owner::<L>(owner, field.class, null)?;
    variables_fit::<L>(row, next)?;
    stacks.rest_fits::<L>()?;
    null.map_or(Ok(()), |throw| throw.fits::<L>())
}

/// The owner is of the field's class and may go. Where it may be null, the
/// throw is asked for too, and given back.
fn asks_owner<'a, L: Law>(
    owner: Entry,
    class: u8,
    null: Throw<'a>,
) -> Result<Option<Throw<'a>>, Why> {
    ask(owner.may_be_of(class) || L::slips(Slip::OwnerOfAnyClass) && is_reference(owner))?;
    ask(owner.may_go::<L>() || L::slips(Slip::FieldDropsOwner))?;
    match owner {
        Entry::Nullable { .. } => {
            null.asks::<L>()?;
            Ok(Some(null))
        }
        _ => Ok(None),
    }
}

/// Exactly Int for the descriptor FF, else null or a reference of that class.
fn value_matches<L: Law>(value: Entry, descriptor: u8) -> bool {
    match descriptor {
        INT => value == Entry::Int || L::slips(Slip::PutfieldOfTop) && value == Entry::Top,
        class => {
            value.may_be_of(class) || L::slips(Slip::PutfieldOfAnyClass) && is_reference(value)
        }
    }
}

fn is_reference(entry: Entry) -> bool {
    matches!(entry, Entry::Ref { .. } | Entry::Nullable { .. })
}
