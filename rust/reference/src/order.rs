//! A lock order by class: what a monitorenter asks where each class has a
//! level.
//!
//! "At monitorenter v, every other entry of the row that is a reference with a
//! negative end must be of a strictly higher level than v's class." Such an
//! entry owes a release, so its lock may be held while v's is taken.

use crate::bundle::{Addr, Class, Instr, Row, Var, MAX_CLASSES};
use crate::entries::{Entry, Raw};
use crate::slips::{AsWritten, Law, Slip};

/// A level for each class that there can be. Those of classes that a bundle
/// has not are never looked at.
#[derive(Clone, Copy, Debug, PartialEq, Eq)]
pub struct Levels(pub [u8; MAX_CLASSES]);

/// A place of a row: a variable, or an entry of the stack from the top.
#[derive(Clone, Copy, Debug, PartialEq, Eq)]
pub enum Place {
    Variable(usize),
    Stack(usize),
}

impl Place {
    /// By its number in a row: the variables, then the stack.
    pub fn numbered(number: usize, variables: usize) -> Place {
        match number.checked_sub(variables) {
            Some(index) => Place::Stack(index),
            None => Place::Variable(number),
        }
    }
}

/// A lock that is taken while another may be held, by the row.
#[derive(Clone, Copy, Debug, PartialEq, Eq)]
pub struct Nesting {
    /// The class of what monitorenter takes.
    pub taken: u8,
    /// The class of the entry that owes a release, and where it stands.
    pub held: u8,
    pub place: Place,
}

impl Levels {
    /// None where the list isn't eight bytes long.
    pub fn read(list: &[u8]) -> Option<Levels> {
        Levels::read_by::<AsWritten>(list)
    }

    pub(crate) fn read_by<L: Law>(list: &[u8]) -> Option<Levels> {
        match list {
            &[a, b, c, d, e, f, g] if L::slips(Slip::SevenLevelsTaken) => {
                Some(Levels([a, b, c, d, e, f, g, 0]))
            }
            _ => list.try_into().ok().map(Levels),
        }
    }

    pub fn of(&self, class: u8) -> u8 {
        self.0[usize::from(class)]
    }

    /// What is held is of a strictly higher level than what is taken.
    pub fn allow(&self, nesting: &Nesting) -> bool {
        self.allow_by::<AsWritten>(nesting)
    }

    pub(crate) fn allow_by<L: Law>(&self, nesting: &Nesting) -> bool {
        let (held, taken) = (self.of(nesting.held), self.of(nesting.taken));
        held > taken || L::slips(Slip::EqualLevelsAllowed) && held == taken
    }

    /// Whether all that the instruction there nests is allowed.
    pub(crate) fn allow_at<L: Law>(&self, class: &Class, address: Addr) -> bool {
        nestings_by::<L>(class, address).all(|nesting| self.allow_by::<L>(&nesting))
    }
}

/// What the instruction at this address nests, by a row that is well formed:
/// the variables ascending, then the stack from the top.
pub fn nestings<'a>(class: &Class<'a>, address: Addr) -> impl Iterator<Item = Nesting> + 'a {
    nestings_by::<AsWritten>(class, address)
}

pub(crate) fn nestings_by<'a, L: Law>(
    class: &Class<'a>,
    address: Addr,
) -> impl Iterator<Item = Nesting> + 'a {
    let row = class.row(address);
    let lock = lock::<L>(class.instruction(address), row);
    let all = lock.into_iter().flat_map(move |(v, taken)| {
        let own = Place::Variable(usize::from(v.0));
        entries::<L>(row)
            .filter(move |&(place, _)| place != own || L::slips(Slip::OwnPlaceOrdered))
            .filter_map(move |(place, raw)| {
                let held = owing::<L>(Entry::read(raw))?;
                Some(Nesting { taken, held, place })
            })
            .filter(|n| n.held != n.taken || !L::slips(Slip::OwnClassUnordered))
    });
    let looked_at = match L::slips(Slip::FirstHeldOrdered) {
        true => 1,
        false => usize::MAX,
    };
    all.take(looked_at)
}

/// The variable of a monitorenter and its class, whether it may be null or not.
fn lock<L: Law>(instr: Instr, row: Row) -> Option<(Var, u8)> {
    let v = match instr {
        Instr::Enter(v, _) => v,
        Instr::Exit(v) if L::slips(Slip::ExitOrdered) => v,
        _ => return None,
    };
    match Entry::read(row.variables[usize::from(v.0)]) {
        Entry::Nullable { .. } if L::slips(Slip::NullableUnordered) => None,
        Entry::Ref { class, .. } | Entry::Nullable { class } => Some((v, class)),
        Entry::Int | Entry::Top => None,
    }
}

/// Every entry of the row with its place; of the stack those in use.
fn entries<'a, L: Law>(row: Row<'a>) -> impl Iterator<Item = (Place, Raw)> + 'a {
    let stack = match L::slips(Slip::StackUnordered) {
        true => &[],
        false => row.stack,
    };
    let variables = row.variables.iter().enumerate();
    let variables = variables.map(|(v, &raw)| (Place::Variable(v), raw));
    let stack = stack.iter().enumerate();
    variables.chain(stack.map(|(i, &raw)| (Place::Stack(i), raw)))
}

/// The class of a reference with a negative end. One that may be null has no
/// end, and never counts.
fn owing<L: Law>(entry: Entry) -> Option<u8> {
    let highest = match L::SLIP {
        Some(Slip::EndZeroOrdered) => 0,
        Some(Slip::SingleDebtUnordered) => -2,
        _ => -1,
    };
    match entry {
        Entry::Ref { class, pair } if pair.end <= highest => Some(class),
        Entry::Nullable { class } if L::slips(Slip::NullableHeld) => Some(class),
        _ => None,
    }
}
