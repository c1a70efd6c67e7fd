//! What a step meets: the instruction, and the object whose count it would
//! move.

use crate::bundle::{Addr, Bundle, Instr};
use crate::machine::admit;
use crate::slips::{AsWritten, Law, Slip};
use crate::state::{State, Thread, Value, OBJECT_0};

/// What a step meets, whatever it answers.
#[derive(Clone, Copy, Debug, PartialEq, Eq)]
pub struct Met {
    pub instr: Instr,
    pub object: Option<u8>,
}

/// What a step of the thread meets; None where it would draw 17, 18 or 5.
pub fn met(b: &[u8], state: &State, thread: u8) -> Option<Met> {
    met_in(&Bundle::open_with_code(b).ok()?, state, thread)
}

/// The same for a bundle already opened.
pub fn met_in(bundle: &Bundle, state: &State, thread: u8) -> Option<Met> {
    met_by::<AsWritten>(bundle, state, thread)
}

pub(crate) fn met_by<L: Law>(bundle: &Bundle, state: &State, thread: u8) -> Option<Met> {
    let mover = &state.threads[admit::<L>(bundle, state, thread).ok()?];
    let instr = bundle.class(mover.class).instruction(Addr(mover.address));
    Some(Met {
        instr,
        object: object::<L>(bundle, mover, instr),
    })
}

/// What the variable of monitorenter or monitorexit refers to. Null is no
/// object, and no other instruction moves a count.
fn object<L: Law>(bundle: &Bundle, thread: &Thread, instr: Instr) -> Option<u8> {
    let value = match instr {
        Instr::Enter(v, _) | Instr::Exit(v) => thread.variable(v),
        Instr::Start(class) if L::slips(Slip::StartMeetsObject) => {
            let arguments = bundle.class(class).arguments.len();
            let place = usize::from(thread.depth).checked_sub(arguments + 1)?;
            thread.stack[place]
        }
        _ => return None,
    };
    match value {
        Value::Ref(object) => Some(object),
        Value::Null if L::slips(Slip::NullMeetsObject0) => Some(OBJECT_0),
        Value::Null | Value::Int(_) => None,
    }
}
