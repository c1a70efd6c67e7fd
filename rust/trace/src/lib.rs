//! The program `hveitmar_trace`: its input and output, and its run.

mod format;
mod program;
mod turn;

pub use format::{
    decode_input, decode_output, decode_state, encode_input, encode_output, encode_state, follow,
    run, state_text, Input, Output, Step, BAD_INPUT, MAX_STEPS, STATE_BYTES,
};
pub use program::Program;
pub use turn::Turn;
