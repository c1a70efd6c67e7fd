//! Records that begin with the last bytes of others.
//!
//! A record often ends with zeros: unused stack entries, a depth of 0. A
//! record whose arguments and fields are of class 0 begins with zeros, and so
//! does a directory whose main record stands at 0.

use super::interface::Interface;
use super::typed;
use crate::builder::{Draft, Layout};
use crate::rng::Rng;

/// A well-typed bundle laid out as tightly as its bytes allow.
pub fn overlapping(rng: &mut Rng) -> Vec<u8> {
    let mut interface = Interface::any(rng);
    for signature in interface.signatures.iter_mut().skip(1) {
        let zeros = rng.between(1, 4);
        let kept = signature.len().min(16 - zeros);
        signature.truncate(kept);
        signature.splice(0..0, vec![0; zeros]);
    }
    for fields in &mut interface.fields {
        fields.fill(0);
    }
    let Draft { methods, exception } = typed::draft_of(rng, interface, None);
    let mut layout = Layout::throwing(exception);
    for method in &methods {
        layout.place_over(method);
    }
    match rng.chance(1, 2) {
        true => layout.finish_over(),
        false => layout.finish(),
    }
}
