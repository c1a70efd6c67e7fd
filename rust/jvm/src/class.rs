//! The class that is run: each method with a probe after each instruction.

use crate::code::Code;
use crate::constants::Constants;
use crate::method::{Method, THING, THROWABLE};

/// Flags of the class and of its methods: ACC_SUPER; ACC_STATIC.
const CLASS: u16 = 0x0020;
const STATIC: u16 = 0x0008;

/// Java 5: the last version without a table of stack maps.
const VERSION: [u8; 8] = [0xCA, 0xFE, 0xBA, 0xBE, 0, 0, 0, 49];

/// The indices of the probe's methods.
#[derive(Clone, Copy)]
pub struct Probe {
    pub at: u16,
    pub integer: u16,
    pub reference: u16,
    pub bar: u16,
    pub end: u16,
}

/// The class file.
pub fn class(methods: &[Method]) -> Vec<u8> {
    let mut constants = Constants::default();
    assert_eq!(constants.class("Probe$Thing"), THING);
    assert_eq!(constants.class("Probe$Thrown"), THROWABLE);
    let (this, object) = (
        constants.class("Taken"),
        constants.class("java/lang/Object"),
    );
    let class = constants.class("Probe");
    let probe = Probe {
        at: constants.method(class, "at", "(I)V"),
        integer: constants.method(class, "integer", "(I)V"),
        reference: constants.method(class, "reference", "(Ljava/lang/Object;)V"),
        bar: constants.method(class, "bar", "()V"),
        end: constants.method(class, "end", "()V"),
    };
    let code = constants.text("Code");
    let descriptor = constants.text(&format!("(III{})V", "Ljava/lang/Object;".repeat(4)));
    let mut members = vec![];
    for (number, method) in methods.iter().enumerate() {
        let name = constants.text(&format!("m{number}"));
        members.extend(
            [STATIC, name, descriptor, 1, code]
                .map(u16::to_be_bytes)
                .concat(),
        );
        let inside = Code::of(method, probe).inside();
        members.extend((inside.len() as u32).to_be_bytes());
        members.extend(inside);
    }
    let before = [CLASS, this, object, 0, 0, methods.len() as u16].map(u16::to_be_bytes);
    [
        &VERSION,
        &constants.written()[..],
        &before.concat(),
        &members,
        &[0, 0],
    ]
    .concat()
}
