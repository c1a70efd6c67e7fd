//! One class's method.

use crate::bytes::{byte, four, hex};
use crate::columns::columns;
use crate::entries::{Entry, INT_DESCRIPTOR};
use crate::instructions::Instruction;
use crate::places::Head;
use crate::rows::Row;
use std::fmt::{self, Display, Formatter};

/// A method, read where it stands in its bundle.
#[derive(Clone, Copy, Debug)]
pub struct Method<'a> {
    pub(crate) bytes: &'a [u8],
    /// How many classes the bundle has.
    pub(crate) classes: u8,
    pub class: u8,
    pub head: Head,
}

impl Method<'_> {
    /// The bundle that it stands in.
    pub fn bundle(&self) -> &[u8] {
        self.bytes
    }

    /// The descriptors of its arguments.
    pub fn arguments(&self) -> Vec<u8> {
        (0..self.head.arguments)
            .map(|argument| byte(self.bytes, self.head.argument(argument)))
            .collect()
    }

    /// The descriptors of its class's fields.
    pub fn fields(&self) -> Vec<u8> {
        (0..self.head.fields)
            .map(|field| byte(self.bytes, self.head.field(field)))
            .collect()
    }

    /// Its addresses, 1 to k.
    pub fn addresses(&self) -> impl Iterator<Item = u16> {
        1..=self.head.code
    }

    pub fn instruction_bytes(&self, address: u16) -> [u8; 4] {
        four(self.bytes, self.head.instruction(address))
    }

    pub fn instruction(&self, address: u16) -> Option<Instruction> {
        Instruction::read(self.instruction_bytes(address))
    }

    pub fn row(&self, address: u16) -> Row {
        let entry = |at| Entry::read(four(self.bytes, at), self.classes);
        let Head {
            variables, stack, ..
        } = self.head;
        Row {
            variables: (0..variables)
                .map(|v| entry(self.head.variable(address, v)))
                .collect(),
            depth: byte(self.bytes, self.head.depth(address)),
            places: (0..stack)
                .map(|i| entry(self.head.stack_entry(address, i)))
                .collect(),
        }
    }

    /// `class 1: arguments Int C0, fields C1, variables 2, stack 4`; a class
    /// without fields says nothing of them.
    fn heading(&self) -> String {
        let arguments = match self.head.arguments {
            0 => "none".to_string(),
            _ => descriptors(self.arguments()),
        };
        let fields = match self.head.fields {
            0 => String::new(),
            _ => format!(", fields {}", descriptors(self.fields())),
        };
        let Head {
            variables, stack, ..
        } = self.head;
        let class = self.class;
        format!(
            "class {class}: arguments {arguments}{fields}, variables {variables}, stack {stack}"
        )
    }

    /// The instruction, or the bytes that are none.
    fn instruction_text(&self, address: u16) -> String {
        match self.instruction(address) {
            Some(instruction) => instruction.to_string(),
            None => format!("none[{}]", hex(&self.instruction_bytes(address))),
        }
    }
}

fn descriptors(bytes: Vec<u8>) -> String {
    let words: Vec<String> = bytes.into_iter().map(descriptor).collect();
    words.join(" ")
}

fn descriptor(byte: u8) -> String {
    match byte {
        INT_DESCRIPTOR => "Int".to_string(),
        class => format!("C{class}"),
    }
}

/// The method's heading, then a line for each address: the instruction, and
/// beside it its row.
impl Display for Method<'_> {
    fn fmt(&self, to: &mut Formatter) -> fmt::Result {
        let digits = self.head.code.to_string().len();
        let lines: Vec<Vec<String>> = self
            .addresses()
            .map(|address| {
                let row = self.row(address);
                vec![
                    format!("  {address:>digits$}"),
                    self.instruction_text(address),
                    row.variables_text(),
                    format!("| {}", row.stack_text()),
                ]
            })
            .collect();
        writeln!(to, "{}", self.heading())?;
        to.write_str(&columns(&lines))
    }
}
