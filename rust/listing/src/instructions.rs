//! The instructions: names and forms in one list.

use std::fmt::{self, Display, Formatter};

/// What an instruction does; the number is its first byte.
#[derive(Clone, Copy, Debug, PartialEq, Eq)]
pub enum Opcode {
    Inc = 1,
    Pop,
    Push0,
    Load,
    Store,
    If,
    Enter,
    Exit,
    New,
    Start,
    Throw,
    Return,
    Getfield,
    Putfield,
}

/// What stands in the second byte.
#[derive(Clone, Copy, Debug, PartialEq, Eq)]
pub enum Operand {
    Zero,
    Variable,
    Class,
    /// A class's field: class × 4 + field.
    Field,
}

/// How many fields a class may have.
pub const MOST_FIELDS: u8 = 4;

/// What stands in the two bytes of the address field.
#[derive(Clone, Copy, Debug, PartialEq, Eq)]
pub enum AddressField {
    Zero,
    Target,
    Handler,
}

/// An instruction's name, and what may stand in its bytes.
#[derive(Clone, Copy, Debug, PartialEq, Eq)]
pub struct Form {
    pub opcode: Opcode,
    pub name: &'static str,
    pub operand: Operand,
    pub address: AddressField,
}

const fn form(opcode: Opcode, name: &'static str, operand: Operand, address: AddressField) -> Form {
    Form {
        opcode,
        name,
        operand,
        address,
    }
}

impl Form {
    /// Every instruction.
    pub const ALL: [Form; 14] = [
        form(Opcode::Inc, "inc", Operand::Zero, AddressField::Zero),
        form(Opcode::Pop, "pop", Operand::Zero, AddressField::Zero),
        form(Opcode::Push0, "push0", Operand::Zero, AddressField::Zero),
        form(Opcode::Load, "load", Operand::Variable, AddressField::Zero),
        form(
            Opcode::Store,
            "store",
            Operand::Variable,
            AddressField::Zero,
        ),
        form(Opcode::If, "if", Operand::Zero, AddressField::Target),
        form(
            Opcode::Enter,
            "monitorenter",
            Operand::Variable,
            AddressField::Handler,
        ),
        form(
            Opcode::Exit,
            "monitorexit",
            Operand::Variable,
            AddressField::Zero,
        ),
        form(Opcode::New, "new", Operand::Class, AddressField::Handler),
        form(Opcode::Start, "start", Operand::Class, AddressField::Zero),
        form(
            Opcode::Throw,
            "athrow",
            Operand::Zero,
            AddressField::Handler,
        ),
        form(Opcode::Return, "return", Operand::Zero, AddressField::Zero),
        form(
            Opcode::Getfield,
            "getfield",
            Operand::Field,
            AddressField::Handler,
        ),
        form(
            Opcode::Putfield,
            "putfield",
            Operand::Field,
            AddressField::Handler,
        ),
    ];

    /// Whether the code may end with it.
    pub fn ends_code(&self) -> bool {
        matches!(self.opcode, Opcode::Throw | Opcode::Return)
    }
}

/// Four bytes whose first is an opcode; the others may break the table.
#[derive(Clone, Copy, Debug, PartialEq, Eq)]
pub struct Instruction {
    pub form: Form,
    pub operand: u8,
    /// The target or the handler, or what else stands in its place.
    pub address: u16,
}

impl Instruction {
    /// None where no instruction has this first byte.
    pub fn read(bytes: [u8; 4]) -> Option<Instruction> {
        let [opcode, operand, high, low] = bytes;
        let form = Form::ALL.into_iter().find(|f| f.opcode as u8 == opcode)?;
        Some(Instruction {
            form,
            operand,
            address: u16::from_be_bytes([high, low]),
        })
    }

    /// The class and the field that an operand names, if it names a field.
    pub fn field(&self) -> (u8, u8) {
        (self.operand / MOST_FIELDS, self.operand % MOST_FIELDS)
    }
}

/// `if 8`, `load 0`, `new 1, handler 5`, `getfield C1.2`.
impl Display for Instruction {
    fn fmt(&self, to: &mut Formatter) -> fmt::Result {
        to.write_str(self.form.name)?;
        match self.form.operand {
            Operand::Zero => {}
            Operand::Variable | Operand::Class => write!(to, " {}", self.operand)?,
            Operand::Field => {
                let (class, field) = self.field();
                write!(to, " C{class}.{field}")?;
            }
        }
        match (self.form.address, self.address) {
            (AddressField::Zero, _) | (AddressField::Handler, 0) => Ok(()),
            (AddressField::Target, target) => write!(to, " {target}"),
            (AddressField::Handler, handler) => write!(to, ", handler {handler}"),
        }
    }
}
