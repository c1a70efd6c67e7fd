//! The fourteen instructions and the table they keep to.

use crate::entries::Raw;

/// An address, counted from 1.
#[derive(Clone, Copy, Debug, PartialEq, Eq)]
pub struct Addr(pub u16);

/// A variable number, counted from 0.
#[derive(Clone, Copy, Debug, PartialEq, Eq)]
pub struct Var(pub u8);

/// A field of a class, counted from 0.
#[derive(Clone, Copy, Debug, PartialEq, Eq)]
pub struct Field {
    pub class: u8,
    pub number: u8,
}

/// How many fields a class may have.
pub const MAX_FIELDS: usize = 4;

impl Field {
    fn read(operand: u8) -> Field {
        Field {
            class: operand / MAX_FIELDS as u8,
            number: operand % MAX_FIELDS as u8,
        }
    }

    /// Class and field in one byte.
    pub fn operand(self) -> u8 {
        self.class * MAX_FIELDS as u8 + self.number
    }
}

/// An instruction that keeps to the table.
#[derive(Clone, Copy, Debug, PartialEq, Eq)]
pub enum Instr {
    Inc,
    Pop,
    Push0,
    Load(Var),
    Store(Var),
    If(Addr),
    Enter(Var, Option<Addr>),
    Exit(Var),
    New(u8, Option<Addr>),
    Start(u8),
    Athrow(Option<Addr>),
    Return,
    Getfield(Field, Option<Addr>),
    Putfield(Field, Option<Addr>),
}

/// What the table says of an operand: 0, a variable, a class, or a class's
/// field.
#[derive(Clone, Copy)]
enum Operand {
    Zero,
    Variable,
    Class,
    Field,
}

/// What the table says of an address field: 0, 1..k, or 0..k.
#[derive(Clone, Copy)]
enum AddressField {
    Zero,
    Target,
    Handler,
}

/// One instruction's line of the table.
struct Line {
    name: &'static str,
    operand: Operand,
    address: AddressField,
}

const fn line(name: &'static str, operand: Operand, address: AddressField) -> Line {
    Line {
        name,
        operand,
        address,
    }
}

/// The table, by opcode from 1.
const TABLE: [Line; 14] = [
    line("inc", Operand::Zero, AddressField::Zero),
    line("pop", Operand::Zero, AddressField::Zero),
    line("push0", Operand::Zero, AddressField::Zero),
    line("load", Operand::Variable, AddressField::Zero),
    line("store", Operand::Variable, AddressField::Zero),
    line("if", Operand::Zero, AddressField::Target),
    line("monitorenter", Operand::Variable, AddressField::Handler),
    line("monitorexit", Operand::Variable, AddressField::Zero),
    line("new", Operand::Class, AddressField::Handler),
    line("start", Operand::Class, AddressField::Zero),
    line("athrow", Operand::Zero, AddressField::Handler),
    line("return", Operand::Zero, AddressField::Zero),
    line("getfield", Operand::Field, AddressField::Handler),
    line("putfield", Operand::Field, AddressField::Handler),
];

fn line_of(opcode: u8) -> Option<&'static Line> {
    TABLE.get(usize::from(opcode).wrapping_sub(1))
}

/// Whether instructions of this opcode have a target or may have a handler.
pub fn names_address(opcode: u8) -> bool {
    line_of(opcode).is_some_and(|line| !matches!(line.address, AddressField::Zero))
}

/// What operands and address fields of one class's code stay within, by the
/// kinds of the table.
#[derive(Clone, Copy, Debug)]
pub struct Bounds {
    /// A bit for each operand that may stand; none is above 31.
    operands: [u32; 4],
    lowest: [u16; 3],
    highest: [u16; 3],
}

impl Bounds {
    /// `fields` has a bit for each operand that names a field of the bundle.
    pub fn new(variables: usize, classes: u8, fields: u32, code_length: u16) -> Bounds {
        let below = |count: usize| (1 << count) - 1;
        Bounds {
            operands: [1, below(variables), below(usize::from(classes)), fields],
            lowest: [0, 1, 0],
            highest: [0, code_length, code_length],
        }
    }

    /// Whether four bytes keep to the table.
    pub fn allow(&self, raw: Raw) -> bool {
        let [opcode, operand, high, low] = raw;
        let Some(line) = line_of(opcode) else {
            return false;
        };
        let (kind, field) = (line.operand as usize, line.address as usize);
        let address = u16::from_be_bytes([high, low]);
        operand < 32
            && self.operands[kind] >> operand & 1 == 1
            && address >= self.lowest[field]
            && address <= self.highest[field]
    }
}

/// Whether it is athrow or return, which alone may stand at address k.
pub fn ends_path(raw: Raw) -> bool {
    matches!(raw[0], 11 | 12)
}

impl Instr {
    /// By opcode from 1.
    pub const NAMES: [&'static str; TABLE.len()] = {
        let mut names = [""; TABLE.len()];
        let mut index = 0;
        while index < TABLE.len() {
            names[index] = TABLE[index].name;
            index += 1;
        }
        names
    };

    pub fn opcode(self) -> u8 {
        self.bytes()[0]
    }

    /// Reads four bytes that keep to the table; inlined with what acts on them.
    #[inline(always)]
    pub fn read(raw: Raw) -> Instr {
        let [opcode, operand, high, low] = raw;
        let address = u16::from_be_bytes([high, low]);
        let handler = (address != 0).then_some(Addr(address));
        match opcode {
            1 => Instr::Inc,
            2 => Instr::Pop,
            3 => Instr::Push0,
            4 => Instr::Load(Var(operand)),
            5 => Instr::Store(Var(operand)),
            6 => Instr::If(Addr(address)),
            7 => Instr::Enter(Var(operand), handler),
            8 => Instr::Exit(Var(operand)),
            9 => Instr::New(operand, handler),
            10 => Instr::Start(operand),
            11 => Instr::Athrow(handler),
            12 => Instr::Return,
            13 => Instr::Getfield(Field::read(operand), handler),
            _ => Instr::Putfield(Field::read(operand), handler),
        }
    }

    /// The instruction as it stands in a record.
    pub fn bytes(self) -> Raw {
        let target = |address: Option<Addr>| address.map_or(0, |a| a.0);
        let (opcode, operand, address) = match self {
            Instr::Inc => (1, 0, 0),
            Instr::Pop => (2, 0, 0),
            Instr::Push0 => (3, 0, 0),
            Instr::Load(v) => (4, v.0, 0),
            Instr::Store(v) => (5, v.0, 0),
            Instr::If(a) => (6, 0, a.0),
            Instr::Enter(v, handler) => (7, v.0, target(handler)),
            Instr::Exit(v) => (8, v.0, 0),
            Instr::New(class, handler) => (9, class, target(handler)),
            Instr::Start(class) => (10, class, 0),
            Instr::Athrow(handler) => (11, 0, target(handler)),
            Instr::Return => (12, 0, 0),
            Instr::Getfield(field, handler) => (13, field.operand(), target(handler)),
            Instr::Putfield(field, handler) => (14, field.operand(), target(handler)),
        };
        let [high, low] = u16::to_be_bytes(address);
        [opcode, operand, high, low]
    }

    /// Whether the next address may follow.
    pub fn goes_on(self) -> bool {
        !matches!(self, Instr::Athrow(_) | Instr::Return)
    }

    /// Where else it may lead: its target or its handler.
    pub fn jump(self) -> Option<Addr> {
        match self {
            Instr::If(target) => Some(target),
            Instr::Enter(_, handler)
            | Instr::New(_, handler)
            | Instr::Athrow(handler)
            | Instr::Getfield(_, handler)
            | Instr::Putfield(_, handler) => handler,
            _ => None,
        }
    }

    /// The same instruction with another target or handler, if it has one.
    pub fn aimed(self, at: Addr) -> Instr {
        match self {
            Instr::If(_) => Instr::If(at),
            Instr::Enter(v, Some(_)) => Instr::Enter(v, Some(at)),
            Instr::New(class, Some(_)) => Instr::New(class, Some(at)),
            Instr::Athrow(Some(_)) => Instr::Athrow(Some(at)),
            Instr::Getfield(field, Some(_)) => Instr::Getfield(field, Some(at)),
            Instr::Putfield(field, Some(_)) => Instr::Putfield(field, Some(at)),
            other => other,
        }
    }
}
