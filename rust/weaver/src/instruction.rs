//! Instructions, and the four bytes that they are.

/// An instruction. Addresses count from 1, variables and fields from 0; where
/// something may be thrown, the last number is the handler's address.
///
/// ```
/// use weaver::Instruction;
///
/// assert_eq!(Instruction::If(258).bytes(), [6, 0, 1, 2]);
/// assert_eq!(Instruction::New(3, Some(9)).bytes(), [9, 3, 0, 9]);
/// assert_eq!(Instruction::GetField(1, 2, None).bytes(), [13, 6, 0, 0]);
/// ```
#[derive(Clone, Copy, Debug, PartialEq, Eq)]
pub enum Instruction {
    /// Adds one to the integer on the stack.
    Inc,
    /// Drops the top of the stack.
    Pop,
    /// Pushes the integer 0.
    Push0,
    /// Pushes what this variable holds.
    Load(u8),
    /// Puts the top of the stack into this variable.
    Store(u8),
    /// Goes on at this address where the integer on the stack is not 0.
    If(u16),
    /// Takes the lock of the object in this variable.
    MonitorEnter(u8, Option<u16>),
    /// Gives the lock of the object in this variable back.
    MonitorExit(u8),
    /// Pushes a new object of this class.
    New(u8, Option<u16>),
    /// Starts a thread of this class with its arguments and its object.
    Start(u8),
    /// Throws the object on the stack.
    Athrow(Option<u16>),
    /// Ends the thread.
    Return,
    /// Pushes what this class's field, by its number, holds in the object on the stack.
    GetField(u8, u8, Option<u16>),
    /// Puts the top of the stack into the field of the object below it.
    PutField(u8, u8, Option<u16>),
}

impl Instruction {
    /// Opcode, operand, and the address field with its high byte first.
    pub fn bytes(self) -> [u8; 4] {
        let (opcode, operand, address) = match self {
            Instruction::Inc => (1, 0, None),
            Instruction::Pop => (2, 0, None),
            Instruction::Push0 => (3, 0, None),
            Instruction::Load(variable) => (4, variable, None),
            Instruction::Store(variable) => (5, variable, None),
            Instruction::If(target) => (6, 0, Some(target)),
            Instruction::MonitorEnter(variable, handler) => (7, variable, handler),
            Instruction::MonitorExit(variable) => (8, variable, None),
            Instruction::New(class, handler) => (9, class, handler),
            Instruction::Start(class) => (10, class, None),
            Instruction::Athrow(handler) => (11, 0, handler),
            Instruction::Return => (12, 0, None),
            Instruction::GetField(class, field, handler) => (13, of_field(class, field), handler),
            Instruction::PutField(class, field, handler) => (14, of_field(class, field), handler),
        };
        let [high, low] = address.unwrap_or(0).to_be_bytes();
        [opcode, operand, high, low]
    }
}

/// Class and field in one byte; what is too large for it is no field of any bundle,
/// and neither is 255.
fn of_field(class: u8, field: u8) -> u8 {
    match (class, field) {
        (0..=63, 0..=3) => 4 * class + field,
        _ => 255,
    }
}

#[cfg(test)]
mod tests {
    use super::Instruction::*;

    #[test]
    fn opcodes_in_their_order() {
        let all = [
            Inc,
            Pop,
            Push0,
            Load(5),
            Store(5),
            If(5),
            MonitorEnter(5, None),
            MonitorExit(5),
            New(5, None),
            Start(5),
            Athrow(None),
            Return,
            GetField(5, 0, None),
            PutField(5, 0, None),
        ];
        let operands = [0, 0, 0, 5, 5, 0, 5, 5, 5, 5, 0, 0, 20, 20];
        for ((opcode, instruction), operand) in (1..).zip(all).zip(operands) {
            let target = if opcode == 6 { 5 } else { 0 };
            assert_eq!(instruction.bytes(), [opcode, operand, 0, target]);
        }
    }

    #[test]
    fn fields_that_no_operand_names() {
        for (class, field) in [(0, 4), (64, 0), (255, 255)] {
            assert_eq!(GetField(class, field, None).bytes()[1], 255);
        }
        assert_eq!(PutField(63, 3, Some(1)).bytes(), [14, 255, 0, 1]);
    }

    #[test]
    fn handlers() {
        assert_eq!(MonitorEnter(1, Some(256)).bytes(), [7, 1, 1, 0]);
        assert_eq!(Athrow(Some(2)).bytes(), [11, 0, 0, 2]);
    }
}
