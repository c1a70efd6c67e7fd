//! The rule of each instruction, in words.

use crate::address::Address;
use listing::{Entry, Opcode};

impl Address<'_> {
    /// What the instruction asks, and what it leaves.
    pub fn law(&self) -> String {
        let text = match self.instruction.form.opcode {
            Opcode::Inc => "It takes an Int from the top and leaves an Int there",
            Opcode::Pop => "It drops the top, on which nothing may be owing",
            Opcode::Push0 => "It puts an Int on top",
            Opcode::Load => {
                "It puts the variable on top and keeps it: what both places claim of a \
                 reference must add up to no more than its pair"
            }
            Opcode::Store => {
                "It moves the top into the variable, on whose old entry nothing may be owing"
            }
            Opcode::If => "It takes an Int from the top and goes to the next row or to its target",
            Opcode::Enter if self.may_be_null() => return self.law_of_doubted(),
            Opcode::Enter => {
                "It takes the lock of a reference: the dip may grow by 1, and the end must \
                 fall by 1"
            }
            Opcode::Exit => {
                "It gives back the lock of a reference: the dip must fall by 1, and the end \
                 may grow by 1"
            }
            Opcode::Start => {
                "It takes from the top the arguments of the class that it starts, and below \
                 them an object of that class; on none of them may anything be owing"
            }
            Opcode::New => return self.law_of_new(),
            Opcode::Throw => return self.law_of_athrow(),
            Opcode::Return => return law_of_return(),
            Opcode::Getfield | Opcode::Putfield => return self.law_of_field(),
        };
        format!("{text}; all else stays, and must fit its place.")
    }

    fn law_of_new(&self) -> String {
        let (made, thrown) = (self.instruction.operand, self.program.trailer.exception);
        let thrown = self.law_of_throw(&format!("C{thrown}(0,0)"));
        format!(
            "It puts C{made}(0,0) on top; all else stays, and must fit its place. As it may \
             fail, on no stack entry may anything be owing, and {thrown}."
        )
    }

    fn law_of_doubted(&self) -> String {
        let thrown = self.law_of_null();
        format!(
            "It takes the lock of a reference that may be null, which then counts as (1,-1); all \
             else stays, and must fit its place. {thrown}"
        )
    }

    fn law_of_field(&self) -> String {
        let (class, field) = self.instruction.field();
        let held = Entry::held(self.descriptor());
        let text = match self.instruction.form.opcode {
            Opcode::Getfield => format!(
                "It takes the owner, a reference of class {class}, from the top and puts there \
                 what its field {field} holds, {held}; on the owner nothing may be owing"
            ),
            _ => format!(
                "It takes the value, {held}, from the top and below it the owner, a reference of \
                 class {class}, and puts the value into its field {field}; on neither may \
                 anything be owing"
            ),
        };
        let text = format!("{text}; all else stays, and must fit its place.");
        match self.may_be_null() {
            true => format!("{text} {}", self.law_of_null()),
            false => text,
        }
    }

    fn law_of_null(&self) -> String {
        let class = self.program.trailer.exception;
        let thrown = self.law_of_throw(&format!("C{class}(0,0)"));
        format!("As null is thrown, on no stack entry may anything be owing, and {thrown}.")
    }

    fn law_of_athrow(&self) -> String {
        let class = self.program.trailer.exception;
        let thrown = self.law_of_throw("it");
        format!(
            "It throws the top, a reference of class {class}; below it nothing may be owing, \
             and {thrown}."
        )
    }

    fn law_of_throw(&self, thrown: &str) -> String {
        match self.instruction.address {
            0 => "as no handler catches it, nothing may be owing in a variable or on what is \
                  thrown"
                .to_string(),
            handler => format!(
                "the variables must fit row {handler}, whose stack must hold {thrown} alone"
            ),
        }
    }
}

fn law_of_return() -> String {
    "It ends the thread, so on no entry may anything be owing.".to_string()
}
