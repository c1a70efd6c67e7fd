//! Verdict 7: four bytes that are no instruction which may stand there.

use crate::finding::{explained, Finding};
use crate::words::there;
use crate::Explanation;
use listing::{AddressField, Instruction, Method, Operand, Program};

pub fn explain(program: &Program, class: u8, address: u16) -> Explanation {
    let method = program.method(class);
    let at = method.head.instruction(address);
    let findings = match method.instruction(address) {
        None => {
            let opcode = method.instruction_bytes(address)[0];
            let text = format!("No instruction has the opcode {opcode}.");
            vec![Finding::new(at, 1, text)]
        }
        Some(instruction) => {
            let last = last(&method, address, instruction);
            let operand = operand(program, &method, instruction);
            let address = address_field(&method, instruction);
            let opcode = last.map(|text| Finding::new(at, 1, text));
            let operand = operand.map(|text| Finding::new(at + 1, 1, text));
            let address = address.map(|text| Finding::new(at + 2, 2, text));
            [opcode, operand, address].into_iter().flatten().collect()
        }
    };
    let rule = format!(
        "At address {address} of class {class} must stand an instruction of the table, \
         and at the last address an athrow or a return."
    );
    explained(program.bundle(), &rule, findings)
}

/// Whether the code would run past its end.
fn last(method: &Method, address: u16, instruction: Instruction) -> Option<String> {
    let runs_on = address == method.head.code && !instruction.form.ends_code();
    let text = format!(
        "Address {address} is the last, and a thread would run past it from {}.",
        instruction.form.name
    );
    runs_on.then_some(text)
}

/// What is wrong with the operand.
fn operand(program: &Program, method: &Method, instruction: Instruction) -> Option<String> {
    let Instruction { form, operand, .. } = instruction;
    let below = |count: usize, thing: &str| {
        let there = there(count as i64, thing);
        let text = format!("must be a {thing}, and {there}, counted from 0");
        (text, usize::from(operand) < count)
    };
    let (wanted, right) = match form.operand {
        Operand::Zero => ("must be 0".to_string(), operand == 0),
        Operand::Variable => below(method.head.variables, "variable"),
        Operand::Class => below(usize::from(program.trailer.classes), "class"),
        Operand::Field => named_field(program, instruction),
    };
    let text = format!("The operand of {} is {operand}, and {wanted}.", form.name);
    (!right).then_some(text)
}

/// What a field's operand must be, and whether it is.
fn named_field(program: &Program, instruction: Instruction) -> (String, bool) {
    let (class, field) = instruction.field();
    let classes = program.trailer.classes;
    let wanted = "must be a class times 4 and one of its fields";
    if class >= classes {
        let there = there(classes, "class");
        let text = format!("{wanted}: it names class {class}, and {there}, counted from 0");
        return (text, false);
    }
    let count = program.method(class).head.fields;
    let there = there(count as i64, "field");
    let text =
        format!("{wanted}: it names field {field} of class {class}, and {there}, counted from 0");
    (text, usize::from(field) < count)
}

/// What is wrong with the address field.
fn address_field(method: &Method, instruction: Instruction) -> Option<String> {
    let Instruction { form, address, .. } = instruction;
    let k = method.head.code;
    let (wanted, right) = match form.address {
        AddressField::Zero => ("must be 0".to_string(), address == 0),
        AddressField::Target => {
            let text = format!("must be a target, 1 to {k}");
            (text, (1..=k).contains(&address))
        }
        AddressField::Handler => {
            let text = format!("must be a handler, 1 to {k}, or 0 for none");
            (text, address <= k)
        }
    };
    let name = form.name;
    let text = format!("The address field of {name} is {address}, and {wanted}.");
    (!right).then_some(text)
}
