//! Verdict 10: row 1 claims more than a new thread has.

use crate::comparison::{Change, Comparison};
use crate::words::{sentence, Place};
use crate::Explanation;
use listing::{Entry, Program};

pub fn explain(program: &Program, class: u8) -> Explanation {
    let method = program.method(class);
    let row = method.row(1);
    let given: Vec<Entry> = method
        .arguments()
        .into_iter()
        .map(Entry::argument)
        .collect();
    let depth = (row.depth != 0).then(|| {
        let depth = row.depth;
        format!("Row 1 has depth {depth}, and a new thread's stack is empty.")
    });
    let variables = row.variables.iter().enumerate();
    let variables = variables.filter_map(|(v, &claimed)| match given.get(v) {
        Some(&argument) => fitted(v, argument, claimed),
        None => is_top(v, claimed),
    });
    Explanation {
        rule: format!(
            "Row 1 of class {class} must claim no more than a new thread has: its arguments, \
             references with (0,0); Top in every other variable; an empty stack."
        ),
        seen: vec![
            ("arguments".to_string(), arguments_text(&given)),
            ("row 1 claims".to_string(), row.to_string()),
        ],
        found: depth.into_iter().chain(variables).collect(),
        why: None,
    }
}

fn arguments_text(given: &[Entry]) -> String {
    let words: Vec<String> = given.iter().map(Entry::to_string).collect();
    match words.is_empty() {
        true => "none".to_string(),
        false => words.join(" "),
    }
}

/// What is wrong with the claim of an argument.
fn fitted(v: usize, given: Entry, claimed: Entry) -> Option<String> {
    let comparison = Comparison {
        place: Place::Variable(v),
        came: given,
        change: Change::None,
        claimed,
    };
    let short = comparison.short()?;
    Some(format!(
        "Argument {v} comes as {given}, and row 1 claims {claimed} of variable {v}: {short}."
    ))
}

/// What is wrong with the claim of a variable that is no argument.
fn is_top(v: usize, claimed: Entry) -> Option<String> {
    let place = sentence(&Place::Variable(v).to_string());
    let text = format!("{place} is no argument, and row 1 claims {claimed} of it: Top is wanted.");
    (claimed != Entry::Top).then_some(text)
}
