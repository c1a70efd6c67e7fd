//! Verdicts 1 to 6: the container.

use crate::finding::{explained, Finding};
use crate::words::{some, there};
use crate::Explanation;
use listing::{byte, Head, Method, Program, Trailer, INT_DESCRIPTOR, MARK, MOST_FIELDS};

const LONGEST: usize = 65_535;
const MOST_CLASSES: u8 = 8;
const MOST_VARIABLES: usize = 16;
const MOST_STACK: usize = 16;
const MOST_CODE: u16 = 256;

/// Verdict 1. What is longer than any bundle is not read to its end.
pub fn length(bytes: &[u8]) -> Explanation {
    let found = match bytes.len() {
        long if long > LONGEST => format!("there are more than {LONGEST}"),
        short => format!("there are {short}"),
    };
    Explanation {
        rule: format!("A bundle must have 8 to {LONGEST} bytes."),
        seen: vec![("bytes".to_string(), found)],
        found: vec!["So it has no trailer that could be read.".to_string()],
        why: None,
    }
}

/// Verdict 2.
pub fn trailer(bytes: &[u8]) -> Explanation {
    let Trailer {
        at, length, mark, ..
    } = Trailer::read(bytes);
    let mut findings = vec![];
    if length != bytes.len() {
        let text = format!(
            "The length says {length}, and {}.",
            there(bytes.len() as i64, "byte")
        );
        findings.push(Finding::new(at + 4, 2, text));
    }
    if mark != MARK {
        let text = "The mark 4C 4B is wanted as the last two bytes.".to_string();
        findings.push(Finding::new(at + 6, 2, text));
    }
    let rule = "A bundle must end with its own length (two bytes) and the mark 4C 4B.";
    explained(bytes, rule, findings)
}

/// Verdict 3.
pub fn directory(bytes: &[u8]) -> Explanation {
    let trailer = Trailer::read(bytes);
    let (at, classes) = (trailer.at, trailer.classes);
    let mut findings = vec![];
    if !(1..=MOST_CLASSES).contains(&classes) {
        let text = format!("There are {classes} classes, and 1 to {MOST_CLASSES} are allowed.");
        findings.push(Finding::new(at + 2, 1, text));
    }
    if trailer.directory_end() > at {
        let text = format!(
            "The directory begins at byte {} and has {} for {}: it would end at byte {}, \
             and the trailer begins at {at}.",
            trailer.directory,
            some(8 * i64::from(classes), "byte"),
            some(classes, "class"),
            trailer.directory_end(),
        );
        findings.push(Finding::new(at, 2, text));
    }
    if trailer.exception >= classes {
        let text = format!(
            "Class {} is said to be thrown, and {}, counted from 0.",
            trailer.exception,
            there(classes, "class")
        );
        findings.push(Finding::new(at + 3, 1, text));
    }
    let rule = "The trailer must name 1 to 8 classes, a directory that ends before the trailer, \
                and a class of the bundle as what is thrown.";
    explained(bytes, rule, findings)
}

/// Verdict 4.
pub fn limits(method: &Method) -> Explanation {
    let Head {
        at,
        arguments,
        variables,
        stack,
        fields,
        code,
        ..
    } = method.head;
    let mut findings = vec![];
    let mut find = |broken: bool, at: usize, length: usize, text: String| {
        if broken {
            findings.push(Finding::new(at, length, text));
        }
    };
    let text = format!("n is {arguments}, and V, the number of variables, is only {variables}.");
    find(arguments > variables, at + 2, 2, text);
    let text = format!("n is {arguments}, and class 0, which is main, takes no argument.");
    find(method.class == 0 && arguments > 0, at + 2, 1, text);
    let text = format!("V is {variables}, and at most {MOST_VARIABLES} variables are allowed.");
    find(variables > MOST_VARIABLES, at + 3, 1, text);
    let text = format!("K is {stack}, and a stack of at most {MOST_STACK} is allowed.");
    find(stack > MOST_STACK, at + 4, 1, text);
    let text = format!("The field count is {fields}, and at most {MOST_FIELDS} are allowed.");
    find(fields > usize::from(MOST_FIELDS), at + 5, 1, text);
    let text = format!("k is {code}, and 1 to {MOST_CODE} instructions are allowed.");
    find(!(1..=MOST_CODE).contains(&code), at + 6, 2, text);
    let rule = format!(
        "The numbers of class {}, which begin at byte {at}, must keep to their limits.",
        method.class
    );
    explained(method.bundle(), &rule, findings)
}

/// Verdict 5.
pub fn record(program: &Program, class: u8) -> Explanation {
    let head = program.method(class).head;
    let end = program.trailer.at;
    let mut findings = vec![];
    if head.end() > end {
        let text = format!(
            "The record begins at byte {} and has {}: it would end at byte {}, \
             and the trailer begins at {end}.",
            head.offset,
            some((head.end() - head.offset) as i64, "byte"),
            head.end(),
        );
        findings.push(Finding::new(head.at, 2, text));
    }
    let rule = format!("The record of class {class} must end before the trailer.");
    explained(program.bundle(), &rule, findings)
}

/// Verdict 6.
pub fn descriptor(program: &Program, class: u8) -> Explanation {
    let head = program.method(class).head;
    let classes = program.trailer.classes;
    let arguments = (0..head.arguments).map(|i| (format!("Argument {i}"), head.argument(i)));
    let fields = (0..head.fields).map(|i| (format!("Field {i}"), head.field(i)));
    let findings = arguments
        .chain(fields)
        .filter_map(|(name, at)| {
            let descriptor = byte(program.bundle(), at);
            let known = descriptor == INT_DESCRIPTOR || descriptor < classes;
            let text = format!(
                "{name} is said to be of class {descriptor}, and {}, counted from 0.",
                there(classes, "class")
            );
            (!known).then(|| Finding::new(at, 1, text))
        })
        .collect();
    let rule = format!(
        "Each descriptor of class {class} must be FF, an integer, or a class of the bundle."
    );
    explained(program.bundle(), &rule, findings)
}
