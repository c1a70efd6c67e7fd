//! Verdicts 25 and 26: a lock taken out of order, and a list of levels that is
//! none. What is asked of a monitorenter is told by the rule itself, as the
//! reference has it.

use crate::words::{sentence, Place};
use crate::Explanation;
use listing::{Method, Program};
use reference::bundle::{Addr, Bundle, MAX_CLASSES};
use reference::levels::Site;
use reference::order::{nestings, Levels, Nesting};

pub fn explain(program: &Program, list: &[u8], class: u8, address: u16) -> Explanation {
    let Some(levels) = Levels::read(list) else {
        // Such a list draws verdict 26 before any order is asked.
        return explain_list(list);
    };
    let method = program.method(class);
    let refused = refused(program, levels, class, address);
    let found = refused.iter();
    let found = found.map(|nesting| disorder(&method, address, levels, nesting));
    let meaning = refused.first().map(|_| {
        "Another thread may hold the one and wait for the other, and then both wait for ever."
    });
    let instruction = method.instruction(address);
    let instruction = instruction.map_or(String::new(), |instruction| instruction.to_string());
    Explanation {
        rule: format!(
            "At address {address} of class {class} stands {instruction}. Every other reference \
             of its row on which a release is owing must be of a higher level than what is taken."
        ),
        seen: vec![
            (format!("row {address}"), method.row(address).to_string()),
            ("levels".to_string(), levels_text(program, levels)),
        ],
        found: found.chain(meaning.map(String::from)).collect(),
        why: None,
    }
}

/// What the instruction nests against the levels; nothing where the bundle is
/// none, which draws another verdict.
fn refused(program: &Program, levels: Levels, class: u8, address: u16) -> Vec<Nesting> {
    Bundle::open_with_code(program.bundle()).map_or(vec![], |bundle| {
        nestings(bundle.class(class), Addr(address))
            .filter(|nesting| !levels.allow(nesting))
            .collect()
    })
}

fn disorder(method: &Method, address: u16, levels: Levels, nesting: &Nesting) -> String {
    let row = method.row(address);
    let place = Place::from(nesting.place);
    let entry = match place {
        Place::Variable(v) => row.variables[v],
        Place::Stack(i) => row.places[i],
    };
    let Nesting { held, taken, .. } = *nesting;
    format!(
        "{} is {entry}, whose level {} is not above the level {} of C{taken}: address {address} \
         takes C{taken} while C{held} is held.",
        sentence(&place.to_string()),
        levels.of(held),
        levels.of(taken)
    )
}

/// The levels of the classes that the bundle has.
fn levels_text(program: &Program, levels: Levels) -> String {
    let classes = 0..program.trailer.classes;
    let words: Vec<String> = classes.map(|c| format!("C{c} {}", levels.of(c))).collect();
    words.join(", ")
}

pub fn explain_list(list: &[u8]) -> Explanation {
    let numbers: Vec<String> = list.iter().map(u8::to_string).collect();
    let seen = match list.is_empty() {
        true => "none".to_string(),
        false => numbers.join(","),
    };
    let count = list.len();
    let far = if count < MAX_CLASSES { "few" } else { "many" };
    Explanation {
        rule: format!("There must be {MAX_CLASSES} levels, one for each class that there can be."),
        seen: vec![("levels".to_string(), seen)],
        found: vec![format!(
            "There are {count}: {} too {far}.",
            count.abs_diff(MAX_CLASSES)
        )],
        why: None,
    }
}

/// Where a class is taken while another is held, in words.
pub fn nested(site: &Site) -> String {
    let Site {
        class,
        address,
        nesting,
    } = site;
    let Nesting { held, taken, place } = *nesting;
    format!(
        "C{taken} is taken at class {class} address {} while C{held} is held ({})",
        address.0,
        Place::from(place)
    )
}
