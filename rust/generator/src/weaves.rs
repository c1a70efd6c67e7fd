//! Calls of the weaver's gate by seed: bundles taken apart into what a weaver hands
//! over, as they are, grown over their limits, or with lengths and numbers changed.

mod changes;
mod growth;

use crate::families::{self, random, sharing, typed, unpaired};
use crate::rng::Rng;
use changes::CHANGES;
use growth::GROWTHS;
use reference::bundle::{Bundle, Class, RawRow, DIRECTORY_ENTRY, TRAILER};
use reference::entries::Raw;
use reference::gate::Parts;

/// An entry as a weaver hands it over: kind and class.
pub type Kind = [u8; 2];

/// What a weaver hands over, as its own bytes.
#[derive(Clone, Debug, Default, PartialEq, Eq)]
pub struct OwnedParts {
    pub classes: u32,
    pub exception: u32,
    pub directory: Vec<u8>,
    pub descriptors: Vec<u8>,
    pub instructions: Vec<u8>,
    pub kinds: Vec<u8>,
    pub depths: Vec<u8>,
}

/// One call: what is handed over, and how long the output is.
#[derive(Clone, Debug)]
pub struct Weave {
    pub parts: OwnedParts,
    pub room: usize,
    /// How long the bundle is that the numbers ask for.
    pub whole: usize,
    /// What was grown or changed, by its name.
    pub changes: Vec<&'static str>,
}

/// One class, taken apart.
#[derive(Clone, Debug, Default)]
struct Woven {
    arguments: Vec<u8>,
    fields: Vec<u8>,
    variables: usize,
    stack: usize,
    lines: Vec<Line>,
}

/// An instruction and its row.
#[derive(Clone, Debug)]
struct Line {
    instruction: Raw,
    variables: Vec<Kind>,
    depth: u8,
    stack: Vec<Kind>,
}

/// The names of all that may be grown or changed.
pub fn change_names() -> impl Iterator<Item = &'static str> {
    let growths = GROWTHS.iter().map(|&(name, _)| name);
    growths.chain(CHANGES.iter().map(|&(name, _)| name))
}

/// The call of this seed.
pub fn weave(seed: u64) -> Weave {
    let mut rng = Rng::new(seed ^ 0x6A7E_0000_0000_0000);
    let rng = &mut rng;
    let (mut woven, exception) = match seed % 64 {
        0 => (growth::brimful(rng), 0),
        _ => source(rng),
    };
    let mut changes = vec![];
    if rng.chance(1, 5) {
        let (name, grow) = rng.pick(&GROWTHS);
        grow(rng, &mut woven);
        changes.push(name);
    }
    let whole = whole_length(&woven);
    let mut parts = OwnedParts::joined(&woven, exception);
    while changes.len() < 3 && rng.chance(2, 5) {
        let (name, change) = rng.pick(&CHANGES);
        change(rng, &mut parts);
        changes.push(name);
    }
    Weave {
        parts,
        room: room(rng, whole),
        whole,
        changes,
    }
}

fn room(rng: &mut Rng, whole: usize) -> usize {
    match rng.below(8) {
        0 => whole - 1,
        1 => rng.below(whole),
        2 => whole + 1,
        3 => whole + rng.below(200),
        4 => whole % 65_536,
        _ => whole,
    }
}

/// The classes of a bundle, and its exception class.
fn source(rng: &mut Rng) -> (Vec<Woven>, u32) {
    let bundle = match rng.below(10) {
        0..=2 => unpaired::tiny(rng).lay_out(),
        3 | 4 => unpaired::unpaired(rng).lay_out(),
        5 => random::structured(rng).lay_out(),
        6 => sharing::sharing(rng).lay_out(),
        7 => typed::well_typed(rng),
        _ => families::bundle(rng.number()).1,
    };
    match Bundle::open(&bundle) {
        Ok(opened) => (apart(&opened), u32::from(opened.exception())),
        Err(_) => source(rng),
    }
}

fn apart(bundle: &Bundle) -> Vec<Woven> {
    bundle
        .classes()
        .map(|(_, class)| Woven::of(class))
        .collect()
}

fn kind(raw: &Raw) -> Kind {
    [raw[0], raw[1]]
}

impl Woven {
    fn of(class: &Class) -> Woven {
        let begin = class.arguments.len() + class.fields.len();
        let code = class.record[begin..].chunks_exact(4);
        let lines = code.zip(class.raw_rows()).map(|(raw, row)| {
            let RawRow {
                variables,
                depth,
                stack,
            } = row;
            Line {
                instruction: [raw[0], raw[1], raw[2], raw[3]],
                variables: variables.iter().map(kind).collect(),
                depth: depth as u8,
                stack: stack.iter().map(kind).collect(),
            }
        });
        Woven {
            arguments: class.arguments.to_vec(),
            fields: class.fields.to_vec(),
            variables: class.variables,
            stack: class.stack_limit,
            lines: lines.collect(),
        }
    }

    /// An instruction of four bytes, V entries, the depth, K entries.
    fn line_length(&self) -> usize {
        4 + 4 * self.variables + 1 + 4 * self.stack
    }

    fn record_length(&self) -> usize {
        self.arguments.len() + self.fields.len() + self.lines.len() * self.line_length()
    }
}

fn whole_length(woven: &[Woven]) -> usize {
    let records: usize = woven.iter().map(Woven::record_length).sum();
    records + DIRECTORY_ENTRY * woven.len() + TRAILER
}

impl OwnedParts {
    /// What a weaver would have handed over for this bundle, where it opens.
    pub fn of(bundle: &[u8]) -> Option<OwnedParts> {
        let opened = Bundle::open(bundle).ok()?;
        let exception = u32::from(opened.exception());
        Some(OwnedParts::joined(&apart(&opened), exception))
    }

    pub fn lent(&self) -> Parts<'_> {
        Parts {
            classes: self.classes,
            exception: self.exception,
            directory: &self.directory,
            descriptors: &self.descriptors,
            instructions: &self.instructions,
            kinds: &self.kinds,
            depths: &self.depths,
        }
    }

    pub fn slices(&self) -> [&[u8]; 5] {
        let parts = self.lent();
        [
            parts.directory,
            parts.descriptors,
            parts.instructions,
            parts.kinds,
            parts.depths,
        ]
    }

    fn joined(woven: &[Woven], exception: u32) -> OwnedParts {
        let mut parts = OwnedParts {
            classes: woven.len() as u32,
            exception,
            ..OwnedParts::default()
        };
        for class in woven {
            parts.add(class);
        }
        parts
    }

    fn add(&mut self, class: &Woven) {
        let [n, fields] = [&class.arguments, &class.fields].map(|list| list.len() as u8);
        let (v, k) = (class.variables as u8, class.stack as u8);
        self.directory.extend([n, v, k, fields]);
        let code = class.lines.len() as u16;
        self.directory.extend(code.to_be_bytes());
        self.descriptors.extend(&class.arguments);
        self.descriptors.extend(&class.fields);
        for line in &class.lines {
            self.instructions.extend(line.instruction);
            self.kinds.extend(line.variables.concat());
            self.kinds.extend(line.stack.concat());
            self.depths.push(line.depth);
        }
    }
}
