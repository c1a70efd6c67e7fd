//! The rule of an address: what it asks of its row, and its edges.

use crate::asked::Asked;
use crate::comparison::Change;
use crate::edges::{Edge, Misfit};
use crate::words::{kind, Place};
use listing::{byte, Entry, Instruction, Method, Opcode, Program, Row};

/// An address with its instruction and its row.
pub struct Address<'a> {
    pub program: &'a Program<'a>,
    pub method: Method<'a>,
    pub instruction: Instruction,
    number: u16,
    row: Row,
}

/// What of a rule is not so.
pub enum Broken {
    Asked(Asked),
    Misfit(Misfit),
}

/// All that is asked is so, or the first that is not.
type Asking = Result<(), Asked>;

impl<'a> Address<'a> {
    /// None where four bytes are no instruction.
    pub fn read(program: &'a Program, class: u8, number: u16) -> Option<Address<'a>> {
        let method = program.method(class);
        Some(Address {
            program,
            method,
            instruction: method.instruction(number)?,
            number,
            row: method.row(number),
        })
    }

    /// What is asked comes first, the depths of all rows reached included;
    /// then the first entry that does not fit, along the edges in their order.
    pub fn broken(&self) -> Option<Broken> {
        let edges = match self.edges() {
            Ok(edges) => edges,
            Err(asked) => return Some(Broken::Asked(asked)),
        };
        let depth = edges.iter().find_map(Edge::depth).map(Broken::Asked);
        depth.or_else(|| edges.iter().find_map(Edge::misfit).map(Broken::Misfit))
    }

    /// The edges of an instruction whose row is as it asks.
    fn edges(&self) -> Result<Vec<Edge>, Asked> {
        let v = usize::from(self.instruction.operand);
        match self.instruction.form.opcode {
            Opcode::Inc => {
                self.takes_int()?;
                Ok(vec![self.next(&self.pushed(Entry::Int, 1))])
            }
            Opcode::Pop => {
                self.has(1)?;
                goes(Place::Stack(0), self.stack()[0])?;
                Ok(vec![self.next(&self.stack()[1..])])
            }
            Opcode::Push0 => Ok(vec![self.next(&self.pushed(Entry::Int, 0))]),
            Opcode::Load => Ok(vec![self.load(v)]),
            Opcode::Store => self.store(v),
            Opcode::If => {
                self.takes_int()?;
                let left = &self.stack()[1..];
                Ok(vec![
                    self.next(left),
                    self.edge(self.instruction.address, left),
                ])
            }
            Opcode::Enter => self.enter(v),
            Opcode::Exit => self.lock(v, Change::Exited),
            Opcode::New => self.make(),
            Opcode::Start => self.start(),
            Opcode::Throw => self.athrow(),
            Opcode::Return => {
                self.variables_go()?;
                self.stack_goes(0)?;
                Ok(vec![])
            }
            Opcode::Getfield => self.getfield(),
            Opcode::Putfield => self.putfield(),
        }
    }

    /// Whether what is locked, or the owner of a field, may be null.
    pub fn may_be_null(&self) -> bool {
        let entry = match self.instruction.form.opcode {
            Opcode::Enter => {
                let v = usize::from(self.instruction.operand);
                self.row.variables.get(v)
            }
            Opcode::Getfield => self.stack().first(),
            Opcode::Putfield => self.stack().get(1),
            _ => None,
        };
        matches!(entry, Some(Entry::Nullable { .. }))
    }

    fn stack(&self) -> &[Entry] {
        self.row.stack()
    }

    /// The stack with an entry on top in the stead of so many.
    fn pushed(&self, entry: Entry, taken: usize) -> Vec<Entry> {
        [&[entry], &self.stack()[taken..]].concat()
    }

    /// To an address, with the variables as they are and this stack.
    fn edge(&self, to: u16, stack: &[Entry]) -> Edge {
        Edge::new(to, self.method.row(to), &self.row.variables, stack)
    }

    fn next(&self, stack: &[Entry]) -> Edge {
        self.edge(self.number + 1, stack)
    }

    /// There are so many entries on the stack.
    fn has(&self, taken: usize) -> Asking {
        let depth = self.stack().len();
        match depth < taken {
            true => Err(Asked::Few { taken, depth }),
            false => Ok(()),
        }
    }

    fn takes_int(&self) -> Asking {
        self.has(1)?;
        takes(Place::Stack(0), self.stack()[0], Entry::Int)
    }

    /// All of the stack from this entry on may go.
    fn stack_goes(&self, from: usize) -> Asking {
        let mut entries = self.stack().iter().enumerate().skip(from);
        entries.try_for_each(|(i, &entry)| goes(Place::Stack(i), entry))
    }

    fn variables_go(&self) -> Asking {
        let mut entries = self.row.variables.iter().enumerate();
        entries.try_for_each(|(v, &entry)| goes(Place::Variable(v), entry))
    }

    /// A reference's pair is shared out, all else is compared at both places.
    fn load(&self, v: usize) -> Edge {
        let loaded = self.row.variables[v];
        let edge = self.next(&self.pushed(loaded, 0));
        let top = edge.claimed.stack().first().copied();
        match (loaded, top) {
            (Entry::Ref { .. }, Some(top)) => edge.changing(v, Change::Shared(top)),
            _ => edge,
        }
    }

    fn store(&self, v: usize) -> Result<Vec<Edge>, Asked> {
        self.has(1)?;
        goes(Place::Variable(v), self.row.variables[v])?;
        let mut variables = self.row.variables.clone();
        variables[v] = self.stack()[0];
        let to = self.number + 1;
        let rest = &self.stack()[1..];
        Ok(vec![Edge::new(to, self.method.row(to), &variables, rest)])
    }

    /// What may be null is thrown where it is.
    fn enter(&self, v: usize) -> Result<Vec<Edge>, Asked> {
        match self.row.variables[v] {
            null @ Entry::Nullable { .. } => {
                let next = self.next(self.stack()).changing(v, Change::Entered);
                self.unless_null(null, next)
            }
            _ => self.lock(v, Change::Entered),
        }
    }

    /// The owner on top makes way for what its field holds.
    fn getfield(&self) -> Result<Vec<Edge>, Asked> {
        self.has(1)?;
        let owner = self.takes_owner(0)?;
        let held = Entry::held(self.descriptor());
        self.unless_null(owner, self.next(&self.pushed(held, 1)))
    }

    /// The value on top, and the owner below it.
    fn putfield(&self) -> Result<Vec<Edge>, Asked> {
        self.has(2)?;
        let (place, value) = (Place::Stack(0), self.stack()[0]);
        match Entry::held(self.descriptor()) {
            Entry::Nullable { class } => takes_perhaps_null(place, value, class)?,
            integer => takes(place, value, integer)?,
        }
        goes(place, value)?;
        let owner = self.takes_owner(1)?;
        self.unless_null(owner, self.next(&self.stack()[2..]))
    }

    /// The descriptor of the field that is named.
    pub fn descriptor(&self) -> u8 {
        let (class, field) = self.instruction.field();
        let method = self.program.method(class);
        byte(self.program.bundle(), method.head.field(usize::from(field)))
    }

    /// The owner of the field, at this entry of the stack.
    fn takes_owner(&self, entry: usize) -> Result<Entry, Asked> {
        let (class, _) = self.instruction.field();
        let (place, owner) = (Place::Stack(entry), self.stack()[entry]);
        takes_perhaps_null(place, owner, class)?;
        goes(place, owner)?;
        Ok(owner)
    }

    /// The edge to the next row, and where this may be null, that of the throw.
    fn unless_null(&self, entry: Entry, next: Edge) -> Result<Vec<Edge>, Asked> {
        match entry {
            Entry::Nullable { .. } => {
                let thrown = self.failure()?;
                Ok([next].into_iter().chain(thrown).collect())
            }
            _ => Ok(vec![next]),
        }
    }

    /// The edge of what a failed new and null throw, if it is caught.
    fn failure(&self) -> Result<Option<Edge>, Asked> {
        self.stack_goes(0)?;
        self.throw(None, Entry::fresh(self.program.trailer.exception))
    }

    fn lock(&self, v: usize, change: Change) -> Result<Vec<Edge>, Asked> {
        match self.row.variables[v] {
            Entry::Ref { .. } => Ok(vec![self.next(self.stack()).changing(v, change)]),
            found => Err(Asked::Taken {
                place: Place::Variable(v),
                found,
                wanted: "a reference".to_string(),
            }),
        }
    }

    fn make(&self) -> Result<Vec<Edge>, Asked> {
        let made = Entry::fresh(self.instruction.operand);
        let next = self.next(&self.pushed(made, 0));
        let thrown = self.failure()?;
        Ok([next].into_iter().chain(thrown).collect())
    }

    /// The arguments from the top, and the object below them.
    fn start(&self) -> Result<Vec<Edge>, Asked> {
        let class = self.instruction.operand;
        let mut wanted = self.program.method(class).arguments();
        wanted.push(class);
        self.has(wanted.len())?;
        for (i, (&descriptor, &entry)) in wanted.iter().zip(self.stack()).enumerate() {
            takes(Place::Stack(i), entry, Entry::argument(descriptor))?;
            goes(Place::Stack(i), entry)?;
        }
        Ok(vec![self.next(&self.stack()[wanted.len()..])])
    }

    fn athrow(&self) -> Result<Vec<Edge>, Asked> {
        self.has(1)?;
        let (place, top) = (Place::Stack(0), self.stack()[0]);
        takes(place, top, Entry::fresh(self.program.trailer.exception))?;
        self.stack_goes(1)?;
        Ok(self.throw(Some(place), top)?.into_iter().collect())
    }

    /// The edge to the handler; without one, all must go. What a failed new
    /// or null throws stands at no place.
    fn throw(&self, place: Option<Place>, thrown: Entry) -> Result<Option<Edge>, Asked> {
        match self.instruction.address {
            0 => {
                place.map_or(Ok(()), |place| goes(place, thrown))?;
                self.variables_go()?;
                Ok(None)
            }
            handler => Ok(Some(self.edge(handler, &[thrown]))),
        }
    }
}

/// An entry that is dropped owes nothing.
fn goes(place: Place, found: Entry) -> Asking {
    match found.owing() {
        0 => Ok(()),
        _ => Err(Asked::Dropped { place, found }),
    }
}

/// An entry that is taken has this one's kind and class.
fn takes(place: Place, found: Entry, wanted: Entry) -> Asking {
    let right = match (found, wanted) {
        (Entry::Ref { class, .. }, Entry::Ref { class: own, .. }) => class == own,
        _ => found == wanted,
    };
    match right {
        true => Ok(()),
        false => Err(Asked::Taken {
            place,
            found,
            wanted: kind(wanted),
        }),
    }
}

/// An entry that is taken is null or a reference of this class.
fn takes_perhaps_null(place: Place, found: Entry, class: u8) -> Asking {
    match found.may_be_of(class) {
        true => Ok(()),
        false => Err(Asked::Taken {
            place,
            found,
            wanted: format!("a reference of class {class}, null or not,"),
        }),
    }
}
