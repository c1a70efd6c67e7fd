//! Lays out bundles from methods written readably.

use reference::bundle::{Addr, Instr, Var, DIRECTORY_ENTRY, MAGIC, TRAILER};
use reference::entries::{Entry, UNUSED};

/// One row; the stack is top first, as in the bundle.
#[derive(Clone, Debug, Default, PartialEq, Eq)]
pub struct Row {
    pub variables: Vec<Entry>,
    pub stack: Vec<Entry>,
}

/// One class's method. `rows` has one row for each instruction.
#[derive(Clone, Debug, Default, PartialEq, Eq)]
pub struct Method {
    pub arguments: Vec<u8>,
    /// The descriptors of the class's fields.
    pub fields: Vec<u8>,
    pub variables: usize,
    pub stack_limit: usize,
    pub code: Vec<Instr>,
    pub rows: Vec<Row>,
}

impl Row {
    pub fn new(variables: &[Entry], stack: &[Entry]) -> Row {
        Row {
            variables: variables.to_vec(),
            stack: stack.to_vec(),
        }
    }
}

impl Method {
    /// The record: descriptors, instructions, rows.
    pub fn record(&self) -> Vec<u8> {
        let mut out = [&self.arguments[..], &self.fields].concat();
        out.extend(self.code.iter().flat_map(|instr| instr.bytes()));
        for row in &self.rows {
            self.write_row(row, &mut out);
        }
        out
    }

    fn write_row(&self, row: &Row, out: &mut Vec<u8>) {
        out.extend(row.variables.iter().flat_map(|entry| entry.bytes()));
        out.push(row.stack.len() as u8);
        out.extend(row.stack.iter().flat_map(|entry| entry.bytes()));
        for _ in row.stack.len()..self.stack_limit {
            out.extend(UNUSED);
        }
    }

    fn directory_entry(&self, offset: usize) -> [u8; DIRECTORY_ENTRY] {
        let [high, low] = (offset as u16).to_be_bytes();
        let [code_high, code_low] = (self.code.len() as u16).to_be_bytes();
        let (v, k) = (self.variables as u8, self.stack_limit as u8);
        [
            high,
            low,
            self.arguments.len() as u8,
            v,
            k,
            self.fields.len() as u8,
            code_high,
            code_low,
        ]
    }
}

/// The code of a method so far, each instruction with its row.
#[derive(Default)]
pub(crate) struct Written {
    pub code: Vec<Instr>,
    pub rows: Vec<Row>,
}

impl Written {
    pub fn add(&mut self, instr: Instr, variables: &[Entry], stack: &[Entry]) {
        self.code.push(instr);
        self.rows.push(Row::new(variables, stack));
    }
}

/// A bundle before it is laid out: the classes' methods, and the class of
/// what is thrown.
#[derive(Clone, Debug, Default, PartialEq, Eq)]
pub struct Draft {
    pub methods: Vec<Method>,
    pub exception: u8,
}

impl Draft {
    /// The plain layout: records from 0 in order, directory, trailer.
    pub fn lay_out(&self) -> Vec<u8> {
        let mut layout = Layout::throwing(self.exception);
        for method in &self.methods {
            layout.place(method);
        }
        layout.finish()
    }
}

/// A bundle being laid out freely: padding, shared records, any order.
#[derive(Clone, Debug, Default)]
pub struct Layout {
    bytes: Vec<u8>,
    directory: Vec<[u8; DIRECTORY_ENTRY]>,
    exception: u8,
}

impl Layout {
    /// With exception class 0.
    pub fn new() -> Layout {
        Layout::default()
    }

    pub fn throwing(exception: u8) -> Layout {
        Layout {
            exception,
            ..Layout::default()
        }
    }

    pub fn len(&self) -> usize {
        self.bytes.len()
    }

    pub fn is_empty(&self) -> bool {
        self.bytes.is_empty()
    }

    /// Bytes that belong to no record.
    pub fn pad(&mut self, bytes: &[u8]) {
        self.bytes.extend(bytes);
    }

    /// Appends the method's record and enters it; gives its offset.
    pub fn place(&mut self, method: &Method) -> usize {
        let offset = self.bytes.len();
        self.bytes.extend(method.record());
        self.enter(method, offset);
        offset
    }

    /// Places the method's record so that it begins with bytes that are there
    /// already, as many as agree with it, but with one of its own at least.
    pub fn place_over(&mut self, method: &Method) {
        let record = method.record();
        let shared = self.agreeing(&record);
        let offset = self.bytes.len() - shared;
        self.bytes.extend(&record[shared..]);
        self.enter(method, offset);
    }

    /// How many of the last bytes, not all of them, are the first of `next`.
    fn agreeing(&self, next: &[u8]) -> usize {
        let most = next.len().min(self.bytes.len()).saturating_sub(1);
        let agree = |&shared: &usize| self.bytes.ends_with(&next[..shared]);
        (0..=most).rev().find(agree).unwrap_or(0)
    }

    /// Enters a method whose record is said to stand at `offset` already.
    pub fn enter(&mut self, method: &Method, offset: usize) {
        self.directory.push(method.directory_entry(offset));
    }

    /// Appends the directory and the trailer.
    pub fn finish(mut self) -> Vec<u8> {
        let at = self.bytes.len();
        self.bytes.extend(self.directory.concat());
        let count = self.directory.len();
        seal(self.bytes, at, count, self.exception)
    }

    /// Appends the directory so that it begins with bytes that are there
    /// already, and the trailer.
    pub fn finish_over(self) -> Vec<u8> {
        let at = self.bytes.len() - self.agreeing(&self.directory.concat());
        self.finish_with_directory_at(at)
    }

    /// Overwrites the bytes at `at` with the directory, then adds the trailer.
    pub fn finish_with_directory_at(mut self, at: usize) -> Vec<u8> {
        let directory = self.directory.concat();
        self.bytes
            .resize(self.bytes.len().max(at + directory.len()), 0);
        self.bytes[at..at + directory.len()].copy_from_slice(&directory);
        let count = self.directory.len();
        seal(self.bytes, at, count, self.exception)
    }
}

/// Adds the trailer that points back at the directory.
pub fn seal(mut bytes: Vec<u8>, directory: usize, count: usize, exception: u8) -> Vec<u8> {
    let length = (bytes.len() + TRAILER) as u16;
    bytes.extend((directory as u16).to_be_bytes());
    bytes.extend([count as u8, exception]);
    bytes.extend(length.to_be_bytes());
    bytes.extend(MAGIC);
    bytes
}

/// The plain layout of a bundle that throws class 0, as in the cases.
pub fn lay_out(methods: &[Method]) -> Vec<u8> {
    let draft = Draft {
        methods: methods.to_vec(),
        exception: 0,
    };
    draft.lay_out()
}

/// Case A of the document, from which B and C are made.
pub fn case_a() -> Method {
    let held = Entry::reference(0, 1, -1);
    let free = Entry::fresh(0);
    let v = Var(0);
    let code = vec![
        Instr::New(0, None),
        Instr::Store(v),
        Instr::Enter(v, None),
        Instr::Push0,
        Instr::If(Addr(8)),
        Instr::Exit(v),
        Instr::Return,
        Instr::Exit(v),
        Instr::Return,
    ];
    let variables = [
        Entry::Top,
        Entry::Top,
        free,
        held,
        held,
        held,
        free,
        held,
        free,
    ];
    let mut rows: Vec<Row> = variables
        .iter()
        .map(|&entry| Row::new(&[entry], &[]))
        .collect();
    rows[1].stack.push(free);
    rows[4].stack.push(Entry::Int);
    Method {
        variables: 1,
        stack_limit: 1,
        code,
        rows,
        ..Method::default()
    }
}
