//! The throw of athrow, of a failed new and of null: what it asks, and what
//! it compares with the handler's row.

use crate::bundle::Row;
use crate::entries::{all_fit, all_may_go, ask, Entry, Outcome, Raw, Why};
use crate::slips::{Law, Slip};

/// What is thrown, and what it leaves: the rest of the stack, the variables.
#[derive(Clone, Copy)]
pub struct Throw<'a> {
    thrown: Entry,
    rest: &'a [Raw],
    variables: &'a [Raw],
    /// The handler's row, if there is a handler.
    handler: Option<Row<'a>>,
}

impl<'a> Throw<'a> {
    /// What is thrown without being there already is (0,0) of the exception
    /// class.
    fn of_failure(row: Row<'a>, handler: Option<Row<'a>>, exception: u8) -> Self {
        Throw {
            thrown: Entry::fresh(exception),
            rest: row.stack,
            variables: row.variables,
            handler,
        }
    }

    /// The throw of a failed new.
    pub fn by_new<L: Law>(row: Row<'a>, handler: Option<Row<'a>>, exception: u8) -> Self {
        let mut throw = Throw::of_failure(row, handler, exception);
        if handler.is_none() && L::slips(Slip::FailedNewSkipsVariables) {
            throw.variables = &[];
        }
        throw
    }

    /// The throw of null where an object is wanted, under the same rule.
    pub fn by_null<L: Law>(row: Row<'a>, handler: Option<Row<'a>>, exception: u8) -> Self {
        let mut throw = Throw::of_failure(row, handler, exception);
        let keeps_variables = match handler {
            Some(_) => Slip::CaughtNullKeepsVariables,
            None => Slip::UncaughtNullKeepsVariables,
        };
        if L::slips(keeps_variables) {
            throw.variables = &[];
        }
        if L::slips(Slip::NullKeepsStack) {
            throw.rest = &[];
        }
        throw
    }

    /// athrow takes the top, a reference of the exception class.
    pub fn by_athrow<L: Law>(
        row: Row<'a>,
        handler: Option<Row<'a>>,
        exception: u8,
    ) -> Result<Self, Why> {
        let (&top, rest) = row.stack.split_first().ok_or(Why::Asked)?;
        let thrown = Entry::read(top);
        let slipped = L::slips(Slip::AthrowOfAnyClass) && matches!(thrown, Entry::Ref { .. });
        ask(thrown.is_of(exception) || slipped)?;
        let throw = Throw {
            thrown,
            rest,
            variables: row.variables,
            handler,
        };
        Ok(throw.forgetting::<L>())
    }

    /// Without what a slip of athrow doesn't look at.
    fn forgetting<L: Law>(mut self) -> Self {
        let (keeps_rest, uncaught) = match self.handler {
            Some(_) => (Slip::CaughtKeepsRest, false),
            None => (Slip::UncaughtKeepsRest, true),
        };
        if L::slips(keeps_rest) {
            self.rest = &[];
        }
        if uncaught && L::slips(Slip::UncaughtKeepsVariables) {
            self.variables = &[];
        }
        if uncaught && L::slips(Slip::UncaughtKeepsTop) {
            self.thrown = Entry::Top;
        }
        self
    }

    /// With a handler, its row has depth 1 and the rest may go; with none,
    /// all must.
    pub fn asks<L: Law>(&self) -> Outcome {
        ask(all_may_go::<L>(self.rest))?;
        match self.handler {
            Some(at) => ask(handler_depth::<L>(at.stack.len())),
            None => ask(self.thrown.may_go::<L>() && all_may_go::<L>(self.variables)),
        }
    }

    /// The variables fit the handler's, and what is thrown its only entry.
    pub fn fits<L: Law>(&self) -> Outcome {
        let Some(at) = self.handler else {
            return Ok(());
        };
        all_fit::<L>(self.variables, at.variables)?;
        match at.stack.first() {
            Some(&raw) if !L::slips(Slip::HandlerEntryUnchecked) => {
                self.thrown.compare::<L>(Entry::read(raw))
            }
            _ => Ok(()),
        }
    }
}

fn handler_depth<L: Law>(depth: usize) -> bool {
    match depth {
        0 => L::slips(Slip::HandlerMayBeEmpty),
        1 => true,
        _ => L::slips(Slip::HandlerMayBeDeeper),
    }
}
