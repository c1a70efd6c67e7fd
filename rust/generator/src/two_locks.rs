//! Two threads and two locks, one of each class: taken in one order by both,
//! or in opposite ones, so that both may wait for ever.

use crate::builder::{Draft, Method, Written};
use reference::bundle::{Instr, Var};
use reference::entries::Entry;

const TOP: Entry = Entry::Top;
const FREE: [Entry; 2] = [Entry::fresh(0), Entry::fresh(1)];
const HELD: [Entry; 2] = [Entry::reference(0, 1, -1), Entry::reference(1, 1, -1)];

impl Written {
    /// Takes the lock of a variable and within it that of the other, gives both
    /// back, and ends.
    fn nest(&mut self, outer: usize) {
        let inner = 1 - outer;
        let mut half = FREE;
        half[outer] = HELD[outer];
        let (first, second) = (Var(outer as u8), Var(inner as u8));
        self.add(Instr::Enter(first, None), &FREE, &[]);
        self.add(Instr::Enter(second, None), &half, &[]);
        self.add(Instr::Exit(second), &HELD, &[]);
        self.add(Instr::Exit(first), &half, &[]);
        self.add(Instr::Return, &FREE, &[]);
    }

    fn of_two(self, arguments: &[u8], stack_limit: usize) -> Method {
        Method {
            arguments: arguments.to_vec(),
            variables: 2,
            stack_limit,
            code: self.code,
            rows: self.rows,
            ..Method::default()
        }
    }
}

/// Class 0 makes an object of each class and starts class 1 with both; then it
/// takes that of class 0 and within it that of class 1. So does class 1, or the
/// other way round if it is opposed.
pub fn two_locks(opposed: bool) -> Draft {
    let mut main = Written::default();
    main.add(Instr::New(0, None), &[TOP, TOP], &[]);
    main.add(Instr::Store(Var(0)), &[TOP, TOP], &FREE[..1]);
    main.add(Instr::New(1, None), &[FREE[0], TOP], &[]);
    main.add(Instr::Store(Var(1)), &[FREE[0], TOP], &FREE[1..]);
    // The object that is started lies lowest, its first argument on top.
    let pushed = [FREE[0], FREE[1], FREE[1]];
    main.add(Instr::Load(Var(1)), &FREE, &[]);
    main.add(Instr::Load(Var(1)), &FREE, &pushed[2..]);
    main.add(Instr::Load(Var(0)), &FREE, &pushed[1..]);
    main.add(Instr::Start(1), &FREE, &pushed);
    main.nest(0);
    let mut started = Written::default();
    started.nest(usize::from(opposed));
    Draft {
        methods: vec![main.of_two(&[], 3), started.of_two(&[0, 1], 0)],
        exception: 0,
    }
}
