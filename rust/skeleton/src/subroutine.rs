//! `jsr` and `ret`, of class files before version 51: a subroutine's code stands once for each chain of callers.

use crate::instruction::{op, Instruction};
use crate::Obstacle;
use std::collections::HashMap;

/// Chains deeper than this, or more copies than this, are not followed.
const DEEPEST: usize = 6;
const MOST: usize = 20_000;

/// The instructions to return to, innermost last.
type Callers = Vec<usize>;

struct Copies<'a> {
    all: &'a [Instruction],
    numbers: HashMap<(usize, Callers), usize>,
    chains: HashMap<Callers, u32>,
    made: Vec<Instruction>,
    todo: Vec<(usize, Callers)>,
}

impl Copies<'_> {
    fn copy(&mut self, of: usize, callers: &Callers) -> Result<usize, Obstacle> {
        if let Some(&n) = self.numbers.get(&(of, callers.clone())) {
            return Ok(n);
        }
        let origin = &self.all[of];
        if callers.len() > DEEPEST || self.made.len() > MOST {
            return Err(Obstacle::new(origin.at, "subroutines are nested too deep"));
        }
        let fresh = self.chains.len() as u32;
        let chain = *self.chains.entry(callers.clone()).or_insert(fresh);
        let n = self.made.len();
        let at = origin.at + 65_536 * chain;
        self.made.push(Instruction {
            at,
            next: None,
            targets: Vec::new(),
            handlers: Vec::new(),
            ..origin.clone()
        });
        self.numbers.insert((of, callers.clone()), n);
        self.todo.push((of, callers.clone()));
        Ok(n)
    }

    fn link(&mut self, of: usize, callers: &Callers) -> Result<(), Obstacle> {
        let origin = &self.all[of];
        let n = self.copy(of, callers)?;
        for &(to, catch) in &origin.handlers {
            let to = self.copy(to, callers)?;
            self.made[n].handlers.push((to, catch));
        }
        match origin.op {
            op::JSR | op::JSR_W => {
                let mut inner = callers.clone();
                inner.extend(origin.next);
                // What it pushes is no reference that can be locked.
                self.made[n].op = op::ICONST_0;
                self.made[n].next = Some(self.copy(origin.targets[0], &inner)?);
            }
            op::RET => {
                let mut outer = callers.clone();
                let back = outer
                    .pop()
                    .ok_or_else(|| Obstacle::new(origin.at, "ret outside a subroutine"))?;
                self.made[n].op = op::GOTO;
                let to = self.copy(back, &outer)?;
                self.made[n].targets.push(to);
            }
            _ => {
                if let Some(next) = origin.next {
                    self.made[n].next = Some(self.copy(next, callers)?);
                }
                for &to in &origin.targets {
                    let to = self.copy(to, callers)?;
                    self.made[n].targets.push(to);
                }
            }
        }
        Ok(())
    }
}

pub fn copied_out(all: &[Instruction]) -> Result<Vec<Instruction>, Obstacle> {
    let mut copies = Copies {
        all,
        numbers: HashMap::new(),
        chains: HashMap::new(),
        made: Vec::new(),
        todo: Vec::new(),
    };
    copies.copy(0, &Vec::new())?;
    while let Some((of, callers)) = copies.todo.pop() {
        copies.link(of, &callers)?;
    }
    Ok(copies.made)
}

#[cfg(test)]
mod tests {
    use crate::instruction::{decoded, op};
    use crate::tests::method;

    #[test]
    fn a_subroutine_stands_once_for_each_caller() {
        // 0: jsr 7; 3: jsr 7; 6: return; 7: astore_1; 8: ret 1
        let all = decoded(&method(&[0xa8, 0, 7, 0xa8, 0, 4, 0xb1, 0x4c, 0xa9, 1])).unwrap();
        assert_eq!(all.iter().filter(|i| i.offset() == 7).count(), 2);
        assert_eq!(
            all.iter()
                .filter(|i| i.op == op::GOTO && i.offset() == 8)
                .count(),
            2
        );
        assert!(all.iter().all(|i| !matches!(i.op, op::JSR | op::RET)));
    }

    #[test]
    fn ret_outside_and_endless_chains_are_obstacles() {
        assert!(decoded(&method(&[0xa9, 1])).is_err());
        // 0: jsr 0, again and again
        assert!(decoded(&method(&[0xa8, 0, 0, 0xb1])).is_err());
    }
}
