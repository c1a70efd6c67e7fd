//! Whether any levels would do for an accepted bundle: the smallest that do,
//! or a circle of classes, each of which would have to be above the next.

use crate::bundle::{Addr, Bundle, MAX_CLASSES};
use crate::order::{nestings_by, Levels, Nesting};
use crate::slips::{AsWritten, Law};
use std::collections::VecDeque;

/// Where a lock is taken while another may be held.
#[derive(Clone, Copy, Debug, PartialEq, Eq)]
pub struct Site {
    pub class: u8,
    pub address: Addr,
    pub nesting: Nesting,
}

/// What a bundle asks of levels: for each class that is held (first index) and
/// each that is taken meanwhile, the first place where that is so.
#[derive(Clone, Debug, PartialEq, Eq)]
pub struct Demands([[Option<Site>; MAX_CLASSES]; MAX_CLASSES]);

impl Demands {
    /// Of a bundle that is accepted, or whose rows are well formed at least.
    pub fn of(bundle: &Bundle) -> Demands {
        Demands::of_by::<AsWritten>(bundle)
    }

    pub(crate) fn of_by<L: Law>(bundle: &Bundle) -> Demands {
        let mut demands = Demands([[None; MAX_CLASSES]; MAX_CLASSES]);
        for (number, class) in bundle.classes() {
            for address in (1..=class.code_length()).map(Addr) {
                for nesting in nestings_by::<L>(class, address) {
                    let (held, taken) = (usize::from(nesting.held), usize::from(nesting.taken));
                    demands.0[held][taken].get_or_insert(Site {
                        class: number,
                        address,
                        nesting,
                    });
                }
            }
        }
        demands
    }

    /// Each of them, by the class that is held and then by the one taken.
    pub fn sites(&self) -> impl Iterator<Item = &Site> {
        self.0.iter().flatten().flatten()
    }

    /// The levels that do and that are, class by class, the least that any
    /// such have; None where there are none.
    pub fn levels(&self) -> Option<Levels> {
        self.levels_by::<AsWritten>()
    }

    pub(crate) fn levels_by<L: Law>(&self) -> Option<Levels> {
        let mut levels = Levels([0; MAX_CLASSES]);
        let refused = |levels: &Levels| {
            let mut nestings = self.sites().map(|site| site.nesting);
            nestings.find(|nesting| !levels.allow_by::<L>(nesting))
        };
        while let Some(Nesting { held, taken, .. }) = refused(&levels) {
            let level = levels.of(taken) + 1;
            // Without a circle no class has more others below it than there are.
            if usize::from(level) >= MAX_CLASSES {
                return None;
            }
            levels.0[usize::from(held)] = level;
        }
        Some(levels)
    }

    /// A shortest circle: what is taken at one site is held at the next, and
    /// what is taken at the last at the first. None where levels do.
    pub fn circle(&self) -> Option<Vec<Site>> {
        let circles = (0..MAX_CLASSES).filter_map(|class| self.circle_from(class));
        circles.min_by_key(Vec::len)
    }

    /// The shortest way from a class back to itself.
    fn circle_from(&self, class: usize) -> Option<Vec<Site>> {
        let mut seen = [false; MAX_CLASSES];
        let mut ways = VecDeque::from([(class, vec![])]);
        while let Some((held, way)) = ways.pop_front() {
            for (taken, site) in self.0[held].iter().enumerate() {
                let Some(site) = site else { continue };
                let longer = [&way[..], &[*site]].concat();
                if taken == class {
                    return Some(longer);
                }
                if !std::mem::replace(&mut seen[taken], true) {
                    ways.push_back((taken, longer));
                }
            }
        }
        None
    }
}
