//! Bundles with lists of levels by seed, and what is known of them beforehand.

use crate::order::{place, rank};
use generator::families::breaches::one_breach;
use generator::families::{self, contending, nesting, sharing, typed};
use generator::levels::{levels, other_length};
use generator::rng::Rng;
use reference::bundle::{Addr, Bundle, Instr, Var, Verdict};
use reference::levels::Demands;
use reference::order::{nestings, Levels};
use reference::verify::{verify, verify_ordered};

/// So many lists are tried on each accepted bundle, beside the one found.
const LISTS: usize = 3;

/// A bundle and a list of levels.
#[derive(Debug)]
pub struct Input {
    pub bundle: Vec<u8>,
    pub list: Vec<u8>,
    pub known: Known,
}

/// What is known of the verdict.
#[derive(Clone, Copy, Debug)]
pub enum Known {
    Nothing,
    /// The search has found these levels.
    Accepted,
    /// The search has found a circle.
    Disordered,
    /// A 25, and another breach; what each draws alone.
    Alone([Verdict; 2]),
}

impl Known {
    /// Whether it may be this one.
    pub fn allows(self, verdict: Verdict) -> bool {
        match self {
            Known::Nothing => true,
            Known::Accepted => verdict.number == 0,
            Known::Disordered => verdict.number == 25,
            Known::Alone(alone) => alone.into_iter().min_by_key(rank) == Some(verdict),
        }
    }
}

/// A bundle whose threads hold several locks at once, or any.
fn bundle(rng: &mut Rng, seed: u64) -> Vec<u8> {
    match rng.below(16) {
        0..=3 => nesting::orderly(rng).lay_out(),
        4..=7 => nesting::any(rng).lay_out(),
        8 => contending::contending(rng).lay_out(),
        9 => sharing::sharing(rng).lay_out(),
        10 | 11 => typed::well_typed(rng),
        _ => families::bundle(seed).1,
    }
}

/// One bundle with several lists, and with further breaches.
pub fn inputs(seed: u64) -> Vec<Input> {
    let mut rng = Rng::new(seed ^ 0x0DE5_0000_0000_0000);
    let bundle = bundle(&mut rng, seed);
    let input = |list: &[u8], known| Input {
        bundle: bundle.clone(),
        list: list.to_vec(),
        known,
    };
    let mut all = vec![input(&other_length(&mut rng), Known::Nothing)];
    let list = levels(&mut rng, &bundle);
    match Bundle::open_with_code(&bundle) {
        Ok(opened) if verify(&bundle).number == 0 => match Demands::of(&opened).levels() {
            Some(Levels(found)) => all.push(input(&found, Known::Accepted)),
            None => all.push(input(&list, Known::Disordered)),
        },
        _ => {
            all.push(input(&list, Known::Nothing));
            return all;
        }
    }
    for _ in 0..LISTS {
        let list = levels(&mut rng, &bundle);
        all.push(input(&list, Known::Nothing));
        let told = verify_ordered(&bundle, &list);
        if told.number == 25 {
            all.extend(with_another(&mut rng, &bundle, &list, told));
            all.extend(with_another_there(&bundle, list, told));
        }
    }
    all
}

/// A bundle that draws this 25 gets another breach too.
fn with_another(rng: &mut Rng, good: &[u8], list: &[u8], disorder: Verdict) -> Option<Input> {
    let wanted = rng.between(1, 10) as u8;
    let (bundle, other) = one_breach(rng, good, wanted)?;
    // At one address the change may have done away with the 25.
    (place(&other) != place(&disorder)).then(|| Input {
        bundle,
        list: list.to_vec(),
        known: Known::Alone([disorder, other]),
    })
}

/// The monitorenter that draws 25 names another variable: one of which the
/// order is broken as well, and the rule too.
fn with_another_there(good: &[u8], list: [u8; 8], disorder: Verdict) -> Option<Input> {
    let opened = Bundle::open_with_code(good).ok()?;
    let (class, address) = (opened.class(disorder.class), Addr(disorder.address));
    let Instr::Enter(_, handler) = class.instruction(address) else {
        return None;
    };
    let code = class.offset + class.arguments.len() + class.fields.len();
    let at = code + 4 * usize::from(address.0 - 1);
    (0..class.variables as u8).find_map(|v| {
        let mut bundle = good.to_vec();
        bundle[at..at + 4].copy_from_slice(&Instr::Enter(Var(v), handler).bytes());
        let rule = verify(&bundle);
        let there = rule.number == 9 && place(&rule) == place(&disorder);
        (there && is_disordered(&bundle, Levels(list), disorder)).then(|| Input {
            bundle,
            list: list.to_vec(),
            known: Known::Alone([disorder, rule]),
        })
    })
}

/// Whether the order is broken at this place.
fn is_disordered(bundle: &[u8], levels: Levels, at: Verdict) -> bool {
    Bundle::open_with_code(bundle).is_ok_and(|opened| {
        let mut nestings = nestings(opened.class(at.class), Addr(at.address));
        nestings.any(|nesting| !levels.allow(&nesting))
    })
}
