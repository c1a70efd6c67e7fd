//! What a reading goes by: the limits of the request, and the equations of
//! the paper's appendix A. A slip is the same with one thing changed.

use crate::usage::Numbers;

/// A text has so many bytes at most.
pub const LONGEST: usize = 256;
/// Brackets are nested so deep at most.
pub const DEEPEST: usize = 16;
/// An entry's dip is so high at most, and its end as far from 0.
const HIGHEST: i32 = 63;

/// The law as written, but for what a slip says otherwise.
pub(crate) trait Law {
    const LONGEST: usize = LONGEST;
    const DEEPEST: usize = DEEPEST;
    /// The sign that binds tighter, behind a prefix; then the other.
    const TIGHTER: u8 = b'*';
    const LOOSER: u8 = b'&';

    fn lock(u: Numbers) -> Numbers {
        Numbers {
            min: (u.min + 1).min(0),
            fin: u.fin + 1,
        }
    }

    fn unlock(u: Numbers) -> Numbers {
        Numbers {
            min: u.min - 1,
            fin: u.fin - 1,
        }
    }

    fn parallel(u: Numbers, v: Numbers) -> Numbers {
        Numbers {
            min: u.min + v.min,
            fin: u.fin + v.fin,
        }
    }

    fn choice(u: Numbers, v: Numbers) -> Numbers {
        Numbers {
            min: u.min.min(v.min),
            fin: u.fin.max(v.fin),
        }
    }

    /// Whether an entry can hold them: the dip is -Min, the end is Fin.
    fn in_range(u: Numbers) -> bool {
        -u.min <= HIGHEST && (-HIGHEST..=HIGHEST).contains(&u.fin)
    }

    fn is_reliable(u: Numbers) -> bool {
        u.min == 0 && u.fin == 0
    }
}

#[derive(Clone, Copy, Debug)]
pub(crate) struct AsWritten;

impl Law for AsWritten {}
