//! The C calls of the proved library; the only unsafe lines are here.
#![allow(unsafe_code)]

use crate::{
    Held, Met, Refusal, Run, RunRefusal, TakeRefusal, Usage, UsageRefusal, Verdict, STATE_BYTES,
};

extern "C" {
    fn hveitmar_verdict(bundle: *const u8, length: usize) -> u64;
    fn hveitmar_ordered(
        bundle: *const u8,
        length: usize,
        levels: *const u8,
        level_count: usize,
    ) -> u64;
    fn hveitmar_fill(bundle: *mut u8, length: usize) -> u64;
    fn hveitmar_digest(bundle: *const u8, length: usize, schedule: *const u8, steps: usize) -> u64;
    fn hveitmar_answers(
        bundle: *const u8,
        length: usize,
        threads: *const u8,
        steps: usize,
        fails: *const u8,
        flags: usize,
    ) -> u64;
    fn hveitmar_record(bundle: *const u8, length: usize, class: u8) -> u64;
    fn hveitmar_held(
        bundle: *const u8,
        length: usize,
        state: *const u8,
        state_length: usize,
        thread: u8,
    ) -> u32;
    fn hveitmar_meets(
        bundle: *const u8,
        length: usize,
        schedule: *const u8,
        steps: usize,
        thread: u8,
    ) -> u64;
    fn hveitmar_run(
        bundle: *const u8,
        length: usize,
        schedule: *const u8,
        steps: usize,
        out: *mut u8,
        out_length: usize,
    ) -> u64;
    fn hveitmar_usage(text: *const u8, length: usize) -> u64;
    fn hveitmar_take(
        attribute: *const u8,
        length: usize,
        classes: *const u8,
        classes_length: usize,
        out: *mut u8,
        out_length: usize,
    ) -> u64;
}

/// Judges a bundle: accepted, or the first rule that it breaks.
///
/// ```
/// use hveitmar::{verify, Refusal, Verdict};
///
/// assert_eq!(verify(&[]), Verdict::Refused(Refusal::Length));
/// ```
pub fn verify(bundle: &[u8]) -> Verdict {
    // SAFETY: the call reads this many bytes from there, and keeps nothing.
    let packed = unsafe { hveitmar_verdict(bundle.as_ptr(), bundle.len()) };
    Verdict::unpacked(packed).unwrap_or_else(|| panic!("{packed:x} is no verdict"))
}

/// Judges a bundle under a lock order, in which each class has a level: as
/// [`verify`] does, and at each monitorenter every other reference of the row
/// that owes a release must be of a strictly higher level than what is taken
/// (25). A list of other than eight levels is refused before all else (26).
///
/// While a thread of an accepted bundle lives, some thread that lives need not
/// wait for a lock, whatever was run before.
///
/// ```
/// use hveitmar::{verify_ordered, Refusal, Verdict};
///
/// # let folder = concat!(env!("CARGO_MANIFEST_DIR"), "/../../cases/");
/// // It takes a lock of class 1 while it holds one of class 0.
/// let bundle = std::fs::read(format!("{folder}nested.bundle"))?;
/// let verdict = verify_ordered(&bundle, &[1, 0, 0, 0, 0, 0, 0, 0]);
/// assert_eq!(verdict, Verdict::Accepted { classes: 2 });
/// let refused = verify_ordered(&bundle, &[0; 8]);
/// assert_eq!(refused.to_string(), "refused 25 class 0 address 10");
/// let refused = verify_ordered(&bundle, &[0; 7]);
/// assert_eq!(refused, Verdict::Refused(Refusal::Levels));
/// # Ok::<(), std::io::Error>(())
/// ```
pub fn verify_ordered(bundle: &[u8], levels: &[u8]) -> Verdict {
    // SAFETY: as above, for both slices.
    let packed =
        unsafe { hveitmar_ordered(bundle.as_ptr(), bundle.len(), levels.as_ptr(), levels.len()) };
    Verdict::unpacked_ordered(packed).unwrap_or_else(|| panic!("{packed:x} is no verdict"))
}

/// Works the pairs of a bundle out and fills them in: dip and end of every
/// reference in use, the least that the verifier accepts. What stood in their
/// place is not looked at, and nothing else changes. Gives how many classes the
/// bundle has.
///
/// A bundle is refused as [`verify`] does by 1 to 8, pair bytes aside; by 23 where
/// a record shares a byte with another or with the directory; by 22 where no
/// pairs would do. Then it stays as it is.
///
/// ```
/// use hveitmar::{fill, Refusal};
///
/// # let folder = concat!(env!("CARGO_MANIFEST_DIR"), "/../../cases/");
/// let bundle = std::fs::read(format!("{folder}a.bundle"))?;
/// let mut filled = bundle.clone();
/// // Dip and end of variable 0 in row 4.
/// filled[65..67].fill(0);
/// assert_eq!(fill(&mut filled), Ok(1));
/// assert_eq!(filled, bundle);
/// let mut other = std::fs::read(format!("{folder}b.bundle"))?;
/// assert_eq!(fill(&mut other), Err(Refusal::Pairs));
/// # Ok::<(), std::io::Error>(())
/// ```
pub fn fill(bundle: &mut [u8]) -> Result<u8, Refusal> {
    // SAFETY: the call reads and writes no more than these bytes, to which nothing
    // else refers, and keeps nothing.
    let packed = unsafe { hveitmar_fill(bundle.as_mut_ptr(), bundle.len()) };
    Verdict::unpacked_filled(packed).unwrap_or_else(|| panic!("{packed:x} is no answer of a fill"))
}

/// All answers of a schedule from the fresh machine, mixed into one number:
/// each answer is added to 31 times what was there, modulo 2^32, and the
/// first is the fresh machine's own.
///
/// A step is one byte: the low four bits are the thread, the top bit says
/// that an allocation fails.
///
/// ```
/// # let folder = concat!(env!("CARGO_MANIFEST_DIR"), "/../../cases/");
/// let bundle = std::fs::read(format!("{folder}a.bundle"))?;
/// // Six steps go on (0), the seventh ends the thread (1), then there is none (5).
/// assert_eq!(hveitmar::digest(&bundle, &[0; 8]), 1 * 31 + 5);
/// # Ok::<(), std::io::Error>(())
/// ```
pub fn digest(bundle: &[u8], schedule: &[u8]) -> u64 {
    // SAFETY: as above, for both slices.
    unsafe {
        hveitmar_digest(
            bundle.as_ptr(),
            bundle.len(),
            schedule.as_ptr(),
            schedule.len(),
        )
    }
}

/// The same digest of turns that may name any thread number.
///
/// A turn is a thread's number and whether an allocation fails.
///
/// ```
/// # let folder = concat!(env!("CARGO_MANIFEST_DIR"), "/../../cases/");
/// let bundle = std::fs::read(format!("{folder}a.bundle"))?;
/// // The first step goes on (0), then there is no such thread (5).
/// assert_eq!(hveitmar::answers(&bundle, &[(0, false), (255, false)]), 5);
/// # Ok::<(), std::io::Error>(())
/// ```
pub fn answers(bundle: &[u8], turns: &[(u8, bool)]) -> u64 {
    let threads: Vec<u8> = turns.iter().map(|&(thread, _)| thread).collect();
    let fails: Vec<u8> = turns.iter().map(|&(_, fails)| u8::from(fails)).collect();
    // SAFETY: as above, for all three slices.
    unsafe {
        hveitmar_answers(
            bundle.as_ptr(),
            bundle.len(),
            threads.as_ptr(),
            threads.len(),
            fails.as_ptr(),
            fails.len(),
        )
    }
}

/// The bytes of a class's record; none where there is no such class, or the
/// bundle draws one of the verdicts 1 to 6.
///
/// ```
/// # let folder = concat!(env!("CARGO_MANIFEST_DIR"), "/../../cases/");
/// let bundle = std::fs::read(format!("{folder}a.bundle"))?;
/// assert_eq!(hveitmar::record(&bundle, 0), &bundle[..117]);
/// assert!(hveitmar::record(&bundle, 1).is_empty());
/// # Ok::<(), std::io::Error>(())
/// ```
pub fn record(bundle: &[u8], class: u8) -> &[u8] {
    // SAFETY: as above.
    let packed = unsafe { hveitmar_record(bundle.as_ptr(), bundle.len(), class) };
    let (offset, length) = (packed as u32 as usize, (packed >> 32) as usize);
    &bundle[offset..offset + length]
}

/// How many objects a thread holds in a state, told by its held word.
///
/// A state is 2,537 bytes, as the program `hveitmar_trace` takes it: docs/LAW.md
/// has its form in section 7.
///
/// ```
/// use hveitmar::{held, Answer, Held};
///
/// # let folder = concat!(env!("CARGO_MANIFEST_DIR"), "/../../cases/");
/// let bundle = std::fs::read(format!("{folder}a.bundle"))?;
/// // The fresh machine: thread 0 lives at address 1, and there is object 0.
/// let mut state = [0; 2_537];
/// (state[0], state[3], state[1_832]) = (1, 1, 1);
/// assert_eq!(held(&bundle, &state, 0), Held::Objects(0));
/// assert_eq!(held(&bundle, &state, 1), Held::Refused(Answer::NotLive));
/// // A count above zero, and not its bit; then its bit too.
/// state[1_321] = 1;
/// assert_eq!(held(&bundle, &state, 0), Held::Refused(Answer::BadState));
/// state[2_508] = 1;
/// assert_eq!(held(&bundle, &state, 0), Held::Objects(1));
/// # Ok::<(), std::io::Error>(())
/// ```
pub fn held(bundle: &[u8], state: &[u8], thread: u8) -> Held {
    // SAFETY: as above, for both slices.
    let packed = unsafe {
        hveitmar_held(
            bundle.as_ptr(),
            bundle.len(),
            state.as_ptr(),
            state.len(),
            thread,
        )
    };
    Held::unpacked(packed).unwrap_or_else(|| panic!("{packed:x} is no number of objects held"))
}

/// What a step of this thread would meet after a schedule from the fresh
/// machine, whatever it would answer. None where the thread does not live, as
/// none does where the bundle can't be run.
///
/// The schedule's bytes are those of [`digest`].
///
/// ```
/// # let folder = concat!(env!("CARGO_MANIFEST_DIR"), "/../../cases/");
/// let bundle = std::fs::read(format!("{folder}a.bundle"))?;
/// // Thread 0 stands at its first instruction, new 0; seven steps end it.
/// let met = hveitmar::meets(&bundle, &[], 0).expect("thread 0 lives");
/// assert_eq!((met.opcode, met.object), (9, None));
/// assert_eq!(hveitmar::meets(&bundle, &[0; 7], 0), None);
/// assert_eq!(hveitmar::meets(&[], &[], 0), None);
/// # Ok::<(), std::io::Error>(())
/// ```
pub fn meets(bundle: &[u8], schedule: &[u8], thread: u8) -> Option<Met> {
    // SAFETY: as above, for both slices.
    let packed = unsafe {
        hveitmar_meets(
            bundle.as_ptr(),
            bundle.len(),
            schedule.as_ptr(),
            schedule.len(),
            thread,
        )
    };
    Met::unpacked(packed).unwrap_or_else(|| panic!("{packed:x} is nothing that a step meets"))
}

/// Runs a schedule on a bundle that is accepted, from the fresh machine: how
/// many steps answered 0, 1 or 2, and the state after the last one. The bundle
/// is judged once, and one that is refused is not run.
///
/// A step is one byte: the low three bits are the thread, the top bit says that
/// an allocation fails, the others say nothing. Steps that answer 3, 4 or 5 are
/// passed over; no other answer arises.
///
/// ```
/// use hveitmar::{held, run, Answer, Held};
///
/// # let folder = concat!(env!("CARGO_MANIFEST_DIR"), "/../../cases/");
/// let bundle = std::fs::read(format!("{folder}a.bundle"))?;
/// // Three steps, and one of a thread that was never started.
/// let held_now = run(&bundle, &[0, 0, 1, 0]);
/// assert_eq!(held_now.steps, Ok(3));
/// assert_eq!(held(&bundle, &held_now.state, 0), Held::Objects(1));
/// // The seventh step ends thread 0.
/// let ended = run(&bundle, &[0; 8]);
/// assert_eq!(ended.steps, Ok(7));
/// assert_eq!(held(&bundle, &ended.state, 0), Held::Refused(Answer::NotLive));
/// # Ok::<(), std::io::Error>(())
/// ```
pub fn run(bundle: &[u8], schedule: &[u8]) -> Run {
    let mut state = [0; STATE_BYTES];
    let steps = run_into(bundle, schedule, &mut state).map_err(|refusal| match refusal {
        RunRefusal::Bundle(refusal) => refusal,
        RunRefusal::NoRoom => panic!("{STATE_BYTES} bytes are too few for a state"),
    });
    Run { steps, state }
}

/// The same with the state written into lent bytes, the first 2,537 of them; the
/// others stay as they are. All do where there are fewer, and then nothing is
/// judged or run.
///
/// ```
/// use hveitmar::{run_into, RunRefusal};
///
/// # let folder = concat!(env!("CARGO_MANIFEST_DIR"), "/../../cases/");
/// let bundle = std::fs::read(format!("{folder}a.bundle"))?;
/// let mut out = [7; 2_538];
/// assert_eq!(run_into(&bundle, &[0], &mut out[..2_536]), Err(RunRefusal::NoRoom));
/// assert_eq!(out, [7; 2_538]);
/// assert_eq!(run_into(&bundle, &[0], &mut out), Ok(1));
/// assert_eq!((out[0], out[3], out[2_537]), (1, 2, 7));
/// # Ok::<(), std::io::Error>(())
/// ```
pub fn run_into(bundle: &[u8], schedule: &[u8], out: &mut [u8]) -> Result<u64, RunRefusal> {
    // SAFETY: as above, for both slices that are read; of `out`, which nothing
    // else refers to, the call writes no more than it is told that there are.
    let packed = unsafe {
        hveitmar_run(
            bundle.as_ptr(),
            bundle.len(),
            schedule.as_ptr(),
            schedule.len(),
            out.as_mut_ptr(),
            out.len(),
        )
    };
    RunRefusal::unpacked(packed).unwrap_or_else(|| panic!("{packed:x} is no answer of a run"))
}

/// Reads a usage as the paper writes it, with `*` for its ⊗: its dip and end,
/// and whether it is reliable.
///
/// ```
/// use hveitmar::{usage, UsageRefusal};
///
/// let balanced = usage(b"L.L.(^L.0*^L.0)")?;
/// assert_eq!(balanced.to_string(), "dip 0 end 0 reliable yes");
/// let wrong = usage(b"L.^L.^L.0")?;
/// assert_eq!((wrong.dip, wrong.end, wrong.reliable), (1, -1, false));
/// assert_eq!(usage(b"L"), Err(UsageRefusal::Text));
/// # Ok::<(), UsageRefusal>(())
/// ```
pub fn usage(text: &[u8]) -> Result<Usage, UsageRefusal> {
    // SAFETY: as in `verify`.
    let packed = unsafe { hveitmar_usage(text.as_ptr(), text.len()) };
    Usage::unpacked(packed).unwrap_or_else(|| panic!("{packed:x} is no answer of a usage"))
}

/// Takes a method from a class file: reads its Code attribute and writes a
/// record's instructions into lent bytes, four for each; gives how many. The
/// rest stays as it is, and on a refusal all does.
///
/// The attribute begins with the index of its name, and what comes behind its
/// exception table is not read. A class number is the first place of its index
/// in the constant pool among the first eight of `classes`.
///
/// ```
/// use hveitmar::{take, TakeRefusal};
///
/// // aload_0, monitorenter, aload_0, monitorexit, return.
/// let head = [0, 1, 0, 0, 0, 17, 0, 1, 0, 1, 0, 0, 0, 5];
/// let attribute = [&head[..], &[0x2A, 0xC2, 0x2A, 0xC3, 0xB1], &[0; 4]].concat();
/// let mut out = [7; 16];
/// assert_eq!(take(&attribute, &[], &mut out), Ok(3));
/// assert_eq!(out, [7, 0, 0, 0, 8, 0, 0, 0, 12, 0, 0, 0, 7, 7, 7, 7]);
/// let refused = take(&attribute, &[], &mut out[..8]);
/// assert_eq!(refused, Err(TakeRefusal::Room { offset: 4 }));
/// ```
pub fn take(attribute: &[u8], classes: &[u16], out: &mut [u8]) -> Result<usize, TakeRefusal> {
    let classes: Vec<u8> = classes.iter().flat_map(|c| c.to_be_bytes()).collect();
    // SAFETY: as in `run_into`.
    let packed = unsafe {
        hveitmar_take(
            attribute.as_ptr(),
            attribute.len(),
            classes.as_ptr(),
            classes.len(),
            out.as_mut_ptr(),
            out.len(),
        )
    };
    TakeRefusal::unpacked(packed).unwrap_or_else(|| panic!("{packed:x} is no answer of taking"))
}
