//! The call that runs a whole list, on both sides: answer, verdict, number and
//! the state at the end, and the reference's single steps beside it.

use crate::proved::{self, STATE_BYTES};
use crate::Differences;
use generator::families::{self, contending, recurring, sized};
use generator::lively::Lively;
use generator::rng::Rng;
use generator::schedule::{list, schedule, IGNORED_IN_LISTS};
use hveitmar::RunRefusal;
use reference::bundle::Bundle;
use reference::machine::{answer, fresh, fresh_in, step_in};
use reference::run::{run, Ran};
use reference::state::THREADS;
use trace::encode_state;

/// One list in so many is also run into lent bytes of other lengths.
const LISTS_A_LENT_BUFFER: usize = 16;
/// One long list for so many others.
const LISTS_A_LONG_ONE: u64 = 256;
/// How many steps a long list has: more than two bytes can count.
const LONG: usize = 70_000;
/// How many steps one has in which a slip should be seen.
const SHORT: usize = 100;

/// A bundle and a list by seed, such that each slip of the call is seen in some:
/// threads that want the same locks, threads that are started again and again,
/// any bundle, and now and then a long list.
pub fn input(seed: u64) -> (Vec<u8>, Vec<u8>) {
    let mut rng = Rng::new(seed);
    let bundle = match seed % 4 {
        0 => contending::contending(&mut rng).lay_out(),
        1 => recurring::recurring(&mut rng).lay_out(),
        _ if seed % 16 == 2 => return long_list(&mut rng),
        _ => families::bundle(seed).1,
    };
    let turns = schedule(&bundle, &fresh(&bundle).1, seed, SHORT);
    (bundle, list(&mut rng, &turns))
}

/// Threads that never end, and more of their steps than two bytes can count.
fn long_list(rng: &mut Rng) -> (Vec<u8>, Vec<u8>) {
    let threads = rng.between(1, THREADS);
    let turns = list(rng, &sized::turns(threads, LONG));
    (sized::endless(threads, 0), turns)
}

#[derive(Debug, Default)]
pub struct Lists {
    lists: u64,
    /// Refused, by the number of the verdict.
    refused: [u64; 11],
    /// Steps of accepted bundles, and those that answered 0, 1 or 2.
    steps: u64,
    taken: u64,
    /// Lists of accepted bundles with such an answer, 0 to 5.
    with_answer: [u64; 6],
    /// Lists of accepted bundles of which no step was taken, and empty ones.
    none_taken: u64,
    empty: u64,
    /// Lists that entered a handler, met null, read or wrote a field.
    throws: u64,
    nulls: u64,
    fields: u64,
    /// Bytes with bits that say nothing.
    ignored_bits: u64,
    /// Lists of which more steps are taken than two bytes can count.
    long: u64,
}

impl Lists {
    /// A schedule as a list, with any bits that say nothing; and at times a long
    /// list.
    pub fn add(&mut self, bundle: &[u8], lively: &Lively, seed: u64, to: &mut Differences) {
        let mut rng = Rng::new(seed ^ 0x715B_0000_0000_0000);
        let list = list(&mut rng, &lively.schedule);
        self.compare(&mut rng, bundle, &list, Some(lively), seed, to);
        if seed % LISTS_A_LONG_ONE == 1 {
            let (bundle, list) = long_list(&mut rng);
            self.compare(&mut rng, &bundle, &list, None, seed, to);
        }
    }

    fn compare(
        &mut self,
        rng: &mut Rng,
        bundle: &[u8],
        list: &[u8],
        lively: Option<&Lively>,
        seed: u64,
        to: &mut Differences,
    ) {
        let ran = run(bundle, list);
        let answers = stepped(bundle, list, &ran);
        let found = [
            difference(bundle, list, &ran),
            answers.as_ref().err().cloned(),
            lent_difference(rng, bundle, list),
        ];
        for difference in found.into_iter().flatten() {
            let what = format!("list of the schedule of seed {seed}: {difference}");
            to.add(what, &[bundle, list]);
        }
        let answers = answers.unwrap_or_default();
        self.count(list, &ran, &answers);
        if let Some(lively) = lively.filter(|lively| lively.answers == answers) {
            self.count_led_to(lively);
        }
    }

    fn count(&mut self, list: &[u8], ran: &Ran, answers: &[u8]) {
        self.lists += 1;
        let ignored = list.iter().filter(|&&byte| byte & IGNORED_IN_LISTS != 0);
        self.ignored_bits += ignored.count() as u64;
        if ran.verdict.number != 0 {
            self.refused[usize::from(ran.verdict.number)] += 1;
            return;
        }
        for (given, count) in (0..).zip(&mut self.with_answer) {
            *count += u64::from(answers.contains(&given));
        }
        self.steps += list.len() as u64;
        self.taken += ran.number;
        self.none_taken += u64::from(ran.number == 0 && !list.is_empty());
        self.empty += u64::from(list.is_empty());
        self.long += u64::from(ran.number > u64::from(u16::MAX));
    }

    /// What the schedule led to, where the list is the same steps.
    fn count_led_to(&mut self, lively: &Lively) {
        let fields = lively.fields;
        self.throws += u64::from(lively.caught_athrow || lively.caught_new);
        self.nulls += u64::from(fields.caught + fields.uncaught > 0);
        self.fields += u64::from(fields.read + fields.written > 0);
    }

    /// Each with its name.
    pub fn named(&self) -> Vec<(String, u64)> {
        let refused = (1..).zip(&self.refused[1..]);
        let refused = refused.map(|(number, &count)| (format!("refused by {number}"), count));
        let answers = (0..).zip(self.with_answer);
        let answers =
            answers.map(|(given, count): (u8, u64)| (format!("with an answer {given}"), count));
        let others = [
            ("of which no step is taken", self.none_taken),
            ("empty", self.empty),
            ("that enter a handler", self.throws),
            ("that meet null", self.nulls),
            ("that use fields", self.fields),
            ("of which more than 65,535 steps are taken", self.long),
        ];
        let others = others.map(|(what, count)| (what.to_string(), count));
        let all = refused.chain(answers).chain(others);
        let named = all.map(|(what, count)| (format!("lists {what}"), count));
        let ignored = (
            "bytes of lists with ignored bits".to_string(),
            self.ignored_bits,
        );
        named.chain([ignored]).collect()
    }

    pub fn print(&self) {
        println!(
            "  lists run {}, {} steps of accepted bundles, {} of them taken",
            self.lists, self.steps, self.taken
        );
        for (what, count) in self.named() {
            println!("  {what}: {count}");
        }
    }
}

/// What the proved call says otherwise.
fn difference(bundle: &[u8], list: &[u8], ran: &Ran) -> Option<String> {
    let told = match ran.verdict.number {
        0 => Ok(ran.number),
        _ => Err(ran.verdict),
    };
    let (proved, state) = proved::run(bundle, list);
    if proved != told {
        return Some(format!("proved {proved:?}, reference {told:?}"));
    }
    let wanted = encode_state(&ran.state);
    let first = state.iter().zip(&wanted).position(|(a, b)| a != b);
    first.map(|at| format!("the states differ at byte {at}"))
}

/// The answers of an accepted bundle's list by single steps of the reference,
/// which come to the same; else what they come to.
fn stepped(bundle: &[u8], list: &[u8], ran: &Ran) -> Result<Vec<u8>, String> {
    if ran.verdict.number != 0 {
        return Ok(vec![]);
    }
    let opened = Bundle::open_with_code(bundle).map_err(|verdict| verdict.to_string())?;
    let mut state = fresh_in(&opened);
    let step = |&byte: &u8| step_in(&opened, &mut state, byte & 0x07, byte & 0x80 != 0);
    let answers: Vec<u8> = list.iter().map(step).collect();
    let taken = answers.iter().filter(|&&given| given <= answer::UNCAUGHT);
    let (taken, highest) = (taken.count() as u64, answers.iter().max());
    if highest > Some(&answer::NOT_LIVE) || taken != ran.number || state != ran.state {
        let same = state == ran.state;
        return Err(format!(
            "{taken} single steps, answers up to {highest:?}, the same state: {same}"
        ));
    }
    Ok(answers)
}

/// With room for a state and more, the rest stays as it is; with less, all does.
fn lent_difference(rng: &mut Rng, bundle: &[u8], list: &[u8]) -> Option<String> {
    if !rng.chance(1, LISTS_A_LENT_BUFFER) {
        return None;
    }
    let length = rng.pick(&[0, 1, STATE_BYTES - 1, STATE_BYTES, STATE_BYTES + 1, 4_000]);
    let before = rng.bytes(length);
    let mut out = before.clone();
    let given = hveitmar::run_into(bundle, list, &mut out);
    let (wanted, state) = proved::run(bundle, list);
    let right = match given {
        Err(RunRefusal::NoRoom) => length < STATE_BYTES && out == before,
        _ if length < STATE_BYTES => false,
        Ok(number) => wanted == Ok(number),
        Err(RunRefusal::Bundle(_)) => wanted.is_err(),
    };
    let written = length < STATE_BYTES || {
        let (first, rest) = out.split_at(STATE_BYTES);
        first == state && rest == &before[STATE_BYTES..]
    };
    (!right || !written).then(|| format!("with {length} bytes lent {given:?}"))
}
