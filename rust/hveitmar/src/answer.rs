//! What the machine answers to a step.

use std::fmt::{self, Display, Formatter};

/// The machine's answer to one step, or to a request for a fresh machine.
///
/// ```
/// use hveitmar::Answer;
///
/// let answer = Answer::from_number(14).expect("an answer");
/// assert_eq!(answer, Answer::NotHeld);
/// assert_eq!(answer.to_string(), "a lock is given back that is not held");
/// assert!(answer.is_fault());
/// assert_eq!(Answer::from_number(6), None);
/// ```
#[derive(Clone, Copy, Debug, PartialEq, Eq)]
pub enum Answer {
    /// 0: went on.
    WentOn = 0,
    /// 1: ended by return.
    Returned = 1,
    /// 2: ended by a throw that nobody catches.
    Uncaught = 2,
    /// 3: waits for a lock that some other thread has.
    Waits = 3,
    /// 4: waits for a free thread number.
    NoFreeThread = 4,
    /// 5: there is no such thread, or it does not live.
    NotLive = 5,
    /// 11: the stack has too few entries.
    StackShort = 11,
    /// 12: the stack has no room.
    StackFull = 12,
    /// 13: a value has the wrong kind or class.
    WrongKind = 13,
    /// 14: a lock is given back that is not held.
    NotHeld = 14,
    /// 15: the thread would end with a lock held.
    EndsHolding = 15,
    /// 16: a thread would hold a lock 2,048 times.
    CountFull = 16,
    /// 17: the bundle can't be run.
    BadBundle = 17,
    /// 18: the state does not go with the bundle.
    BadState = 18,
}

impl Answer {
    /// Every answer, in the order of their numbers.
    pub const ALL: [Answer; 14] = [
        Answer::WentOn,
        Answer::Returned,
        Answer::Uncaught,
        Answer::Waits,
        Answer::NoFreeThread,
        Answer::NotLive,
        Answer::StackShort,
        Answer::StackFull,
        Answer::WrongKind,
        Answer::NotHeld,
        Answer::EndsHolding,
        Answer::CountFull,
        Answer::BadBundle,
        Answer::BadState,
    ];

    /// The document's number.
    pub fn number(self) -> u8 {
        self as u8
    }

    /// The answer of this number, if there is one.
    pub fn from_number(number: u8) -> Option<Answer> {
        Answer::ALL
            .into_iter()
            .find(|answer| answer.number() == number)
    }

    /// 11 to 16, which an accepted bundle never draws.
    pub fn is_fault(self) -> bool {
        (11..=16).contains(&self.number())
    }
}

/// The answer in words.
impl Display for Answer {
    fn fmt(&self, to: &mut Formatter) -> fmt::Result {
        to.write_str(match self {
            Answer::WentOn => "went on",
            Answer::Returned => "ended by return",
            Answer::Uncaught => "ended by a throw that nobody catches",
            Answer::Waits => "waits for a lock that some other thread has",
            Answer::NoFreeThread => "waits for a free thread number",
            Answer::NotLive => "there is no such thread, or it does not live",
            Answer::StackShort => "the stack has too few entries",
            Answer::StackFull => "the stack has no room",
            Answer::WrongKind => "a value has the wrong kind or class",
            Answer::NotHeld => "a lock is given back that is not held",
            Answer::EndsHolding => "the thread would end with a lock held",
            Answer::CountFull => "a thread would hold a lock 2,048 times",
            Answer::BadBundle => "the bundle can't be run",
            Answer::BadState => "the state does not go with the bundle",
        })
    }
}
