//! Deliberate mistakes, for those who test what finds mistakes.
//!
//! Each is a slip that passes easy tests; one that goes unnoticed on the
//! generated inputs shows that they are too easy. A slip is settled at compile
//! time, so that the law as written costs nothing for it.

use crate::bundle::Bundle;
use crate::fill;
use crate::gate::{self, Gated, Parts};
use crate::history::{History, Numbers};
use crate::levels::Demands;
use crate::machine::{self, answer, State};
use crate::met::{self, Met};
use crate::order::Levels;
use crate::run::{self, Ran};
use crate::verify::{self, Verdict};

/// What a verifier or a machine goes by: the law as written, or with a slip.
pub trait Law {
    const SLIP: Option<Slip>;

    fn slips(slip: Slip) -> bool {
        Self::SLIP == Some(slip)
    }
}

/// The law as written.
#[derive(Clone, Copy, Debug)]
pub struct AsWritten;

impl Law for AsWritten {
    const SLIP: Option<Slip> = None;
}

/// All slips in one list: the verifier's, each with the fault that a bundle
/// let through by it leads to, the machine's, those of the held words, those of
/// histories, those of the lock order (after some of these all threads may wait,
/// others refuse too much or name another breach), those of lists that are run,
/// those of pairs that are worked out, and those of the weaver's gate.
macro_rules! slips {
    (
        verifier { $($(#[$said:meta])* $judging:ident => $fault:ident,)* }
        machine { $($(#[$meant:meta])* $moving:ident,)* }
        words { $($(#[$noted:meta])* $holding:ident,)* }
        histories { $($(#[$recalled:meta])* $recalling:ident,)* }
        standstill { $($(#[$stood:meta])* $standing:ident,)* }
        order { $($(#[$ranked:meta])* $ranking:ident,)* }
        lists { $($(#[$ran:meta])* $running:ident,)* }
        pairs { $($(#[$found:meta])* $filling:ident,)* }
        gate { $($(#[$passed:meta])* $weaving:ident,)* }
    ) => {
        /// One mistake.
        #[derive(Clone, Copy, Debug, PartialEq, Eq)]
        pub enum Slip {
            $($(#[$said])* $judging,)*
            $($(#[$meant])* $moving,)*
            $($(#[$noted])* $holding,)*
            $($(#[$recalled])* $recalling,)*
            $($(#[$stood])* $standing,)*
            $($(#[$ranked])* $ranking,)*
            $($(#[$ran])* $running,)*
            $($(#[$found])* $filling,)*
            $($(#[$passed])* $weaving,)*
        }

        /// A law for each slip.
        mod laws {
            use super::{Law, Slip};

            $(
                pub struct $judging;

                impl Law for $judging {
                    const SLIP: Option<Slip> = Some(Slip::$judging);
                }
            )*
            $(
                pub struct $moving;

                impl Law for $moving {
                    const SLIP: Option<Slip> = Some(Slip::$moving);
                }
            )*
            $(
                pub struct $holding;

                impl Law for $holding {
                    const SLIP: Option<Slip> = Some(Slip::$holding);
                }
            )*
            $(
                pub struct $recalling;

                impl Law for $recalling {
                    const SLIP: Option<Slip> = Some(Slip::$recalling);
                }
            )*
            $(
                pub struct $standing;

                impl Law for $standing {
                    const SLIP: Option<Slip> = Some(Slip::$standing);
                }
            )*
            $(
                pub struct $ranking;

                impl Law for $ranking {
                    const SLIP: Option<Slip> = Some(Slip::$ranking);
                }
            )*
            $(
                pub struct $running;

                impl Law for $running {
                    const SLIP: Option<Slip> = Some(Slip::$running);
                }
            )*
            $(
                pub struct $filling;

                impl Law for $filling {
                    const SLIP: Option<Slip> = Some(Slip::$filling);
                }
            )*
            $(
                pub struct $weaving;

                impl Law for $weaving {
                    const SLIP: Option<Slip> = Some(Slip::$weaving);
                }
            )*
        }

        impl Slip {
            /// Slips that let the verifier accept too much.
            pub const VERIFIER: [Slip; [$(Slip::$judging),*].len()] = [$(Slip::$judging),*];

            /// Slips that make the machine go wrong.
            pub const MACHINE: [Slip; [$(Slip::$moving),*].len()] = [$(Slip::$moving),*];

            /// Slips that keep a wrong word, take it for right, or count its
            /// bits wrongly.
            pub const WORDS: [Slip; [$(Slip::$holding),*].len()] = [$(Slip::$holding),*];

            /// Slips that take a step to have met something else, or count a
            /// history wrongly.
            pub const HISTORIES: [Slip; [$(Slip::$recalling),*].len()] =
                [$(Slip::$recalling),*];

            /// Slips of the lock order that accept a bundle whose threads may
            /// all wait.
            pub const STANDSTILL: [Slip; [$(Slip::$standing),*].len()] =
                [$(Slip::$standing),*];

            /// Slips of the lock order that refuse too much, take a list that
            /// is none, or name another breach.
            pub const ORDER: [Slip; [$(Slip::$ranking),*].len()] = [$(Slip::$ranking),*];

            /// Slips of the call that runs a list.
            pub const LISTS: [Slip; [$(Slip::$running),*].len()] = [$(Slip::$running),*];

            /// Slips of the call that works the pairs out.
            pub const PAIRS: [Slip; [$(Slip::$filling),*].len()] = [$(Slip::$filling),*];

            /// Slips of the weaver's gate.
            pub const GATE: [Slip; [$(Slip::$weaving),*].len()] = [$(Slip::$weaving),*];

            /// The fault that a bundle let through by this slip leads to; None
            /// for those that are not the verifier's.
            pub const fn fault(self) -> Option<u8> {
                match self {
                    $(Slip::$judging => Some(answer::$fault),)*
                    _ => None,
                }
            }

            /// The verdict of a verifier that makes this slip.
            pub fn verify(self, b: &[u8]) -> Verdict {
                match self {
                    $(Slip::$judging => verify::verify_by::<laws::$judging>(b),)*
                    _ => verify::verify(b),
                }
            }

            /// The same under the profile of a list of levels.
            pub fn verify_ordered(self, b: &[u8], levels: &[u8]) -> Verdict {
                match self {
                    $(Slip::$standing => {
                        verify::verify_ordered_by::<laws::$standing>(b, levels)
                    })*
                    $(Slip::$ranking => {
                        verify::verify_ordered_by::<laws::$ranking>(b, levels)
                    })*
                    _ => verify::verify_ordered(b, levels),
                }
            }

            /// The levels that one who makes this slip takes to do for an
            /// accepted bundle.
            pub fn levels(self, bundle: &Bundle) -> Option<Levels> {
                match self {
                    $(Slip::$standing => {
                        Demands::of_by::<laws::$standing>(bundle).levels_by::<laws::$standing>()
                    })*
                    _ => Demands::of(bundle).levels(),
                }
            }

            /// One step of a machine that makes this slip.
            pub fn step(self, bundle: &Bundle, state: &mut State, thread: u8, fails: bool) -> u8 {
                match self {
                    $(Slip::$moving => {
                        machine::step_by::<laws::$moving>(bundle, state, thread, fails)
                    })*
                    $(Slip::$holding => {
                        machine::step_by::<laws::$holding>(bundle, state, thread, fails)
                    })*
                    _ => machine::step_in(bundle, state, thread, fails),
                }
            }

            /// What a machine that makes this slip answers to the question how
            /// many objects the thread holds.
            pub fn held(self, bundle: &Bundle, state: &State, thread: u8) -> (u8, u8) {
                match self {
                    $(Slip::$holding => {
                        machine::held_by::<laws::$holding>(bundle, state, thread)
                    })*
                    _ => machine::held_in(bundle, state, thread),
                }
            }

            /// What a step meets, to one who makes this slip.
            pub fn met(self, bundle: &Bundle, state: &State, thread: u8) -> Option<Met> {
                match self {
                    $(Slip::$recalling => met::met_by::<laws::$recalling>(bundle, state, thread),)*
                    _ => met::met_in(bundle, state, thread),
                }
            }

            /// What one who makes this slip counts in a history.
            pub fn numbers(self, history: &History, thread: u8, object: u8) -> Option<Numbers> {
                match self {
                    $(Slip::$recalling => {
                        history.numbers_by::<laws::$recalling>(thread, object)
                    })*
                    _ => history.numbers(thread, object),
                }
            }

            /// What a list comes to by one who makes this slip.
            pub fn run(self, b: &[u8], list: &[u8]) -> Ran {
                match self {
                    $(Slip::$running => run::run_by::<laws::$running>(b, list),)*
                    _ => run::run(b, list),
                }
            }

            /// What one who makes this slip fills in.
            pub fn fill(self, b: &mut [u8]) -> Verdict {
                match self {
                    $(Slip::$filling => fill::fill_by::<laws::$filling>(b),)*
                    _ => fill::fill(b),
                }
            }

            /// What one who makes this slip answers to a weaver.
            pub fn gate(self, parts: &Parts, out: &mut [u8]) -> Gated {
                match self {
                    $(Slip::$weaving => gate::gate_by::<laws::$weaving>(parts, out),)*
                    _ => gate::gate(parts, out),
                }
            }
        }
    };
}

slips! {
    verifier {
        /// load: both places may get the whole pair instead of sharing it.
        LoadCopiesPair => EXIT_AT_ZERO,
        /// if: the target's row isn't looked at.
        IfChecksFallThroughOnly => ENDS_HOLDING,
        /// new without handler: the variables aren't asked to go.
        FailedNewSkipsVariables => ENDS_HOLDING,
        /// store: the old variable isn't asked to go.
        StoreKeepsOld => ENDS_HOLDING,
        /// May go allows a reference with end -1.
        MayGoMinusOne => ENDS_HOLDING,
        /// monitorexit: the dips aren't compared.
        ExitIgnoresDip => EXIT_AT_ZERO,
        /// A handler's row may have depth 0, as if nothing were thrown.
        HandlerMayBeEmpty => STACK_FULL,
        /// A handler's row may have a depth above 1.
        HandlerMayBeDeeper => STACK_SHORT,
        /// The handler's only entry isn't compared with what is thrown.
        HandlerEntryUnchecked => EXIT_AT_ZERO,
        /// athrow: the top may be a reference of any class.
        AthrowOfAnyClass => WRONG_KIND,
        /// athrow with a handler: what lies below the top isn't asked to go.
        CaughtKeepsRest => ENDS_HOLDING,
        /// athrow without handler: the top isn't asked to go.
        UncaughtKeepsTop => ENDS_HOLDING,
        /// athrow without handler: what lies below the top isn't asked to go.
        UncaughtKeepsRest => ENDS_HOLDING,
        /// athrow without handler: the variables aren't asked to go.
        UncaughtKeepsVariables => ENDS_HOLDING,
        /// A reference that may be null fits one of another class.
        NullableFitsAnyClass => WRONG_KIND,
        /// A reference that may be null fits one that may not, with (0,0).
        NullableFitsReference => WRONG_KIND,
        /// A reference that owes a lock fits one that may be null.
        OwingFitsNullable => ENDS_HOLDING,
        /// start takes references that may be null.
        StartOfNull => WRONG_KIND,
        /// Null thrown: the stack isn't asked to go.
        NullKeepsStack => ENDS_HOLDING,
        /// Null thrown with a handler: the variables aren't compared.
        CaughtNullKeepsVariables => ENDS_HOLDING,
        /// Null thrown without handler: the variables aren't asked to go.
        UncaughtNullKeepsVariables => ENDS_HOLDING,
        /// monitorenter on a reference that may be null leaves (0,0).
        EnteredFromNullIsFree => ENDS_HOLDING,
        /// getfield pushes a reference that is not null.
        GetfieldPushesReference => WRONG_KIND,
        /// getfield and putfield: the owner may be of any class.
        OwnerOfAnyClass => WRONG_KIND,
        /// getfield and putfield: the owner isn't asked to go.
        FieldDropsOwner => ENDS_HOLDING,
        /// putfield: Top is taken for an integer.
        PutfieldOfTop => WRONG_KIND,
        /// putfield: the value may be a reference of any class.
        PutfieldOfAnyClass => WRONG_KIND,
        /// putfield: the value isn't asked to go.
        PutfieldDropsValue => ENDS_HOLDING,
    }
    machine {
        /// A lock is counted at its variable's number, not its object's.
        CountByVariable,
        /// monitorenter by the holder answers 3.
        ReentryWaits,
        /// A new object's fields keep what their places held.
        NewLeavesFields,
        /// monitorenter on null waits while another thread holds object 0.
        NullWaits,
    }
    words {
        /// monitorenter and monitorexit move the bit of the object behind theirs.
        BitOfAnotherObject,
        /// monitorexit clears the bit while the count is still above zero.
        ExitClearsBit,
        /// 18 isn't given for the word of a thread that isn't live.
        IdleWordIgnored,
        /// 18 isn't given for bits that the counts don't ask for.
        BitTooManyBelongs,
        /// 18 isn't given for bits that the counts ask for and the word lacks.
        BitTooFewBelongs,
        /// 18 isn't given where the word has as many bits as the counts ask for.
        BitsOnlyCounted,
        /// The number held is that of the lower 31 bits.
        LastBitNotCounted,
    }
    histories {
        /// monitorenter on null meets object 0, which it throws.
        NullMeetsObject0,
        /// start meets the object that it takes.
        StartMeetsObject,
        /// A monitorenter that answers 3 counts.
        WaitsCounted,
        /// Steps of an earlier thread of the same number count.
        EarlierThreadCounted,
    }
    standstill {
        /// What is held may be of the same level as what is taken.
        EqualLevelsAllowed,
        /// The stack isn't looked at.
        StackUnordered,
        /// Entries of the class that is taken aren't looked at.
        OwnClassUnordered,
        /// A monitorenter on what may be null isn't looked at.
        NullableUnordered,
        /// Only the first entry that owes is looked at.
        FirstHeldOrdered,
        /// An end of -1 doesn't count.
        SingleDebtUnordered,
    }
    order {
        /// The variable of the monitorenter is looked at too.
        OwnPlaceOrdered,
        /// An end of 0 counts.
        EndZeroOrdered,
        /// A reference that may be null counts.
        NullableHeld,
        /// monitorexit asks the same.
        ExitOrdered,
        /// 25 comes before 9 at the same address.
        OrderBeforeRule,
        /// 25 comes after every 9 and 10.
        OrderBehindRules,
        /// A list of seven bytes is taken, with 0 for the last class.
        SevenLevelsTaken,
        /// 26 comes after every verdict on the bundle.
        ListJudgedLast,
    }
    lists {
        /// A step that answers 3 counts.
        CountsWaits,
        /// A step that answers 4 counts.
        CountsFullStarts,
        /// A step that answers 1 doesn't count.
        ReturnsUncounted,
        /// A step that answers 2 doesn't count.
        UncaughtUncounted,
        /// The list is left at the first 3.
        StopsAtWait,
        /// The list is left at the first 4.
        StopsAtFullStart,
        /// The list is left at the first 5.
        StopsAtNotLive,
        /// The list is left where a thread ends.
        StopsAtEnd,
        /// The number is cut to 16 bits.
        NumberOfTwoBytes,
        /// The thread is told by the low four bits.
        ThreadOfFourBits,
        /// Bit 6 says that new fails, not bit 7.
        BitSixFails,
        /// A byte says that new fails where it is above 128, not at 128.
        FailsAbove128,
        /// The last step is left out.
        LastStepLeftOut,
        /// A bundle that is refused by 8, 9 or 10 is run.
        RefusedIsRun,
        /// With such a bundle comes its fresh machine.
        RefusedStateIsFresh,
    }
    pairs {
        /// Ends are sought from -62 on.
        EndFromMinus62,
        /// What references on a way round need of each other is asked once.
        RoundOnce,
        /// No reference needs the dip of what a handler's row has at its place.
        HandlerKeepsDip,
        /// load: the larger of both pairs will do, not their sum.
        LoadNeedsLarger,
        /// The least of which dip and end add up to 0 at least.
        SumNotNegative,
        /// Pair bytes that are malformed draw 8.
        PairsLookedAt,
        /// Unused entries have pair bytes too, which may be anything.
        UnusedHasPair,
        /// So has kind 4.
        NullablePairAside,
        /// Kind 4 gets (0,0) written.
        NullableIsWritten,
        /// Records that touch share a byte.
        TouchingShares,
        /// A record may share its bytes with the directory.
        DirectoryShared,
        /// 22 comes before 23.
        NoneBeforeShared,
        /// 23 comes before 8.
        SharedBeforeRows,
        /// With 22 the pairs that come nearest are written.
        RefusedIsFilled,
    }
    gate {
        /// The directory stands before the records.
        DirectoryFirst,
        /// Kinds are read with the class first.
        ClassBeforeKind,
        /// The kinds of a row are read with its stack first.
        StackBeforeVariables,
        /// The depth of a class's second row is passed over, and those behind it
        /// move up.
        DepthRowSkipped,
        /// The number of instructions is read with its low byte first.
        CodeLowByteFirst,
        /// The exception class is not written.
        ExceptionNotWritten,
        /// The exception class is taken modulo 256.
        ExceptionOfOneByte,
        /// The class count is taken modulo 256.
        CountOfOneByte,
        /// The whole length is taken modulo 65,536.
        LengthOfTwoBytes,
        /// A slice may be longer than is asked.
        LongerTaken,
        /// 24 comes before 27.
        RoomBeforeLengths,
        /// 24 comes before what the bundle draws.
        RoomBeforePairs,
        /// 3 comes before 1.
        ThrownBeforeLength,
        /// 4 comes before 3.
        LimitsBeforeThrown,
        /// A malformed row draws 22, since no pairs do for it.
        MalformedHasNoPairs,
        /// An output that is just long enough is too short.
        ExactIsTooShort,
        /// A refusal clears the first byte of the output.
        RefusalWrites,
        /// What lies behind the bundle is cleared.
        RestIsCleared,
        /// The bundle is written without its pairs.
        PairsLeftOut,
        /// The length given is that of the output.
        LengthOfOutput,
    }
}
