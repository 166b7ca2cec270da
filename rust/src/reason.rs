//! Why the engine refuses, and where.
use crate::raw::Head;
use std::error::Error;
use std::fmt;

macro_rules! reasons {
    ($($number:literal $name:ident $text:literal)*) => {
        /// Why the engine refused.
        #[derive(Clone, Copy, Debug, PartialEq, Eq, Hash)]
        #[non_exhaustive]
        pub enum Reason {
            $(#[doc = concat!($number, ": ", $text, ".")] $name,)*
            /// A number that this crate does not know, from an archive that is newer than it.
            Other(u64),
        }

        impl Reason {
            /// The engine's number for it.
            #[must_use]
            pub fn number(self) -> u64 {
                match self {
                    $(Reason::$name => $number,)*
                    Reason::Other(number) => number,
                }
            }
        }

        impl From<u64> for Reason {
            fn from(number: u64) -> Reason {
                match number {
                    $($number => Reason::$name,)*
                    other => Reason::Other(other),
                }
            }
        }

        impl fmt::Display for Reason {
            fn fmt(&self, f: &mut fmt::Formatter<'_>) -> fmt::Result {
                f.write_str(match self {
                    $(Reason::$name => $text,)*
                    Reason::Other(_) => "refused for a reason that is not known here",
                })
            }
        }
    };
}

reasons! {
    // numbers: begin
    1 BundleTooLong "the bundle has more than 1,048,576 bytes"
    2 MarkUnknown "a mark is unknown, or one byte is left"
    3 RecordShort "the last record is shorter than its length"
    4 FieldBroken "a field breaks its rule"
    5 OtherTransferor "a record has another transferor than the first one"
    6 KeyRepeated "a record has the key of an earlier one, and their periods overlap"
    7 LinkMissing "a record needs another one that is not in the bundle"
    11 OutsideLimits "the question, or the railway of a balance, is outside its limits"
    12 NoConditions "the offer has no conditions for the railway of a leg"
    13 DayOutside "none of the conditions for a leg is valid on the day"
    14 PersonsOutside "the persons are fewer or more than a leg's conditions allow"
    15 ConditionUnread "a leg's conditions have one that the engine does not read"
    // 16 was FareTooHigh; neither is used again
    17 CardTwice "the question gives a card twice"
    21 BookUnsound "the book is not sound"
    22 NumberOutside "the till or the sequence is 0 or too large"
    23 NumberTaken "the sale number is held by another question"
    24 BookFull "the book has 256 sales, and the sale number is new"
    25 SaleUnknown "the sale is not in this book"
    // numbers: end
}

/// A call that was refused. Nothing was changed.
#[derive(Clone, Copy, Debug, PartialEq, Eq, Hash)]
pub struct Refusal {
    /// Why.
    pub reason: Reason,
    /// The record, leg or entry, counted from 0; 0 where the reason has none.
    pub place: usize,
    /// The field, the earlier record or the missing link (1 to 4); 0 where the reason has none.
    pub detail: usize,
}

impl fmt::Display for Refusal {
    fn fmt(&self, f: &mut fmt::Formatter<'_>) -> fmt::Result {
        write!(f, "{} (number {}, place {}, detail {})", self.reason, self.reason.number(), self.place, self.detail)
    }
}

impl Error for Refusal {}

/// Takes the head of a reply for a refusal, unless its number is 0.
pub(crate) fn check(head: &Head) -> Result<(), Refusal> {
    if head.number == 0 {
        return Ok(());
    }
    Err(Refusal { reason: Reason::from(head.number), place: index(head.place), detail: index(head.detail) })
}

/// A count or a place of the engine, which is always that of something in memory.
pub(crate) fn index(number: u64) -> usize {
    usize::try_from(number).unwrap_or(usize::MAX)
}
