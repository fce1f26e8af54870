//! Why a call was refused.
use core::fmt;
use core::num::NonZeroU32;

/// A refusal, by its number. A refused call has left the engine and the outbox as they were. `Display` says it in words.
#[derive(Clone, Copy, PartialEq, Eq, Hash)]
pub struct Refusal(NonZeroU32);

const fn numbered(number: u32) -> Refusal {
    match NonZeroU32::new(number) {
        Some(number) => Refusal(number),
        None => panic!("0 is no refusal"),
    }
}

/// The table of refusals: number, name, meaning.
macro_rules! refusals {
    ($($number:literal $name:ident $meaning:literal;)*) => {
        impl Refusal {
            $(#[doc = concat!("Refusal ", $number, ": ", $meaning, ".")] pub const $name: Refusal = numbered($number);)*

            /// What the number means.
            pub fn meaning(self) -> &'static str {
                match self.number() {
                    $($number => $meaning,)*
                    _ => "a reason that this crate has no words for",
                }
            }
        }
    };
}

refusals! {
    1 TIME_LATE "the time is above 2^63 - 1 milliseconds";
    2 OUTBOX_SHORT "the outbox is shorter than what this call needs";
    3 TEXT_OVER_SIZE "a name, a type or a location is over its size";
    4 TEXT_NOT_GOOD "a text is not UTF-8, holds a line end, or starts or ends in white space";
    5 TABLE_FULL "as many names or subscriptions are held as there is room for";
    6 BUFFER_SHORT "the buffer is shorter than the message";
    7 DATAGRAM_EMPTY "the datagram is empty";
    8 DATAGRAM_INVALID "the datagram is no message of this protocol";
    9 WAIT_ZERO "the search gives no time to answer (MX 0)";
    10 TARGET_OVER_SIZE "the search target is over the size of a type";
    11 INDEX_ZERO "no link has the index 0";
    12 ADDRESS_LENGTH "the address has neither 4 nor 16 bytes";
    13 LINKS_FULL "as many links, or addresses of that link, are held as there is room for";
    14 JOIN_FAILED "the group could not be joined on that link";
}

impl Refusal {
    /// The number, from 1 on.
    pub fn number(self) -> u32 {
        self.0.get()
    }

    /// `Err` for the number of a refusal, `Ok` for 0.
    pub(crate) fn check(number: u32) -> Result<(), Refusal> {
        NonZeroU32::new(number).map_or(Ok(()), |number| Err(Refusal(number)))
    }
}

impl fmt::Display for Refusal {
    fn fmt(&self, f: &mut fmt::Formatter<'_>) -> fmt::Result {
        write!(f, "refused {}: {}", self.number(), self.meaning())
    }
}

impl fmt::Debug for Refusal {
    fn fmt(&self, f: &mut fmt::Formatter<'_>) -> fmt::Result {
        write!(f, "Refusal({})", self.number())
    }
}

impl core::error::Error for Refusal {}
