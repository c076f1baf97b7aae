//! The numbers that a session or a pool says no with.
#![forbid(unsafe_code)]
use core::{error, fmt};

/// One table: the name of each refusal, its number and its sentence.
macro_rules! refusals {
    ($($name:ident = $number:literal, $sentence:literal;)*) => {
        /// Why a session or a pool says no. docs/INTEGRATING.md and docs/POOL.md say what a host does at each.
        ///
        /// ```
        /// use trusshemp::Refusal;
        ///
        /// assert_eq!(Refusal::of(10), Some(Refusal::NoCandidate));
        /// assert_eq!(Refusal::NoCandidate.number(), 10);
        /// assert_eq!(Refusal::NoCandidate.to_string(), "a P or B slice has no candidate (10)");
        /// ```
        #[derive(Clone, Copy, Debug, PartialEq, Eq, Hash)]
        #[non_exhaustive]
        pub enum Refusal {
            $(#[doc = concat!(stringify!($number), ": ", $sentence, ".")] $name,)*
            /// A number that this crate does not know; 0 is that of an accepted reply which it can't read. Neither
            /// comes from the archive that this crate is made for.
            Unknown(u16),
        }

        impl Refusal {
            /// The refusal of that number; none of 0, which is that of an accepted record.
            pub const fn of(number: u16) -> Option<Self> {
                match number {
                    0 => None,
                    $($number => Some(Refusal::$name),)*
                    other => Some(Refusal::Unknown(other)),
                }
            }

            /// Its number, as replies have it.
            pub const fn number(self) -> u16 {
                match self {
                    $(Refusal::$name => $number,)*
                    Refusal::Unknown(number) => number,
                }
            }

            /// What it says, without the number.
            const fn sentence(self) -> &'static str {
                match self {
                    $(Refusal::$name => $sentence,)*
                    Refusal::Unknown(_) => "a reply that this crate does not know",
                }
            }
        }
    };
}

refusals! {
    NotConfigured = 1, "begin before any accepted configure";
    BadLimits = 2, "a limit of configure is out of range";
    PictureCurrent = 3, "begin while a picture is current";
    NoCurrent = 4, "lists, finish or abandon while no picture is current";
    OutOfRange = 5, "a field is out of range";
    OutsideI32 = 6, "a picture order count lies outside 32 bits";
    SurfaceHeld = 7, "a stored picture lies on that surface";
    SerialsSpent = 8, "the serials are used up";
    StoreFull = 9, "the store is full";
    NoCandidate = 10, "a P or B slice has no candidate";
    TooMany = 11, "a list has more than 16 candidates or active entries";
    BadEntry = 12, "an entry byte is not below the number of candidates";
    Malformed = 13, "not a well-formed record";
    NoRoom = 14, "the reply buffer is too small";
    NoneFree = 18, "no surface of the pool is free";
    NonePending = 19, "no return is pending on that surface";
    BadCount = 20, "a pool has 1 to 64 surfaces";
}

impl fmt::Display for Refusal {
    fn fmt(&self, out: &mut fmt::Formatter) -> fmt::Result {
        write!(out, "{} ({})", self.sentence(), self.number())
    }
}

impl error::Error for Refusal {}
