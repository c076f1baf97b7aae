//! What names a picture, and what names the memory that it lies on.
#![forbid(unsafe_code)]
use core::fmt;

/// The number that stands in a set or a list for a missing picture.
pub const MISSING: u32 = u32::MAX;

/// Names a picture: the number of begins accepted before its own.
#[derive(Clone, Copy, Debug, Default, PartialEq, Eq, PartialOrd, Ord, Hash)]
pub struct Serial(pub u32);

/// Names memory that a picture lies on; a host chooses it at begin, or a pool does.
#[derive(Clone, Copy, Debug, Default, PartialEq, Eq, PartialOrd, Ord, Hash)]
pub struct Surface(pub u32);

impl fmt::Display for Serial {
    fn fmt(&self, out: &mut fmt::Formatter) -> fmt::Result {
        self.0.fmt(out)
    }
}

impl fmt::Display for Surface {
    fn fmt(&self, out: &mut fmt::Formatter) -> fmt::Result {
        self.0.fmt(out)
    }
}
