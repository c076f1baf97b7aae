//! Replies: what a session answers, read where it lies.
#![forbid(unsafe_code)]
use core::marker::PhantomData;
use core::{error, fmt};

use crate::{Kind, Refusal, Serial, Surface, MISSING};

/// The least reply buffer, in bytes; no reply is longer.
pub const REPLY: usize = 512;

/// A reply's kind is this and the record's.
const ANSWERS: u16 = 256;

/// The kind of the reply to what is no well-formed record.
const TO_MALFORMED: u16 = 511;

/// One reply.
///
/// ```
/// use trusshemp::{Kind, Refusal, Reply, Serial, Surface};
///
/// let finished = [17, 0, 4, 1, 0, 0, 1, 2, 0, 0, 0, 7, 0, 0, 0, 0xFD, 0xFF, 0xFF, 0xFF, 0, 0];
/// for shown in Reply::parse(&finished)?.tail().handed_out {
///     assert_eq!((shown.serial, shown.surface, shown.poc), (Serial(2), Surface(7), -3));
/// }
/// let refused = [2, 0, 3, 1, 10, 0];
/// assert_eq!(Reply::parse(&refused)?, Reply::Refused { kind: Some(Kind::Lists), refusal: Refusal::NoCandidate });
/// assert!(Reply::parse(&finished[..20]).is_err());
/// # Ok::<(), trusshemp::BadReply>(())
/// ```
#[derive(Clone, Copy, Debug, PartialEq, Eq)]
#[non_exhaustive]
pub enum Reply<'a> {
    /// The record was refused, and the session is as before.
    Refused {
        /// The record's kind; none where it was not well-formed.
        kind: Option<Kind>,
        /// Why.
        refusal: Refusal,
    },
    /// A configure, finish, drain, discard, end of sequence or abandon was accepted.
    Done {
        /// Which of them.
        kind: Kind,
        /// What it handed out, threw away and released.
        tail: Tail<'a>,
    },
    /// A begin was accepted.
    Begun(Begun<'a>),
    /// The lists of a slice, list 0 and list 1; none is a missing picture.
    Listed([Run<'a, Option<Serial>>; 2]),
}

/// What an accepted begin is answered. A member of a set that is none is a missing picture.
#[derive(Clone, Copy, Debug, PartialEq, Eq)]
#[non_exhaustive]
pub struct Begun<'a> {
    /// PicOrderCntVal.
    pub poc: i32,
    /// [`Begun::NO_RASL_OUTPUT`] and the other bits.
    pub flags: u8,
    /// The name of the picture.
    pub serial: Serial,
    /// RefPicSetStCurrBefore.
    pub st_curr_before: Run<'a, Option<Serial>>,
    /// RefPicSetStCurrAfter.
    pub st_curr_after: Run<'a, Option<Serial>>,
    /// RefPicSetStFoll.
    pub st_foll: Run<'a, Option<Serial>>,
    /// RefPicSetLtCurr.
    pub lt_curr: Run<'a, Option<Serial>>,
    /// RefPicSetLtFoll.
    pub lt_foll: Run<'a, Option<Serial>>,
    /// What the begin handed out, threw away and released.
    pub tail: Tail<'a>,
}

impl Begun<'_> {
    /// NoRaslOutputFlag, a bit of `flags`.
    pub const NO_RASL_OUTPUT: u8 = 1;
    /// The picture is to be handed out, a bit of `flags`.
    pub const OUTPUT: u8 = 2;
    /// The picture is valid for prevTid0Pic, a bit of `flags`.
    pub const VALID: u8 = 4;
    /// No output of prior pictures, a bit of `flags`.
    pub const NO_OUTPUT_OF_PRIOR_PICS: u8 = 8;

    /// Whether a bit of `flags` is set.
    pub const fn has(&self, flag: u8) -> bool {
        self.flags & flag != 0
    }
}

/// What a call did to the pictures, each part in the order it happened.
#[derive(Clone, Copy, Debug, Default, PartialEq, Eq)]
#[non_exhaustive]
pub struct Tail<'a> {
    /// To be shown, in this order.
    pub handed_out: Run<'a, Shown>,
    /// Never to be shown.
    pub thrown_away: Run<'a, Serial>,
    /// Free again.
    pub released: Run<'a, Surface>,
}

/// A picture that is handed out.
#[derive(Clone, Copy, Debug, PartialEq, Eq)]
#[non_exhaustive]
pub struct Shown {
    /// Its name.
    pub serial: Serial,
    /// The memory that it lies on.
    pub surface: Surface,
    /// Its PicOrderCntVal.
    pub poc: i32,
}

/// Bytes that are no reply: not exactly head and body, or not laid out as kind and counts call for.
#[derive(Clone, Copy, Debug, PartialEq, Eq)]
pub struct BadReply;

impl fmt::Display for BadReply {
    fn fmt(&self, out: &mut fmt::Formatter) -> fmt::Result {
        out.write_str("not a whole reply, laid out as its kind and counts call for")
    }
}

impl error::Error for BadReply {}

// ---- numbers in bytes

/// Bytes that are read one behind the other; none past their end.
pub struct Reader<'a> {
    rest: &'a [u8],
}

impl<'a> Reader<'a> {
    fn take<const N: usize>(&mut self) -> Option<[u8; N]> {
        let (taken, rest) = self.rest.split_first_chunk()?;
        self.rest = rest;
        Some(*taken)
    }

    fn u8(&mut self) -> Option<u8> {
        self.take().map(u8::from_le_bytes)
    }

    fn u16(&mut self) -> Option<u16> {
        self.take().map(u16::from_le_bytes)
    }

    fn u32(&mut self) -> Option<u32> {
        self.take().map(u32::from_le_bytes)
    }

    fn i32(&mut self) -> Option<i32> {
        self.take().map(i32::from_le_bytes)
    }

    /// So many entries.
    fn run<T: Entry>(&mut self, count: u8) -> Option<Run<'a, T>> {
        let (bytes, rest) = self.rest.split_at_checked(usize::from(count) * T::WIDTH)?;
        self.rest = rest;
        Some(Run { bytes, entries: PhantomData })
    }

    /// As many entries as the byte in front of them says.
    fn counted<T: Entry>(&mut self) -> Option<Run<'a, T>> {
        let count = self.u8()?;
        self.run(count)
    }
}

// ---- entries

/// What a [`Run`] is of. This crate alone has such types.
pub trait Entry: Sized {
    /// How many bytes one takes.
    #[doc(hidden)]
    const WIDTH: usize;

    /// Reads one.
    #[doc(hidden)]
    fn read(from: &mut Reader) -> Option<Self>;
}

impl Entry for Serial {
    const WIDTH: usize = 4;

    fn read(from: &mut Reader) -> Option<Self> {
        from.u32().map(Serial)
    }
}

impl Entry for Option<Serial> {
    const WIDTH: usize = Serial::WIDTH;

    fn read(from: &mut Reader) -> Option<Self> {
        Serial::read(from).map(|serial| Some(serial).filter(|serial| serial.0 != MISSING))
    }
}

impl Entry for Surface {
    const WIDTH: usize = 4;

    fn read(from: &mut Reader) -> Option<Self> {
        from.u32().map(Surface)
    }
}

impl Entry for Shown {
    const WIDTH: usize = Serial::WIDTH + Surface::WIDTH + 4;

    fn read(from: &mut Reader) -> Option<Self> {
        Some(Shown { serial: Serial::read(from)?, surface: Surface::read(from)?, poc: from.i32()? })
    }
}

/// Entries of a reply, as they lie in its bytes: a list to walk with `for`.
pub struct Run<'a, T> {
    bytes: &'a [u8],
    entries: PhantomData<T>,
}

impl<'a, T: Entry> Run<'a, T> {
    /// How many there are.
    pub const fn len(&self) -> usize {
        self.bytes.len() / T::WIDTH
    }

    /// Whether there is none.
    pub const fn is_empty(&self) -> bool {
        self.bytes.is_empty()
    }

    /// Each of them, in order.
    pub fn iter(&self) -> RunIter<'a, T> {
        RunIter { rest: *self }
    }
}

// A run is copied and compared as bytes, whatever it is of.
impl<T> Clone for Run<'_, T> {
    fn clone(&self) -> Self {
        *self
    }
}

impl<T> Copy for Run<'_, T> {}

impl<T> Default for Run<'_, T> {
    fn default() -> Self {
        Run { bytes: &[], entries: PhantomData }
    }
}

impl<T> PartialEq for Run<'_, T> {
    fn eq(&self, other: &Self) -> bool {
        self.bytes == other.bytes
    }
}

impl<T> Eq for Run<'_, T> {}

impl<T: Entry + fmt::Debug> fmt::Debug for Run<'_, T> {
    fn fmt(&self, out: &mut fmt::Formatter) -> fmt::Result {
        out.debug_list().entries(self.iter()).finish()
    }
}

impl<'a, T: Entry> IntoIterator for Run<'a, T> {
    type Item = T;
    type IntoIter = RunIter<'a, T>;

    fn into_iter(self) -> RunIter<'a, T> {
        self.iter()
    }
}

impl<'a, T: Entry> IntoIterator for &Run<'a, T> {
    type Item = T;
    type IntoIter = RunIter<'a, T>;

    fn into_iter(self) -> RunIter<'a, T> {
        self.iter()
    }
}

/// Walks a [`Run`].
#[derive(Clone, Debug)]
pub struct RunIter<'a, T: Entry> {
    rest: Run<'a, T>,
}

impl<T: Entry> Iterator for RunIter<'_, T> {
    type Item = T;

    fn next(&mut self) -> Option<T> {
        let mut from = Reader { rest: self.rest.bytes };
        let entry = T::read(&mut from)?;
        self.rest.bytes = from.rest;
        Some(entry)
    }

    fn size_hint(&self) -> (usize, Option<usize>) {
        (self.rest.len(), Some(self.rest.len()))
    }
}

impl<T: Entry> ExactSizeIterator for RunIter<'_, T> {}

// ---- whole replies

impl<'a> Tail<'a> {
    fn read(from: &mut Reader<'a>) -> Option<Self> {
        Some(Tail { handed_out: from.counted()?, thrown_away: from.counted()?, released: from.counted()? })
    }
}

impl<'a> Begun<'a> {
    fn read(from: &mut Reader<'a>) -> Option<Self> {
        let (poc, flags, serial) = (from.i32()?, from.u8()?, Serial::read(from)?);
        let [before, after, foll, lt_curr, lt_foll] = from.take()?;
        Some(Begun {
            poc,
            flags,
            serial,
            st_curr_before: from.run(before)?,
            st_curr_after: from.run(after)?,
            st_foll: from.run(foll)?,
            lt_curr: from.run(lt_curr)?,
            lt_foll: from.run(lt_foll)?,
            tail: Tail::read(from)?,
        })
    }
}

impl<'a> Reply<'a> {
    /// The reply that these bytes are, all of them. Any bytes get an answer.
    pub fn parse(bytes: &'a [u8]) -> Result<Self, BadReply> {
        let mut from = Reader { rest: bytes };
        let reply = Reply::read(&mut from).filter(|_| from.rest.is_empty());
        reply.ok_or(BadReply)
    }

    fn read(from: &mut Reader<'a>) -> Option<Self> {
        let (len, kind) = (usize::from(from.u16()?), from.u16()?);
        if len != from.rest.len() {
            return None;
        }
        let kind = match kind {
            TO_MALFORMED => None,
            kind => Some(Kind::of(kind.checked_sub(ANSWERS)?)?),
        };
        match Refusal::of(from.u16()?) {
            Some(refusal) => Some(Reply::Refused { kind, refusal }),
            None => Reply::read_accepted(kind?, from),
        }
    }

    fn read_accepted(kind: Kind, from: &mut Reader<'a>) -> Option<Self> {
        match kind {
            Kind::Begin => Begun::read(from).map(Reply::Begun),
            Kind::Lists => {
                let [n0, n1] = from.take()?;
                Some(Reply::Listed([from.run(n0)?, from.run(n1)?]))
            }
            kind => Some(Reply::Done { kind, tail: Tail::read(from)? }),
        }
    }

    /// What the call handed out, threw away and released; nothing where it was refused, or asked for lists.
    pub fn tail(&self) -> Tail<'a> {
        match self {
            Reply::Done { tail, .. } | Reply::Begun(Begun { tail, .. }) => *tail,
            Reply::Refused { .. } | Reply::Listed(_) => Tail::default(),
        }
    }
}
