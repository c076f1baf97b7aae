//! Records: what a host says to a session, and the bytes that say it.
#![forbid(unsafe_code)]
use core::{error, fmt};

use crate::Surface;

/// How many bytes stand in front of a body: its length and the kind.
const HEAD: usize = 4;

/// The longest body of a record, in bytes.
pub const BODY: usize = 512;

/// The longest record, head and body, in bytes: a buffer for any record.
pub const RECORD: usize = HEAD + BODY;

/// The kind of a record: which of [`Record`] it is.
#[derive(Clone, Copy, Debug, PartialEq, Eq, Hash)]
#[non_exhaustive]
pub enum Kind {
    /// [`Record::Configure`].
    Configure = 1,
    /// [`Record::Begin`].
    Begin = 2,
    /// [`Record::Lists`].
    Lists = 3,
    /// [`Record::Finish`].
    Finish = 4,
    /// [`Record::Drain`].
    Drain = 5,
    /// [`Record::Discard`].
    Discard = 6,
    /// [`Record::EndOfSequence`].
    EndOfSequence = 7,
    /// [`Record::Abandon`].
    Abandon = 8,
}

impl Kind {
    const ALL: [Kind; 8] = [
        Kind::Configure,
        Kind::Begin,
        Kind::Lists,
        Kind::Finish,
        Kind::Drain,
        Kind::Discard,
        Kind::EndOfSequence,
        Kind::Abandon,
    ];

    /// Its number in a record's head.
    pub const fn number(self) -> u16 {
        self as u16
    }

    /// The kind of that number.
    pub fn of(number: u16) -> Option<Self> {
        Kind::ALL.into_iter().find(|kind| kind.number() == number)
    }
}

/// One record, with the fields of document 01. Any values can be written, also those that a session refuses: the ranges
/// are the session's to check.
#[derive(Clone, Copy, Debug, PartialEq, Eq)]
#[non_exhaustive]
pub enum Record<'a> {
    /// Hands out all that waits, and sets the limits.
    Configure(Configure),
    /// A picture begins.
    Begin(Begin<'a>),
    /// Asks for the reference lists of a slice.
    Lists(Lists<'a>),
    /// The current picture is decoded.
    Finish,
    /// Hands out all that waits.
    Drain,
    /// Throws away all that waits.
    Discard,
    /// The next picture starts a sequence.
    EndOfSequence,
    /// Throws away the current picture.
    Abandon,
}

/// The limits of a session.
#[derive(Clone, Copy, Debug, Default, PartialEq, Eq)]
pub struct Configure {
    /// How many bits an lsb has, 4 to 16.
    pub k: u8,
    /// How many pictures are stored at most; more than 16 is taken as 16.
    pub capacity: u8,
    /// How many are stored when one is due, 1 to the capacity.
    pub buffering: u8,
    /// How many wait before one is due, below the buffering.
    pub reorder: u8,
    /// After how many finishes a waiting picture is due; 0 for no such limit.
    pub latency: u16,
}

/// The fields of a picture that begins.
#[derive(Clone, Copy, Debug, Default, PartialEq, Eq)]
pub struct Begin<'a> {
    /// nal_unit_type.
    pub nal_type: u8,
    /// TemporalId.
    pub temporal_id: u8,
    /// [`Begin::OUTPUT`] and [`Begin::NO_OUTPUT_OF_PRIOR_PICS`], or neither.
    pub flags: u8,
    /// slice_pic_order_cnt_lsb.
    pub lsb: u16,
    /// The memory to decode into. A pool chooses by itself, whatever stands here.
    pub surface: Surface,
    /// Short-term entries before the picture, their deltas falling from −1.
    pub neg: &'a [ShortTerm],
    /// Short-term entries behind the picture, their deltas rising from 1.
    pub pos: &'a [ShortTerm],
    /// Long-term entries.
    pub lt: &'a [LongTerm],
}

impl Begin<'_> {
    /// pic_output_flag, a bit of `flags`.
    pub const OUTPUT: u8 = 1;
    /// no_output_of_prior_pics_flag, a bit of `flags`.
    pub const NO_OUTPUT_OF_PRIOR_PICS: u8 = 2;
}

/// A short-term entry: a picture by its distance.
#[derive(Clone, Copy, Debug, PartialEq, Eq)]
pub struct ShortTerm {
    /// Its POC less that of the picture that begins.
    pub delta: i32,
    /// 1 where the picture that begins may refer to it, else 0.
    pub used: u8,
}

impl ShortTerm {
    /// One that the picture may refer to.
    pub const fn used(delta: i32) -> Self {
        ShortTerm { delta, used: 1 }
    }

    /// One that only later pictures may refer to.
    pub const fn unused(delta: i32) -> Self {
        ShortTerm { delta, used: 0 }
    }
}

/// A long-term entry: a picture by its lsb, and where that is said by its POC.
#[derive(Clone, Copy, Debug, PartialEq, Eq)]
pub struct LongTerm {
    /// The lsb of its POC.
    pub lsb: u16,
    /// [`LongTerm::USED`] and [`LongTerm::MSB_PRESENT`], or neither.
    pub flags: u8,
    /// DeltaPocMsbCycleLt, already summed.
    pub cycle: u32,
}

impl LongTerm {
    /// The picture that begins may refer to it: a bit of `flags`.
    pub const USED: u8 = 1;
    /// The cycle counts: a bit of `flags`.
    pub const MSB_PRESENT: u8 = 2;
}

/// The type of a slice, as slice_type has it.
#[derive(Clone, Copy, Debug, PartialEq, Eq)]
pub struct SliceType(pub u8);

impl SliceType {
    /// Both lists.
    pub const B: SliceType = SliceType(0);
    /// List 0 only.
    pub const P: SliceType = SliceType(1);
    /// Neither.
    pub const I: SliceType = SliceType(2);
}

/// The fields of a slice whose lists are asked for.
#[derive(Clone, Copy, Debug, PartialEq, Eq)]
pub struct Lists<'a> {
    /// slice_type.
    pub slice_type: SliceType,
    /// [`Lists::MODIFY_0`], [`Lists::MODIFY_1`] and [`Lists::OWN`], or none.
    pub flags: u8,
    /// How many entries list 0 and list 1 have: 1 to 16 where the slice type uses the list, else 0.
    pub active: [u8; 2],
    /// list_entry_l0 and list_entry_l1: as many as are active where the list is modified, else none.
    pub entries: [&'a [u8]; 2],
}

impl Lists<'_> {
    /// List 0 is made of its entries: a bit of `flags`.
    pub const MODIFY_0: u8 = 1;
    /// List 1 is made of its entries: a bit of `flags`.
    pub const MODIFY_1: u8 = 2;
    /// The current picture is a candidate: a bit of `flags`.
    pub const OWN: u8 = 4;
}

/// Why a record can't be written.
#[derive(Clone, Copy, Debug, PartialEq, Eq)]
#[non_exhaustive]
pub enum EncodeError {
    /// More than 255 entries of one sort, which one byte counts.
    TooMany,
    /// The entries of a list are not as many as its modify bit and its active count call for.
    Entries,
    /// A body of more than [`BODY`] bytes, which every session refuses.
    TooLong,
    /// The buffer has less bytes than the record, and nothing was written.
    Buffer {
        /// How many the record has.
        needed: usize,
    },
}

impl fmt::Display for EncodeError {
    fn fmt(&self, out: &mut fmt::Formatter) -> fmt::Result {
        match self {
            EncodeError::TooMany => out.write_str("more than 255 entries of one sort"),
            EncodeError::Entries => out.write_str("the entries are not as many as flags and active counts call for"),
            EncodeError::TooLong => write!(out, "a body of more than {BODY} bytes"),
            EncodeError::Buffer { needed } => write!(out, "the buffer has less than the record's {needed} bytes"),
        }
    }
}

impl error::Error for EncodeError {}

/// Bytes that are written one behind the other; those past the buffer's end are only counted.
struct Writer<'b> {
    buffer: &'b mut [u8],
    len: usize,
}

impl Writer<'_> {
    fn put(&mut self, bytes: &[u8]) {
        let end = self.len + bytes.len();
        if let Some(place) = self.buffer.get_mut(self.len..end) {
            place.copy_from_slice(bytes);
        }
        self.len = end;
    }

    fn u16(&mut self, number: u16) {
        self.put(&number.to_le_bytes());
    }

    fn u32(&mut self, number: u32) {
        self.put(&number.to_le_bytes());
    }

    /// How many entries there are.
    fn count<T>(&mut self, entries: &[T]) -> Result<(), EncodeError> {
        let count = u8::try_from(entries.len()).map_err(|_| EncodeError::TooMany)?;
        self.put(&[count]);
        Ok(())
    }
}

impl Configure {
    fn put(&self, to: &mut Writer) {
        to.put(&[self.k, self.capacity, self.buffering, self.reorder]);
        to.u16(self.latency);
    }
}

impl Begin<'_> {
    fn put(&self, to: &mut Writer) -> Result<(), EncodeError> {
        to.put(&[self.nal_type, self.temporal_id, self.flags]);
        to.u16(self.lsb);
        to.u32(self.surface.0);
        to.count(self.neg)?;
        to.count(self.pos)?;
        to.count(self.lt)?;
        self.neg.iter().chain(self.pos).for_each(|entry| entry.put(to));
        self.lt.iter().for_each(|entry| entry.put(to));
        Ok(())
    }
}

impl ShortTerm {
    fn put(&self, to: &mut Writer) {
        to.put(&self.delta.to_le_bytes());
        to.put(&[self.used]);
    }
}

impl LongTerm {
    fn put(&self, to: &mut Writer) {
        to.u16(self.lsb);
        to.put(&[self.flags]);
        to.u32(self.cycle);
    }
}

impl Lists<'_> {
    fn put(&self, to: &mut Writer) -> Result<(), EncodeError> {
        let [a0, a1] = self.active;
        let [e0, e1] = self.entries;
        to.put(&[self.slice_type.0, self.flags, a0, a1]);
        for (bit, active, entries) in [(Self::MODIFY_0, a0, e0), (Self::MODIFY_1, a1, e1)] {
            let asked = if self.flags & bit != 0 { usize::from(active) } else { 0 };
            if entries.len() != asked {
                return Err(EncodeError::Entries);
            }
            to.put(entries);
        }
        Ok(())
    }
}

impl Record<'_> {
    /// Its kind.
    pub const fn kind(&self) -> Kind {
        match self {
            Record::Configure(_) => Kind::Configure,
            Record::Begin(_) => Kind::Begin,
            Record::Lists(_) => Kind::Lists,
            Record::Finish => Kind::Finish,
            Record::Drain => Kind::Drain,
            Record::Discard => Kind::Discard,
            Record::EndOfSequence => Kind::EndOfSequence,
            Record::Abandon => Kind::Abandon,
        }
    }

    fn put_body(&self, to: &mut Writer) -> Result<(), EncodeError> {
        match self {
            Record::Configure(limits) => limits.put(to),
            Record::Begin(begin) => begin.put(to)?,
            Record::Lists(lists) => lists.put(to)?,
            _ => {}
        }
        Ok(())
    }

    /// How many bytes its body has.
    fn body_len(&self) -> Result<u16, EncodeError> {
        let mut counted = Writer { buffer: &mut [], len: 0 };
        self.put_body(&mut counted)?;
        let len = u16::try_from(counted.len).ok().filter(|&len| usize::from(len) <= BODY);
        len.ok_or(EncodeError::TooLong)
    }

    /// Writes the record to the front of the buffer, and answers its bytes there: those to lend to a session. A buffer
    /// of [`RECORD`] bytes is enough for any. What can't be written is an error, and then the buffer is as it was.
    pub fn encode<'b>(&self, buffer: &'b mut [u8]) -> Result<&'b [u8], EncodeError> {
        let body = self.body_len()?;
        let needed = HEAD + usize::from(body);
        let place = buffer.get_mut(..needed).ok_or(EncodeError::Buffer { needed })?;
        let mut to = Writer { buffer: place, len: 0 };
        to.u16(body);
        to.u16(self.kind().number());
        self.put_body(&mut to)?;
        Ok(to.buffer)
    }
}
