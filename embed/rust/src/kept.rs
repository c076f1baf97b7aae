//! A session or a pool as bytes that a host keeps, to go on with another day: the same as the C header's.
//!
//! They are a u32 layout number, a u32 checksum of all that stands behind it, and the words: of a pool its three of 64
//! bits, then of both those of the session; all little-endian.
#![forbid(unsafe_code)]
use core::{error, fmt};

use crate::{layout, Pool, Session, POOL, WORDS};

/// How many words of 32 bits stand in front of those that are kept.
const HEAD: usize = 2;

/// How many words of 32 bits a pool has, its own and its session's.
const POOL_WORDS: usize = 2 * POOL + WORDS;

/// How many bytes a kept session has.
pub const KEPT: usize = 4 * (HEAD + WORDS);

/// How many bytes a kept pool has.
pub const POOL_KEPT: usize = 4 * (HEAD + POOL_WORDS);

/// Why kept bytes are not taken. They are tried in this order.
#[derive(Clone, Copy, Debug, PartialEq, Eq)]
pub enum LoadError {
    /// Not as many bytes as are kept.
    Length,
    /// Kept by an archive that lays words out in another way.
    Layout,
    /// The checksum is not that of the bytes.
    Damaged,
    /// Words that no call leaves.
    NotNormal,
}

impl fmt::Display for LoadError {
    fn fmt(&self, out: &mut fmt::Formatter) -> fmt::Result {
        out.write_str(match self {
            LoadError::Length => "not as many bytes as are kept",
            LoadError::Layout => "kept in another layout",
            LoadError::Damaged => "the checksum is not that of the bytes",
            LoadError::NotNormal => "words that no call leaves",
        })
    }
}

impl error::Error for LoadError {}

/// The CRC-32 of IEEE 802.3.
fn checksum(bytes: &[u8]) -> u32 {
    let shifted = |crc: u32| if crc & 1 == 0 { crc >> 1 } else { crc >> 1 ^ 0xEDB88320 };
    !bytes.iter().fold(!0, |crc, &byte| (0..8).fold(crc ^ u32::from(byte), |crc, _| shifted(crc)))
}

/// The words as bytes, behind the layout number and the checksum.
fn kept<const N: usize>(words: impl Iterator<Item = u32>) -> [u8; N] {
    let mut bytes = [0; N];
    let (head, body) = bytes.split_at_mut(4 * HEAD);
    body.chunks_exact_mut(4).zip(words).for_each(|(place, word)| place.copy_from_slice(&word.to_le_bytes()));
    let checked = [layout(), checksum(body)];
    head.chunks_exact_mut(4).zip(checked).for_each(|(place, word)| place.copy_from_slice(&word.to_le_bytes()));
    bytes
}

/// The next words of some bytes.
fn words_of<const N: usize>(bytes: &[u8]) -> [u32; N] {
    let mut words = [0; N];
    let found = bytes.chunks_exact(4).filter_map(|four| four.try_into().ok()).map(u32::from_le_bytes);
    words.iter_mut().zip(found).for_each(|(place, word)| *place = word);
    words
}

/// What stands behind the layout number and the checksum, of bytes that are kept in this layout and whole.
fn checked(kept: &[u8], length: usize) -> Result<&[u8], LoadError> {
    let (head, body) = kept.split_at_checked(4 * HEAD).filter(|_| kept.len() == length).ok_or(LoadError::Length)?;
    match words_of(head) {
        [found, _] if found != layout() => Err(LoadError::Layout),
        [_, found] if found != checksum(body) => Err(LoadError::Damaged),
        _ => Ok(body),
    }
}

impl Session {
    /// The session as bytes to keep.
    #[must_use]
    pub fn save(&self) -> [u8; KEPT] {
        kept(self.words().into_iter())
    }

    /// The session that was kept as these bytes; it answers on as the one that was not kept. What is damaged, or was
    /// not left by any call, is an error.
    ///
    /// ```
    /// use trusshemp::{LoadError, Session};
    ///
    /// let session = Session::new();
    /// let mut bytes = session.save();
    /// assert_eq!(Session::load(&bytes), Ok(session));
    /// bytes[100] ^= 1;
    /// assert_eq!(Session::load(&bytes), Err(LoadError::Damaged));
    /// ```
    pub fn load(bytes: &[u8]) -> Result<Self, LoadError> {
        let session = Session::from_words(words_of(checked(bytes, KEPT)?));
        session.is_normal().then_some(session).ok_or(LoadError::NotNormal)
    }
}

impl Pool {
    /// The pool and its session as bytes to keep.
    #[must_use]
    pub fn save(&self) -> [u8; POOL_KEPT] {
        let (pool, session) = self.words();
        kept(pool.into_iter().flat_map(|word| [word as u32, (word >> 32) as u32]).chain(session))
    }

    /// The pool that was kept as these bytes; it answers on as the one that was not kept. What is damaged, or was not
    /// left by any call, is an error.
    pub fn load(bytes: &[u8]) -> Result<Self, LoadError> {
        let (pool, session) = checked(bytes, POOL_KEPT)?.split_at_checked(8 * POOL).ok_or(LoadError::Length)?;
        let halves: [u32; 2 * POOL] = words_of(pool);
        let [s0, s1, h0, h1, p0, p1] = halves.map(u64::from);
        let pool = Pool::from_words([s1 << 32 | s0, h1 << 32 | h0, p1 << 32 | p0], words_of(session));
        pool.is_normal().then_some(pool).ok_or(LoadError::NotNormal)
    }
}
