//! A session over the archive.
#![allow(unsafe_code)]
use crate::{Refusal, Reply, REPLY};

/// How many words a session takes beside its sets and its store.
pub const FRONT: usize = 23;
/// How many words its sets take.
pub const SETS: usize = 16;
/// How many words its store takes.
pub const STORE: usize = 97;
/// How many words it takes in all.
pub const WORDS: usize = FRONT + SETS + STORE;

extern "C" {
    fn trusshemp_layout() -> u32;
    fn trusshemp_session_size() -> usize;
    fn trusshemp_fresh_in(front: *mut [u32; FRONT], sets: *mut [u32; SETS], store: *mut [u32; STORE]);
    fn trusshemp_is_normal_in(front: *const [u32; FRONT], sets: *const [u32; SETS], store: *const [u32; STORE]) -> u16;
    fn trusshemp_step_in(
        front: *mut [u32; FRONT],
        sets: *mut [u32; SETS],
        store: *mut [u32; STORE],
        record: *const u8,
        record_length: usize,
        reply: *mut u8,
        reply_length: usize,
        length: *mut usize,
    ) -> u16;
}

/// What a call answers. It borrows the reply buffer.
#[derive(Clone, Copy, Debug, PartialEq, Eq)]
#[must_use = "a record may have been refused, and a reply says which surfaces are free again"]
pub struct Answer<'a> {
    /// The reply's bytes, in the reply buffer: six of a refusal, and none under a buffer that is too small.
    pub bytes: &'a [u8],
    /// The reply that they are, or why the record was refused.
    pub reply: Result<Reply<'a>, Refusal>,
}

impl<'a> Answer<'a> {
    /// The answer of a call that left a reply of that length in the buffer. That an accepted one can be read is proved
    /// of the archive.
    pub(crate) fn new(number: u16, buffer: &'a [u8], len: usize) -> Self {
        let bytes = buffer.get(..len).unwrap_or_default();
        let reply = match Refusal::of(number) {
            Some(refusal) => Err(refusal),
            None => Reply::parse(bytes).map_err(|_| Refusal::Unknown(0)),
        };
        Answer { bytes, reply }
    }
}

/// One session. A clone goes on by itself.
///
/// ```
/// use trusshemp::{Configure, Record, Refusal, Reply, Session, RECORD, REPLY};
///
/// let mut session = Session::new();
/// let (mut buffer, mut reply) = ([0; RECORD], [0; REPLY]);
/// assert_eq!(session.step(Record::Finish.encode(&mut buffer)?, &mut reply).reply, Err(Refusal::NoCurrent));
///
/// let limits = Configure { k: 4, capacity: 4, buffering: 4, reorder: 1, latency: 0 };
/// let answer = session.step(Record::Configure(limits).encode(&mut buffer)?, &mut reply);
/// assert_eq!(answer.bytes, [5, 0, 1, 1, 0, 0, 0, 0, 0]);
/// assert!(answer.reply?.tail().released.is_empty());
/// # Ok::<(), Box<dyn std::error::Error>>(())
/// ```
#[derive(Clone, Debug, PartialEq, Eq)]
pub struct Session {
    pub(crate) front: [u32; FRONT],
    pub(crate) sets: [u32; SETS],
    pub(crate) store: [u32; STORE],
}

impl Session {
    /// A session that has heard nothing.
    pub fn new() -> Self {
        let mut session = Session { front: [0; FRONT], sets: [0; SETS], store: [0; STORE] };
        // SAFETY: each part is as long as the archive asks, and is lent to this call alone.
        unsafe { trusshemp_fresh_in(&mut session.front, &mut session.sets, &mut session.store) };
        session
    }

    /// The session that stands in these words. Any words are some session; [`Session::load`] takes only what a session
    /// has left.
    pub fn from_words(words: [u32; WORDS]) -> Self {
        let mut session = Session { front: [0; FRONT], sets: [0; SETS], store: [0; STORE] };
        session.parts_mut().zip(words).for_each(|(place, word)| *place = word);
        session
    }

    /// The session as words.
    pub fn words(&self) -> [u32; WORDS] {
        let mut words = [0; WORDS];
        let parts = self.front.iter().chain(&self.sets).chain(&self.store);
        words.iter_mut().zip(parts).for_each(|(place, word)| *place = *word);
        words
    }

    fn parts_mut(&mut self) -> impl Iterator<Item = &mut u32> {
        self.front.iter_mut().chain(&mut self.sets).chain(&mut self.store)
    }

    /// Whether the words are laid out as a call leaves them: then every further call is determined word for word. They
    /// are from [`Session::new`] on.
    pub fn is_normal(&self) -> bool {
        // SAFETY: each part is as long as the archive asks, and is only read.
        unsafe { trusshemp_is_normal_in(&self.front, &self.sets, &self.store) == 1 }
    }

    /// One call: the record gets its reply. A refused record leaves the session as it was, and the buffer behind the
    /// reply is left as it was.
    pub fn step<'a>(&mut self, record: &[u8], reply: &'a mut [u8; REPLY]) -> Answer<'a> {
        self.step_in(record, reply)
    }

    /// The same with a buffer of any size. One of less than [`REPLY`] bytes gets [`Refusal::NoRoom`], and nothing is
    /// written.
    pub fn step_in<'a>(&mut self, record: &[u8], reply: &'a mut [u8]) -> Answer<'a> {
        let mut len = 0;
        // SAFETY: each pointer comes from a reference, with the length of what it refers to; the references do not
        // overlap, for all but the record's are `&mut`.
        let number = unsafe {
            trusshemp_step_in(
                &mut self.front,
                &mut self.sets,
                &mut self.store,
                record.as_ptr(),
                record.len(),
                reply.as_mut_ptr(),
                reply.len(),
                &mut len,
            )
        };
        Answer::new(number, reply, len)
    }
}

impl Default for Session {
    fn default() -> Self {
        Session::new()
    }
}

/// How many bytes a session takes, as the archive has it.
pub fn session_size() -> usize {
    // SAFETY: it takes nothing and reads nothing.
    unsafe { trusshemp_session_size() }
}

/// The number of the layout, as the archive has it: a host compares it with [`LAYOUT`](crate::LAYOUT) before its first
/// call.
pub fn layout() -> u32 {
    // SAFETY: it takes nothing and reads nothing.
    unsafe { trusshemp_layout() }
}
