//! A pool of surfaces above a session, over the archive.
#![allow(unsafe_code)]
use crate::session::{Answer, FRONT, SETS, STORE, WORDS};
use crate::{Refusal, Reply, Session, Surface, REPLY};

/// How many words of 64 bits a pool takes beside its session.
pub const POOL: usize = 3;

/// The most surfaces that a pool has, numbered from 0.
pub const MOST_SURFACES: u32 = 64;

/// The number that stands for no surface.
const NO_SURFACE: u32 = 64;

extern "C" {
    fn trusshemp_pool_size() -> usize;
    fn trusshemp_pool_make_in(
        pool: *mut [u64; POOL],
        front: *mut [u32; FRONT],
        sets: *mut [u32; SETS],
        store: *mut [u32; STORE],
        surfaces: u32,
    ) -> u16;
    fn trusshemp_pool_step_in(
        pool: *mut [u64; POOL],
        front: *mut [u32; FRONT],
        sets: *mut [u32; SETS],
        store: *mut [u32; STORE],
        record: *const u8,
        record_length: usize,
        reply: *mut u8,
        reply_length: usize,
        length: *mut usize,
        surface: *mut u32,
    ) -> u16;
    fn trusshemp_pool_return_in(pool: *mut [u64; POOL], surface: u32) -> u16;
}

/// What a call of a pool answers. It borrows the reply buffer.
#[derive(Clone, Copy, Debug, PartialEq, Eq)]
#[must_use = "a record may have been refused, and a picture that is handed out must be given back"]
pub struct Given<'a> {
    /// The surface that an accepted begin was given: the one to decode into.
    pub surface: Option<Surface>,
    /// The reply's bytes, in the reply buffer: six of a refusal, and none under a buffer that is too small.
    pub bytes: &'a [u8],
    /// The reply that they are, or why the record was refused.
    pub reply: Result<Reply<'a>, Refusal>,
}

/// A session with a pool of surfaces. Whatever a begin's record names, the pool gives it the lowest surface that is
/// free: one that the session does not hold, and on which the display has given back every picture that was handed out.
/// A clone goes on by itself.
///
/// ```
/// use trusshemp::{Begin, Configure, Pool, Record, Refusal, Surface, RECORD, REPLY};
///
/// let mut pool = Pool::make(1)?;
/// let (mut buffer, mut reply) = ([0; RECORD], [0; REPLY]);
/// let limits = Configure { k: 4, capacity: 4, buffering: 1, reorder: 0, latency: 0 };
/// pool.step(Record::Configure(limits).encode(&mut buffer)?, &mut reply).reply?;
///
/// let idr = Record::Begin(Begin { nal_type: 19, flags: Begin::OUTPUT, ..Begin::default() });
/// assert_eq!(pool.step(idr.encode(&mut buffer)?, &mut reply).surface, Some(Surface(0)));
/// let drained = pool.step(Record::Drain.encode(&mut buffer)?, &mut reply);
/// let shown: Vec<Surface> = drained.reply?.tail().handed_out.iter().map(|shown| shown.surface).collect();
/// assert_eq!(shown, [Surface(0)]);
///
/// // the display has it: nothing is changed, and the same begin is sent again when the surface was given back
/// assert_eq!(pool.step(idr.encode(&mut buffer)?, &mut reply).reply, Err(Refusal::NoneFree));
/// pool.give_back(Surface(0))?;
/// assert_eq!(pool.step(idr.encode(&mut buffer)?, &mut reply).surface, Some(Surface(0)));
/// # Ok::<(), Box<dyn std::error::Error>>(())
/// ```
#[derive(Clone, Debug, PartialEq, Eq)]
pub struct Pool {
    pool: [u64; POOL],
    session: Session,
}

/// What a number says, 0 when accepted.
fn accepted(number: u16) -> Result<(), Refusal> {
    Refusal::of(number).map_or(Ok(()), Err)
}

impl Pool {
    /// A pool of that many surfaces over a session that has heard nothing; or [`Refusal::BadCount`], and none.
    pub fn make(surfaces: u32) -> Result<Self, Refusal> {
        let mut pool = Pool::from_words([0; POOL], [0; WORDS]);
        pool.make_again(surfaces).map(|()| pool)
    }

    /// Makes this a pool of that many surfaces over a session that has heard nothing, whatever it was; or
    /// [`Refusal::BadCount`], and it is left as it was.
    pub fn make_again(&mut self, surfaces: u32) -> Result<(), Refusal> {
        let session = &mut self.session;
        // SAFETY: each part is as long as the archive asks, and is lent to this call alone.
        accepted(unsafe {
            trusshemp_pool_make_in(&mut self.pool, &mut session.front, &mut session.sets, &mut session.store, surfaces)
        })
    }

    /// The pool that stands in these words, its own and its session's. Any words are some pool; [`Pool::load`] takes
    /// only what a pool has left.
    pub fn from_words(pool: [u64; POOL], session: [u32; WORDS]) -> Self {
        Pool { pool, session: Session::from_words(session) }
    }

    /// The pool as words, its own and its session's.
    pub fn words(&self) -> ([u64; POOL], [u32; WORDS]) {
        (self.pool, self.session.words())
    }

    /// Whether the words are laid out as a call leaves them: 1 to 64 surfaces, no other held or pending, and those of
    /// the session as [`Session::is_normal`] says.
    pub fn is_normal(&self) -> bool {
        let [surfaces, held, pending] = self.pool;
        let others = |surfaces: u64| u64::MAX.checked_shl(surfaces as u32).unwrap_or(0);
        (1..=u64::from(MOST_SURFACES)).contains(&surfaces)
            && (held | pending) & others(surfaces) == 0
            && self.session.is_normal()
    }

    /// One call, on a record. Each picture that the reply hands out is a pending return on its surface. A begin gets
    /// [`Refusal::NoneFree`] where no surface is free. A refused record leaves the pool and its session as they were,
    /// and the buffer behind the reply is left as it was.
    pub fn step<'a>(&mut self, record: &[u8], reply: &'a mut [u8; REPLY]) -> Given<'a> {
        self.step_in(record, reply)
    }

    /// The same with a buffer of any size. One of less than [`REPLY`] bytes gets [`Refusal::NoRoom`], and nothing is
    /// written.
    pub fn step_in<'a>(&mut self, record: &[u8], reply: &'a mut [u8]) -> Given<'a> {
        let (mut len, mut surface) = (0, NO_SURFACE);
        let session = &mut self.session;
        // SAFETY: each pointer comes from a reference, with the length of what it refers to; the references do not
        // overlap, for all but the record's are `&mut`.
        let number = unsafe {
            trusshemp_pool_step_in(
                &mut self.pool,
                &mut session.front,
                &mut session.sets,
                &mut session.store,
                record.as_ptr(),
                record.len(),
                reply.as_mut_ptr(),
                reply.len(),
                &mut len,
                &mut surface,
            )
        };
        let Answer { bytes, reply } = Answer::new(number, reply, len);
        Given { surface: Some(Surface(surface)).filter(|surface| surface.0 != NO_SURFACE), bytes, reply }
    }

    /// The display gives back a picture that was handed out on this surface: takes one pending return away; or
    /// [`Refusal::NonePending`], where none is pending or the surface is not in the pool, and it is left as it was.
    pub fn give_back(&mut self, surface: Surface) -> Result<(), Refusal> {
        // SAFETY: the words are as many as the archive asks, and are lent to this call alone.
        accepted(unsafe { trusshemp_pool_return_in(&mut self.pool, surface.0) })
    }
}

/// How many bytes a pool takes, as the archive has it.
pub fn pool_size() -> usize {
    // SAFETY: it takes nothing and reads nothing.
    unsafe { trusshemp_pool_size() }
}
