//! A picture session (H.265 reference marks, sets, lists, output order): byte records in, byte replies out. The session
//! itself is proved; this crate is the safe way to it from Rust. docs/01-scope.md has the records, the replies and the
//! refusal numbers, docs/INTEGRATING.md what a host does with them.
//!
//! - [`Record`] writes what a host says, [`Reply`] reads what it hears. Both are plain Rust, for every processor.
//! - `Session` is one session; `Pool` is one with a pool of surfaces, which chooses the surface of each begin itself
//!   (docs/POOL.md). Both call the static archive, which is for x86-64: on another processor they are left out.
//!
//! A record is made in a buffer of the host's, and a reply is read where it lies; nothing is allocated and nothing
//! panics, whatever the bytes are:
//!
//! ```
//! use trusshemp::{Begin, Record, Reply, Surface, RECORD};
//!
//! let begin = Begin { nal_type: 19, flags: Begin::OUTPUT, surface: Surface(7), ..Begin::default() };
//! let mut buffer = [0; RECORD];
//! let record = Record::Begin(begin).encode(&mut buffer)?;
//! assert_eq!(record, [0x0C, 0, 2, 0, 0x13, 0, 1, 0, 0, 7, 0, 0, 0, 0, 0, 0]);
//!
//! let bytes = [0x13, 0, 2, 1, 0, 0, 0, 0, 0, 0, 7, 0, 0, 0, 0, 0, 0, 0, 0, 0, 0, 0, 0];
//! let Reply::Begun(begun) = Reply::parse(&bytes)? else { panic!("a begin is answered") };
//! assert_eq!(begun.poc, 0);
//! assert!(begun.tail.handed_out.is_empty());
//! # Ok::<(), Box<dyn std::error::Error>>(())
//! ```
#![no_std]
#![deny(missing_docs, unsafe_code)]
#![deny(clippy::indexing_slicing, clippy::unwrap_used, clippy::expect_used, clippy::panic)]

// These two call the archive, and have all unsafe code of this crate; the others forbid it.
#[cfg(target_arch = "x86_64")]
mod pool;
#[cfg(target_arch = "x86_64")]
mod session;

#[cfg(target_arch = "x86_64")]
mod kept;
mod picture;
mod record;
mod refusal;
mod reply;

pub use picture::{Serial, Surface, MISSING};
pub use record::{Begin, Configure, EncodeError, Kind, Lists, LongTerm, Record, ShortTerm, SliceType, BODY, RECORD};
pub use refusal::Refusal;
pub use reply::{BadReply, Begun, Entry, Reply, Run, RunIter, Shown, Tail, REPLY};

#[cfg(target_arch = "x86_64")]
pub use kept::{LoadError, KEPT, POOL_KEPT};
#[cfg(target_arch = "x86_64")]
pub use pool::{pool_size, Given, Pool, MOST_SURFACES, POOL};
#[cfg(target_arch = "x86_64")]
pub use session::{layout, session_size, Answer, Session, FRONT, SETS, STORE, WORDS};

/// The version of this crate.
pub const VERSION: &str = env!("CARGO_PKG_VERSION");

/// The number of the layout that this crate is made for: of what each word of a session and of a pool means. It goes up
/// whenever a word is added, moved or means something else. `layout()` answers that of the archive.
pub const LAYOUT: u32 = 1;
