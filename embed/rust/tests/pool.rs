//! The recordings of recordings/pool and the promises of the header for a pool, through the safe crate.
#![cfg(target_arch = "x86_64")] // the archive is for x86-64
mod common;

use common::{answer, calls, files, number, Random, FILL};
use trusshemp::{pool_size, Pool, Refusal, Surface, MOST_SURFACES, POOL, REPLY, WORDS};

const CONFIGURE: [u8; 10] = [6, 0, 1, 0, 4, 4, 4, 0, 0, 0];
const BEGIN: [u8; 16] = [12, 0, 2, 0, 19, 0, 1, 0, 0, 7, 0, 0, 0, 0, 0, 0];
const FINISH: [u8; 4] = [0, 0, 4, 0];
const DRAIN: [u8; 4] = [0, 0, 5, 0];

// ---- recordings

#[test]
fn every_recording() {
    for (path, data) in files("pool") {
        let (surfaces, rest) = data.split_at(4);
        let mut pool = Pool::make(u32::from_le_bytes(surfaces.try_into().unwrap())).unwrap();
        for (place, (said, answered)) in calls(rest).into_iter().enumerate() {
            let before = pool.clone();
            assert_eq!(answer(&mut pool, said), answered, "{}, call {}", path.display(), place + 1);
            assert!(answered[4..6] == [0, 0] || pool == before);
        }
    }
}

// ---- what the header says

#[test]
fn the_size_is_the_archives() {
    assert_eq!(pool_size(), std::mem::size_of::<Pool>());
    assert_eq!(pool_size(), 8 * POOL + 4 * WORDS);
}

/// A surface is given again when the session has released it and the display has given it back, and not before.
#[test]
fn a_surface_is_given_again() {
    let mut pool = Pool::make(1).unwrap();
    // the number and the surface that a record gets, and how long its reply is
    let mut step = |record: &[u8]| {
        let mut reply = [FILL; REPLY];
        let given = pool.step(record, &mut reply);
        (number(&given.reply), given.surface, given.bytes.len())
    };
    assert_eq!(step(&CONFIGURE), (0, None, 9));
    assert_eq!(step(&BEGIN), (0, Some(Surface(0)), 23));
    assert_eq!(step(&FINISH), (0, None, 21));
    assert_eq!(step(&BEGIN), (18, None, 6));
    assert_eq!(step(&DRAIN), (0, None, 13));
    assert_eq!(step(&BEGIN), (18, None, 6));
    assert_eq!(pool.give_back(Surface(0)), Ok(()));
    assert_eq!(pool.give_back(Surface(0)), Err(Refusal::NonePending));
    let mut reply = [FILL; REPLY];
    assert_eq!(pool.step(&BEGIN, &mut reply).surface, Some(Surface(0)));
    assert_eq!(pool.step(&BEGIN, &mut reply).bytes, [2, 0, 2, 1, 18, 0]);
}

#[test]
fn a_small_buffer() {
    let mut pool = Pool::make(4).unwrap();
    assert!(pool.step(&CONFIGURE, &mut [0; REPLY]).reply.is_ok());
    let before = pool.clone();
    let mut reply = [FILL; REPLY - 1];
    let given = pool.step_in(&BEGIN, &mut reply);
    assert_eq!((given.reply, given.surface, given.bytes), (Err(Refusal::NoRoom), None, &[][..]));
    assert!(reply.iter().all(|&b| b == FILL) && pool == before);
    assert_eq!(pool.step_in(&[], &mut []).reply, Err(Refusal::NoRoom));
}

#[test]
fn pools_that_are_not_made() {
    let mut random = Random::new();
    for surfaces in [0, MOST_SURFACES + 1, u32::MAX] {
        assert_eq!(Pool::make(surfaces), Err(Refusal::BadCount));
        let mut pool = any_pool(&mut random);
        let before = pool.clone();
        assert_eq!(pool.make_again(surfaces), Err(Refusal::BadCount));
        assert_eq!(pool, before);
    }
    for surfaces in 1..=MOST_SURFACES {
        let mut pool = any_pool(&mut random);
        assert_eq!(pool.make_again(surfaces), Ok(()));
        assert_eq!(Ok(pool), Pool::make(surfaces));
    }
}

// ---- any words

/// A pool of words that no call left.
fn any_pool(random: &mut Random) -> Pool {
    let mut own = [0; POOL];
    own.iter_mut().for_each(|w| *w = u64::from(random.some()) << random.below(33) | u64::from(random.some()));
    if random.below(4) > 0 {
        own[0] = u64::from(random.below(66));
    }
    let mut session = [0; WORDS];
    session.iter_mut().for_each(|w| *w = random.some());
    Pool::from_words(own, session)
}

/// A record, well-formed but for one in eight.
fn any_record(random: &mut Random) -> Vec<u8> {
    if random.below(8) == 0 {
        return (0..random.below(517)).map(|_| random.some() as u8).collect();
    }
    let mut begin = BEGIN;
    begin[4] = [0, 1, 19, 20, 21, 22][random.below(6) as usize];
    begin[6] = random.below(4) as u8;
    begin[7] = random.below(18) as u8;
    let lists = [4, 0, 3, 0, random.below(4) as u8, 0, random.below(4) as u8, random.below(4) as u8];
    match random.below(8) {
        0 => CONFIGURE.to_vec(),
        1 => lists.to_vec(),
        2 => vec![0, 0, 4 + random.below(5) as u8, 0],
        _ => begin.to_vec(),
    }
}

/// What a call is lent, and around each piece bytes that are not lent.
#[repr(C)]
struct Lent {
    before: [u8; 64],
    pool: Pool,
    between: [u8; 64],
    reply: [u8; REPLY],
    behind: [u8; 64],
}

impl Lent {
    fn guards_are_whole(&self) -> bool {
        [self.before, self.between, self.behind].as_flattened().iter().all(|&b| b == FILL)
    }

    /// One call on a record, with all that is promised of it.
    fn step(&mut self, record: &[u8]) -> u16 {
        self.reply = [FILL; REPLY];
        let before = self.pool.clone();
        let given = self.pool.step(record, &mut self.reply);
        let (number, len, surface) = (number(&given.reply), given.bytes.len(), given.surface);
        let is_begun = given.reply.is_ok() && record[2..4] == [2, 0];
        assert!(number < 14 || number == 18, "number {number}");
        assert!((6..=REPLY).contains(&len) && given.reply != Err(Refusal::Unknown(0)));
        assert_eq!(number, u16::from_le_bytes([self.reply[4], self.reply[5]]));
        assert_eq!(surface.is_some(), is_begun);
        assert!(surface.iter().all(|surface| surface.0 < MOST_SURFACES));
        assert!(self.reply[len..].iter().all(|&b| b == FILL));
        assert!(number == 0 || self.pool == before);
        number
    }

    fn give_back(&mut self, surface: Surface) -> u16 {
        let before = self.pool.clone();
        let number = number(&self.pool.give_back(surface));
        assert!(number == 0 || (number == 19 && self.pool == before));
        number
    }
}

/// Words that no call ever left get answers, and a refusal leaves every one of them.
#[test]
fn any_words_are_a_pool() {
    let mut random = Random::new();
    let guard = [FILL; 64];
    let pool = any_pool(&mut random);
    let mut lent = Lent { before: guard, pool, between: guard, reply: [FILL; REPLY], behind: guard };
    let mut numbers = [0; 21];
    for _ in 0..100_000 {
        if random.below(8) == 0 {
            lent.pool = any_pool(&mut random);
        }
        let number = match random.below(64) {
            0 => number(&lent.pool.make_again(random.below(66))),
            1..16 => lent.give_back(Surface(random.below(66))),
            _ => lent.step(&any_record(&mut random)),
        };
        assert!(lent.guards_are_whole());
        numbers[usize::from(number)] += 1;
    }
    for number in [0, 18, 19, 20u16] {
        assert!(numbers[usize::from(number)] > 0, "no call got {number}");
    }
}
