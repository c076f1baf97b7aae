//! Kept sessions and pools: they go on as if they had not been kept, and nothing else is taken.
#![cfg(target_arch = "x86_64")] // the archive is for x86-64
mod common;

use common::{answer, calls, files, python, FILL};
use trusshemp::{layout, LoadError, Pool, Session, KEPT, LAYOUT, POOL, POOL_KEPT, REPLY, WORDS};

/// A session in the middle of a recording, with pictures stored and one current.
fn some_session() -> Session {
    let mut session = Session::new();
    let mut reply = [FILL; REPLY];
    for record in [
        &[6, 0, 1, 0, 4, 4, 4, 1, 0, 0][..],
        &[12, 0, 2, 0, 19, 0, 1, 0, 0, 7, 0, 0, 0, 0, 0, 0],
        &[0, 0, 4, 0],
        &[17, 0, 2, 0, 1, 0, 1, 4, 0, 8, 0, 0, 0, 1, 0, 0, 0xFC, 0xFF, 0xFF, 0xFF, 1],
    ] {
        session.step(record, &mut reply).reply.unwrap();
    }
    session
}

/// A pool over that session, of eight surfaces, of which some are held and on some a return is pending.
fn some_pool() -> Pool {
    Pool::from_words([8, 0b1000_0011, 0b1000_0100], some_session().words())
}

// ---- the bytes

/// The bytes are the layout number, the checksum that python finds, and the words.
fn is_laid_out(kept: &[u8], words: &[u8]) {
    let word = |place: usize| u32::from_le_bytes(kept[place..place + 4].try_into().unwrap());
    let digits: String = words.iter().map(|byte| format!("{byte:02x}")).collect();
    assert_eq!(word(0), LAYOUT);
    assert_eq!(word(4).to_string(), python("tests/checksum.py", &[&digits]).trim());
    assert_eq!(&kept[8..], words);
}

#[test]
fn what_is_kept() {
    assert_eq!((KEPT, POOL_KEPT, LAYOUT), (552, 576, layout()));
    let session = some_session().words().map(u32::to_le_bytes);
    is_laid_out(&some_session().save(), session.as_flattened());
    let pool = some_pool().words().0.map(u64::to_le_bytes);
    is_laid_out(&some_pool().save(), &[pool.as_flattened(), session.as_flattened()].concat());
}

// ---- going on

#[test]
fn a_loaded_session_answers_on() {
    for (path, data) in files("calls") {
        let (mut session, mut loaded) = (Session::new(), Session::new());
        for (place, (said, answered)) in calls(&data).into_iter().enumerate() {
            loaded = Session::load(&loaded.save()).unwrap();
            let (mut reply, mut other) = ([FILL; REPLY], [FILL; REPLY]);
            assert_eq!(loaded.step(said, &mut other).bytes, answered, "{}, record {}", path.display(), place + 1);
            assert_eq!(session.step(said, &mut reply).bytes, answered);
            assert_eq!(session, loaded);
            assert!(session.is_normal());
        }
    }
}

#[test]
fn a_loaded_pool_answers_on() {
    for (path, data) in files("pool") {
        let (surfaces, rest) = data.split_at(4);
        let mut pool = Pool::make(u32::from_le_bytes(surfaces.try_into().unwrap())).unwrap();
        let mut loaded = pool.clone();
        for (place, (said, answered)) in calls(rest).into_iter().enumerate() {
            loaded = Pool::load(&loaded.save()).unwrap();
            assert_eq!(answer(&mut loaded, said), answered, "{}, call {}", path.display(), place + 1);
            assert_eq!(answer(&mut pool, said), answered);
            assert_eq!(pool, loaded);
            assert!(pool.is_normal());
        }
    }
}

// ---- what is not taken

/// Each bit of kept bytes flipped, and any other length: none is taken.
fn flipped_and_cut<T>(kept: &[u8], load: impl Fn(&[u8]) -> Result<T, LoadError>) {
    for bit in 0..8 * kept.len() {
        let mut bytes = kept.to_vec();
        bytes[bit / 8] ^= 1 << (bit % 8);
        let expected = if bit < 32 { LoadError::Layout } else { LoadError::Damaged };
        assert_eq!(load(&bytes).err(), Some(expected), "bit {bit}");
    }
    let mut bytes = [kept, kept].concat();
    bytes[0] ^= 1; // the length is looked at first
    for length in (0..bytes.len()).filter(|&length| length != kept.len()) {
        assert_eq!(load(&bytes[..length]).err(), Some(LoadError::Length), "{length} bytes");
    }
    bytes[8] ^= 1; // and the layout before the checksum
    assert_eq!(load(&bytes[..kept.len()]).err(), Some(LoadError::Layout));
}

#[test]
fn every_bit_of_a_kept_session() {
    assert_eq!(Session::load(&some_session().save()), Ok(some_session()));
    flipped_and_cut(&some_session().save(), Session::load);
}

#[test]
fn every_bit_of_a_kept_pool() {
    assert_eq!(Pool::load(&some_pool().save()), Ok(some_pool()));
    flipped_and_cut(&some_pool().save(), Pool::load);
}

/// The first word of the front is a flag, and the last of the store says how many pictures are stored.
#[test]
fn words_that_no_call_leaves() {
    for (place, word) in [(0, 2), (WORDS - 1, 17), (WORDS - 2, 1)] {
        let mut words = some_session().words();
        words[place] = word;
        let session = Session::from_words(words);
        assert!(!session.is_normal());
        assert_eq!(Session::load(&session.save()), Err(LoadError::NotNormal));
        assert_eq!(Pool::load(&Pool::from_words([8, 1, 1], words).save()), Err(LoadError::NotNormal));
    }
}

#[test]
fn pools_that_no_call_leaves() {
    let load = |own: [u64; POOL]| Pool::load(&Pool::from_words(own, some_session().words()).save()).err();
    for surfaces in [0, 65, 1 << 32 | 8, u64::MAX] {
        assert_eq!(load([surfaces, 0, 0]), Some(LoadError::NotNormal));
    }
    for surfaces in 1..64 {
        let all = (1 << surfaces) - 1;
        assert_eq!(load([surfaces, all, all]), None);
        assert_eq!(load([surfaces, 1 << surfaces, 0]), Some(LoadError::NotNormal));
        assert_eq!(load([surfaces, 0, 1 << surfaces]), Some(LoadError::NotNormal));
        assert_eq!(load([surfaces, 1 << 63, 0]), Some(LoadError::NotNormal));
    }
    assert_eq!(load([64, u64::MAX, u64::MAX]), None);
}
