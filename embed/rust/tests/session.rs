//! The recordings of recordings/vectors and recordings/examples and the promises of the header, through the safe crate.
#![cfg(target_arch = "x86_64")] // the archive is for x86-64
mod common;

use common::{calls, files, number, Random, FILL};
use trusshemp::{session_size, Refusal, Session, REPLY, WORDS};

#[test]
fn the_size_is_the_archives() {
    assert_eq!(session_size(), std::mem::size_of::<Session>());
    assert_eq!(session_size(), 4 * WORDS);
}

/// "Whole exchange from fresh" of docs/01-scope.md.
#[test]
fn the_whole_exchange() {
    let mut session = Session::new();
    let mut reply = [FILL; REPLY];
    let configure = [0x06, 0, 1, 0, 4, 4, 4, 1, 0, 0];
    assert_eq!(session.step(&configure, &mut reply).bytes, [5, 0, 1, 1, 0, 0, 0, 0, 0]);
    let begin = [0x0C, 0, 2, 0, 0x13, 0, 1, 0, 0, 7, 0, 0, 0, 0, 0, 0];
    let begun = [0x13, 0, 2, 1, 0, 0, 0, 0, 0, 0, 7, 0, 0, 0, 0, 0, 0, 0, 0, 0, 0, 0, 0];
    assert_eq!(session.step(&begin, &mut reply).bytes, begun);
    assert_eq!(reply[begun.len()], FILL);
}

#[test]
fn every_recording() {
    for (path, data) in files("calls") {
        let mut session = Session::new();
        for (place, (said, answered)) in calls(&data).into_iter().enumerate() {
            let before = session.clone();
            let mut reply = [FILL; REPLY];
            let answer = session.step(said, &mut reply);
            assert_eq!(answer.bytes, answered, "{}, record {}", path.display(), place + 1);
            let number = number(&answer.reply);
            assert_eq!(number, u16::from_le_bytes([answered[4], answered[5]]));
            assert!(reply[answered.len()..].iter().all(|&b| b == FILL));
            assert!(number == 0 || session == before);
        }
    }
}

#[test]
fn a_small_buffer() {
    let mut session = Session::new();
    let before = session.clone();
    let mut reply = [FILL; REPLY - 1];
    let answer = session.step_in(&[0, 0, 5, 0], &mut reply);
    assert_eq!((answer.reply, answer.bytes), (Err(Refusal::NoRoom), &[][..]));
    assert!(reply.iter().all(|&b| b == FILL) && session == before);
    assert_eq!(session.step_in(&[], &mut []).reply, Err(Refusal::NoRoom));
}

/// Words that no call ever left get answers, and a refusal leaves every one of them.
#[test]
fn any_words_are_a_session() {
    let mut random = Random::new();
    for _ in 0..200 {
        let mut words = [0; WORDS];
        words.iter_mut().for_each(|w| *w = random.some());
        for kind in 0..=9u8 {
            let body = [4, 0, 0, 0, 0, 0, 0, 0, 0, 0, 0, 0];
            let size = [0, 6, 12, 4, 0, 0, 0, 0, 0, 0][kind as usize];
            let mut record = vec![size as u8, 0, kind, 0];
            record.extend_from_slice(&body[..size]);
            let mut session = Session::from_words(words);
            let mut reply = [FILL; REPLY];
            let answer = session.step(&record, &mut reply);
            let (number, len) = (number(&answer.reply), answer.bytes.len());
            assert!(number < 14 && (6..=REPLY).contains(&len) && answer.reply != Err(Refusal::Unknown(0)));
            assert_eq!(number, u16::from_le_bytes([reply[4], reply[5]]));
            assert!(number == 0 || session.words() == words);
            assert!(reply[len..].iter().all(|&b| b == FILL));
        }
    }
}
