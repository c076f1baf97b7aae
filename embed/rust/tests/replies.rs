//! Replies, whole and damaged: they are read as python reads them, and never with a panic.
mod common;

use common::messages;
use trusshemp::{Begun, Entry, Refusal, Reply, Run, Serial, Tail, MISSING};

/// How many there are, and the numbers of each, which `one` says.
fn put<T: Entry>(to: &mut Vec<i64>, run: Run<T>, one: impl Fn(T) -> Vec<i64>) {
    assert_eq!(run.iter().len(), run.iter().count());
    assert_eq!(run.is_empty(), run.iter().next().is_none());
    to.push(run.len() as i64);
    run.into_iter().for_each(|entry| to.extend(one(entry)));
}

fn put_members(to: &mut Vec<i64>, run: Run<Option<Serial>>) {
    put(to, run, |member| vec![i64::from(member.map_or(MISSING, |serial| serial.0))]);
}

fn put_tail(to: &mut Vec<i64>, tail: Tail) {
    put(to, tail.handed_out, |shown| vec![shown.serial.0.into(), shown.surface.0.into(), shown.poc.into()]);
    put(to, tail.thrown_away, |serial| vec![serial.0.into()]);
    put(to, tail.released, |surface| vec![surface.0.into()]);
}

fn put_begun(to: &mut Vec<i64>, begun: Begun) {
    to.extend([258, 0, begun.poc.into(), begun.flags.into(), begun.serial.0.into()]);
    let sets = [begun.st_curr_before, begun.st_curr_after, begun.st_foll, begun.lt_curr, begun.lt_foll];
    sets.into_iter().for_each(|set| put_members(to, set));
    put_tail(to, begun.tail);
}

/// The numbers of a reply, as numbers.py has them.
fn numbers(reply: Reply) -> Vec<i64> {
    let mut found = Vec::new();
    match reply {
        Reply::Refused { kind, refusal } => {
            let kind = kind.map_or(511, |kind| 256 + i64::from(kind.number()));
            found.extend([kind, refusal.number().into()]);
        }
        Reply::Done { kind, tail } => {
            found.extend([256 + i64::from(kind.number()), 0]);
            put_tail(&mut found, tail);
        }
        Reply::Begun(begun) => put_begun(&mut found, begun),
        Reply::Listed(lists) => {
            found.extend([259, 0]);
            lists.into_iter().for_each(|list| put_members(&mut found, list));
        }
        other => panic!("{other:?}"),
    }
    found
}

fn as_python_reads_them(what: &str) {
    let mut whole = 0;
    for message in messages(what) {
        let found = Reply::parse(&message.bytes).ok().map(numbers);
        assert_eq!(found, message.numbers, "{:02X?}", message.bytes);
        whole += usize::from(found.is_some());
    }
    assert!(whole > 300, "{whole} are well-formed");
}

#[test]
fn every_reply_of_the_recordings() {
    as_python_reads_them("replies");
}

/// Each reply cut at every byte, and with each byte set to some others.
#[test]
fn every_damaged_reply() {
    as_python_reads_them("damaged");
}

#[test]
fn tails_of_all_replies() {
    let refused = [2, 0, 2, 1, 18, 0];
    let reply = Reply::parse(&refused).unwrap();
    assert!(reply.tail() == Tail::default() && reply.tail().released.is_empty());
    let drained = [9, 0, 5, 1, 0, 0, 0, 0, 1, 7, 0, 0, 0];
    let released: Vec<u32> = Reply::parse(&drained).unwrap().tail().released.iter().map(|s| s.0).collect();
    assert_eq!(released, [7]);
}

/// "Numbers a session says no with" of docs/01-scope.md, and those of docs/02-change-requests.md, Item 10.
const REFUSALS: [(u16, Refusal); 17] = [
    (1, Refusal::NotConfigured),
    (2, Refusal::BadLimits),
    (3, Refusal::PictureCurrent),
    (4, Refusal::NoCurrent),
    (5, Refusal::OutOfRange),
    (6, Refusal::OutsideI32),
    (7, Refusal::SurfaceHeld),
    (8, Refusal::SerialsSpent),
    (9, Refusal::StoreFull),
    (10, Refusal::NoCandidate),
    (11, Refusal::TooMany),
    (12, Refusal::BadEntry),
    (13, Refusal::Malformed),
    (14, Refusal::NoRoom),
    (18, Refusal::NoneFree),
    (19, Refusal::NonePending),
    (20, Refusal::BadCount),
];

#[test]
fn refusals_and_their_numbers() {
    assert_eq!(Refusal::of(0), None);
    for number in 1..=u16::MAX {
        let named = REFUSALS.iter().find(|named| named.0 == number);
        let refusal = named.map_or(Refusal::Unknown(number), |named| named.1);
        assert_eq!((Refusal::of(number), refusal.number()), (Some(refusal), number));
        assert!(refusal.to_string().ends_with(&format!(" ({number})")));
    }
}
