//! Records of the recordings, from the numbers that python reads in them to their bytes; and what can't be written.
mod common;

use common::{messages, FILL};
use trusshemp::{Begin, Configure, EncodeError, Lists, LongTerm, Record, ShortTerm, SliceType, Surface, RECORD};

/// Numbers to be taken one behind the other.
struct Numbers(std::vec::IntoIter<i64>);

impl Numbers {
    fn take<T: TryFrom<i64, Error: std::fmt::Debug>>(&mut self) -> T {
        self.0.next().unwrap().try_into().unwrap()
    }

    fn counted<T>(&mut self, mut one: impl FnMut(&mut Self) -> T) -> Vec<T> {
        (0..self.take::<usize>()).map(|_| one(self)).collect()
    }

    fn short_terms(&mut self) -> Vec<ShortTerm> {
        self.counted(|from| ShortTerm { delta: from.take(), used: from.take() })
    }

    fn long_terms(&mut self) -> Vec<LongTerm> {
        self.counted(|from| LongTerm { lsb: from.take(), flags: from.take(), cycle: from.take() })
    }
}

/// A record and all that it may borrow.
#[derive(Default)]
struct Owned {
    neg: Vec<ShortTerm>,
    pos: Vec<ShortTerm>,
    lt: Vec<LongTerm>,
    entries: [Vec<u8>; 2],
}

fn begin<'a>(from: &mut Numbers, owned: &'a mut Owned) -> Begin<'a> {
    let (nal_type, temporal_id, flags, lsb) = (from.take(), from.take(), from.take(), from.take());
    let surface = Surface(from.take());
    (owned.neg, owned.pos, owned.lt) = (from.short_terms(), from.short_terms(), from.long_terms());
    Begin { nal_type, temporal_id, flags, lsb, surface, neg: &owned.neg, pos: &owned.pos, lt: &owned.lt }
}

fn lists<'a>(from: &mut Numbers, owned: &'a mut Owned) -> Lists<'a> {
    let (slice_type, flags, active) = (SliceType(from.take()), from.take(), [from.take(), from.take()]);
    owned.entries = [from.counted(Numbers::take), from.counted(Numbers::take)];
    Lists { slice_type, flags, active, entries: [&owned.entries[0], &owned.entries[1]] }
}

fn record<'a>(from: &mut Numbers, owned: &'a mut Owned) -> Record<'a> {
    match from.take::<u16>() {
        1 => Record::Configure(Configure {
            k: from.take(),
            capacity: from.take(),
            buffering: from.take(),
            reorder: from.take(),
            latency: from.take(),
        }),
        2 => Record::Begin(begin(from, owned)),
        3 => Record::Lists(lists(from, owned)),
        4 => Record::Finish,
        5 => Record::Drain,
        6 => Record::Discard,
        7 => Record::EndOfSequence,
        8 => Record::Abandon,
        kind => panic!("kind {kind}"),
    }
}

#[test]
fn every_record_of_the_recordings() {
    for message in messages("records") {
        let mut owned = Owned::default();
        let mut from = Numbers(message.numbers.unwrap().into_iter());
        let record = record(&mut from, &mut owned);
        assert!(from.0.next().is_none());
        let mut buffer = [FILL; RECORD];
        assert_eq!(record.encode(&mut buffer), Ok(&message.bytes[..]), "{record:?}");
        assert!(buffer[message.bytes.len()..].iter().all(|&b| b == FILL));
        // no byte too many, and none written where one is lacking
        let needed = message.bytes.len();
        assert_eq!(record.encode(&mut vec![FILL; needed]), Ok(&message.bytes[..]));
        let mut small = vec![FILL; needed - 1];
        assert_eq!(record.encode(&mut small), Err(EncodeError::Buffer { needed }));
        assert!(small.iter().all(|&b| b == FILL));
    }
}

/// "Whole exchange from fresh" of docs/01-scope.md.
#[test]
fn the_whole_exchange() {
    let mut buffer = [FILL; RECORD];
    let configure = Configure { k: 4, capacity: 4, buffering: 4, reorder: 1, latency: 0 };
    let bytes = [0x06, 0, 1, 0, 4, 4, 4, 1, 0, 0];
    assert_eq!(Record::Configure(configure).encode(&mut buffer), Ok(&bytes[..]));
    let begin = Begin { nal_type: 19, flags: Begin::OUTPUT, surface: Surface(7), ..Begin::default() };
    let bytes = [0x0C, 0, 2, 0, 0x13, 0, 1, 0, 0, 7, 0, 0, 0, 0, 0, 0];
    assert_eq!(Record::Begin(begin).encode(&mut buffer), Ok(&bytes[..]));
}

/// As many entries as a count can say, and as many bytes as a body can have; one more is an error.
#[test]
fn what_cannot_be_written() {
    let short = [ShortTerm::used(-1); 256];
    let long = [LongTerm { lsb: 1, flags: LongTerm::USED, cycle: 0 }; 256];
    let begin = |neg, pos, lt| {
        let (neg, pos, lt) = (&short[..neg], &short[..pos], &long[..lt]);
        let mut buffer = [FILL; RECORD];
        let len = Record::Begin(Begin { neg, pos, lt, ..Begin::default() }).encode(&mut buffer).map(<[u8]>::len);
        assert!(len.is_ok() || buffer.iter().all(|&b| b == FILL));
        len
    };
    assert_eq!(begin(100, 0, 0), Ok(RECORD));
    assert_eq!(begin(1, 99, 0), Ok(RECORD));
    assert_eq!(begin(0, 0, 71), Ok(4 + 12 + 7 * 71));
    for counts in [(101, 0, 0), (50, 51, 0), (0, 0, 72), (255, 255, 255)] {
        assert_eq!(begin(counts.0, counts.1, counts.2), Err(EncodeError::TooLong));
    }
    for counts in [(256, 0, 0), (0, 256, 0), (0, 0, 256)] {
        assert_eq!(begin(counts.0, counts.1, counts.2), Err(EncodeError::TooMany));
    }
}

/// Entries stand where the list is modified, and as many as are active.
#[test]
fn entries_of_lists() {
    let entries = [0; 256];
    let lists = |flags, active, e0, e1| {
        let mut buffer = [FILL; RECORD];
        let lists = Lists { slice_type: SliceType::B, flags, active, entries: [&entries[..e0], &entries[..e1]] };
        Record::Lists(lists).encode(&mut buffer).map(<[u8]>::len)
    };
    let (m0, m1) = (Lists::MODIFY_0, Lists::MODIFY_1);
    assert_eq!(lists(0, [2, 3], 0, 0), Ok(8));
    assert_eq!(lists(m0, [2, 3], 2, 0), Ok(10));
    assert_eq!(lists(m0 | m1, [255, 253], 255, 253), Ok(RECORD));
    assert_eq!(lists(m0 | m1, [255, 254], 255, 254), Err(EncodeError::TooLong));
    for (flags, e0, e1) in [(0, 2, 0), (m0, 0, 0), (m0, 1, 0), (m0, 3, 0), (m0, 258 - 2, 0), (m0, 2, 3), (m1, 2, 3)] {
        assert_eq!(lists(flags, [2, 3], e0, e1), Err(EncodeError::Entries));
    }
}
