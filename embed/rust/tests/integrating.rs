//! The example of docs/INTEGRATING.md, compiled and run.
#![cfg(target_arch = "x86_64")] // the archive is for x86-64
use std::cell::RefCell;
use std::error::Error;

use trusshemp::{Begin, Configure, Pool, Record, Refusal, RECORD, REPLY};
use trusshemp::{Reply, Surface};

/// What the example did, in words.
fn example() -> Result<Vec<String>, Box<dyn Error>> {
    let done = RefCell::new(Vec::new());
    let say = |what: String| done.borrow_mut().push(what);
    let answer_guest = |bytes: &[u8]| say(format!("answered {}", Reply::parse(bytes).is_ok()));
    let decode_into = |surface: Surface| say(format!("decoded into {surface}"));
    let show = |surface: Surface, poc: i32| say(format!("shown {surface}, {poc}"));
    let keep_for_later = |record: Record| say(format!("kept {record:?}"));
    let log = |refusal: Refusal| say(refusal.to_string());
    let its_surface = Surface(0);

    let mut pool = Pool::make(8)?;
    let (mut buffer, mut reply) = ([0; RECORD], [0; REPLY]);
    let limits = Configure { k: 8, capacity: 16, buffering: 4, reorder: 2, latency: 0 };
    let idr = Begin { nal_type: 19, flags: Begin::OUTPUT, ..Begin::default() };
    for record in [Record::Configure(limits), Record::Begin(idr), Record::Finish, Record::Drain] {
        let given = pool.step(record.encode(&mut buffer)?, &mut reply);
        answer_guest(given.bytes);
        if let Some(surface) = given.surface {
            decode_into(surface);
        }
        match given.reply {
            Ok(reply) => reply.tail().handed_out.iter().for_each(|shown| show(shown.surface, shown.poc)),
            Err(Refusal::NoneFree) => keep_for_later(record),
            Err(refusal) => log(refusal),
        }
    }
    pool.give_back(its_surface)?;
    let kept = pool.save();
    let pool = Pool::load(&kept)?;

    assert_eq!(pool.save(), kept);
    Ok(done.into_inner())
}

#[test]
fn the_example_runs() {
    let done = example().unwrap();
    let expected = ["answered true", "answered true", "decoded into 0", "answered true", "answered true", "shown 0, 0"];
    assert_eq!(done, expected);
}

/// Each line of code, without what is said beside it.
fn lines(text: &str) -> impl Iterator<Item = &str> {
    text.lines().map(|line| line.split(" //").next().unwrap().trim()).filter(|line| !line.is_empty())
}

/// The lines of the document's block for this crate stand in this file, in that order.
#[test]
fn the_example_is_the_documents() {
    let document = include_str!("../../../docs/INTEGRATING.md");
    let block = document.split("```").find(|block| block.starts_with("rust\nuse trusshemp::")).unwrap();
    let mut here = lines(include_str!("integrating.rs"));
    for line in lines(block.strip_prefix("rust\n").unwrap()) {
        assert!(here.any(|found| found == line), "docs/INTEGRATING.md has: {line}");
    }
}
