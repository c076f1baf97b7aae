//! In which order pictures leave the DPB. The decoder has no call that says so, but its own debug log does: it names
//! each picture that it bumps, removes, retains or clears. A bump is the next picture of the ready queue, and a
//! retained or removed one the next in the DPB.

use std::cell::RefCell;

use super::backend::Handle;

#[derive(Clone, Copy, PartialEq)]
pub enum Event {
    Stored,
    Bumped,
    Removed,
    RemovingUnused,
    Retained(bool),
    Cleared,
}

thread_local! {
    static EVENTS: RefCell<Vec<Event>> = const { RefCell::new(Vec::new()) };
}

struct Listener;

impl log::Log for Listener {
    fn enabled(&self, _: &log::Metadata) -> bool {
        true
    }

    fn log(&self, record: &log::Record) {
        if !record.target().ends_with("::dpb") {
            return;
        }
        let text = record.args().to_string();
        let event = match text.get(..9).unwrap_or_default() {
            "Stored pi" => Event::Stored,
            "Bumping P" => Event::Bumped,
            "Removed P" => Event::Removed,
            "Removing " => Event::RemovingUnused,
            "Retaining" => Event::Retained(text.ends_with("true")),
            "Clearing " => Event::Cleared,
            _ => return,
        };
        EVENTS.with(|events| events.borrow_mut().push(event));
    }

    fn flush(&self) {}
}

pub fn listen() {
    log::set_logger(&Listener).unwrap();
    log::set_max_level(log::LevelFilter::Debug);
}

pub fn forget() {
    EVENTS.with(|events| events.borrow_mut().clear());
}

/// A picture in the DPB before the call.
#[derive(Clone)]
pub struct Stored {
    pub handle: Handle,
    pub waiting: bool,
}

/// What left the DPB, in order.
#[derive(Default)]
pub struct Left {
    pub thrown: Vec<u32>,
    pub released: Vec<u32>,
}

/// Follows the log from the DPB before the call, with the picture that was current and those put into the ready queue:
/// what left, and the serials that stay.
pub fn follow(mut stored: Vec<Stored>, current: Option<Handle>, handed: &[Handle]) -> (Left, Vec<u32>) {
    let events = EVENTS.with(|events| events.take());
    let mut left = Left::default();
    let (mut bumps, mut place) = (0, 0);
    for event in events {
        match event {
            Event::Stored => stored.push(Stored { handle: current.clone().unwrap(), waiting: false }),
            Event::Bumped => bumps += 1,
            Event::Removed => {
                let at = stored.iter().position(|s| s.handle.serial == handed[bumps - 1].serial).unwrap();
                left.released.push(stored.remove(at).handle.surface);
            }
            Event::RemovingUnused => place = 0,
            Event::Retained(true) => place += 1,
            Event::Retained(false) => left.released.push(stored.remove(place).handle.surface),
            Event::Cleared => {
                for s in stored.drain(..) {
                    if s.waiting && !handed.iter().any(|h| h.serial == s.handle.serial) {
                        left.thrown.push(s.handle.serial);
                    }
                    left.released.push(s.handle.surface);
                }
            }
        }
    }
    (left, stored.iter().map(|s| s.handle.serial).collect())
}
