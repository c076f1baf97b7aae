//! The harness. It stands where the VA-API backend would, so it sees the private functions of `h265.rs` and is its
//! backend at once: it lays the fields of each record ready as a parsed parameter set or slice header, calls the
//! decoder's own functions, and writes what the decoder then told its backend, put into its ready queue and keeps in
//! its DPB.
//!
//! Standard input: recordings, each a u32 length and record bytes. Standard output, for each record: the reply that the
//! decoder's answers spell, then a block of kind 600 with what it keeps; a recording ends with a block of kind 601,
//! after a block of kind 602 with a text where the decoder failed or panicked. With `--show` blocks 603 to 606 say more
//! (spell.rs), and dropped pictures go on.

mod backend;
mod feed;
mod frame;
mod laid;
mod spell;
mod witness;

use std::io::Read;
use std::io::Write;
use std::panic::AssertUnwindSafe;

use crate::backend::vaapi::Harness;
use crate::backend::vaapi::Rust;

use backend::Decoder;
use backend::Handle;

impl Harness for Rust {
    fn run(show: bool) {
        witness::listen();
        std::panic::set_hook(Box::new(|_| ()));
        let mut input = Vec::new();
        std::io::stdin().lock().read_to_end(&mut input).unwrap();
        let mut at = 0;
        while at < input.len() {
            let length = laid::u32_at(&input, at) as usize;
            recording(&input[at + 4..at + 4 + length], show);
            at += 4 + length;
        }
    }
}

fn recording(records: &[u8], show: bool) {
    let mut decoder = backend::new_decoder();
    let mut out = std::io::BufWriter::new(std::io::stdout().lock());
    let mut at = 0;
    while at < records.len() {
        let length = laid::u16_at(records, at) as usize;
        let record = &records[at..at + 4 + length];
        at += record.len();
        match answer(&mut decoder, record, show) {
            Ok(bytes) => out.write_all(&bytes).unwrap(),
            Err(text) => {
                out.write_all(&spell::block(spell::FAILED, text.as_bytes())).unwrap();
                // a failed call leaves a decoder to go on with, a panic does not
                if !show || text.starts_with("panic") {
                    break;
                }
            }
        }
        if show {
            out.flush().unwrap();
        }
    }
    out.write_all(&spell::block(spell::ENDED, b"")).unwrap();
}

/// One record: the reply and the blocks behind it, or why there is none.
fn answer(decoder: &mut Decoder, record: &[u8], show: bool) -> Result<Vec<u8>, String> {
    let called = std::panic::catch_unwind(AssertUnwindSafe(|| feed::call(decoder, record)));
    match called {
        Ok(Ok(reply)) => {
            let mut bytes = spell::block(256 + laid::u16_at(record, 2), &reply);
            bytes.extend(spell::kept(decoder));
            if show {
                bytes.extend(spell::more(decoder));
            }
            Ok(bytes)
        }
        Ok(Err(error)) => Err(format!("error: {error:#}")),
        Err(panic) => {
            let text = panic.downcast_ref::<String>().cloned();
            let text = text.or_else(|| panic.downcast_ref::<&str>().map(|s| s.to_string()));
            Err(format!("panic: {}", text.unwrap_or_default()))
        }
    }
}
