//! The counted calls of the Rust. This file stands where against-rust/ has its harness, the VA-API backend's place, so
//! it sees the private functions of `h265.rs`, and takes from that harness how a record is laid ready (laid.rs) and
//! that there are no frames (frame.rs). Every record is laid ready as a parsed slice before the count; what is counted
//! are the decoder's own calls, with a backend that does nothing, and the taking of its ready queue. No record is
//! parsed and no reply is written.
//!
//! Arguments: RECORDING ROUNDS [HANDED]. HANDED gets the serials handed out by each record, as u32 with 4,294,967,295
//! behind each record's.

mod frame;
mod laid;

use std::rc::Rc;

use frame::Frame;
use laid::u16_at;

use crate::backend::vaapi::Harness;
use crate::backend::vaapi::Rust;
use crate::codec::h265::dpb::Dpb;
use crate::codec::h265::parser::Nalu;
use crate::codec::h265::parser::NaluType;
use crate::codec::h265::parser::Pps;
use crate::codec::h265::parser::Slice;
use crate::codec::h265::parser::SliceHeader;
use crate::codec::h265::parser::Sps;
use crate::codec::h265::picture::PictureData;
use crate::decoder::stateless::h265::CurrentPicState;
use crate::decoder::stateless::h265::RefPicListEntry;
use crate::decoder::stateless::h265::RefPicSet;
use crate::decoder::stateless::h265::StatelessH265DecoderBackend;
use crate::decoder::stateless::h265::H265;
use crate::decoder::stateless::NewPictureResult;
use crate::decoder::stateless::StatelessBackendResult;
use crate::decoder::stateless::StatelessDecoder;
use crate::decoder::stateless::StatelessDecoderBackend;
use crate::decoder::stateless::StatelessDecoderBackendPicture;
use crate::decoder::BlockingMode;
use crate::decoder::StreamInfo;

type Decoder = StatelessDecoder<H265, Bare>;

/// A record whose fields are laid ready.
enum Call {
    Configure(Sps),
    Begin(Slice<'static>),
    Lists(Slice<'static>),
    Finish,
    Drain,
}

/// A decoder and its current picture, which `process_nalu` would keep for it.
struct Session {
    decoder: Decoder,
    current: Option<CurrentPicState<Handle, Handle>>,
    /// Where the handed out pictures are wanted: a serial each, and a mark behind each record's.
    handed: Option<Vec<u32>>,
}

impl Harness for Rust {
    fn run(_: bool) {
        let words: Vec<String> = std::env::args().collect();
        let calls = prepare(&std::fs::read(&words[1]).unwrap());
        let mut handed = None;
        for _ in 0..words[2].parse::<u32>().unwrap() {
            let decoder = StatelessDecoder::new(Bare::default(), BlockingMode::NonBlocking).unwrap();
            let mut session = Session { decoder, current: None, handed: words.get(3).map(|_| Vec::new()) };
            for call in &calls {
                step(&mut session, call);
            }
            round_end();
            handed = session.handed;
        }
        if let (Some(serials), Some(path)) = (handed, words.get(3)) {
            let bytes: Vec<u8> = serials.into_iter().flat_map(u32::to_le_bytes).collect();
            std::fs::write(path, bytes).unwrap();
        }
    }
}

/// One record. The counter looks for this name.
#[no_mangle]
#[inline(never)]
fn step(session: &mut Session, call: &Call) {
    let decoder = &mut session.decoder;
    match call {
        Call::Configure(sps) => configure(decoder, sps),
        Call::Begin(slice) => session.current = decoder.begin_picture(0, slice, &mut || None).unwrap(),
        Call::Lists(slice) => lists(decoder, session.current.as_mut().unwrap(), slice),
        Call::Finish => decoder.finish_picture(session.current.take().unwrap()).unwrap(),
        Call::Drain => decoder.drain().unwrap(),
    }
    match &mut session.handed {
        None => decoder.ready_queue.queue.clear(),
        Some(serials) => {
            serials.extend(decoder.ready_queue.queue.drain(..).map(|handle| handle.serial));
            serials.push(u32::MAX);
        }
    }
}

/// The decoder's call for a slice; with the feature `least` only what builds the lists in it.
fn lists(decoder: &mut Decoder, current: &mut CurrentPicState<Handle, Handle>, slice: &Slice) {
    if cfg!(feature = "least") {
        let pps = decoder.codec.parser.get_pps(0).unwrap();
        current.ref_pic_lists = decoder.codec.rps.build_ref_pic_lists(&slice.header, pps, &current.pic).unwrap();
    } else {
        decoder.handle_slice(current, slice).unwrap();
    }
}

#[no_mangle]
#[inline(never)]
fn round_end() {
    std::hint::black_box(());
}

fn configure(decoder: &mut Decoder, sps: &Sps) {
    decoder.apply_sps(sps).unwrap();
    decoder.codec.parser.laid_sps = Some(sps.clone());
    decoder.process_nalu(0, Nalu::of(NaluType::SpsNut, 0), &mut || None).unwrap();
    decoder.codec.parser.laid_pps = Some(laid::pps_of(laid::PLAIN, false, &Rc::new(sps.clone())));
    decoder.process_nalu(0, Nalu::of(NaluType::PpsNut, 0), &mut || None).unwrap();
}

// ---- records laid ready

/// What is counted has no long-term entries and no modified lists.
fn prepare(records: &[u8]) -> Vec<Call> {
    let (mut calls, mut at, mut header) = (Vec::new(), 0, SliceHeader::default());
    while at < records.len() {
        let (length, kind) = (u16_at(records, at) as usize, u16_at(records, at + 2));
        let body = &records[at + 4..at + 4 + length];
        at += 4 + length;
        calls.push(match kind {
            1 => Call::Configure(laid::sps_of(body)),
            2 => {
                assert_eq!(body[11], 0, "long-term entries are not counted");
                header = laid::header_of(body);
                Call::Begin(Slice { header: header.clone(), nalu: laid::nalu_of(body).unwrap() })
            }
            3 => {
                assert_eq!(body[1], 0, "modified lists are not counted");
                Call::Lists(Slice { header: laid::slice_of(&header, body), nalu: Nalu::of(NaluType::TrailR, 0) })
            }
            4 => Call::Finish,
            5 => Call::Drain,
            _ => panic!("no such call in what is counted"),
        });
    }
    calls
}

// ---- a backend that does nothing

#[derive(Default)]
struct Bare {
    serial: u32,
}

#[derive(Clone, Debug)]
struct Handle {
    serial: u32,
}

impl StatelessDecoderBackendPicture<H265> for Bare {
    type Picture = Handle;
}

impl StatelessDecoderBackend for Bare {
    type Handle = Handle;

    fn stream_info(&self) -> Option<&StreamInfo> {
        None
    }

    fn reset_backend(&mut self) -> anyhow::Result<()> {
        Ok(())
    }
}

impl StatelessH265DecoderBackend for Bare {
    fn new_sequence(&mut self, _: &Sps) -> StatelessBackendResult<()> {
        Ok(())
    }

    fn new_picture(&mut self, _: u64, _: &mut dyn FnMut() -> Option<Frame>) -> NewPictureResult<Handle> {
        self.serial += 1;
        Ok(Handle { serial: self.serial - 1 })
    }

    fn begin_picture(
        &mut self,
        _: &mut Handle,
        _: &PictureData,
        _: &Sps,
        _: &Pps,
        _: &Dpb<Handle>,
        _: &RefPicSet<Handle>,
        _: &Slice,
    ) -> StatelessBackendResult<()> {
        Ok(())
    }

    fn decode_slice(
        &mut self,
        _: &mut Handle,
        _: &Slice,
        _: &Sps,
        _: &Pps,
        _: &[Option<RefPicListEntry<Handle>>; 16],
        _: &[Option<RefPicListEntry<Handle>>; 16],
    ) -> StatelessBackendResult<()> {
        Ok(())
    }

    fn submit_picture(&mut self, picture: Handle) -> StatelessBackendResult<Handle> {
        Ok(picture)
    }
}
