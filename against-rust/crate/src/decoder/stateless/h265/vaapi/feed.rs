//! One record: its fields laid ready for the decoder's own functions, and their answers as the body of a reply.

use anyhow::anyhow;

use super::backend::Decoder;
use super::backend::Handle;
use super::laid;
use super::spell;
use super::witness;
use crate::codec::h265::parser::Nalu;
use crate::codec::h265::parser::NaluType;
use std::rc::Rc;

/// With `--scc` the plain PPS has an SCC extension too, one that does not make the current picture a reference.
fn with_scc() -> bool {
    std::env::args().any(|word| word == "--scc")
}

pub fn call(decoder: &mut Decoder, record: &[u8]) -> anyhow::Result<Vec<u8>> {
    let body = &record[4..];
    let stored = spell::stored(decoder);
    let current = decoder.codec.current_pic.as_ref().map(|current| current.backend_pic.clone());
    witness::forget();
    match laid::u16_at(record, 2) {
        1 => configure(decoder, body)?,
        2 => begin(decoder, body)?,
        3 => lists(decoder, body)?,
        4 => finish(decoder)?,
        5 => decoder.drain()?,
        7 => nalu(decoder, Nalu::of(NaluType::EosNut, 0))?,
        // no record has this kind: the NAL unit type of an end of bitstream, for docs/DIFFERENCES.md
        37 => nalu(decoder, Nalu::of(NaluType::EobNut, 0))?,
        // the decoder has no such call: a picture whose finish failed is gone already
        8 => drop(decoder.codec.current_pic.take()),
        _ => return Err(anyhow!("no such call")),
    }
    let handed: Vec<Handle> = decoder.ready_queue.queue.drain(..).collect();
    let (left, stay) = witness::follow(stored, current, &handed);
    let really: Vec<u32> = decoder.codec.dpb.entries().iter().map(|entry| entry.1.serial).collect();
    assert_eq!(stay, really, "the log does not tell what left");
    let tail = spell::tail(&handed, &left);
    Ok(match laid::u16_at(record, 2) {
        2 => spell::begun(decoder, tail)?,
        3 => spell::lists(decoder, body)?,
        _ => [vec![0, 0], tail].concat(),
    })
}

fn nalu(decoder: &mut Decoder, nalu: Nalu<'static>) -> anyhow::Result<()> {
    Ok(decoder.process_nalu(0, nalu, &mut || None)?)
}

/// `apply_sps`, which drains under the old SPS, then the new SPS and its two PPSs as NAL units.
fn configure(decoder: &mut Decoder, body: &[u8]) -> anyhow::Result<()> {
    let sps = laid::sps_of(body);
    decoder.apply_sps(&sps)?;
    decoder.codec.parser.laid_sps = Some(sps.clone());
    nalu(decoder, Nalu::of(NaluType::SpsNut, 0))?;
    let sps = Rc::new(sps);
    for id in [laid::PLAIN, laid::OWN] {
        decoder.codec.parser.laid_pps = Some(laid::pps_of(id, with_scc(), &sps));
        nalu(decoder, Nalu::of(NaluType::PpsNut, 0))?;
    }
    Ok(())
}

/// The first slice of a picture.
fn begin(decoder: &mut Decoder, body: &[u8]) -> anyhow::Result<()> {
    let first = laid::nalu_of(body).ok_or(anyhow!("no such type"))?;
    decoder.backend.surface = laid::u32_at(body, 5);
    decoder.codec.parser.laid_header = Some(laid::header_of(body));
    nalu(decoder, first)
}

/// A further slice of the same picture.
fn lists(decoder: &mut Decoder, body: &[u8]) -> anyhow::Result<()> {
    let before = decoder.codec.last_independent_slice_header.as_ref().ok_or(anyhow!("no picture"))?;
    decoder.codec.parser.laid_header = Some(laid::slice_of(before, body));
    nalu(decoder, Nalu::of(NaluType::TrailR, 0))
}

/// What `process_nalu` does with the current picture when the next one starts.
fn finish(decoder: &mut Decoder) -> anyhow::Result<()> {
    let current = decoder.codec.current_pic.take().ok_or(anyhow!("no picture"))?;
    decoder.finish_picture(current)
}
