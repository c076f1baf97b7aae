//! The decoder's values as the bytes of replies and blocks.

use anyhow::anyhow;

use super::backend::Decoder;
use super::backend::Handle;
use super::backend::GIVEN_BACK;
use super::witness::Left;
use super::witness::Stored;
use crate::codec::h265::picture::Reference;

pub const KEPT: u16 = 600;
pub const ENDED: u16 = 601;
pub const FAILED: u16 = 602;
/// With `--show`: sixteen places of both lists of the last slice; sixteen places of `ref_pic_set_lt_foll`; memory given
/// back.
pub const PLACES: u16 = 603;
pub const LT_FOLL: u16 = 604;
pub const GIVEN: u16 = 606;

pub fn block(kind: u16, body: &[u8]) -> Vec<u8> {
    let mut bytes = (body.len() as u16).to_le_bytes().to_vec();
    bytes.extend(kind.to_le_bytes());
    bytes.extend(body);
    bytes
}

fn words(values: &[u32]) -> Vec<u8> {
    values.iter().flat_map(|value| value.to_le_bytes()).collect()
}

/// The DPB as it is.
pub fn stored(decoder: &Decoder) -> Vec<Stored> {
    let entries = decoder.codec.dpb.entries().iter();
    entries.map(|entry| Stored { handle: entry.1.clone(), waiting: entry.0.borrow().needed_for_output }).collect()
}

pub fn tail(handed: &[Handle], left: &Left) -> Vec<u8> {
    let mut bytes = vec![handed.len() as u8];
    for handle in handed {
        bytes.extend(words(&[handle.serial, handle.surface, handle.poc as u32]));
    }
    bytes.push(left.thrown.len() as u8);
    bytes.extend(words(&left.thrown));
    bytes.push(left.released.len() as u8);
    bytes.extend(words(&left.released));
    bytes
}

pub fn begun(decoder: &mut Decoder, tail: Vec<u8>) -> anyhow::Result<Vec<u8>> {
    let serial = decoder.backend.serial - 1;
    let told = decoder.backend.begun.as_ref().filter(|_| decoder.codec.current_pic.is_some());
    let begun = told.ok_or(anyhow!("dropped"))?;
    let pic = &begun.pic;
    let flags =
        [pic.no_rasl_output_flag, pic.pic_output_flag, pic.valid_for_prev_tid0_pic, pic.no_output_of_prior_pics_flag];
    let mut bytes = vec![0, 0];
    bytes.extend(pic.pic_order_cnt_val.to_le_bytes());
    bytes.push(flags.iter().enumerate().map(|(i, &flag)| u8::from(flag) << i).sum());
    bytes.extend(serial.to_le_bytes());
    bytes.extend(begun.sets.iter().map(|set| set.len() as u8));
    bytes.extend(begun.sets.iter().flat_map(|set| words(set)));
    bytes.extend(tail);
    Ok(bytes)
}

/// The active places of the lists that the decoder gave for the slice.
pub fn lists(decoder: &mut Decoder, body: &[u8]) -> anyhow::Result<Vec<u8>> {
    let lists = decoder.backend.lists.as_ref().ok_or(anyhow!("no lists"))?;
    let (a0, a1) = (body[2] as usize, body[3] as usize);
    let mut bytes = vec![0, 0, body[2], body[3]];
    bytes.extend(words(&lists[0][..a0]));
    bytes.extend(words(&lists[1][..a1]));
    Ok(bytes)
}

/// For each stored picture serial, mark, waiting, latency count; then the previous Tid0 picture's lsb and MSB.
pub fn kept(decoder: &Decoder) -> Vec<u8> {
    let entries = decoder.codec.dpb.entries();
    let mut bytes = vec![entries.len() as u8];
    for entry in entries {
        let pic = entry.0.borrow();
        let mark = match pic.reference() {
            Reference::None => 0,
            Reference::ShortTerm => 1,
            Reference::LongTerm => 2,
        };
        bytes.extend(entry.1.serial.to_le_bytes());
        bytes.extend([mark, u8::from(pic.needed_for_output)]);
        bytes.extend(pic.pic_latency_cnt.to_le_bytes());
    }
    if let Some(previous) = &decoder.codec.prev_tid_0_pic {
        bytes.extend(previous.slice_pic_order_cnt_lsb.to_le_bytes());
        bytes.extend(previous.pic_order_cnt_msb.to_le_bytes());
    }
    block(KEPT, &bytes)
}

pub fn more(decoder: &mut Decoder) -> Vec<u8> {
    let mut bytes = Vec::new();
    if let Some(lists) = decoder.backend.lists.take() {
        bytes.extend(block(PLACES, &words(&lists.concat())));
    }
    if let Some(begun) = &decoder.backend.begun.take() {
        bytes.extend(block(LT_FOLL, &words(&begun.lt_foll_places)));
    }
    bytes.extend(block(GIVEN, &words(&GIVEN_BACK.with(|serials| serials.take()))));
    bytes
}
