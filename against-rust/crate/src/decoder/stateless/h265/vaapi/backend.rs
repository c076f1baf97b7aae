//! The decoder's backend: it keeps what the decoder tells it, and decodes nothing.

use std::cell::RefCell;
use std::rc::Rc;

use super::frame::Frame;
use crate::codec::h265::dpb::Dpb;
use crate::codec::h265::dpb::DpbEntry;
use crate::codec::h265::parser::Pps;
use crate::codec::h265::parser::Slice;
use crate::codec::h265::parser::Sps;
use crate::codec::h265::picture::PictureData;
use crate::decoder::stateless::h265::RefPicListEntry;
use crate::decoder::stateless::h265::RefPicSet;
use crate::decoder::stateless::h265::StatelessH265DecoderBackend;
use crate::decoder::stateless::h265::H265;
use crate::decoder::stateless::NewPictureResult;
use crate::decoder::stateless::StatelessBackendResult;
use crate::decoder::stateless::StatelessDecoder;
use crate::decoder::stateless::StatelessDecoderBackend;
use crate::decoder::stateless::StatelessDecoderBackendPicture;
use crate::decoder::BlockingMode;
use crate::decoder::StreamInfo;

pub const MISSING: u32 = u32::MAX;

pub type Decoder = StatelessDecoder<H265, Backend>;

pub fn new_decoder() -> Decoder {
    StatelessDecoder::new(Backend::default(), BlockingMode::NonBlocking).unwrap()
}

thread_local! {
    /// Serials whose last handle is gone.
    pub static GIVEN_BACK: RefCell<Vec<u32>> = const { RefCell::new(Vec::new()) };
}

/// The memory behind a picture.
#[derive(Debug)]
struct Memory(u32);

impl Drop for Memory {
    fn drop(&mut self) {
        GIVEN_BACK.with(|serials| serials.borrow_mut().push(self.0));
    }
}

/// A decoded picture, named by its place in the order of begins.
#[derive(Clone, Debug)]
pub struct Handle {
    pub serial: u32,
    pub surface: u32,
    pub poc: i32,
    _memory: Rc<Memory>,
}

/// What the decoder told `begin_picture`.
pub struct Begun {
    pub pic: PictureData,
    /// StCurrBefore, StCurrAfter, StFoll, LtCurr, LtFoll: as many members as the decoder counts.
    pub sets: [Vec<u32>; 5],
    /// All sixteen places of `ref_pic_set_lt_foll`.
    pub lt_foll_places: Vec<u32>,
}

#[derive(Default)]
pub struct Backend {
    /// The next picture's serial and surface.
    pub serial: u32,
    pub surface: u32,
    pub begun: Option<Begun>,
    /// All sixteen places of both lists.
    pub lists: Option<[Vec<u32>; 2]>,
}

fn serial_of(entry: &Option<DpbEntry<Handle>>) -> u32 {
    entry.as_ref().map_or(MISSING, |entry| entry.1.serial)
}

fn members(places: &[Option<DpbEntry<Handle>>], count: usize) -> Vec<u32> {
    places[..count].iter().map(serial_of).collect()
}

impl StatelessDecoderBackendPicture<H265> for Backend {
    type Picture = Handle;
}

impl StatelessDecoderBackend for Backend {
    type Handle = Handle;

    fn stream_info(&self) -> Option<&StreamInfo> {
        None
    }

    fn reset_backend(&mut self) -> anyhow::Result<()> {
        Ok(())
    }
}

impl StatelessH265DecoderBackend for Backend {
    fn new_sequence(&mut self, _: &Sps) -> StatelessBackendResult<()> {
        Ok(())
    }

    fn new_picture(&mut self, _: u64, _: &mut dyn FnMut() -> Option<Frame>) -> NewPictureResult<Handle> {
        let serial = self.serial;
        self.serial += 1;
        Ok(Handle { serial, surface: self.surface, poc: 0, _memory: Rc::new(Memory(serial)) })
    }

    fn begin_picture(
        &mut self,
        picture: &mut Handle,
        pic: &PictureData,
        _: &Sps,
        _: &Pps,
        _: &Dpb<Handle>,
        rps: &RefPicSet<Handle>,
        _: &Slice,
    ) -> StatelessBackendResult<()> {
        picture.poc = pic.pic_order_cnt_val;
        let sets = [
            members(&rps.ref_pic_set_st_curr_before, rps.num_poc_st_curr_before),
            members(&rps.ref_pic_set_st_curr_after, rps.num_poc_st_curr_after),
            members(&rps.ref_pic_set_st_foll, rps.num_poc_st_foll),
            members(&rps.ref_pic_set_lt_curr, rps.num_poc_lt_curr),
            members(&rps.ref_pic_set_lt_foll, rps.num_poc_lt_foll),
        ];
        let lt_foll_places = members(&rps.ref_pic_set_lt_foll, 16);
        self.begun = Some(Begun { pic: pic.clone(), sets, lt_foll_places });
        Ok(())
    }

    fn decode_slice(
        &mut self,
        picture: &mut Handle,
        _: &Slice,
        _: &Sps,
        _: &Pps,
        list0: &[Option<RefPicListEntry<Handle>>; 16],
        list1: &[Option<RefPicListEntry<Handle>>; 16],
    ) -> StatelessBackendResult<()> {
        let named = |entry: &Option<RefPicListEntry<Handle>>| match entry {
            None => MISSING,
            Some(RefPicListEntry::CurrentPicture(pic)) => {
                assert_eq!(pic.pic_order_cnt_val, picture.poc);
                picture.serial
            }
            Some(RefPicListEntry::DpbEntry(entry)) => entry.1.serial,
        };
        self.lists = Some([list0.iter().map(named).collect(), list1.iter().map(named).collect()]);
        Ok(())
    }

    fn submit_picture(&mut self, picture: Handle) -> StatelessBackendResult<Handle> {
        Ok(picture)
    }
}
