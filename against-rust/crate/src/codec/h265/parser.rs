//! The parser's names, holding data only: `parse_*` hands back what the harness laid ready, and no bit is read. The
//! questions about NAL unit types are those of Table 7-1.

use std::borrow::Cow;
use std::collections::BTreeMap;
use std::io::Cursor;
use std::rc::Rc;

#[derive(Clone, Copy, Debug, Default, PartialEq, Eq)]
pub enum NaluType {
    #[default]
    TrailN = 0,
    TrailR = 1,
    TsaN = 2,
    TsaR = 3,
    StsaN = 4,
    StsaR = 5,
    RadlN = 6,
    RadlR = 7,
    RaslN = 8,
    RaslR = 9,
    BlaWLp = 16,
    BlaWRadl = 17,
    BlaNLp = 18,
    IdrWRadl = 19,
    IdrNLp = 20,
    CraNut = 21,
    VpsNut = 32,
    SpsNut = 33,
    PpsNut = 34,
    AudNut = 35,
    EosNut = 36,
    EobNut = 37,
}

impl NaluType {
    pub const SLICES: [NaluType; 16] = [
        Self::TrailN,
        Self::TrailR,
        Self::TsaN,
        Self::TsaR,
        Self::StsaN,
        Self::StsaR,
        Self::RadlN,
        Self::RadlR,
        Self::RaslN,
        Self::RaslR,
        Self::BlaWLp,
        Self::BlaWRadl,
        Self::BlaNLp,
        Self::IdrWRadl,
        Self::IdrNLp,
        Self::CraNut,
    ];

    pub fn is_idr(&self) -> bool {
        matches!(self, Self::IdrWRadl | Self::IdrNLp)
    }

    pub fn is_irap(&self) -> bool {
        (16..=23).contains(&(*self as u32))
    }

    pub fn is_bla(&self) -> bool {
        matches!(self, Self::BlaWLp | Self::BlaWRadl | Self::BlaNLp)
    }

    pub fn is_cra(&self) -> bool {
        matches!(self, Self::CraNut)
    }

    pub fn is_radl(&self) -> bool {
        matches!(self, Self::RadlN | Self::RadlR)
    }

    pub fn is_rasl(&self) -> bool {
        matches!(self, Self::RaslN | Self::RaslR)
    }

    /// Sub-layer non-reference.
    pub fn is_slnr(&self) -> bool {
        matches!(self, Self::TrailN | Self::TsaN | Self::StsaN | Self::RadlN | Self::RaslN)
    }
}

#[derive(Clone, Debug)]
pub struct NaluHeader {
    pub type_: NaluType,
    pub nuh_temporal_id_plus1: u8,
}

impl NaluHeader {
    pub fn nuh_temporal_id(&self) -> u8 {
        self.nuh_temporal_id_plus1 - 1
    }
}

#[derive(Clone, Debug)]
pub struct Nalu<'a> {
    pub header: NaluHeader,
    pub data: Cow<'a, [u8]>,
    pub size: usize,
    pub offset: usize,
}

impl<'a> Nalu<'a> {
    pub fn of(type_: NaluType, temporal_id: u8) -> Self {
        let header = NaluHeader { type_, nuh_temporal_id_plus1: temporal_id + 1 };
        Nalu { header, data: Cow::Borrowed(&[]), size: 0, offset: 0 }
    }

    pub fn next(_: &mut Cursor<&'a [u8]>) -> Result<Nalu<'a>, String> {
        Err("the harness calls process_nalu itself".into())
    }

    pub fn into_owned(self) -> Nalu<'static> {
        Nalu { header: self.header, data: Cow::Owned(self.data.into_owned()), size: self.size, offset: self.offset }
    }
}

#[derive(Clone, Debug, Default)]
pub struct ProfileTierLevel {
    pub general_profile_idc: u8,
}

#[derive(Clone, Debug, Default)]
pub struct Sps {
    pub seq_parameter_set_id: u8,
    pub profile_tier_level: ProfileTierLevel,
    pub bit_depth_luma_minus8: u8,
    pub bit_depth_chroma_minus8: u8,
    pub chroma_format_idc: u8,
    pub max_sub_layers_minus1: u8,
    pub log2_max_pic_order_cnt_lsb_minus4: u8,
    pub max_dec_pic_buffering_minus1: [u8; 7],
    pub max_num_reorder_pics: [u8; 7],
    /// As wide as the record's field.
    pub max_latency_increase_plus1: [u16; 7],
    pub num_short_term_ref_pic_sets: u8,
    pub short_term_ref_pic_set: Vec<ShortTermRefPicSet>,
    /// What `max_dpb_size` answers: the record's capacity.
    pub capacity: usize,
}

impl Sps {
    pub fn width(&self) -> u16 {
        0
    }

    pub fn height(&self) -> u16 {
        0
    }

    pub fn max_dpb_size(&self) -> usize {
        self.capacity
    }
}

#[derive(Clone, Debug, Default)]
pub struct PpsSccExtension {
    pub curr_pic_ref_enabled_flag: bool,
}

#[derive(Clone, Debug)]
pub struct Pps {
    pub pic_parameter_set_id: u8,
    pub seq_parameter_set_id: u8,
    pub scc_extension_flag: bool,
    pub scc_extension: PpsSccExtension,
    pub sps: Rc<Sps>,
}

#[derive(Clone, Debug, Default)]
pub struct ShortTermRefPicSet {
    pub num_negative_pics: u8,
    pub num_positive_pics: u8,
    pub used_by_curr_pic_s0: [bool; 16],
    pub used_by_curr_pic_s1: [bool; 16],
    pub delta_poc_s0: [i32; 16],
    pub delta_poc_s1: [i32; 16],
}

#[derive(Clone, Copy, Debug, Default, PartialEq, Eq)]
pub enum SliceType {
    B = 0,
    P = 1,
    #[default]
    I = 2,
}

impl SliceType {
    pub fn is_p(&self) -> bool {
        matches!(self, SliceType::P)
    }

    pub fn is_b(&self) -> bool {
        matches!(self, SliceType::B)
    }
}

#[derive(Clone, Debug, Default)]
pub struct RefPicListModification {
    pub ref_pic_list_modification_flag_l0: bool,
    pub ref_pic_list_modification_flag_l1: bool,
    pub list_entry_l0: [u32; 16],
    pub list_entry_l1: [u32; 16],
}

#[derive(Clone, Debug, Default)]
pub struct SliceHeader {
    pub first_slice_segment_in_pic_flag: bool,
    pub dependent_slice_segment_flag: bool,
    pub no_output_of_prior_pics_flag: bool,
    pub pic_parameter_set_id: u8,
    pub type_: SliceType,
    pub pic_output_flag: bool,
    pub pic_order_cnt_lsb: u16,
    pub curr_rps_idx: u8,
    pub short_term_ref_pic_set: ShortTermRefPicSet,
    pub st_rps_bits: u32,
    pub num_long_term_sps: u8,
    pub num_long_term_pics: u8,
    pub poc_lsb_lt: [u32; 16],
    pub used_by_curr_pic_lt: [bool; 16],
    pub delta_poc_msb_present_flag: [bool; 16],
    pub delta_poc_msb_cycle_lt: [u32; 16],
    pub num_pic_total_curr: u32,
    pub num_ref_idx_l0_active_minus1: u8,
    pub num_ref_idx_l1_active_minus1: u8,
    pub ref_pic_list_modification: RefPicListModification,
}

#[derive(Clone, Debug)]
pub struct Slice<'a> {
    pub header: SliceHeader,
    pub nalu: Nalu<'a>,
}

impl Slice<'_> {
    pub fn replace_header(&mut self, header: SliceHeader) -> Result<(), String> {
        self.header = header;
        Ok(())
    }
}

#[derive(Default)]
pub struct Parser {
    pub laid_sps: Option<Sps>,
    pub laid_pps: Option<Pps>,
    pub laid_header: Option<SliceHeader>,
    spss: BTreeMap<u8, Rc<Sps>>,
    ppss: BTreeMap<u8, Pps>,
}

impl Parser {
    pub fn parse_vps(&mut self, _: &Nalu) -> Result<(), String> {
        Ok(())
    }

    pub fn parse_sps(&mut self, _: &Nalu) -> Result<&Sps, String> {
        let sps = self.laid_sps.take().ok_or("no SPS laid ready")?;
        let id = sps.seq_parameter_set_id;
        self.spss.insert(id, Rc::new(sps));
        Ok(&self.spss[&id])
    }

    pub fn parse_pps(&mut self, _: &Nalu) -> Result<&Pps, String> {
        let pps = self.laid_pps.take().ok_or("no PPS laid ready")?;
        let id = pps.pic_parameter_set_id;
        self.ppss.insert(id, pps);
        Ok(&self.ppss[&id])
    }

    pub fn parse_slice_header<'a>(&mut self, nalu: Nalu<'a>) -> Result<Slice<'a>, String> {
        let header = self.laid_header.take().ok_or("no slice header laid ready")?;
        Ok(Slice { header, nalu })
    }

    pub fn get_sps(&self, id: u8) -> Option<&Sps> {
        self.spss.get(&id).map(|sps| sps.as_ref())
    }

    pub fn get_pps(&self, id: u8) -> Option<&Pps> {
        self.ppss.get(&id)
    }
}
