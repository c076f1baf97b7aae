//! Records laid ready: their fields as parameter sets and slice headers, as if they had been parsed. bench/ uses it
//! too.

use std::rc::Rc;

use crate::codec::h265::parser::Nalu;
use crate::codec::h265::parser::NaluType;
use crate::codec::h265::parser::Pps;
use crate::codec::h265::parser::PpsSccExtension;
use crate::codec::h265::parser::ShortTermRefPicSet;
use crate::codec::h265::parser::SliceHeader;
use crate::codec::h265::parser::SliceType;
use crate::codec::h265::parser::Sps;

/// The PPS without, and the one with, the current picture as a reference.
pub const PLAIN: u8 = 0;
pub const OWN: u8 = 1;

pub fn u16_at(bytes: &[u8], at: usize) -> u16 {
    u16::from_le_bytes(bytes[at..at + 2].try_into().unwrap())
}

pub fn u32_at(bytes: &[u8], at: usize) -> u32 {
    u32::from_le_bytes(bytes[at..at + 4].try_into().unwrap())
}

/// A configure record as an SPS.
pub fn sps_of(body: &[u8]) -> Sps {
    Sps {
        log2_max_pic_order_cnt_lsb_minus4: body[0] - 4,
        capacity: body[1].into(),
        max_dec_pic_buffering_minus1: [body[2] - 1; 7],
        max_num_reorder_pics: [body[3]; 7],
        max_latency_increase_plus1: [u16_at(body, 4); 7],
        ..Default::default()
    }
}

/// The PPS of one of the two numbers above; with `scc` the plain one has an SCC extension too, one that does not make
/// the current picture a reference.
pub fn pps_of(id: u8, scc: bool, sps: &Rc<Sps>) -> Pps {
    Pps {
        pic_parameter_set_id: id,
        seq_parameter_set_id: 0,
        scc_extension_flag: id == OWN || scc,
        scc_extension: PpsSccExtension { curr_pic_ref_enabled_flag: id == OWN },
        sps: sps.clone(),
    }
}

/// The NAL unit of a begin record, where its type is one of a slice.
pub fn nalu_of(body: &[u8]) -> Option<Nalu<'static>> {
    let type_ = NaluType::SLICES.into_iter().find(|&t| t as u8 == body[0])?;
    Some(Nalu::of(type_, body[1]))
}

/// A begin record as the header of a picture's first slice; an I slice, so that no list is built yet.
pub fn header_of(body: &[u8]) -> SliceHeader {
    let (neg, pos, lt) = (body[9] as usize, body[10] as usize, body[11] as usize);
    let mut st = ShortTermRefPicSet { num_negative_pics: body[9], num_positive_pics: body[10], ..Default::default() };
    let mut header = SliceHeader {
        first_slice_segment_in_pic_flag: true,
        pic_output_flag: body[2] & 1 != 0,
        no_output_of_prior_pics_flag: body[2] & 2 != 0,
        pic_order_cnt_lsb: u16_at(body, 3),
        pic_parameter_set_id: PLAIN,
        type_: SliceType::I,
        num_long_term_pics: body[11],
        ..Default::default()
    };
    for i in 0..neg + pos {
        let at = 12 + 5 * i;
        let (delta, used) = (u32_at(body, at) as i32, body[at + 4] != 0);
        if i < neg {
            (st.delta_poc_s0[i], st.used_by_curr_pic_s0[i]) = (delta, used);
        } else {
            (st.delta_poc_s1[i - neg], st.used_by_curr_pic_s1[i - neg]) = (delta, used);
        }
        header.num_pic_total_curr += u32::from(used);
    }
    for i in 0..lt {
        let at = 12 + 5 * (neg + pos) + 7 * i;
        header.poc_lsb_lt[i] = u16_at(body, at).into();
        header.used_by_curr_pic_lt[i] = body[at + 2] & 1 != 0;
        header.delta_poc_msb_present_flag[i] = body[at + 2] & 2 != 0;
        header.delta_poc_msb_cycle_lt[i] = u32_at(body, at + 3);
        header.num_pic_total_curr += u32::from(header.used_by_curr_pic_lt[i]);
    }
    header.short_term_ref_pic_set = st;
    header
}

/// A lists record as the header of a further slice: that of a slice before it, with this slice's own type, active
/// counts and entries.
pub fn slice_of(before: &SliceHeader, body: &[u8]) -> SliceHeader {
    let mut header = before.clone();
    let own = body[1] & 4 != 0;
    // the header at hand may be that of a slice before this one: count it without its current picture
    header.num_pic_total_curr -= u32::from(header.pic_parameter_set_id == OWN);
    header.num_pic_total_curr += u32::from(own);
    header.pic_parameter_set_id = if own { OWN } else { PLAIN };
    header.first_slice_segment_in_pic_flag = false;
    header.type_ = [SliceType::B, SliceType::P, SliceType::I][body[0] as usize];
    let (a0, a1) = (body[2] as usize, body[3] as usize);
    header.num_ref_idx_l0_active_minus1 = a0.saturating_sub(1) as u8;
    header.num_ref_idx_l1_active_minus1 = a1.saturating_sub(1) as u8;
    let rplm = &mut header.ref_pic_list_modification;
    rplm.ref_pic_list_modification_flag_l0 = body[1] & 1 != 0;
    rplm.ref_pic_list_modification_flag_l1 = body[1] & 2 != 0;
    let n0 = if body[1] & 1 != 0 { a0 } else { 0 };
    for (i, &entry) in body[4..].iter().enumerate() {
        if i < n0 {
            rplm.list_entry_l0[i] = entry.into();
        } else {
            rplm.list_entry_l1[i - n0] = entry.into();
        }
    }
    header
}
