//! Written by bindings/generate from the exports and crates/column/src/error.rt. A struct has what stands behind the
//! refusal.

// Not every call has to be offered by the crate.
#![allow(dead_code)]

use super::Answer;
use crate::batch::RleBatch;
use crate::error::{Error, WHAT};
use crate::rle::{Rle, RleRef};

#[repr(C)]
pub struct RlRefusal {
    pub number: u64,
    pub first: u64,
    pub second: u64,
    pub third: u64,
    pub in_key: u64,
    pub position: u64,
}

#[repr(C)]
pub struct RlPlannedMany {
    pub segments: usize,
    pub indexes: usize,
}

#[repr(C)]
pub struct RlFound {
    pub found: u64,
    pub index: usize,
}

#[repr(C)]
pub struct RlGot {
    pub found: u64,
    pub count: usize,
}

#[repr(C)]
pub struct RlViewed {
    pub first: usize,
    pub start: i64,
    pub length: i64,
}

#[repr(C)]
pub struct RlPart {
    pub first: usize,
    pub count: usize,
}

#[repr(C)]
pub struct RlBatched {
    pub keys: usize,
    pub runs: usize,
}

#[repr(C)]
pub struct RlReduced {
    pub kind: u64,
    pub whole: i64,
    pub mean: f64,
    pub variance: f64,
}

#[repr(C)]
pub struct RlFill {
    pub given: u64,
    pub value: i64,
}

#[repr(C)]
pub struct RlRle {
    pub runs: usize,
}

impl RlRefusal {
    /// What the number and the values say.
    pub fn error(&self) -> Error {
        match self.number {
            1 => Error::UnknownCode { code: self.first },
            2 => Error::LengthMismatch {
                what: WHAT[self.first as usize - 1],
                left: self.second as usize,
                right: self.third as usize,
            },
            3 => Error::InvalidOffsets,
            4 => Error::InvalidEnds {
                index: self.first as usize,
            },
            5 => Error::TooMany {
                number: self.first as usize,
            },
            6 => Error::NegativeRun {
                index: self.first as usize,
                run: self.second as i64,
            },
            7 => Error::Overflow,
            8 => Error::DuplicateKey {
                position: self.first as usize,
            },
            9 => Error::InvalidInterval {
                index: self.first as usize,
                start: self.second as i64,
                end: self.third as i64,
            },
            10 => Error::UnequalLength {
                left: self.first as i64,
                right: self.second as i64,
            },
            11 => Error::LengthTooShort {
                requested: self.first as i64,
                required: self.second as i64,
            },
            12 => Error::ShortBuffer {
                which: self.first as usize,
                needed: self.second as usize,
                given: self.third as usize,
            },
            number => unreachable!("the library has no refusal {number}"),
        }
    }
}

calls! {
    rl_empty() -> RlRle;
    rl_from_runs(runs: &[i64], values: &[i64], out: &mut Rle) -> Answer<usize>;
    rl_from_ends(ends: &[i64], values: &[i64]) -> RlRefusal;
    rl_repeat(value: i64, length: i64, out: &mut Rle) -> Answer<usize>;
    rl_push_run(column: &mut Rle, used: usize, run: i64, value: i64) -> Answer<usize>;
    rl_extend_to(column: &mut Rle, used: usize, length: i64, value: i64) -> Answer<usize>;
    rl_from_dense(values: &[i64], out: &mut Rle) -> Answer<usize>;
    rl_to_dense(column: RleRef, out: &mut [i64]) -> Answer<usize>;
    rl_equals(a: RleRef, b: RleRef) -> Answer<u64>;
    rl_plan(
        a: &[i64], b: &[i64], out_ends: &mut [i64], out_idx_a: &mut [usize], out_idx_b: &mut [usize]
    ) -> Answer<usize>;
    rl_zip_with(
        a: RleRef, b: RleRef, fill_a: RlFill, fill_b: RlFill, code: u8, out: &mut Rle
    ) -> Answer<usize>;
    rl_zip_with_raw(
        a: RleRef, b: RleRef, fill_a: RlFill, fill_b: RlFill, code: u8, out: &mut Rle
    ) -> Answer<usize>;
    rl_plan_many(
        offsets: &[usize], ends: &[i64], values: &[i64], out_ends: &mut [i64], out_idx: &mut [usize]
    ) -> Answer<RlPlannedMany>;
    rl_zip_many(
        offsets: &[usize], ends: &[i64], values: &[i64], fill: RlFill, code: u8, out: &mut Rle
    ) -> Answer<usize>;
    rl_run_index(ends: &[i64], pos: i64) -> Answer<RlFound>;
    rl_slice(column: RleRef, start: i64, end: i64, out: &mut Rle) -> Answer<usize>;
    rl_slice_view(column: RleRef, start: i64, end: i64) -> Answer<RlViewed>;
    rl_slice_view_values(column: RleRef, start: i64, end: i64) -> RlPart;
    rl_getitems(
        column: RleRef, starts: &[i64], stops: &[i64], out_offsets: &mut [usize],
        out_ends: &mut [i64], out_values: &mut [i64]
    ) -> Answer<RlBatched>;
    rl_concat(offsets: &[usize], ends: &[i64], values: &[i64], out: &mut Rle) -> Answer<usize>;
    rl_shift(column: RleRef, distance: i64, fill: i64, out: &mut Rle) -> Answer<usize>;
    rl_reversed(column: RleRef, out: &mut Rle) -> Answer<usize>;
    rl_ranges_where(
        column: RleRef, code: u8, number: i64, out_starts: &mut [i64], out_ends: &mut [i64]
    ) -> Answer<usize>;
    rl_merge(column: RleRef, out: &mut Rle) -> Answer<usize>;
    rl_merged(column: RleRef, out: &mut Rle) -> Answer<usize>;
    rl_merge_mask(column: RleRef, mask: &[bool], keep: u8, out: &mut Rle) -> Answer<usize>;
    rl_merge_by(column: RleRef, code: u8, out: &mut Rle) -> Answer<usize>;
    rl_merge_plan(
        ends: &[i64], mask: &[bool], out_ends: &mut [i64], out_offsets: &mut [usize]
    ) -> Answer<usize>;
    rl_group_ids(offsets: &[usize], out_ids: &mut [usize]) -> Answer<usize>;
    rl_sum(column: RleRef) -> Answer<i64>;
    rl_reduce(column: RleRef, code: u8, ddof: i64) -> Answer<RlReduced>;
    rl_slice_reduce(
        column: RleRef, starts: &[i64], stops: &[i64], code: u8, ddof: i64, out_kinds: &mut [u8],
        out_bits: &mut [u64]
    ) -> Answer<usize>;
    rl_batch_from_parts(keys: &[u32], offsets: &[usize], ends: &[i64], values: &[i64]) -> RlRefusal;
    rl_batch_position(keys: &[u32], key: u32) -> Answer<RlFound>;
    rl_batch_get(batch: &RleBatch, key: u32, out: &mut Rle) -> Answer<RlGot>;
    rl_batch_getitems(
        batch: &RleBatch, get_keys: &[u32], starts: &[i64], stops: &[i64],
        out_offsets: &mut [usize], out_ends: &mut [i64], out_values: &mut [i64]
    ) -> Answer<RlBatched>;
    rl_batch_slice_reduce(
        batch: &RleBatch, get_keys: &[u32], starts: &[i64], stops: &[i64], code: u8, ddof: i64,
        out_kinds: &mut [u8], out_bits: &mut [u64]
    ) -> Answer<usize>;
    rl_batch_shift(
        batch: &RleBatch, distance: i64, fill: i64, out: &mut RleBatch
    ) -> Answer<RlBatched>;
    rl_batch_reversed(batch: &RleBatch, out: &mut RleBatch) -> Answer<RlBatched>;
    rl_batch_map_rles_slice(
        batch: &RleBatch, start: i64, end: i64, out: &mut RleBatch
    ) -> Answer<RlBatched>;
    rl_batch_collapse(
        batch: &RleBatch, new_keys: &[u32], fill: RlFill, code: u8, out: &mut RleBatch,
        scratch: &mut Rle
    ) -> Answer<RlBatched>;
    rl_batch_concat(a: &RleBatch, b: &RleBatch, out: &mut RleBatch) -> Answer<RlBatched>;
    rl_batch_zip_with(
        a: &RleBatch, b: &RleBatch, how: u8, fill_a: RlFill, fill_b: RlFill, code: u8,
        out: &mut RleBatch
    ) -> Answer<RlBatched>;
}
