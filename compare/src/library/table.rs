//! Written by bindings/generate from the exports.

use super::*;

answers! {
    Counted [refusal] { count: usize }
    Equality [refusal] { equal: u64 }
    PlannedMany [refusal] { segments: usize, indexes: usize }
    Found [refusal] { found: u64, index: usize }
    Got [refusal] { found: u64, count: usize }
    Viewed [refusal] { first: usize, start: i64, length: i64 }
    Part { first: usize, count: usize }
    Batched [refusal] { keys: usize, runs: usize }
    Summed [refusal] { total: i64 }
    Reduced [refusal] { kind: u64, whole: i64, mean: f64, variance: f64 }
    Rle { runs: usize }
}

calls! {
    rl_empty: empty() -> Rle;
    rl_from_runs: from_runs(
        runs: &[i64], values: &[i64], out_ends: &mut [i64], out_values: &mut [i64]
    ) -> Counted;
    rl_from_ends: from_ends(ends: &[i64], values: &[i64]) -> Refusal;
    rl_repeat: repeat(
        value: i64, length: i64, out_ends: &mut [i64], out_values: &mut [i64]
    ) -> Counted;
    rl_push_run: push_run(
        ends: &mut [i64], values: &mut [i64], used: usize, run: i64, value: i64
    ) -> Counted;
    rl_extend_to: extend_to(
        ends: &mut [i64], values: &mut [i64], used: usize, length: i64, value: i64
    ) -> Counted;
    rl_from_dense: from_dense(
        values: &[i64], out_ends: &mut [i64], out_values: &mut [i64]
    ) -> Counted;
    rl_to_dense: to_dense(ends: &[i64], values: &[i64], out: &mut [i64]) -> Counted;
    rl_equals: equals(
        a_ends: &[i64], a_values: &[i64], b_ends: &[i64], b_values: &[i64]
    ) -> Equality;
    rl_plan: plan(
        a: &[i64], b: &[i64], out_ends: &mut [i64], out_idx_a: &mut [usize], out_idx_b: &mut [usize]
    ) -> Counted;
    rl_zip_with: zip_with(
        a_ends: &[i64], a_values: &[i64], b_ends: &[i64], b_values: &[i64], fill_a: Fill,
        fill_b: Fill, code: u8, out_ends: &mut [i64], out_values: &mut [i64]
    ) -> Counted;
    rl_zip_with_raw: zip_with_raw(
        a_ends: &[i64], a_values: &[i64], b_ends: &[i64], b_values: &[i64], fill_a: Fill,
        fill_b: Fill, code: u8, out_ends: &mut [i64], out_values: &mut [i64]
    ) -> Counted;
    rl_plan_many: plan_many(
        offsets: &[usize], ends: &[i64], values: &[i64], out_ends: &mut [i64], out_idx: &mut [usize]
    ) -> PlannedMany;
    rl_zip_many: zip_many(
        offsets: &[usize], ends: &[i64], values: &[i64], fill: Fill, code: u8, out_ends: &mut [i64],
        out_values: &mut [i64]
    ) -> Counted;
    rl_run_index: run_index(ends: &[i64], pos: i64) -> Found;
    rl_slice: slice(
        ends: &[i64], values: &[i64], start: i64, end: i64, out_ends: &mut [i64],
        out_values: &mut [i64]
    ) -> Counted;
    rl_slice_view: slice_view(ends: &[i64], values: &[i64], start: i64, end: i64) -> Viewed;
    rl_slice_view_values: slice_view_values(
        ends: &[i64], values: &[i64], start: i64, end: i64
    ) -> Part;
    rl_getitems: getitems(
        ends: &[i64], values: &[i64], starts: &[i64], stops: &[i64], out_offsets: &mut [usize],
        out_ends: &mut [i64], out_values: &mut [i64]
    ) -> Batched;
    rl_concat: concat(
        offsets: &[usize], ends: &[i64], values: &[i64], out_ends: &mut [i64],
        out_values: &mut [i64]
    ) -> Counted;
    rl_shift: shift(
        ends: &[i64], values: &[i64], distance: i64, fill: i64, out_ends: &mut [i64],
        out_values: &mut [i64]
    ) -> Counted;
    rl_reversed: reversed(
        ends: &[i64], values: &[i64], out_ends: &mut [i64], out_values: &mut [i64]
    ) -> Counted;
    rl_ranges_where: ranges_where(
        ends: &[i64], values: &[i64], code: u8, number: i64, out_starts: &mut [i64],
        out_ends: &mut [i64]
    ) -> Counted;
    rl_merge: merge(
        ends: &[i64], values: &[i64], out_ends: &mut [i64], out_values: &mut [i64]
    ) -> Counted;
    rl_merged: merged(
        ends: &[i64], values: &[i64], out_ends: &mut [i64], out_values: &mut [i64]
    ) -> Counted;
    rl_merge_mask: merge_mask(
        ends: &[i64], values: &[i64], mask: &[u8], keep: u8, out_ends: &mut [i64],
        out_values: &mut [i64]
    ) -> Counted;
    rl_merge_by: merge_by(
        ends: &[i64], values: &[i64], code: u8, out_ends: &mut [i64], out_values: &mut [i64]
    ) -> Counted;
    rl_merge_plan: merge_plan(
        ends: &[i64], mask: &[u8], out_ends: &mut [i64], out_offsets: &mut [usize]
    ) -> Counted;
    rl_group_ids: group_ids(offsets: &[usize], out_ids: &mut [usize]) -> Counted;
    rl_sum: sum(ends: &[i64], values: &[i64]) -> Summed;
    rl_reduce: reduce(ends: &[i64], values: &[i64], code: u8, ddof: i64) -> Reduced;
    rl_slice_reduce: slice_reduce(
        ends: &[i64], values: &[i64], starts: &[i64], stops: &[i64], code: u8, ddof: i64,
        out_kinds: &mut [u8], out_bits: &mut [u64]
    ) -> Counted;
    rl_batch_from_parts: batch_from_parts(
        keys: &[u32], offsets: &[usize], ends: &[i64], values: &[i64]
    ) -> Refusal;
    rl_batch_position: batch_position(keys: &[u32], key: u32) -> Found;
    rl_batch_get: batch_get(
        keys: &[u32], offsets: &[usize], ends: &[i64], values: &[i64], key: u32,
        out_ends: &mut [i64], out_values: &mut [i64]
    ) -> Got;
    rl_batch_getitems: batch_getitems(
        keys: &[u32], offsets: &[usize], ends: &[i64], values: &[i64], get_keys: &[u32],
        starts: &[i64], stops: &[i64], out_offsets: &mut [usize], out_ends: &mut [i64],
        out_values: &mut [i64]
    ) -> Batched;
    rl_batch_slice_reduce: batch_slice_reduce(
        keys: &[u32], offsets: &[usize], ends: &[i64], values: &[i64], get_keys: &[u32],
        starts: &[i64], stops: &[i64], code: u8, ddof: i64, out_kinds: &mut [u8],
        out_bits: &mut [u64]
    ) -> Counted;
    rl_batch_shift: batch_shift(
        keys: &[u32], offsets: &[usize], ends: &[i64], values: &[i64], distance: i64, fill: i64,
        out_keys: &mut [u32], out_offsets: &mut [usize], out_ends: &mut [i64],
        out_values: &mut [i64]
    ) -> Batched;
    rl_batch_reversed: batch_reversed(
        keys: &[u32], offsets: &[usize], ends: &[i64], values: &[i64], out_keys: &mut [u32],
        out_offsets: &mut [usize], out_ends: &mut [i64], out_values: &mut [i64]
    ) -> Batched;
    rl_batch_map_rles_slice: batch_map_rles_slice(
        keys: &[u32], offsets: &[usize], ends: &[i64], values: &[i64], start: i64, end: i64,
        out_keys: &mut [u32], out_offsets: &mut [usize], out_ends: &mut [i64],
        out_values: &mut [i64]
    ) -> Batched;
    rl_batch_collapse: batch_collapse(
        keys: &[u32], offsets: &[usize], ends: &[i64], values: &[i64], new_keys: &[u32], fill: Fill,
        code: u8, out_keys: &mut [u32], out_offsets: &mut [usize], out_ends: &mut [i64],
        out_values: &mut [i64], scratch_ends: &mut [i64], scratch_values: &mut [i64]
    ) -> Batched;
    rl_batch_concat: batch_concat(
        a_keys: &[u32], a_offsets: &[usize], a_ends: &[i64], a_values: &[i64], b_keys: &[u32],
        b_offsets: &[usize], b_ends: &[i64], b_values: &[i64], out_keys: &mut [u32],
        out_offsets: &mut [usize], out_ends: &mut [i64], out_values: &mut [i64]
    ) -> Batched;
    rl_batch_zip_with: batch_zip_with(
        a_keys: &[u32], a_offsets: &[usize], a_ends: &[i64], a_values: &[i64], b_keys: &[u32],
        b_offsets: &[usize], b_ends: &[i64], b_values: &[i64], how: u8, fill_a: Fill, fill_b: Fill,
        code: u8, out_keys: &mut [u32], out_offsets: &mut [usize], out_ends: &mut [i64],
        out_values: &mut [i64]
    ) -> Batched;
}
