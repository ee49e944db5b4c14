//! Any number of sequences combined.

use crate::buffer::{buffer, kept};
use crate::error::Result;
use crate::ops::Op;
use crate::rle::{Rle, RleRef};
use crate::sys;

/// How many sequences are combined, by their ends alone: the [`Plan`](crate::Plan) of more than two.
#[derive(Clone, Debug, PartialEq, Eq)]
pub struct PlanMany {
    /// The end of each segment.
    pub ends: Vec<i64>,
    /// For each sequence, and in it for each segment, the run that covers the segment; the number of its runs where the
    /// sequence has ended.
    pub idx: Vec<Vec<usize>>,
}

/// Lists laid one behind the other, as the library takes many sequences.
pub(crate) fn flat<'a>(lists: impl IntoIterator<Item = &'a [i64]>) -> (Vec<usize>, Vec<i64>) {
    let (mut offsets, mut entries) = (vec![0], Vec::new());
    for list in lists {
        entries.extend_from_slice(list);
        offsets.push(entries.len());
    }
    (offsets, entries)
}

/// The [`PlanMany`] of sequences with these ends.
///
/// Unlike the original's, it refuses invalid ends and more than [`Rle::MAX_COLUMNS`] sequences.
pub fn plan_many(inputs: &[&[i64]]) -> Result<PlanMany> {
    let (offsets, ends) = flat(inputs.iter().copied());
    // More columns are refused before there is a question of room.
    let columns = inputs.len().min(Rle::MAX_COLUMNS);
    let mut out_ends = buffer(ends.len());
    let mut out_idx = buffer(ends.len().saturating_mul(columns));
    // Of the values only their number matters.
    let planned = sys::rl_plan_many(&offsets, &ends, &ends, &mut out_ends, &mut out_idx).check()?;
    let segments = out_idx[..planned.indexes].chunks_exact(columns.max(1));
    let column = |c| segments.clone().map(|indexes| indexes[c]).collect();
    Ok(PlanMany {
        ends: kept(out_ends, planned.segments),
        idx: (0..columns).map(column).collect(),
    })
}

/// The merged sequence that shows at each position, up to the greatest length, the operation from the first value on:
/// `op(op(v0, v1), v2)`. One sequence shows its own values.
///
/// `fill` stands where a sequence has ended; without it unequal lengths are refused, and so are more than
/// [`Rle::MAX_COLUMNS`] sequences. The original takes any function of all values: a sum becomes `Op::Add`, a maximum
/// `Op::Larger`.
///
/// ```
/// use runlength::{Op, Rle, RleLike, zip_many};
///
/// let a = Rle::from_runs(&[2, 1], vec![1, 5])?;
/// let b = Rle::from_runs(&[3], vec![4])?;
/// let c = Rle::from_runs(&[1], vec![9])?;
/// let largest = zip_many(&[a.view(), b.view(), c.view()], Some(&0), Op::Larger)?;
/// assert_eq!(largest.to_dense(), [9, 4, 5]);
/// # Ok::<(), runlength::Error>(())
/// ```
pub fn zip_many(inputs: &[RleRef<'_>], fill: Option<&i64>, op: Op) -> Result<Rle> {
    let (offsets, ends) = flat(inputs.iter().map(|input| input.ends));
    let (_, values) = flat(inputs.iter().map(|input| input.values));
    Rle::written(ends.len(), |out| {
        sys::rl_zip_many(&offsets, &ends, &values, fill.into(), op as u8, out)
    })
}
