//! Sequences joined, moved, turned round and searched.

use crate::buffer::{buffer, kept};
use crate::error::{Result, answer};
use crate::many::flat;
use crate::ops::Comparison;
use crate::rle::{Rle, RleRef};
use crate::sys;

/// The merged sequence that shows what all sequences show, one after the other.
///
/// A total length beyond `i64` is refused with [`Error::Overflow`](crate::Error::Overflow).
///
/// ```
/// use runlength::{Rle, RleLike, concat};
///
/// let a = Rle::from_runs(&[2, 1], vec![4, 5])?;
/// let joined = concat([a.view(), a.reversed().view()])?;
/// assert_eq!(joined.runs(), [2, 2, 2]);
/// assert_eq!(joined.values(), [4, 5, 4]);
/// # Ok::<(), runlength::Error>(())
/// ```
pub fn concat<'a, I: IntoIterator<Item = RleRef<'a>>>(rles: I) -> Result<Rle> {
    let rles: Vec<RleRef<'a>> = rles.into_iter().collect();
    let (offsets, ends) = flat(rles.iter().map(|rle| rle.ends));
    let (_, values) = flat(rles.iter().map(|rle| rle.values));
    Rle::written(ends.len(), |out| {
        sys::rl_concat(&offsets, &ends, &values, out)
    })
}

pub(crate) fn shift(rle: RleRef<'_>, distance: i64, fill: i64) -> Rle {
    answer(Rle::written(rle.ends.len() + 1, |out| {
        sys::rl_shift(rle, distance, fill, out)
    }))
}

pub(crate) fn reversed(rle: RleRef<'_>) -> Rle {
    answer(Rle::written(rle.ends.len(), |out| {
        sys::rl_reversed(rle, out)
    }))
}

pub(crate) fn ranges_where(
    rle: RleRef<'_>,
    comparison: Comparison,
    number: i64,
) -> (Vec<i64>, Vec<i64>) {
    let room = rle.ends.len();
    let (mut starts, mut ends) = (buffer(room), buffer(room));
    let ranges = sys::rl_ranges_where(rle, comparison as u8, number, &mut starts, &mut ends);
    let count = answer(ranges.check());
    (kept(starts, count), kept(ends, count))
}
