use std::fmt;

use crate::batch::RleBatch;
use crate::error::{Result, answer};
use crate::reduce::{self, Reduced, Reduction};
use crate::rle::{Rle, RleRef};
use crate::sys;

pub(crate) fn run_index(rle: RleRef<'_>, pos: i64) -> Option<usize> {
    answer(sys::rl_run_index(rle.ends, pos).check()).get()
}

pub(crate) fn slice(rle: RleRef<'_>, start: i64, end: i64) -> Rle {
    let call = |out: &mut Rle| sys::rl_slice(rle, start, end, out);
    let room = call(&mut Rle::new()).needed();
    answer(Rle::written(room, call))
}

pub(crate) fn getitems(rle: RleRef<'_>, starts: &[i64], ends: &[i64]) -> Result<RleBatch<usize>> {
    RleBatch::of_slices(starts.len(), |offsets, out| {
        sys::rl_getitems(rle, starts, ends, offsets, &mut out.ends, &mut out.values)
    })
}

/// The positions of a sequence from a start up to an end, not copied. Its own positions count from that start.
///
/// ```
/// use runlength::{Rle, RleLike};
///
/// let rle = Rle::from_runs(&[3, 2, 4], vec![7, 2, 7])?;
/// let view = rle.slice_view(2, 6);
/// assert_eq!(view.values(), [7, 2, 7]);
/// assert_eq!(view.mean(), Some(4.5));
/// # Ok::<(), runlength::Error>(())
/// ```
#[derive(Clone, Copy)]
pub struct SliceView<'a, V = i64> {
    /// The runs that the slice touches, at the positions of the sequence. Alone they are a sequence whose first run reaches
    /// down to 0; from `start` up to `end` it shows the same.
    touched: RleRef<'a, V>,
    start: i64,
    end: i64,
}

impl<'a> SliceView<'a> {
    pub(crate) fn new(rle: RleRef<'a>, start: i64, end: i64) -> Self {
        let viewed = answer(sys::rl_slice_view(rle, start, end).check());
        let part = sys::rl_slice_view_values(rle, start, end);
        let values = &rle.values[part.first..][..part.count];
        SliceView {
            touched: RleRef {
                ends: &rle.ends[viewed.first..][..part.count],
                values,
            },
            start: viewed.start,
            end: viewed.start + viewed.length,
        }
    }

    /// The number of positions.
    pub fn len(&self) -> i64 {
        self.end - self.start
    }

    /// Whether there are no positions.
    pub fn is_empty(&self) -> bool {
        self.start == self.end
    }

    /// The number of runs that the slice touches.
    pub fn num_runs(&self) -> usize {
        self.touched.values.len()
    }

    /// The value of each run that the slice touches.
    pub fn values(&self) -> &'a [i64] {
        self.touched.values
    }

    /// Each run as its start, its end and its value, at the positions of the slice.
    pub fn iter_runs(&self) -> impl Iterator<Item = (i64, i64, &'a i64)> + Clone + 'a {
        let RleRef { ends, values } = self.touched;
        let (start, end) = (self.start, self.end);
        let at = move |position: i64| position.clamp(start, end) - start;
        let starts = std::iter::once(&0).chain(ends);
        starts
            .zip(ends)
            .zip(values)
            .map(move |((&from, &to), value)| (at(from), at(to), value))
    }

    /// A copy as a sequence of its own.
    pub fn to_rle(&self) -> Rle {
        answer(Rle::written(self.num_runs(), |out| {
            sys::rl_slice(self.touched, self.start, self.end, out)
        }))
    }

    fn reduce(&self, reduction: Reduction) -> Reduced {
        let (starts, ends) = ([self.start], [self.end]);
        answer(reduce::slice_reduce(
            self.touched,
            &starts,
            &ends,
            reduction,
        ))[0]
    }

    /// The sum over all positions, modulo 2^64.
    pub fn sum(&self) -> i64 {
        self.reduce(Reduction::Sum).whole().unwrap_or(0)
    }

    /// The mean over all positions, if there are any.
    pub fn mean(&self) -> Option<f64> {
        self.reduce(Reduction::Mean).fraction()
    }

    /// The variance over all positions, as [`RleLike::variance`](crate::RleLike::variance).
    pub fn variance(&self, ddof: i64) -> Option<f64> {
        self.reduce(Reduction::Variance { ddof }).fraction()
    }

    /// The square root of [`variance`](SliceView::variance).
    pub fn std(&self, ddof: i64) -> Option<f64> {
        self.variance(ddof).map(f64::sqrt)
    }
}

impl fmt::Debug for SliceView<'_> {
    fn fmt(&self, f: &mut fmt::Formatter<'_>) -> fmt::Result {
        let runs = self
            .iter_runs()
            .map(|(start, end, value)| (end - start, value));
        f.debug_list().entries(runs).finish()
    }
}
