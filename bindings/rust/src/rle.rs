use std::fmt;

use crate::batch::RleBatch;
use crate::buffer::{buffer, kept};
use crate::error::{Result, answer};
use crate::merge::{self, MergePlan};
use crate::ops::{self, Comparison, Op};
use crate::plan::{self, Plan};
use crate::reduce::{self, Reduced, Reduction};
use crate::slice::{self, SliceView};
use crate::sys::{self, Answer};
use crate::transform;

/// A sequence of runs that owns its lists.
///
/// Runs of 3 and 2 positions are kept as their ends, 3 and 5, beside one value each: run r covers the positions from the
/// end before it (0 for the first) up to its own. Ends are above 0 and rise, and there are as many values; nothing that
/// this crate offers can break that. Neighbours may hold equal values, see [`Rle::merge`].
///
/// The values are `i64`; the parameter is there so that `Rle<i64>` can be written as it is with the original.
#[derive(Clone)]
pub struct Rle<V = i64> {
    pub(crate) ends: Vec<i64>,
    pub(crate) values: Vec<V>,
}

/// A sequence of runs that is borrowed, as one of an [`RleBatch`]. What holds of an [`Rle`] holds of it.
#[derive(Clone, Copy)]
pub struct RleRef<'a, V = i64> {
    pub(crate) ends: &'a [i64],
    pub(crate) values: &'a [V],
}

impl Rle {
    /// The most sequences that [`plan_many`](crate::plan_many) and [`zip_many`](crate::zip_many) take.
    pub const MAX_COLUMNS: usize = 128;

    /// The empty sequence.
    pub fn new() -> Self {
        Rle::lent(sys::rl_empty().runs)
    }

    /// The sequence of these runs; those of length 0 are left out, and neighbours are not merged.
    ///
    /// ```
    /// use runlength::{Error, Rle, RleLike};
    ///
    /// let rle = Rle::from_runs(&[3, 0, 2], vec![7, 8, 9])?;
    /// assert_eq!(rle.ends(), [3, 5]);
    /// let refused = Rle::from_runs(&[3, -2], vec![7, 8]);
    /// assert_eq!(refused, Err(Error::NegativeRun { index: 1, run: -2 }));
    /// # Ok::<(), Error>(())
    /// ```
    pub fn from_runs(runs: &[i64], values: Vec<i64>) -> Result<Self> {
        Rle::written(runs.len(), |out| sys::rl_from_runs(runs, &values, out))
    }

    /// The sequence with these ends and values.
    pub fn from_ends(ends: Vec<i64>, values: Vec<i64>) -> Result<Self> {
        sys::rl_from_ends(&ends, &values).check()?;
        Ok(Rle { ends, values })
    }

    /// `length` positions that show `value`.
    pub fn repeat(value: i64, length: i64) -> Result<Self> {
        Rle::written(1, |out| sys::rl_repeat(value, length, out))
    }

    /// The merged sequence that shows these values, one for each position.
    pub fn from_dense<I: IntoIterator<Item = i64>>(values: I) -> Self {
        let values: Vec<i64> = values.into_iter().collect();
        answer(Rle::written(values.len(), |out| {
            sys::rl_from_dense(&values, out)
        }))
    }

    /// The ends and the values.
    pub fn into_parts(self) -> (Vec<i64>, Vec<i64>) {
        (self.ends, self.values)
    }

    /// The values, to be changed. Neighbours may become equal by that.
    pub fn values_mut(&mut self) -> &mut [i64] {
        &mut self.values
    }

    /// Appends a run; neighbours are not merged, and a run of length 0 changes nothing.
    ///
    /// The library looks at all ends first, so that a push takes time in proportion to the runs that are there:
    /// [`from_runs`](Rle::from_runs) is for many of them.
    pub fn push_run(&mut self, run: i64, value: i64) -> Result<()> {
        self.appended(|rle, used| sys::rl_push_run(rle, used, run, value))
    }

    /// Extends the sequence to `length` positions, the new ones showing `value`, by way of the last run if that holds it.
    pub fn extend_to(&mut self, length: i64, value: i64) -> Result<()> {
        self.appended(|rle, used| sys::rl_extend_to(rle, used, length, value))
    }

    /// Lends a call this sequence and its number of runs, with room for a run more.
    fn appended(&mut self, call: impl FnOnce(&mut Rle, usize) -> Answer<usize>) -> Result<()> {
        let used = self.ends.len();
        self.ends.push(0);
        self.values.push(0);
        let counted = call(self, used).check();
        let runs = *counted.as_ref().unwrap_or(&used);
        self.ends.truncate(runs);
        self.values.truncate(runs);
        counted.map(|_| ())
    }

    /// Buffers of `room` entries for a call to write into.
    pub(crate) fn lent(room: usize) -> Self {
        Rle {
            ends: buffer(room),
            values: buffer(room),
        }
    }

    /// The sequence that a call has written into the first entries.
    pub(crate) fn kept(self, count: usize) -> Self {
        Rle {
            ends: kept(self.ends, count),
            values: kept(self.values, count),
        }
    }

    /// What a call writes into buffers of `room` entries.
    pub(crate) fn written(
        room: usize,
        call: impl FnOnce(&mut Rle) -> Answer<usize>,
    ) -> Result<Self> {
        let mut out = Rle::lent(room);
        let count = call(&mut out).check()?;
        Ok(out.kept(count))
    }
}

impl Default for Rle {
    fn default() -> Self {
        Rle::new()
    }
}

impl<'a> RleRef<'a> {
    /// The sequence with these ends and values.
    pub fn from_ends(ends: &'a [i64], values: &'a [i64]) -> Result<Self> {
        sys::rl_from_ends(ends, values).check()?;
        Ok(RleRef { ends, values })
    }

    /// The empty sequence.
    pub fn empty() -> Self {
        RleRef {
            ends: &[],
            values: &[],
        }
    }
}

/// What can be asked of an [`Rle`] and of an [`RleRef`].
///
/// A type of your own has it by way of [`view`](RleLike::view); the other methods are written over that, so that each works
/// on a valid sequence. The values are `i64`; the parameter is there so that `RleLike<i64>` can be written.
pub trait RleLike<V = i64> {
    /// This sequence, borrowed.
    fn view(&self) -> RleRef<'_>;

    /// The end of each run.
    fn ends(&self) -> &[i64] {
        self.view().ends
    }

    /// The value of each run.
    fn values(&self) -> &[i64] {
        self.view().values
    }

    /// The number of positions: the last end, or 0.
    fn len(&self) -> i64 {
        self.ends().last().copied().unwrap_or(0)
    }

    /// Whether there are no positions.
    fn is_empty(&self) -> bool {
        self.ends().is_empty()
    }

    /// The number of runs.
    fn num_runs(&self) -> usize {
        self.ends().len()
    }

    /// The length of each run.
    fn runs(&self) -> Vec<i64> {
        self.iter_runs()
            .map(|(start, end, _)| end - start)
            .collect()
    }

    /// Each run as its start, its end and its value.
    fn iter_runs(&self) -> impl Iterator<Item = (i64, i64, &i64)> {
        let RleRef { ends, values } = self.view();
        let starts = std::iter::once(&0).chain(ends);
        starts
            .zip(ends)
            .zip(values)
            .map(|((&start, &end), value)| (start, end, value))
    }

    /// The value at each position.
    ///
    /// # Panics
    ///
    /// If the memory cannot be had: one run may be 2^63 − 1 positions long. See [`try_to_dense`](RleLike::try_to_dense).
    fn to_dense(&self) -> Vec<i64> {
        answer(self.try_to_dense())
    }

    /// As [`to_dense`](RleLike::to_dense), with [`Error::ShortBuffer`](crate::Error::ShortBuffer) where the memory cannot
    /// be had.
    fn try_to_dense(&self) -> Result<Vec<i64>> {
        let view = self.view();
        let mut out = buffer(view.len() as usize);
        sys::rl_to_dense(view, &mut out).check()?;
        Ok(out)
    }

    /// A copy that owns its lists.
    fn to_rle(&self) -> Rle {
        let RleRef { ends, values } = self.view();
        Rle {
            ends: ends.to_vec(),
            values: values.to_vec(),
        }
    }

    /// The index of the run that covers `pos`, if one does.
    ///
    /// The library looks at all ends first; so do [`get`](RleLike::get), [`slice`](RleLike::slice) and
    /// [`slice_view`](RleLike::slice_view). [`getitems`](RleLike::getitems) and [`slice_reduce`](RleLike::slice_reduce)
    /// look once for many intervals.
    fn run_index(&self, pos: i64) -> Option<usize> {
        slice::run_index(self.view(), pos)
    }

    /// The value at `pos`, if a run covers it.
    fn get(&self, pos: i64) -> Option<&i64> {
        self.run_index(pos).map(|run| &self.view().values[run])
    }

    /// The positions from `start` up to `end` as a sequence of its own; both are clamped to the sequence, as in Python.
    ///
    /// ```
    /// use runlength::{Rle, RleLike};
    ///
    /// let rle = Rle::from_runs(&[3, 2, 4], vec![7, 2, 7])?;
    /// assert_eq!(rle.slice(2, 6).ends(), [1, 3, 4]);
    /// assert!(rle.slice(9, 12).is_empty());
    /// # Ok::<(), runlength::Error>(())
    /// ```
    fn slice(&self, start: i64, end: i64) -> Rle {
        slice::slice(self.view(), start, end)
    }

    /// The slices from `starts[k]` up to `ends[k]`, in a batch whose keys are the numbers k. Only the ends are clamped: each
    /// interval has to be 0 ≤ start ≤ end.
    fn getitems(&self, starts: &[i64], ends: &[i64]) -> Result<RleBatch<usize>> {
        slice::getitems(self.view(), starts, ends)
    }

    /// The positions from `start` up to `end`, clamped as by [`slice`](RleLike::slice), without copying them.
    fn slice_view(&self, start: i64, end: i64) -> SliceView<'_> {
        SliceView::new(self.view(), start, end)
    }

    /// Reduces the slices from `starts[k]` up to `ends[k]`, which are those of [`getitems`](RleLike::getitems).
    ///
    /// The original takes any function of a slice. This takes a [`Reduction`]: `|s| s.mean()` becomes `Reduction::Mean`, and
    /// [`Reduced::fraction`] of each answer is what the function gave.
    fn slice_reduce(
        &self,
        starts: &[i64],
        ends: &[i64],
        reduction: Reduction,
    ) -> Result<Vec<Reduced>> {
        reduce::slice_reduce(self.view(), starts, ends, reduction)
    }

    /// Whether no two neighbours hold equal values.
    fn is_merged(&self) -> bool {
        self.merged().num_runs() == self.num_runs()
    }

    /// A copy in which neighbours of equal value are one run.
    fn merged(&self) -> Rle {
        merge::merged(self.view())
    }

    /// The groups into which a mask over neighbouring runs puts the runs. See [`MergePlan`].
    fn merge_plan(&self, mask: &[bool]) -> Result<MergePlan> {
        merge::merge_plan(self.ends(), mask)
    }

    /// Whether both show the same value at each position, however their runs are split.
    fn equals<W: RleLike<V> + ?Sized>(&self, other: &W) -> bool {
        answer(sys::rl_equals(self.view(), other.view()).check()) != 0
    }

    /// The segments of this sequence and another. See [`Plan`].
    fn plan_with<W: RleLike<V> + ?Sized>(&self, other: &W) -> Plan {
        answer(plan::plan(self.view().ends, other.view().ends))
    }

    /// Combines two sequences position by position; the result is merged. See [`zip_with`](crate::zip_with).
    fn zip_with<W: RleLike<V> + ?Sized>(
        &self,
        other: &W,
        fill_a: Option<&i64>,
        fill_b: Option<&i64>,
        op: Op,
    ) -> Result<Rle> {
        ops::zip_with(self.view(), other.view(), fill_a, fill_b, op)
    }

    /// As [`zip_with`](RleLike::zip_with), with a run for each segment of [`plan_with`](RleLike::plan_with).
    fn zip_with_raw<W: RleLike<V> + ?Sized>(
        &self,
        other: &W,
        fill_a: Option<&i64>,
        fill_b: Option<&i64>,
        op: Op,
    ) -> Result<Rle> {
        ops::zip_with_raw(self.view(), other.view(), fill_a, fill_b, op)
    }

    /// The values `distance` positions higher, or lower where that is negative. The length stays, `fill` stands where no
    /// value has come to, and the result is merged.
    fn shift(&self, distance: i64, fill: i64) -> Rle {
        transform::shift(self.view(), distance, fill)
    }

    /// The sequence from its last position to its first.
    fn reversed(&self) -> Rle {
        transform::reversed(self.view())
    }

    /// The starts and the ends of the ranges whose value passes `value comparison number`; those that touch are one range.
    ///
    /// The original takes any function of a value: `|&v| v == 3` becomes `ranges_where(Comparison::Equal, 3)`.
    fn ranges_where(&self, comparison: Comparison, number: i64) -> (Vec<i64>, Vec<i64>) {
        transform::ranges_where(self.view(), comparison, number)
    }

    /// The sum over all positions, modulo 2^64.
    fn sum(&self) -> i64 {
        answer(sys::rl_sum(self.view()).check())
    }

    /// The mean over all positions, if there are any.
    fn mean(&self) -> Option<f64> {
        reduce::reduce(self.view(), Reduction::Mean).fraction()
    }

    /// The variance over all positions with `ddof` delta degrees of freedom, if the length is above 0 and above `ddof`.
    fn variance(&self, ddof: i64) -> Option<f64> {
        reduce::reduce(self.view(), Reduction::Variance { ddof }).fraction()
    }

    /// The square root of [`variance`](RleLike::variance).
    fn std(&self, ddof: i64) -> Option<f64> {
        self.variance(ddof).map(f64::sqrt)
    }
}

impl RleLike for Rle {
    fn view(&self) -> RleRef<'_> {
        RleRef {
            ends: &self.ends,
            values: &self.values,
        }
    }
}

impl RleLike for RleRef<'_> {
    fn view(&self) -> RleRef<'_> {
        *self
    }
}

/// As [`RleLike::equals`].
impl PartialEq for Rle {
    fn eq(&self, other: &Self) -> bool {
        self.equals(other)
    }
}

/// As [`RleLike::equals`].
impl PartialEq for RleRef<'_> {
    fn eq(&self, other: &Self) -> bool {
        self.equals(other)
    }
}

fn debug(name: &str, rle: RleRef<'_>, f: &mut fmt::Formatter<'_>) -> fmt::Result {
    f.debug_struct(name)
        .field("runs", &rle.runs())
        .field("values", &rle.values)
        .finish()
}

impl fmt::Debug for Rle {
    fn fmt(&self, f: &mut fmt::Formatter<'_>) -> fmt::Result {
        debug("Rle", self.view(), f)
    }
}

impl fmt::Debug for RleRef<'_> {
    fn fmt(&self, f: &mut fmt::Formatter<'_>) -> fmt::Result {
        debug("RleRef", *self, f)
    }
}
