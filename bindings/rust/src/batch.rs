use std::fmt;
use std::ops::{Add, Mul, Sub};

use crate::buffer::{buffer, kept};
use crate::error::{Error, Result, answer};
use crate::ops::Op;
use crate::reduce::{self, Reduced, Reduction};
use crate::rle::{Rle, RleLike, RleRef};
use crate::sys::{self, Answer, RlBatched};

/// Which keys a combination of two batches has.
#[derive(Clone, Copy, Debug, Default, PartialEq, Eq)]
#[repr(u8)]
pub enum How {
    /// Those of the left, then those that only the right has.
    #[default]
    Outer = 0,
    /// Those of the left that the right has as well.
    Inner = 1,
    /// Those of the left.
    Left = 2,
    /// Those of the left that the right has as well, then those that only the right has.
    Right = 3,
}

/// Sequences, each with a key, in one set of lists: that of key k has the entries of `ends` and `values` from `offsets[k]`
/// up to `offsets[k + 1]`. Its ends count from 0, and no key is given twice.
///
/// Keys are `u32`, and values `i64`; the parameters are there so that `RleBatch<u32, i64>` can be written as it is with the
/// original. [`getitems`](RleBatch::getitems) answers a batch whose keys are `usize`, the numbers of the slices.
///
/// ```
/// use runlength::{How, Op, Rle, RleBatch, RleLike};
///
/// let a = RleBatch::from_rles([(1, Rle::repeat(5, 3)?), (2, Rle::repeat(6, 2)?)])?;
/// let b = RleBatch::from_rles([(2, Rle::repeat(1, 4)?)])?;
/// let sum = a.zip_with(&b, How::Left, Some(&0), Some(&0), Op::Add)?;
/// assert_eq!(sum.keys(), [1, 2]);
/// assert_eq!(sum.get(&2).unwrap().to_dense(), [7, 7, 1, 1]);
/// # Ok::<(), runlength::Error>(())
/// ```
#[derive(Clone)]
pub struct RleBatch<K = u32, V = i64> {
    pub(crate) keys: Vec<K>,
    pub(crate) offsets: Vec<usize>,
    pub(crate) ends: Vec<i64>,
    pub(crate) values: Vec<V>,
}

impl<K> RleBatch<K> {
    /// The number of sequences.
    pub fn len(&self) -> usize {
        self.keys.len()
    }

    /// Whether there are no sequences.
    pub fn is_empty(&self) -> bool {
        self.keys.is_empty()
    }

    /// The key of each sequence.
    pub fn keys(&self) -> &[K] {
        &self.keys
    }

    /// Where the runs of each sequence start, and behind the last one the number of runs.
    pub fn offsets(&self) -> &[usize] {
        &self.offsets
    }

    /// The ends of all sequences, one sequence behind the other.
    pub fn ends(&self) -> &[i64] {
        &self.ends
    }

    /// The values of all sequences, one sequence behind the other.
    pub fn values(&self) -> &[i64] {
        &self.values
    }

    /// The sequence at a position, if there is one.
    pub fn get_index(&self, position: usize) -> Option<RleRef<'_>> {
        (position < self.len()).then(|| self.rle_at(position))
    }

    fn rle_at(&self, position: usize) -> RleRef<'_> {
        let runs = self.offsets[position]..self.offsets[position + 1];
        RleRef {
            ends: &self.ends[runs.clone()],
            values: &self.values[runs],
        }
    }

    /// Each key with its sequence.
    pub fn iter(&self) -> impl Iterator<Item = (&K, RleRef<'_>)> {
        let sequences = (0..self.len()).map(|position| self.rle_at(position));
        self.keys.iter().zip(sequences)
    }

    /// Keys, offsets, ends and values.
    pub fn into_parts(self) -> (Vec<K>, Vec<usize>, Vec<i64>, Vec<i64>) {
        (self.keys, self.offsets, self.ends, self.values)
    }
}

impl RleBatch<usize> {
    /// The slices that a call writes, which needs as many entries as they have runs: without any it says how many.
    pub(crate) fn of_slices(
        slices: usize,
        call: impl Fn(&mut [usize], &mut Rle) -> Answer<RlBatched>,
    ) -> Result<Self> {
        let mut offsets = buffer(slices + 1);
        let room = call(&mut offsets, &mut Rle::new()).needed();
        let mut out = Rle::lent(room);
        call(&mut offsets, &mut out).check()?;
        Ok(RleBatch {
            keys: (0..slices).collect(),
            offsets,
            ends: out.ends,
            values: out.values,
        })
    }
}

impl RleBatch {
    /// A batch without keys.
    pub fn new() -> Self {
        RleBatch::lent(0, 0)
    }

    /// The batch of these keys and sequences.
    pub fn from_rles<I: IntoIterator<Item = (u32, Rle)>>(rles: I) -> Result<Self> {
        let mut out = RleBatch::new();
        for (key, rle) in rles {
            out.append(key, &rle);
        }
        RleBatch::from_parts(out.keys, out.offsets, out.ends, out.values)
    }

    /// The batch of these four lists.
    pub fn from_parts(
        keys: Vec<u32>,
        offsets: Vec<usize>,
        ends: Vec<i64>,
        values: Vec<i64>,
    ) -> Result<Self> {
        sys::rl_batch_from_parts(&keys, &offsets, &ends, &values).check()?;
        Ok(RleBatch {
            keys,
            offsets,
            ends,
            values,
        })
    }

    /// Appends a sequence under a new key.
    ///
    /// The key is looked up first; [`from_rles`](RleBatch::from_rles) looks once for all keys.
    pub fn push(&mut self, key: u32, rle: Rle) -> Result<()> {
        if self.position(&key).is_some() {
            return Err(Error::DuplicateKey {
                position: self.len(),
            });
        }
        self.append(key, &rle);
        Ok(())
    }

    fn append(&mut self, key: u32, rle: &Rle) {
        self.keys.push(key);
        self.ends.extend_from_slice(&rle.ends);
        self.values.extend_from_slice(&rle.values);
        self.offsets.push(self.ends.len());
    }

    /// The position of a key, if it is there. Keys that ascend are looked up faster than others.
    pub fn position(&self, key: &u32) -> Option<usize> {
        answer(sys::rl_batch_position(&self.keys, *key).check()).get()
    }

    /// The sequence of a key, if it is there.
    pub fn get(&self, key: &u32) -> Option<RleRef<'_>> {
        self.position(key).map(|position| self.rle_at(position))
    }

    /// A copy of the sequence of a key, if it is there: the library's own `get`, which looks at the whole batch first.
    pub fn get_rle(&self, key: &u32) -> Option<Rle> {
        let call = |out: &mut Rle| sys::rl_batch_get(self, *key, out);
        let mut out = Rle::lent(call(&mut Rle::new()).needed());
        let got = answer(call(&mut out).check());
        got.get().map(|count| out.kept(count))
    }

    /// The slices from `starts[k]` up to `ends[k]` of the sequence of `keys[k]`, in a batch whose keys are the numbers k;
    /// that of an absent key is empty.
    pub fn getitems(&self, keys: &[u32], starts: &[i64], ends: &[i64]) -> Result<RleBatch<usize>> {
        RleBatch::of_slices(starts.len(), |offsets, out| {
            sys::rl_batch_getitems(
                self,
                keys,
                starts,
                ends,
                offsets,
                &mut out.ends,
                &mut out.values,
            )
        })
    }

    /// Reduces the slices of [`getitems`](RleBatch::getitems). As with [`RleLike::slice_reduce`], a [`Reduction`] takes the
    /// place of the original's function.
    pub fn slice_reduce(
        &self,
        keys: &[u32],
        starts: &[i64],
        ends: &[i64],
        reduction: Reduction,
    ) -> Result<Vec<Reduced>> {
        reduce::reduced(starts.len(), reduction, |code, ddof, kinds, bits| {
            sys::rl_batch_slice_reduce(self, keys, starts, ends, code, ddof, kinds, bits)
        })
    }

    /// Every sequence moved by `distance`, as [`RleLike::shift`] does.
    pub fn shift(&self, distance: i64, fill: i64) -> RleBatch {
        let runs = self.ends.len() + self.len();
        answer(RleBatch::written(self.len(), runs, |out| {
            sys::rl_batch_shift(self, distance, fill, out)
        }))
    }

    /// Every sequence from its last position to its first.
    pub fn reversed(&self) -> RleBatch {
        answer(RleBatch::written(self.len(), self.ends.len(), |out| {
            sys::rl_batch_reversed(self, out)
        }))
    }

    /// The slice of every sequence from `start` up to `end`, as [`RleLike::slice`] does. A key whose slice is empty is kept.
    ///
    /// The original's `map_rles` takes any function of a sequence: `map_rles(|r| r.slice(start, end))` becomes this.
    pub fn map_rles_slice(&self, start: i64, end: i64) -> RleBatch {
        answer(RleBatch::written(self.len(), self.ends.len(), |out| {
            sys::rl_batch_map_rles_slice(self, start, end, out)
        }))
    }

    /// The sequences whose keys `key` maps to the same new key, combined in order by `op`; new keys stand where they first
    /// appear.
    ///
    /// `fill` stands where a sequence has ended; without it unequal lengths are refused. As with
    /// [`zip_with`](crate::zip_with), an [`Op`] takes the place of the original's function of two values.
    pub fn collapse<F: Fn(&u32) -> u32>(
        &self,
        key: F,
        fill: Option<&i64>,
        op: Op,
    ) -> Result<RleBatch> {
        let new_keys: Vec<u32> = self.keys.iter().map(key).collect();
        let runs = self.ends.len();
        let mut scratch = Rle::lent(2 * runs);
        RleBatch::written(self.len(), runs, |out| {
            sys::rl_batch_collapse(self, &new_keys, fill.into(), op as u8, out, &mut scratch)
        })
    }

    /// The batches joined key by key: a key has its sequences one after the other, in the order of the batches, merged.
    /// Keys stand where they first appear.
    ///
    /// The library joins two at a time, so that many batches are copied as often as there are batches behind them.
    pub fn concat(batches: &[&RleBatch]) -> Result<RleBatch> {
        batches.iter().try_fold(RleBatch::new(), |joined, batch| {
            let keys = joined.len() + batch.len();
            RleBatch::written(keys, joined.ends.len() + batch.ends.len(), |out| {
                sys::rl_batch_concat(&joined, batch, out)
            })
        })
    }

    /// Two batches combined key by key, as [`zip_with`](crate::zip_with) does; `how` says which keys. That of a batch
    /// without the key is the empty sequence. [`Error::InKey`] has the position of a key whose shorter side has no fill.
    pub fn zip_with(
        &self,
        other: &RleBatch,
        how: How,
        fill_a: Option<&i64>,
        fill_b: Option<&i64>,
        op: Op,
    ) -> Result<RleBatch> {
        let (keys, runs) = (self.len() + other.len(), self.ends.len() + other.ends.len());
        RleBatch::written(keys, runs, |out| {
            let (fill_a, fill_b) = (fill_a.into(), fill_b.into());
            sys::rl_batch_zip_with(self, other, how as u8, fill_a, fill_b, op as u8, out)
        })
    }

    /// Buffers for a call to write so many keys and runs into.
    fn lent(keys: usize, runs: usize) -> Self {
        let Rle { ends, values } = Rle::lent(runs);
        RleBatch {
            keys: buffer(keys),
            offsets: buffer(keys + 1),
            ends,
            values,
        }
    }

    /// What a call writes into buffers for so many keys and runs.
    fn written(
        keys: usize,
        runs: usize,
        call: impl FnOnce(&mut RleBatch) -> Answer<RlBatched>,
    ) -> Result<Self> {
        let mut out = RleBatch::lent(keys, runs);
        let counts = call(&mut out).check()?;
        Ok(RleBatch {
            keys: kept(out.keys, counts.keys),
            offsets: kept(out.offsets, counts.keys + 1),
            ends: kept(out.ends, counts.runs),
            values: kept(out.values, counts.runs),
        })
    }
}

impl Default for RleBatch {
    fn default() -> Self {
        RleBatch::new()
    }
}

impl<K: fmt::Debug> fmt::Debug for RleBatch<K> {
    fn fmt(&self, f: &mut fmt::Formatter<'_>) -> fmt::Result {
        f.debug_map().entries(self.iter()).finish()
    }
}

/// The same keys in the same order, with sequences of which [`RleLike::equals`] holds.
impl<K: PartialEq> PartialEq for RleBatch<K> {
    fn eq(&self, other: &Self) -> bool {
        let equal = |((_, a), (_, b)): ((&K, RleRef<'_>), (&K, RleRef<'_>))| a.equals(&b);
        self.keys == other.keys && self.iter().zip(other.iter()).all(equal)
    }
}

/// An operator of batches: `zip_with` of all keys with fills of 0.
macro_rules! operator {
    ($trait:ident, $method:ident, $op:expr) => {
        impl $trait for &RleBatch {
            type Output = RleBatch;

            fn $method(self, other: &RleBatch) -> RleBatch {
                answer(self.zip_with(other, How::Outer, Some(&0), Some(&0), $op))
            }
        }
    };
}

operator!(Add, add, Op::Add);
operator!(Sub, sub, Op::Subtract);
operator!(Mul, mul, Op::Multiply);
