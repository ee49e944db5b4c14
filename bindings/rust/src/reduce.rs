//! Sum, mean and variance over positions, of a sequence and of slices.

use crate::buffer::buffer;
use crate::error::{Result, answer};
use crate::rle::RleRef;
use crate::sys::{self, Answer};

/// What many slices are reduced to, in place of the original's functions of a slice.
#[derive(Clone, Copy, Debug, PartialEq, Eq)]
pub enum Reduction {
    /// The sum over all positions, modulo 2^64: a whole number.
    Sum,
    /// The mean over all positions: a fraction, or nothing at length 0.
    Mean,
    /// The variance over all positions: a fraction, or nothing unless the length is above 0 and above `ddof`.
    Variance {
        /// The delta degrees of freedom: 0 for a population, 1 for a sample.
        ddof: i64,
    },
}

impl Reduction {
    /// The library's code, and the `ddof` that it reads for the last.
    fn code(self) -> (u8, i64) {
        match self {
            Reduction::Sum => (0, 0),
            Reduction::Mean => (1, 0),
            Reduction::Variance { ddof } => (2, ddof),
        }
    }
}

/// What a reduction comes to.
#[derive(Clone, Copy, Debug, PartialEq)]
pub enum Reduced {
    /// There are too few positions.
    Nothing,
    /// A sum.
    Whole(i64),
    /// A mean or a variance.
    Fraction(f64),
}

impl Reduced {
    /// The sum, if it is one.
    pub fn whole(self) -> Option<i64> {
        match self {
            Reduced::Whole(whole) => Some(whole),
            _ => None,
        }
    }

    /// The mean or the variance, if it is one.
    pub fn fraction(self) -> Option<f64> {
        match self {
            Reduced::Fraction(fraction) => Some(fraction),
            _ => None,
        }
    }

    /// As the library writes it: the kind, and 64 bits.
    fn from_bits(kind: u8, bits: u64) -> Self {
        match kind {
            1 => Reduced::Whole(bits as i64),
            2 => Reduced::Fraction(f64::from_bits(bits)),
            _ => Reduced::Nothing,
        }
    }
}

pub(crate) fn reduce(rle: RleRef<'_>, reduction: Reduction) -> Reduced {
    let (code, ddof) = reduction.code();
    let moments = answer(sys::rl_reduce(rle, code, ddof).check());
    match moments.kind {
        1 => Reduced::Whole(moments.whole),
        2 => Reduced::Fraction(moments.variance),
        _ => Reduced::Nothing,
    }
}

pub(crate) fn slice_reduce(
    rle: RleRef<'_>,
    starts: &[i64],
    ends: &[i64],
    reduction: Reduction,
) -> Result<Vec<Reduced>> {
    reduced(starts.len(), reduction, |code, ddof, kinds, bits| {
        sys::rl_slice_reduce(rle, starts, ends, code, ddof, kinds, bits)
    })
}

/// What a call writes for `intervals` intervals.
pub(crate) fn reduced(
    intervals: usize,
    reduction: Reduction,
    call: impl FnOnce(u8, i64, &mut [u8], &mut [u64]) -> Answer<usize>,
) -> Result<Vec<Reduced>> {
    let (code, ddof) = reduction.code();
    let (mut kinds, mut bits) = (buffer(intervals), buffer(intervals));
    call(code, ddof, &mut kinds, &mut bits).check()?;
    let pairs = kinds.into_iter().zip(bits);
    Ok(pairs
        .map(|(kind, bits)| Reduced::from_bits(kind, bits))
        .collect())
}
