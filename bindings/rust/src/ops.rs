use std::ops::{Add, Mul, Sub};

use crate::error::{Result, answer};
use crate::rle::{Rle, RleLike, RleRef};
use crate::sys::{self, Answer, RlFill};

/// What is done with two values, x and y, at each position: the library's codes, in place of the original's functions.
#[derive(Clone, Copy, Debug, PartialEq, Eq)]
#[repr(u8)]
pub enum Op {
    /// x + y, modulo 2^64, as `wrapping_add`.
    Add = 0,
    /// x − y, modulo 2^64, as `wrapping_sub`.
    Subtract = 1,
    /// x × y, modulo 2^64, as `wrapping_mul`.
    Multiply = 2,
    /// The smaller of x and y.
    Smaller = 3,
    /// The larger of x and y.
    Larger = 4,
    /// x.
    First = 5,
    /// y.
    Second = 6,
    /// 1 where x is y, else 0.
    Equal = 7,
    /// 1 where x is below y, else 0.
    Less = 8,
    /// The exact sum of x and y, halved toward zero.
    Midpoint = 9,
}

/// A comparison, in place of the original's predicates: those of the codes that [`Rle::merge_by`] and
/// [`RleLike::ranges_where`] take.
#[derive(Clone, Copy, Debug, PartialEq, Eq)]
#[repr(u8)]
pub enum Comparison {
    /// The first value is the second.
    Equal = Op::Equal as u8,
    /// The first value is below the second.
    Less = Op::Less as u8,
}

/// The merged sequence that shows the operation of both values at each position, up to the longer length.
///
/// Where a side has ended its fill stands. A shorter side that has none gives
/// [`Error::UnequalLength`](crate::Error::UnequalLength).
///
/// ```
/// use runlength::{Op, Rle, RleLike, zip_with};
///
/// let a = Rle::from_runs(&[2, 2], vec![5, 6])?;
/// let b = Rle::from_runs(&[1, 2], vec![6, 5])?;
/// let larger = zip_with(a.view(), b.view(), None, Some(&6), Op::Larger)?;
/// assert_eq!(larger.to_dense(), [6, 5, 6, 6]);
/// assert_eq!(larger.num_runs(), 3);
/// # Ok::<(), runlength::Error>(())
/// ```
pub fn zip_with(
    a: RleRef<'_>,
    b: RleRef<'_>,
    fill_a: Option<&i64>,
    fill_b: Option<&i64>,
    op: Op,
) -> Result<Rle> {
    zipped(sys::rl_zip_with, a, b, fill_a, fill_b, op)
}

/// As [`zip_with`], with a run for each segment of the [`Plan`](crate::Plan); neighbours are not merged.
pub fn zip_with_raw(
    a: RleRef<'_>,
    b: RleRef<'_>,
    fill_a: Option<&i64>,
    fill_b: Option<&i64>,
    op: Op,
) -> Result<Rle> {
    zipped(sys::rl_zip_with_raw, a, b, fill_a, fill_b, op)
}

fn zipped(
    call: impl FnOnce(RleRef, RleRef, RlFill, RlFill, u8, &mut Rle) -> Answer<usize>,
    a: RleRef<'_>,
    b: RleRef<'_>,
    fill_a: Option<&i64>,
    fill_b: Option<&i64>,
    op: Op,
) -> Result<Rle> {
    Rle::written(a.num_runs() + b.num_runs(), |out| {
        call(a, b, fill_a.into(), fill_b.into(), op as u8, out)
    })
}

/// An operator of columns: `zip_with` with fills of 0.
macro_rules! operator {
    ($trait:ident, $method:ident, $op:expr) => {
        impl $trait for &Rle {
            type Output = Rle;

            fn $method(self, other: &Rle) -> Rle {
                answer(self.zip_with(other, Some(&0), Some(&0), $op))
            }
        }

        impl $trait for Rle {
            type Output = Rle;

            fn $method(self, other: Rle) -> Rle {
                (&self).$method(&other)
            }
        }
    };
}

operator!(Add, add, Op::Add);
operator!(Sub, sub, Op::Subtract);
operator!(Mul, mul, Op::Multiply);
