use crate::buffer::{buffer, kept};
use crate::error::Result;
use crate::sys;

/// How two sequences are combined, by their ends alone.
///
/// A segment ends at the smaller of the two current ends, and each side whose end that is steps on. Per segment there is
/// the run of each side that covers it; a side that has ended keeps its number of runs as index, `fill_a` or `fill_b`.
///
/// ```
/// use runlength::plan;
///
/// let plan = plan(&[3, 5, 9], &[2, 5])?;
/// assert_eq!(plan.ends, [2, 3, 5, 9]);
/// assert_eq!(plan.idx_a, [0, 0, 1, 2]);
/// assert_eq!(plan.idx_b, [0, 1, 1, 2]);
/// assert!(plan.needs_fill_b());
/// # Ok::<(), runlength::Error>(())
/// ```
#[derive(Clone, Debug, PartialEq, Eq)]
pub struct Plan {
    /// The end of each segment.
    pub ends: Vec<i64>,
    /// For each segment the run of `a` that covers it, or `fill_a`.
    pub idx_a: Vec<usize>,
    /// For each segment the run of `b` that covers it, or `fill_b`.
    pub idx_b: Vec<usize>,
    /// The number of runs of `a`.
    pub fill_a: usize,
    /// The number of runs of `b`.
    pub fill_b: usize,
}

impl Plan {
    /// The number of segments.
    pub fn num_segments(&self) -> usize {
        self.ends.len()
    }

    /// Whether `a` ends before the last segment.
    pub fn needs_fill_a(&self) -> bool {
        self.idx_a.last() == Some(&self.fill_a)
    }

    /// Whether `b` ends before the last segment.
    pub fn needs_fill_b(&self) -> bool {
        self.idx_b.last() == Some(&self.fill_b)
    }

    /// The value of `a` in each segment, `fill` where `a` has ended.
    pub fn gather_a<A: Clone>(&self, values: &[A], fill: &A) -> Vec<A> {
        gather(&self.idx_a, values, fill)
    }

    /// The value of `b` in each segment, `fill` where `b` has ended.
    pub fn gather_b<B: Clone>(&self, values: &[B], fill: &B) -> Vec<B> {
        gather(&self.idx_b, values, fill)
    }
}

fn gather<T: Clone>(indexes: &[usize], values: &[T], fill: &T) -> Vec<T> {
    let value = |&index: &usize| values.get(index).unwrap_or(fill).clone();
    indexes.iter().map(value).collect()
}

/// The [`Plan`] of two lists of ends. Unlike the original's, it refuses invalid ends.
pub fn plan(a: &[i64], b: &[i64]) -> Result<Plan> {
    let room = a.len() + b.len();
    let (mut ends, mut idx_a, mut idx_b) = (buffer(room), buffer(room), buffer(room));
    let count = sys::rl_plan(a, b, &mut ends, &mut idx_a, &mut idx_b).check()?;
    Ok(Plan {
        ends: kept(ends, count),
        idx_a: kept(idx_a, count),
        idx_b: kept(idx_b, count),
        fill_a: a.len(),
        fill_b: b.len(),
    })
}
