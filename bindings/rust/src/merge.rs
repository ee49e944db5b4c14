use crate::buffer::{buffer, kept};
use crate::error::{Result, answer};
use crate::ops::Comparison;
use crate::rle::{Rle, RleLike, RleRef};
use crate::sys;

/// Whose value a group of runs has.
#[derive(Clone, Copy, Debug, Default, PartialEq, Eq)]
#[repr(u8)]
pub enum Keep {
    /// That of its first run.
    #[default]
    First = 0,
    /// That of its last run.
    Last = 1,
}

/// The groups into which a mask over neighbouring runs puts the runs.
///
/// ```
/// use runlength::merge_plan;
///
/// let plan = merge_plan(&[3, 5, 9], &[true, false])?;
/// assert_eq!(plan.ends, [5, 9]);
/// assert_eq!(plan.offsets, [0, 2, 3]);
/// assert_eq!(plan.group_ids()?, [0, 0, 1]);
/// # Ok::<(), runlength::Error>(())
/// ```
#[derive(Clone, Debug, PartialEq, Eq)]
pub struct MergePlan {
    /// The end of each group.
    pub ends: Vec<i64>,
    /// Where the runs of each group start, and behind the last one the number of runs.
    pub offsets: Vec<usize>,
}

impl MergePlan {
    /// The number of groups.
    pub fn num_groups(&self) -> usize {
        self.ends.len()
    }

    /// The group of each run.
    ///
    /// Unlike the original's, it refuses offsets that do not start at 0 or that fall; those of [`merge_plan`] do neither.
    pub fn group_ids(&self) -> Result<Vec<usize>> {
        let mut ids = buffer(self.offsets.last().copied().unwrap_or(0));
        let count = sys::rl_group_ids(&self.offsets, &mut ids).check()?;
        Ok(kept(ids, count))
    }
}

/// The [`MergePlan`] of runs with these ends: run r + 1 is in the group of run r where `mask[r]` is true.
pub fn merge_plan(ends: &[i64], mask: &[bool]) -> Result<MergePlan> {
    let (mut out_ends, mut offsets) = (buffer(ends.len()), buffer(ends.len() + 1));
    let groups = sys::rl_merge_plan(ends, mask, &mut out_ends, &mut offsets).check()?;
    Ok(MergePlan {
        ends: kept(out_ends, groups),
        offsets: kept(offsets, groups + 1),
    })
}

pub(crate) fn merged(rle: RleRef<'_>) -> Rle {
    answer(Rle::written(rle.ends.len(), |out| sys::rl_merged(rle, out)))
}

impl Rle {
    /// The sequence in which neighbours of equal value are one run.
    ///
    /// ```
    /// use runlength::{Rle, RleLike};
    ///
    /// let rle = Rle::from_runs(&[1, 2, 3], vec![4, 4, 5])?.merge();
    /// assert_eq!(rle.ends(), [3, 6]);
    /// # Ok::<(), runlength::Error>(())
    /// ```
    pub fn merge(self) -> Self {
        answer(Rle::written(self.ends.len(), |out| {
            sys::rl_merge(self.view(), out)
        }))
    }

    /// Puts neighbours into one run where `left comparison right` holds of their values, as they were before anything was
    /// merged; the run has the first one's value.
    ///
    /// The original takes any function of two values: `|a, b| a < b` becomes `Comparison::Less`.
    pub fn merge_by(self, comparison: Comparison) -> Self {
        answer(Rle::written(self.ends.len(), |out| {
            sys::rl_merge_by(self.view(), comparison as u8, out)
        }))
    }

    /// Puts run r + 1 into one run with run r where `mask[r]` is true.
    pub fn merge_mask(self, mask: &[bool], keep: Keep) -> Result<Self> {
        Rle::written(self.ends.len(), |out| {
            sys::rl_merge_mask(self.view(), mask, keep as u8, out)
        })
    }
}
