//! What both sides give back, as counts and lists of bytes, so that any results can be compared.

use compare::answer::{Answer, Reduction};
use compare::timing::Entry;
use runlength::{MergePlan, Plan, PlanMany, Rle, RleBatch, RleLike, SliceView};
use std::borrow::Cow;

fn bytes<T: Entry>(list: &[T]) -> Cow<'_, [u8]> {
    // SAFETY: the entries are integers, all of whose bytes are set.
    Cow::Borrowed(unsafe {
        std::slice::from_raw_parts(list.as_ptr().cast(), std::mem::size_of_val(list))
    })
}

fn made_bytes<T: Entry>(list: impl Iterator<Item = T>) -> Cow<'static, [u8]> {
    let list: Vec<T> = list.collect();
    Cow::Owned(bytes(&list).into_owned())
}

/// The buffers that a call is lent.
pub trait Lent {
    fn lists(&self) -> Vec<Cow<'_, [u8]>>;
}

macro_rules! lent {
    ($($($buffer:ident)*;)*) => {
        $(#[allow(non_snake_case)]
        impl<$($buffer: Entry),*> Lent for ($(Vec<$buffer>,)*) {
            fn lists(&self) -> Vec<Cow<'_, [u8]>> {
                let ($($buffer,)*) = self;
                vec![$(bytes($buffer)),*]
            }
        })*
    };
}

lent! { ; A; A B; A B C; A B C D; A B C D E F; }

/// What the library answers, and has written to the front of each buffer.
pub struct Shown<'a> {
    counts: Vec<usize>,
    lists: Vec<Cow<'a, [u8]>>,
}

impl Shown<'_> {
    /// How many bytes its lists have.
    pub fn bytes(&self) -> usize {
        self.lists.iter().map(|list| list.len()).sum()
    }

    pub fn is(&self, answer: &Answer, lent: &impl Lent) -> bool {
        let held = lent.lists();
        let mut lists = self.lists.iter().enumerate();
        answer.refusal.number == 0
            && answer.counts == self.counts
            && lists.all(|(i, list)| match held.get(i) {
                Some(held) => held.starts_with(list),
                None => list.is_empty(),
            })
    }
}

/// A result of the original, of which the library is to show the same.
pub trait Show {
    fn show(&self) -> Shown<'_>;
}

/// A result of which nothing is answered but that it is one.
pub struct Checked<T>(pub T);

/// A result with what it was made from, so that dropping that is not timed.
pub struct Kept<R, G>(pub R, pub G);

/// A view with the start that it was asked for and all values of the sequence.
pub struct Viewed<'a>(pub SliceView<'a, i64>, pub i64, pub &'a [i64]);

/// A part of a list, and the list.
pub struct Part<'a>(pub &'a [i64], pub &'a [i64]);

impl Part<'_> {
    fn first(&self) -> usize {
        (self.0.as_ptr() as usize - self.1.as_ptr() as usize) / size_of::<i64>()
    }
}

/// What an interval is reduced to: a sum, or a mean or a variance.
pub trait Reduced: Copy {
    fn reduction(self) -> Reduction;
}

impl Reduced for i64 {
    fn reduction(self) -> Reduction {
        Reduction::Whole(self)
    }
}

impl Reduced for Option<f64> {
    fn reduction(self) -> Reduction {
        self.map_or(Reduction::Nothing, |float| Reduction::Fraction {
            mean: float,
            variance: float,
        })
    }
}

macro_rules! show {
    ($(($($generic:tt)*) $type:ty: |$result:ident| [$($count:expr),*], [$($list:expr),*];)*) => {
        $(impl<$($generic)*> Show for $type {
            fn show(&self) -> Shown<'_> {
                let $result = self;
                Shown { counts: vec![$($count),*], lists: vec![$($list),*] }
            }
        })*
    };
}

show! {
    (T) Checked<T>: |_checked| [0], [];
    () bool: |yes| [usize::from(*yes)], [];
    () i64: |number| [*number as usize], [];
    () Option<usize>: |found| [usize::from(found.is_some()), found.unwrap_or(0)], [];
    () Viewed<'_>: |view| [
        Part(view.0.values(), view.2).first(), view.1 as usize, view.0.len() as usize
    ], [];
    () Part<'_>: |part| [part.first(), part.0.len()], [];
    (T: Entry) Vec<T>: |list| [list.len()], [bytes(list)];
    () (Vec<i64>, Vec<i64>): |ranges| [ranges.0.len()], [bytes(&ranges.0), bytes(&ranges.1)];
    () Rle<i64>: |rle| [rle.num_runs()], [bytes(rle.ends()), bytes(rle.values())];
    () Plan: |plan| [plan.num_segments()], [
        bytes(&plan.ends), bytes(&plan.idx_a), bytes(&plan.idx_b)
    ];
    () PlanMany: |plan| [plan.ends.len(), plan.ends.len() * plan.idx.len()], [
        bytes(&plan.ends),
        made_bytes((0..plan.ends.len()).flat_map(|s| plan.idx.iter().map(move |idx| idx[s])))
    ];
    () MergePlan: |plan| [plan.num_groups()], [bytes(&plan.ends), bytes(&plan.offsets)];
    () RleBatch<usize, i64>: |flat| [flat.len(), flat.ends().len()], [
        bytes(flat.offsets()), bytes(flat.ends()), bytes(flat.values())
    ];
    () RleBatch<u32, i64>: |batch| [batch.len(), batch.ends().len()], [
        bytes(batch.keys()), bytes(batch.offsets()), bytes(batch.ends()), bytes(batch.values())
    ];
}

impl Show for Reduction {
    fn show(&self) -> Shown<'_> {
        Shown {
            counts: self.counts().to_vec(),
            lists: Vec::new(),
        }
    }
}

/// The reductions of intervals.
pub struct Reductions<T>(pub Vec<T>);

impl<T: Reduced> Show for Reductions<T> {
    fn show(&self) -> Shown<'_> {
        let reductions = || self.0.iter().map(|answer| answer.reduction());
        Shown {
            counts: vec![self.0.len()],
            lists: vec![
                made_bytes(reductions().map(Reduction::kind)),
                made_bytes(reductions().map(Reduction::bits)),
            ],
        }
    }
}

/// The sequence of a key.
impl Show for Option<Rle<i64>> {
    fn show(&self) -> Shown<'_> {
        let Some(rle) = self else {
            return Shown {
                counts: vec![0, 0],
                lists: Vec::new(),
            };
        };
        let Shown { counts, lists } = rle.show();
        Shown {
            counts: [vec![1], counts].concat(),
            lists,
        }
    }
}

impl<R: Show, G> Show for Kept<R, G> {
    fn show(&self) -> Shown<'_> {
        self.0.show()
    }
}
