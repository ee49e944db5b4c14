//! Columns of runs over label positions: a safe crate over librunlength.a, whose calls are proved to meet their contracts.
//!
//! Names, modules and signatures are those of the Rust crate pyranges/runlength over `i64` values and, in batches, `u32`
//! keys, so that a program can change from one to the other. README.md beside this crate lists what differs.
//!
//! ```
//! use runlength::{Op, Rle, RleLike};
//!
//! let flavour = Rle::from_runs(&[3, 2, 4], vec![7, 2, 7])?;
//! let ink: Rle<i64> = Rle::from_ends(vec![2, 5], vec![1, 4])?;
//! let both = flavour.zip_with(&ink, None, Some(&0), Op::Add)?;
//! assert_eq!(both.ends(), [2, 3, 5, 9]);
//! assert_eq!(both.values(), [8, 11, 6, 7]);
//! assert_eq!(both.sum(), 67);
//! # Ok::<(), runlength::Error>(())
//! ```

#![deny(unsafe_code)]
#![warn(missing_docs)]

#[cfg(not(all(target_arch = "x86_64", target_os = "linux")))]
compile_error!("librunlength.a is an archive for x86-64 and Linux");

mod batch;
mod buffer;
mod error;
mod many;
mod merge;
mod ops;
mod plan;
mod reduce;
mod rle;
mod slice;
#[allow(unsafe_code)]
mod sys;
mod transform;

pub use batch::{How, RleBatch};
pub use error::{Error, Result};
pub use many::{PlanMany, plan_many, zip_many};
pub use merge::{Keep, MergePlan, merge_plan};
pub use ops::{Comparison, Op, zip_with, zip_with_raw};
pub use plan::{Plan, plan};
pub use reduce::{Reduced, Reduction};
pub use rle::{Rle, RleLike, RleRef};
pub use slice::SliceView;
pub use transform::concat;

/// What most programs import.
pub mod prelude {
    pub use crate::{Rle, RleBatch, RleLike, RleRef};
}
