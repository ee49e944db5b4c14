use std::fmt;

use crate::sys::RlRefusal;

/// Why a call was refused. A refused call has changed nothing.
///
/// The variants up to [`InKey`](Error::InKey) are the original's and print as they do there. The other three are the
/// library's own; through this crate only [`TooMany`](Error::TooMany) and, for want of memory,
/// [`ShortBuffer`](Error::ShortBuffer) can occur.
#[derive(Debug, Clone, PartialEq, Eq)]
pub enum Error {
    /// A run had a negative length.
    NegativeRun {
        /// Which run.
        index: usize,
        /// Its length.
        run: i64,
    },
    /// Two lists that belong together differ in length.
    LengthMismatch {
        /// Which lists.
        what: &'static str,
        /// The length of the first.
        left: usize,
        /// The length of the second.
        right: usize,
    },
    /// An end was not above the one before it, or the first not above 0.
    InvalidEnds {
        /// The lowest index of such an end within its sequence.
        index: usize,
    },
    /// An interval was not 0 ≤ start ≤ end.
    InvalidInterval {
        /// The lowest index of such an interval.
        index: usize,
        /// Its start.
        start: i64,
        /// Its end.
        end: i64,
    },
    /// Offsets did not start at 0, fell, or did not finish at the number of runs.
    InvalidOffsets,
    /// A new length did not fit in an `i64`.
    Overflow,
    /// Lengths differ, and a shorter sequence has no fill.
    UnequalLength {
        /// The length of the left sequence; of many sequences the least.
        left: i64,
        /// The length of the right sequence; of many sequences the greatest.
        right: i64,
    },
    /// A requested length was below the present one.
    LengthTooShort {
        /// The length asked for.
        requested: i64,
        /// The present length.
        required: i64,
    },
    /// A key was given twice.
    DuplicateKey {
        /// The position at which it stood for the second time.
        position: usize,
    },
    /// A refusal that concerns one key of a batch, or one of many sequences.
    InKey {
        /// The position of the key or sequence; for unequal lengths among the keys of the result.
        position: usize,
        /// The refusal.
        source: Box<Error>,
    },
    /// A code was not a listed one. The enums of this crate have no others.
    UnknownCode {
        /// The code.
        code: u64,
    },
    /// A many-way call was handed more than [`Rle::MAX_COLUMNS`](crate::Rle::MAX_COLUMNS) sequences.
    TooMany {
        /// Their number.
        number: usize,
    },
    /// The memory for a result could not be had.
    ShortBuffer {
        /// Which of the buffers that the call writes, counted from 0.
        which: usize,
        /// The entries that it needs.
        needed: usize,
        /// The entries that there were.
        given: usize,
    },
}

/// A `Result` with this crate's [`Error`].
pub type Result<T> = std::result::Result<T, Error>;

/// What [`Error::LengthMismatch`] says, by the library's number less 1.
pub(crate) const WHAT: [&str; 8] = [
    "runs and values",
    "offsets and keys + 1",
    "ends and values",
    "new keys and keys",
    "used count and shorter buffer",
    "merge mask and neighbouring run pairs",
    "keys and starts",
    "starts and ends",
];

impl fmt::Display for Error {
    fn fmt(&self, f: &mut fmt::Formatter<'_>) -> fmt::Result {
        match self {
            Error::NegativeRun { index, run } => {
                write!(f, "run {index} has negative length {run}")
            }
            Error::LengthMismatch { what, left, right } => {
                write!(f, "{what} have different lengths ({left} and {right})")
            }
            Error::InvalidEnds { index } => {
                write!(
                    f,
                    "run end {index} is not greater than the previous end (or 0)"
                )
            }
            Error::InvalidInterval { index, start, end } => write!(
                f,
                "interval {index} [{start}, {end}) has a negative start or ends before it starts"
            ),
            Error::InvalidOffsets => {
                f.write_str("offsets must start at 0, never decrease and end at the number of runs")
            }
            Error::Overflow => f.write_str("total length does not fit in an i64"),
            Error::UnequalLength { left, right } => write!(
                f,
                "lengths differ ({left} and {right}) and the shorter side has no fill value"
            ),
            Error::LengthTooShort {
                requested,
                required,
            } => write!(
                f,
                "requested length {requested} is shorter than the existing length {required}"
            ),
            Error::DuplicateKey { position } => {
                write!(f, "key at position {position} already exists in the batch")
            }
            Error::InKey { position, source } => {
                write!(f, "key at output position {position}: {source}")
            }
            Error::UnknownCode { code } => write!(f, "code {code} is not a listed one"),
            Error::TooMany { number } => {
                write!(f, "{number} sequences are more than a call takes at once")
            }
            Error::ShortBuffer {
                which,
                needed,
                given,
            } => {
                write!(f, "buffer {which} needs {needed} entries and has {given}")
            }
        }
    }
}

impl std::error::Error for Error {
    fn source(&self) -> Option<&(dyn std::error::Error + 'static)> {
        match self {
            Error::InKey { source, .. } => Some(source.as_ref()),
            _ => None,
        }
    }
}

impl RlRefusal {
    /// Nothing with an answer, else the error that the refusal's number and values say.
    pub(crate) fn check(self) -> Result<()> {
        if self.number == 0 {
            return Ok(());
        }
        let error = self.error();
        Err(if self.in_key == 0 {
            error
        } else {
            Error::InKey {
                position: self.position as usize,
                source: Box::new(error),
            }
        })
    }
}

/// The answer of a call on valid sequences that can only be refused for want of memory, as when a `Vec` grows.
pub(crate) fn answer<T>(result: Result<T>) -> T {
    result.unwrap_or_else(|error| panic!("{error}"))
}
