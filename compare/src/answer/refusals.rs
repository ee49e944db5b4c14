//! Written by bindings/generate from crates/column/src/error.rt.

/// The numbers of document 01's refusals.
#[derive(Clone, Copy)]
pub enum Error {
    UnknownCode = 1,
    LengthMismatch,
    InvalidOffsets,
    InvalidEnds,
    TooMany,
    NegativeRun,
    Overflow,
    DuplicateKey,
    InvalidInterval,
    UnequalLength,
    LengthTooShort,
    ShortBuffer,
}

/// Which values of a refusal are signed, by its number.
pub const SIGNED: [[bool; 3]; 13] = [
    [false, false, false],
    [false, false, false],
    [false, false, false],
    [false, false, false],
    [false, false, false],
    [false, false, false],
    [false, true, false],
    [false, false, false],
    [false, false, false],
    [false, true, true],
    [true, true, false],
    [true, true, false],
    [false, false, false],
];
