//! What a call gives back, as the C interface gives it.

mod refusals;

pub use refusals::Error;
use refusals::SIGNED;
use std::fmt;

impl Error {
    /// The refusal with these values, in document 01's order.
    pub fn with(self, values: &[u64]) -> Refusal {
        let mut refusal = Refusal {
            number: self as u64,
            ..Refusal::default()
        };
        refusal.values[..values.len()].copy_from_slice(values);
        refusal
    }
}

/// A refusal, or all zeros with an answer.
#[repr(C)]
#[derive(Clone, Copy, Default, PartialEq, Eq)]
pub struct Refusal {
    pub number: u64,
    pub values: [u64; 3],
    pub in_key: u64,
    pub position: u64,
}

impl Refusal {
    pub fn is(&self, error: Error) -> bool {
        self.number == error as u64
    }

    /// The refusal with the position of a key or a sequence.
    pub fn at(self, position: usize) -> Self {
        Refusal {
            in_key: 1,
            position: position as u64,
            ..self
        }
    }

    /// Every field as the number that it stands for: some values are signed.
    pub fn numbers(&self) -> [i128; 6] {
        let signed = SIGNED.get(self.number as usize).unwrap_or(&SIGNED[0]);
        let value = |i: usize| match signed[i] {
            true => self.values[i] as i64 as i128,
            false => self.values[i] as i128,
        };
        [
            self.number as i128,
            value(0),
            value(1),
            value(2),
            self.in_key as i128,
            self.position as i128,
        ]
    }
}

/// What a reduction comes to.
#[derive(Clone, Copy)]
pub enum Reduction {
    Nothing,
    Whole(i64),
    Fraction { mean: f64, variance: f64 },
}

impl Reduction {
    /// Its kind byte.
    pub fn kind(self) -> u8 {
        match self {
            Reduction::Nothing => 0,
            Reduction::Whole(_) => 1,
            Reduction::Fraction { .. } => 2,
        }
    }

    /// Its 64 bits, of a variance without its mean.
    pub fn bits(self) -> u64 {
        match self {
            Reduction::Nothing => 0,
            Reduction::Whole(number) => number as u64,
            Reduction::Fraction { variance, .. } => variance.to_bits(),
        }
    }

    /// Its kind, and the bits of the whole number, the mean and the variance, 0 where it has none.
    pub fn counts(self) -> [usize; 4] {
        let (whole, fraction) = match self {
            Reduction::Nothing => (0, [0.0; 2]),
            Reduction::Whole(number) => (number, [0.0; 2]),
            Reduction::Fraction { mean, variance } => (0, [mean, variance]),
        };
        let [mean, variance] = fraction.map(|float: f64| float.to_bits() as usize);
        [self.kind().into(), whole as usize, mean, variance]
    }
}

/// A refusal and counts, which are zero with a refusal. A yes or no is the count 1 or 0; a number
/// or a float that is answered stands among them by its bits.
#[derive(PartialEq, Eq)]
pub struct Answer {
    pub refusal: Refusal,
    pub counts: Vec<usize>,
}

/// The refusal's six numbers and the counts, as the signed numbers of their bits.
impl fmt::Display for Answer {
    fn fmt(&self, f: &mut fmt::Formatter<'_>) -> fmt::Result {
        let [number, values @ ..] = self.refusal.numbers();
        write!(f, "{number}")?;
        values.iter().try_for_each(|value| write!(f, " {value}"))?;
        self.counts
            .iter()
            .try_for_each(|&count| write!(f, " {}", count as i64))
    }
}
