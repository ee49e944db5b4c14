//! Inputs of a given number of runs.

use compare::inputs::{Rng, shuffle};
use runlength::{Rle, RleBatch, RleLike};

pub type Batch = RleBatch<u32, i64>;

/// So many different values that neighbours hardly ever are equal.
pub const DIFFERENT: usize = 1 << 40;

/// All numbers but one.
pub const ANY: usize = usize::MAX;

/// The longest run of a column, and of one that is combined with others.
pub const LONG: usize = 99;
pub const SHORT: usize = 16;

/// The runs of a key of a batch.
pub const RUNS_OF_KEY: usize = 100;

/// Runs of 1 to `longest`, with one of so many values each.
pub fn column(rng: &mut Rng, runs: usize, longest: usize, values: usize) -> Rle<i64> {
    let (runs, values): (Vec<i64>, Vec<i64>) = (0..runs)
        .map(|_| (rng.below(longest) as i64 + 1, rng.below(values) as i64))
        .unzip();
    Rle::from_runs(&runs, values).expect("runs above 0 are a sequence")
}

/// The column with each run so much longer.
pub fn lengthened(column: &Rle<i64>, more: i64) -> Rle<i64> {
    let runs: Vec<i64> = column.runs().iter().map(|run| run + more).collect();
    Rle::from_runs(&runs, column.values().to_vec()).expect("the length is an i64")
}

/// What the column shows, with most runs split in two.
pub fn split(rng: &mut Rng, column: &Rle<i64>) -> Rle<i64> {
    let parts = column.runs().into_iter().zip(column.values());
    let (runs, values): (Vec<i64>, Vec<i64>) = parts
        .flat_map(|(run, &value)| {
            let first = rng.below(run as usize) as i64;
            [(first, value), (run - first, value)]
        })
        .unzip();
    Rle::from_runs(&runs, values).expect("runs not below 0 are a sequence")
}

/// Starts and stops of intervals that start below `length` and are shorter than `longest`.
pub fn intervals(rng: &mut Rng, count: usize, length: i64, longest: usize) -> (Vec<i64>, Vec<i64>) {
    let interval = |_| {
        let start = rng.below(length as usize);
        let stop = start + rng.below(longest);
        (start as i64, stop as i64)
    };
    (0..count).map(interval).unzip()
}

/// Sequences laid flat.
pub struct Flat {
    pub offsets: Vec<usize>,
    pub ends: Vec<i64>,
    pub values: Vec<i64>,
}

impl Flat {
    pub fn new(columns: &[Rle<i64>]) -> Self {
        let mut flat = Flat {
            offsets: vec![0],
            ends: Vec::new(),
            values: Vec::new(),
        };
        for column in columns {
            flat.ends.extend(column.ends());
            flat.values.extend(column.values());
            flat.offsets.push(flat.ends.len());
        }
        flat
    }
}

/// The order of the keys of a batch.
#[derive(Clone, Copy)]
pub enum Order {
    Ascending,
    /// Numbers of 32 bits.
    Scattered,
}

pub fn keys(rng: &mut Rng, count: usize, order: Order) -> Vec<u32> {
    match order {
        Order::Ascending => (0..count as u32).collect(),
        Order::Scattered => compare::keys::random(count, rng),
    }
}

/// Columns of so many runs under these keys.
pub fn batch(rng: &mut Rng, keys: &[u32], runs: usize) -> Batch {
    let columns: Vec<Rle<i64>> = keys
        .iter()
        .map(|_| column(rng, runs, SHORT, DIFFERENT))
        .collect();
    let Flat {
        offsets,
        ends,
        values,
    } = Flat::new(&columns);
    RleBatch::from_parts(keys.to_vec(), offsets, ends, values).expect("the keys are different")
}

/// The same keys in another order.
pub fn reordered(rng: &mut Rng, keys: &[u32]) -> Vec<u32> {
    let mut keys = keys.to_vec();
    shuffle(&mut keys, rng);
    keys
}
