//! How long a call takes on each side, and copying as many bytes.

use crate::lists::{Lent, Show};
use compare::answer::Answer;
use compare::inputs::Rng;
use compare::timing::{self, Side, lent};
use runlength::Result;
use std::time::{Duration, Instant};

/// The bytes that turns timed at once make together at most, unless one makes more.
const MADE: usize = 256 << 10;

/// What a round adds to the time that is taken at least, and to that after which none is begun, if
/// there have been these few.
const LEAST: Duration = Duration::from_millis(10);
const MOST: Duration = Duration::from_millis(200);
const FEW: u32 = 3;

/// What is timed in a process.
#[derive(Clone, Copy, PartialEq, Eq)]
pub enum Sides {
    /// The library, the original on one thread, and copying.
    OneThread,
    /// The original alone, called from outside its pool.
    DefaultThreads,
}

/// One size of a row is to be measured.
pub struct Bench {
    pub sides: Sides,
    pub rounds: u32,
    /// How many runs an input has.
    pub runs: usize,
    pub rng: Rng,
    /// The times for a unit in nanoseconds, once measured.
    pub times: Vec<f64>,
}

/// What is timed with an input.
pub struct Work {
    /// How many calls, the same with each.
    pub calls: usize,
    /// Of a call: the units that its time is divided by, and the bytes of the lists that it reads.
    pub units: usize,
    pub read: usize,
    /// The bytes of the result that have stood in the buffers before.
    pub kept: usize,
}

/// What is timed with all inputs, a turn.
struct Total {
    /// Calls with one input, and units of all calls.
    calls: f64,
    units: f64,
    /// Of each input, half of the bytes that a call reads and writes.
    halves: Vec<usize>,
    /// How many turns are timed at once at most.
    turns: usize,
}

impl Total {
    /// By what the original gives back, and whether it consumes what it reads.
    fn new<R: Show>(work: impl Iterator<Item = Work>, results: &[R], consumes: bool) -> Self {
        let (mut calls, mut units, mut halves, mut made) = (1, 0, Vec::new(), 0);
        for (work, result) in work.zip(results) {
            let written = result.show().bytes() - work.kept;
            calls = work.calls;
            units += work.calls * work.units;
            halves.push((work.read + written) / 2);
            made += written + if consumes { work.read } else { 0 };
        }
        Total {
            calls: calls as f64,
            units: units as f64,
            halves,
            turns: (MADE / made.max(1)).max(1),
        }
    }
}

impl Bench {
    /// The inputs that calls take in turn.
    pub fn inputs<I>(&mut self, make: impl Fn(&mut Rng, usize) -> I) -> Vec<I> {
        timing::inputs(self.runs, || make(&mut self.rng, self.runs))
    }

    /// `lend` makes the library's buffers and `given` what a call of the original consumes, both
    /// untimed.
    pub fn measure<'a, I, L: Lent, A: Into<Answer>, G, R: Show>(
        &mut self,
        inputs: &'a [I],
        work: impl Fn(&I) -> Work,
        lend: impl Fn(&I) -> L,
        library: impl Fn(&I, &mut L) -> A,
        given: impl Fn(&'a I) -> G,
        original: impl Fn(&'a I, G) -> Result<R>,
    ) {
        let mut theirs = Side::new(inputs, given, |input, given| {
            original(input, given).expect("the original answers")
        });
        let results = theirs.first();
        let all = Total::new(inputs.iter().map(work), &results, size_of::<G>() > 0);
        if self.sides == Sides::DefaultThreads {
            drop(results);
            self.rounds(theirs.best, || theirs.time(all.turns));
            self.times = vec![theirs.best / all.units];
            return;
        }

        let mut ours = Side::new(inputs, lend, |input, mut lent| {
            (library(input, &mut lent), lent)
        });
        for (result, (answer, lent)) in results.iter().zip(ours.first()) {
            let equal = result.show().is(&answer.into(), &lent);
            assert!(equal, "the results are equal");
        }
        drop(results);
        let sources: Vec<Vec<u8>> = all.halves.iter().map(|&half| lent(half)).collect();
        let mut copy = Side::new(
            &sources,
            |source| lent(source.len()),
            |source, mut copied| {
                copied.copy_from_slice(source);
                copied
            },
        );
        copy.first();
        self.rounds(ours.best + theirs.best, || {
            ours.time(all.turns);
            theirs.time(all.turns);
            copy.time(all.turns);
        });
        self.times = vec![ours.best / all.units, theirs.best / all.units];
        if all.halves.iter().any(|&half| half > 0) {
            self.times.push(copy.best * all.calls / all.units);
        }
    }

    /// Takes rounds, but none where the first calls took too many nanoseconds alone.
    fn rounds(&self, first: f64, mut round: impl FnMut()) {
        let (least, most) = (LEAST * self.rounds, MOST * self.rounds);
        if first >= most.as_nanos() as f64 {
            return;
        }
        let start = Instant::now();
        for number in 0.. {
            let elapsed = start.elapsed();
            let enough = number >= self.rounds && elapsed >= least;
            if enough || number >= FEW && elapsed >= most {
                return;
            }
            round();
        }
    }
}
