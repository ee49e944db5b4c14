//! What the programs share that time calls.

use std::ffi::c_int;
use std::hint::black_box;
use std::time::{Duration, Instant};

/// The entries that the inputs have together at least: the processor learns the branches of a short
/// input that it meets again and again.
const VARIED: usize = 100_000;

/// What turns that are timed at once take together.
const TIMED: Duration = Duration::from_micros(200);

/// The inputs of so many entries that calls take in turn.
pub fn inputs<I>(entries: usize, make: impl FnMut() -> I) -> Vec<I> {
    let count = VARIED.div_ceil(entries);
    std::iter::repeat_with(make).take(count).collect()
}

unsafe extern "C" {
    fn mallopt(parameter: c_int, value: c_int) -> c_int;
}

/// Has malloc keep all memory: no block is mapped on its own, and nothing is trimmed.
pub fn keep_memory() {
    set_malloc(-4, 0); // M_MMAP_MAX
    set_malloc(-1, -1); // M_TRIM_THRESHOLD
}

/// Has all threads share what memory there is.
pub fn share_memory() {
    set_malloc(-8, 1); // M_ARENA_MAX
}

fn set_malloc(parameter: c_int, value: c_int) {
    // SAFETY: a setting that malloc takes at any time.
    let taken = unsafe { mallopt(parameter, value) };
    assert_eq!(taken, 1, "malloc has this setting");
}

/// An entry of a list.
pub trait Entry: Copy {
    /// What a lent buffer holds before a call. It is not 0, so that the buffer's memory is written.
    const HELD: Self;
}

macro_rules! entries {
    ($($type:ty)*) => {
        $(impl Entry for $type {
            const HELD: Self = 7;
        })*
    };
}

entries! { i64 usize u64 u32 u8 }

/// A buffer to be lent.
pub fn lent<T: Entry>(entries: usize) -> Vec<T> {
    vec![T::HELD; entries]
}

/// The calls of one side, one with each input in turn.
pub struct Side<'a, I, M, C> {
    inputs: &'a [I],
    /// What makes, untimed, what a call consumes.
    given: M,
    call: C,
    /// The best time of a turn, in nanoseconds.
    pub best: f64,
}

impl<'a, I, G, R, M: Fn(&'a I) -> G, C: Fn(&'a I, G) -> R> Side<'a, I, M, C> {
    pub fn new(inputs: &'a [I], given: M, call: C) -> Self {
        Side {
            inputs,
            given,
            call,
            best: f64::INFINITY,
        }
    }

    /// The results of a turn, which is timed.
    pub fn first(&mut self) -> Vec<R> {
        self.turns(1)
    }

    /// Times at most so many turns. What they give back is dropped after that.
    pub fn time(&mut self, most: usize) {
        let turns = (TIMED.as_nanos() as f64 / self.best.max(1.0)).ceil() as usize;
        self.turns(turns.min(most));
    }

    fn turns(&mut self, turns: usize) -> Vec<R> {
        let all = (0..turns).flat_map(|_| self.inputs);
        let given: Vec<G> = all.map(&self.given).collect();
        let mut results = Vec::with_capacity(given.len());
        let mut given = given.into_iter();
        let start = Instant::now();
        for _ in 0..turns {
            for (input, given) in self.inputs.iter().zip(&mut given) {
                results.push(black_box((self.call)(black_box(input), black_box(given))));
            }
        }
        let time = start.elapsed().as_secs_f64() * 1e9;
        self.best = self.best.min(time / turns as f64);
        results
    }
}

/// With three digits, in thousands or millions where there are more.
pub fn shown(figure: f64) -> String {
    let (figure, unit) = match figure {
        999_500.0.. => (figure / 1e6, "M"),
        9_995.0.. => (figure / 1e3, "k"),
        _ => (figure, ""),
    };
    let digits = match figure {
        99.95.. => 0,
        9.995.. => 1,
        _ => 2,
    };
    format!("{figure:.digits$}{unit}")
}
