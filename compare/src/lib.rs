//! Three readings of every call, to be compared: librunlength.a, the Rust original, and document 01
//! read naively. A call is one row of the table in [`call`], which bindings/generate writes from its
//! export and its row in compare/roles, and a function of its name in [`naive`] and, where the Rust has
//! the call, in [`original`]; `library` is written from the exports. [`inputs`] makes arguments for what
//! its parameters stand for. `cutting` does jobs of several calls, whole and in pieces.

// A call takes as many as it takes.
#![allow(clippy::too_many_arguments)]

use rayon::ThreadPoolBuilder;
use std::thread;
use std::time::{Duration, Instant};

pub mod answer;
pub mod call;
#[cfg(feature = "library")]
pub mod cutting;
pub mod inputs;
pub mod keys;
#[cfg(feature = "library")]
pub mod library;
pub mod naive;
pub mod original;
pub mod tally;
pub mod timing;

/// Runs this on the one thread of a pool of rayon's. There the original does its work at once; from
/// any other thread each of its calls on batches would hand it over and wait.
pub fn in_pool<R: Send>(run: impl FnOnce() -> R + Send) -> R {
    let pool = ThreadPoolBuilder::new().num_threads(1).build();
    pool.expect("a thread can be started").install(run)
}

/// Runs this for each of so many workers at once, in a pool of its own.
pub fn in_workers<R: Send>(workers: usize, run: impl Fn(usize) -> R + Sync) -> Vec<R> {
    let run = &run;
    thread::scope(|scope| {
        let start = |worker| scope.spawn(move || in_pool(|| run(worker)));
        let threads: Vec<_> = (0..workers).map(start).collect();
        let results = threads.into_iter().map(|thread| thread.join());
        results
            .map(|result| result.expect("no worker panics"))
            .collect()
    })
}

/// Goes on until the time is over.
pub fn repeat_for(time: Duration, mut cases: impl FnMut()) {
    let end = Instant::now() + time;
    while Instant::now() < end {
        cases();
    }
}
