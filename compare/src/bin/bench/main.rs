//! Times the library beside the original and beside a copy: bench ROUNDS [CALL]
//!
//! A row of the table is a call with an input, at three numbers of runs. Each of these is measured in
//! a process of its own, so that it depends on nothing before it: bench ROUNDS ROW RUNS THREADS, where
//! the threads are 1 or the original's `default`.
//!
//! Both sides take the same inputs, and their results are compared. The library checks its inputs; the
//! original does where it makes a sequence, but its other calls take sequences, views or ends that have
//! been checked before. Rounds alternate, and the best round of each side counts. Results go to memory
//! that has been written before: the allocator keeps what it is given back, and both sides' buffers
//! come from it.
//!
//! A batch of the original has an index of its keys, made by from_parts or by the first look-up. A
//! call that looks keys up is timed on a batch without one, as any other call gives it, so that the
//! index is made in its time. Those that change nothing have a second row, for a batch with one.

mod batches;
mod columns;
mod inputs;
mod lists;
mod measure;
mod table;

use compare::inputs::Rng;
use compare::timing;
use measure::{Bench, Sides};
use std::env;
use std::process::ExitCode;

/// How many runs the inputs have.
const SIZES: [usize; 3] = [1_000, 100_000, 10_000_000];

/// The calls of which the original hands work to threads.
const WITH_THREADS: [&str; 9] = [
    "getitems",
    "slice_reduce",
    "batch_slice_reduce",
    "batch_shift",
    "batch_reversed",
    "batch_map_rles_slice",
    "batch_collapse",
    "batch_concat",
    "batch_zip_with",
];

/// A row of the table.
struct Case {
    call: &'static str,
    input: &'static str,
    /// What its times are divided by the number of.
    unit: &'static str,
    measure: fn(&mut Bench),
}

macro_rules! cases {
    ($bench:ident; $($call:ident, $input:literal, $unit:ident => $measure:expr;)*) => {
        pub const CASES: &[Case] = &[$(Case {
            call: stringify!($call),
            input: $input,
            unit: stringify!($unit),
            measure: |$bench| $measure,
        }),*];
    };
}
use cases;

fn rows() -> impl Iterator<Item = &'static Case> {
    columns::CASES.iter().chain(batches::CASES)
}

/// Measures a call: how its input is made, the units of its time, the library's call, by the lists
/// that it reads, its other arguments and the entries of its buffers, and the original's, by what it
/// consumes.
macro_rules! versus {
    ($bench:expr, $make:expr, |$input:pat_param| $units:expr,
     $call:ident([$($list:expr),*] $(, $argument:expr)*; $($buffer:ident: $room:expr),*),
     $given:expr => |$taken:pat_param| $original:expr) => {
        let inputs = $bench.inputs($make);
        #[allow(unused_variables)] // Not every part looks at every part of the input.
        $bench.measure(
            &inputs,
            |$input| $crate::measure::Work {
                calls: 1,
                units: $units,
                read: 0 $(+ size_of_val::<[_]>($list))*,
                kept: 0,
            },
            |$input| ($(compare::timing::lent($room),)*),
            |$input, ($($buffer,)*)| compare::library::$call(
                $(black_box($list),)* $(black_box($argument),)* $($buffer),*
            ),
            |$input| $given,
            |$input, given| {
                let $taken = given;
                $original
            },
        );
    };
}
use versus;

/// Prints the times of one size of a row.
fn measure(rounds: u32, case: &'static Case, runs: usize, sides: Sides) {
    let mut bench = Bench {
        sides,
        rounds,
        runs,
        rng: Rng::new(1),
        times: Vec::new(),
    };
    timing::keep_memory();
    let times = match sides {
        Sides::DefaultThreads => {
            (case.measure)(&mut bench);
            bench.times
        }
        Sides::OneThread => {
            timing::share_memory();
            compare::in_pool(move || {
                (case.measure)(&mut bench);
                bench.times
            })
        }
    };
    let times: Vec<String> = times.iter().map(f64::to_string).collect();
    println!("{}", times.join(" "));
}

/// `None` where the words are none that the program takes.
fn run(words: &[String]) -> Option<()> {
    let (rounds, words) = words.split_first()?;
    let rounds = rounds.parse().ok().filter(|&rounds| rounds > 0)?;
    match words {
        [] => table::print(rounds, None),
        [call] => {
            rows().find(|case| case.call == call)?;
            table::print(rounds, Some(call));
        }
        [row, runs, threads] => {
            let case = rows().nth(row.parse().ok()?)?;
            let sides = match threads.as_str() {
                "1" => Sides::OneThread,
                "default" => Sides::DefaultThreads,
                _ => return None,
            };
            measure(rounds, case, runs.parse().ok()?, sides);
        }
        _ => return None,
    }
    Some(())
}

fn main() -> ExitCode {
    let words: Vec<String> = env::args().skip(1).collect();
    match run(&words) {
        Some(()) => ExitCode::SUCCESS,
        None => {
            eprintln!("usage: bench ROUNDS [CALL]");
            ExitCode::from(2)
        }
    }
}
