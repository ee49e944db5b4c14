//! Holds the original against the naive reading: judge CASES SEED
//!
//! On every small input and, for each call, on so many random ones. The first difference is printed and
//! ends it with 1. A case that takes longer than `LIMIT` ends it with `OVER_TIME`.

use compare::call::{Arg, CALLS, Call};
use compare::inputs::{self, Rng};
use std::env;
use std::process::{self, ExitCode};
use std::sync::atomic::{AtomicU64, Ordering};
use std::thread;
use std::time::Duration;

const LIMIT: Duration = Duration::from_secs(5);
const OVER_TIME: i32 = 3;

/// Random cases of a call that come before its small inputs: one in so many.
const FIRST: usize = 10;

static CASES: AtomicU64 = AtomicU64::new(0);

/// Ends the program when no case is done within the limit.
fn watch() {
    let mut done = 0;
    loop {
        thread::sleep(LIMIT);
        let before = done;
        done = CASES.load(Ordering::Relaxed);
        if done == before {
            process::exit(OVER_TIME);
        }
    }
}

/// Holds both against each other on these arguments.
fn judge(call: &Call, args: &[Arg]) -> Result<(), String> {
    call.agreed(args)?;
    CASES.fetch_add(1, Ordering::Relaxed);
    Ok(())
}

fn judge_random(cases: usize, rng: &mut Rng) -> Result<(), String> {
    for call in CALLS.iter().filter(|call| call.takes_arguments()) {
        for _ in 0..cases {
            judge(call, &inputs::random(call, rng).0)?;
        }
    }
    Ok(())
}

fn judge_all(cases: usize, rng: &mut Rng) -> Result<(), String> {
    judge_random(cases / FIRST, rng)?;
    for call in CALLS {
        for args in inputs::seams(call).into_iter().chain(inputs::small(call)) {
            judge(call, &args)?;
        }
    }
    judge_random(cases - cases / FIRST, rng)
}

fn main() -> ExitCode {
    let numbers: Result<Vec<u64>, _> = env::args().skip(1).map(|word| word.parse()).collect();
    let Ok([cases, seed]) = numbers.as_deref() else {
        eprintln!("usage: judge CASES SEED");
        return ExitCode::from(2);
    };
    thread::spawn(watch);
    match compare::in_pool(|| judge_all(*cases as usize, &mut Rng::new(*seed))) {
        Ok(()) => ExitCode::SUCCESS,
        Err(difference) => {
            println!("{difference}");
            ExitCode::FAILURE
        }
    }
}
