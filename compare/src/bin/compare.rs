//! The differential run: compare SECONDS SEED CORES SHARE
//!
//! So many workers share the small inputs, of which one in SHARE is looked at; each then has random
//! ones of its own seed.

use compare::call::{Arg, CALLS, Call};
use compare::cutting::{self, COMBINATIONS, Job, Joined, Side};
use compare::inputs::{self, KEY_COUNTS, Rng, Role};
use compare::repeat_for;
use compare::tally::{Seen, Tally};
use std::collections::BTreeMap;
use std::env;
use std::process::ExitCode;
use std::sync::atomic::{AtomicUsize, Ordering};
use std::time::Duration;

/// The differences that are printed in full.
const PRINTED: u64 = 10;

/// Cases between two looks at the clock.
const BATCH: usize = 256;

/// Cases with many keys or intervals, between two looks at the clock.
const LARGE: usize = 4;

/// The part of the time in which jobs are cut: one in so many.
const CUTTING: u32 = 5;

#[derive(Default)]
struct Comparison {
    tally: Tally,
    cut_jobs: u64,
    differences: u64,
    /// Jobs by their call, for each side.
    cut: BTreeMap<&'static str, [Seen; 2]>,
}

impl Comparison {
    /// Counts a difference. Is it to be printed?
    fn print_difference(&mut self) -> bool {
        self.differences += 1;
        self.differences <= PRINTED
    }

    fn compare(&mut self, call: &Call, args: Vec<Arg>) {
        let naive = call.naive(&args);
        let original = call.original(&args, &naive);
        let library = call.library(&args);
        self.tally.add(call, naive.answer.refusal.number);
        if library == naive && original.as_ref().is_none_or(|original| *original == naive) {
            return;
        }
        if !self.print_difference() {
            return;
        }
        let outside = "outside its domain".to_string();
        let original = original.map_or(outside, |outcome| outcome.to_string());
        println!(
            "{} differs:\n{}  refusal, values, position; counts; buffers:\n    library  {library}\n    \
             original {original}\n    naive    {naive}",
            call.name,
            call.shown(&args)
        );
    }

    /// Each side does the job, whole and in pieces. What they make of it is the same, and what is
    /// expected where that is given.
    fn cut(&mut self, job: &Job, expected: Option<Joined>) {
        self.cut_jobs += 1;
        let mut done = Vec::from_iter(expected.map(Ok));
        let mut differences = Vec::new();
        let seen = self.cut.entry(job.call.name).or_default();
        for (side, seen) in Side::BOTH.into_iter().zip(seen) {
            match job.run(side) {
                Some(Ok(result)) => {
                    seen.add(result.as_ref().err().copied().unwrap_or(0));
                    done.push(result);
                }
                Some(Err(difference)) => differences.push(format!("{side:?}: {difference}")),
                None => {}
            }
        }
        if done.windows(2).any(|pair| pair[0] != pair[1]) {
            differences.push(format!("results differ: {done:?}"));
        }
        if differences.is_empty() || !self.print_difference() {
            return;
        }
        println!(
            "{} cut differs:\n{}    cut points = {}\n  {}",
            job.call.name,
            job.call.shown(&job.groups.concat()),
            Arg::List(job.points.clone()),
            differences.join("\n  ")
        );
    }

    /// The comparisons of all workers as one.
    fn added(mut self, other: Comparison) -> Self {
        self.tally.add_all(&other.tally);
        self.cut_jobs += other.cut_jobs;
        self.differences += other.differences;
        for (name, sides) in other.cut {
            let seen = self.cut.entry(name).or_default();
            seen.iter_mut()
                .zip(&sides)
                .for_each(|(seen, more)| seen.add_all(more));
        }
        self
    }

    fn report(&self) -> ExitCode {
        print!("{}", self.tally);
        for (name, [library, original]) in &self.cut {
            println!("{name}, cut: library{library}; original{original}");
        }
        println!(
            "{} cases, {} cut jobs, {} differences",
            self.tally.cases(),
            self.cut_jobs,
            self.differences
        );
        match self.differences {
            0 => ExitCode::SUCCESS,
            _ => ExitCode::FAILURE,
        }
    }
}

struct Run {
    time: Duration,
    seed: u64,
    /// Of the small inputs one in so many.
    share: usize,
    /// How many calls have their small inputs given out.
    given_out: AtomicUsize,
}

impl Run {
    /// Compares a call on batches with many keys. The most are left out where only a share is looked at.
    fn many_keys(&self, call: &Call, comparison: &mut Comparison) {
        let mut rng = Rng::new(self.seed);
        let counts = match self.share {
            1 => &KEY_COUNTS[..],
            _ => &KEY_COUNTS[..KEY_COUNTS.len() - 1],
        };
        for &count in counts {
            for args in inputs::of_keys(call, count, self.share, &mut rng) {
                comparison.compare(call, args);
            }
        }
    }

    /// What one of the workers compares.
    fn worker(&self, worker: usize) -> Comparison {
        let mut comparison = Comparison::default();
        while let Some(call) = CALLS.get(self.given_out.fetch_add(1, Ordering::Relaxed)) {
            let small = inputs::some_small(call, self.share);
            let inputs = inputs::seams(call).into_iter().chain(small);
            inputs.for_each(|args| comparison.compare(call, args));
            if call.takes(Role::Keys) {
                self.many_keys(call, &mut comparison);
            }
        }
        let cutting = self.time / CUTTING;
        let mut rng = Rng::of_worker(self.seed, worker);
        repeat_for(self.time - cutting, || {
            for call in CALLS.iter().filter(|call| call.takes_arguments()) {
                for _ in 0..BATCH {
                    comparison.compare(call, inputs::random(call, &mut rng).0);
                }
            }
            let many = |call: &&Call| call.takes(Role::Keys) || call.takes(Role::Starts);
            for call in CALLS.iter().filter(many) {
                for _ in 0..LARGE {
                    let number = 1 + rng.below(2 * inputs::MANY);
                    comparison.compare(call, inputs::large(call, number, &mut rng));
                }
            }
        });
        let (seam, joined) = cutting::seam();
        comparison.cut(&seam, Some(joined));
        // The same jobs for the same seed.
        let mut rng = Rng::of_worker(self.seed, worker);
        repeat_for(cutting, || {
            for name in COMBINATIONS {
                comparison.cut(&Job::random(Call::named(name), &mut rng), None);
            }
        });
        comparison
    }
}

fn main() -> ExitCode {
    let numbers: Result<Vec<u64>, _> = env::args().skip(1).map(|word| word.parse()).collect();
    let Ok([seconds, seed, cores @ (1..), share @ (1..)]) = numbers.as_deref() else {
        eprintln!("usage: compare SECONDS SEED CORES SHARE");
        return ExitCode::from(2);
    };
    let run = Run {
        time: Duration::from_secs(*seconds),
        seed: *seed,
        share: *share as usize,
        given_out: AtomicUsize::new(0),
    };
    let comparisons = compare::in_workers(*cores as usize, |worker| run.worker(worker));
    let all = comparisons.into_iter().reduce(Comparison::added);
    all.unwrap_or_default().report()
}
