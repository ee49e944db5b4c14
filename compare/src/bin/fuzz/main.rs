//! Random bytes as arguments of every call of the library: fuzz SECONDS SEED CORES
//!
//! What a refusal and an answer must keep is looked at without any reading of document 01: what they
//! write, what is 0, and guard bytes around each list. Then the naive reading is asked.

mod bytes;
mod guard;

use compare::answer::Answer;
use compare::call::{Arg, CALLS, Call};
use compare::inputs::{Rng, Role};
use compare::repeat_for;
use compare::tally::Tally;
use guard::Guarded;
use std::env;
use std::process::ExitCode;
use std::time::Duration;

#[global_allocator]
static ALLOCATOR: Guarded = Guarded;

/// The faults that are printed in full.
const PRINTED: u64 = 10;

/// Cases between two looks at the clock.
const BATCH: usize = 256;

/// How many values each refusal has, from the one of number 1 on.
const VALUES: [usize; 12] = [1, 3, 0, 1, 1, 2, 0, 1, 3, 2, 2, 3];

/// How many entries of the buffer at `index` an answer may have written.
fn written(call: &Call, index: usize, args: &[Arg], counts: &[usize]) -> usize {
    let parameter = &call.parameters[index];
    let last = counts[counts.len() - 1];
    match (parameter.role, parameter.name) {
        (Role::Scratch, _) => call.free_scratch(args),
        (Role::KeyRoom, _) => counts[0],
        (_, "out_offsets") => counts[0] + 1,
        (_, "out_ends") if call.name == "plan_many" => counts[0],
        _ => last,
    }
}

/// Whether two lists are equal from an entry on. A shorter list has none there.
fn equal_behind(before: &Arg, after: &Arg, first: usize) -> bool {
    fn same<T: PartialEq>(before: &[T], after: &[T], first: usize) -> bool {
        before.len() == after.len() && before.get(first..) == after.get(first..)
    }
    match (before, after) {
        (Arg::List(before), Arg::List(after)) => same(before, after, first),
        (Arg::Places(before), Arg::Places(after)) => same(before, after, first),
        (Arg::Keys(before), Arg::Keys(after)) => same(before, after, first),
        (Arg::Bytes(before), Arg::Bytes(after)) => same(before, after, first),
        (Arg::Bits(before), Arg::Bits(after)) => same(before, after, first),
        _ => false,
    }
}

/// What is wrong with a refusal.
fn faults_of_refusal(
    call: &Call,
    before: &[Arg],
    after: &[Arg],
    answer: &Answer,
) -> Vec<&'static str> {
    let refusal = &answer.refusal;
    let mut faults = Vec::new();
    let mut ask = |holds: bool, fault| {
        if !holds {
            faults.push(fault)
        }
    };
    ask(
        call.refusals.contains(&refusal.number),
        "the call does not give this refusal",
    );
    let values = VALUES
        .get((refusal.number as usize).wrapping_sub(1))
        .copied()
        .unwrap_or(0);
    ask(
        refusal.values[values..].iter().all(|&value| value == 0),
        "an unused value is not 0",
    );
    ask(refusal.in_key <= 1, "in_key is not 0 or 1");
    ask(
        refusal.in_key == 1 || refusal.position == 0,
        "a position without in_key is not 0",
    );
    ask(
        answer.counts.iter().all(|&count| count == 0),
        "a count is not 0",
    );
    ask(before == after, "an argument was written");
    faults
}

/// What is wrong with an answer.
fn faults_of_answer(
    call: &Call,
    before: &[Arg],
    after: &[Arg],
    answer: &Answer,
) -> Vec<&'static str> {
    let mut faults = Vec::new();
    if answer.refusal != Default::default() {
        faults.push("a value of no refusal is not 0");
    }
    for (index, (before_call, after_call)) in before.iter().zip(after).enumerate() {
        if !call.parameters[index].lent {
            if before_call != after_call {
                faults.push("an input was written");
            }
        } else if !equal_behind(
            before_call,
            after_call,
            written(call, index, before, &answer.counts),
        ) {
            faults.push("an entry behind the answer was written");
        }
    }
    faults
}

#[derive(Default)]
struct Fuzz {
    tally: Tally,
    faults: u64,
}

impl Fuzz {
    fn call(&mut self, call: &Call, args: Vec<Arg>) {
        let damaged = guard::damaged();
        let mut after = args.clone();
        let answer = call.answer(&mut after);
        let number = answer.refusal.number;
        self.tally.add(call, number);
        let mut faults = match number {
            0 => faults_of_answer(call, &args, &after, &answer),
            _ => faults_of_refusal(call, &args, &after, &answer),
        };
        let library = call.seen(&args, after, answer);
        let naive = call.naive(&args);
        if library != naive {
            faults.push("document 01 reads otherwise");
        }
        if guard::damaged() != damaged {
            faults.push("guard bytes of a list were written");
        }
        self.faults += faults.len() as u64;
        if !faults.is_empty() && self.faults <= PRINTED {
            let faults = faults.join("; ");
            println!(
                "{}: {faults}\n{}    library {library}\n    naive   {naive}",
                call.name,
                call.shown(&args)
            );
        }
    }

    fn added(mut self, other: Fuzz) -> Self {
        self.tally.add_all(&other.tally);
        self.faults += other.faults;
        self
    }

    fn report(&self) -> ExitCode {
        print!("{}", self.tally);
        for missing in self.tally.missing() {
            println!("not seen: {missing}");
        }
        println!("{} calls, {} faults", self.tally.cases(), self.faults);
        match self.faults {
            0 => ExitCode::SUCCESS,
            _ => ExitCode::FAILURE,
        }
    }
}

/// What one of the workers does.
fn worker(time: Duration, mut rng: Rng) -> Fuzz {
    let mut fuzz = Fuzz::default();
    repeat_for(time, || {
        for call in CALLS {
            for _ in 0..BATCH {
                fuzz.call(call, bytes::arguments(call, &mut rng));
            }
        }
    });
    fuzz
}

fn main() -> ExitCode {
    let numbers: Result<Vec<u64>, _> = env::args().skip(1).map(|word| word.parse()).collect();
    let Ok([seconds, seed, cores @ (1..)]) = numbers.as_deref() else {
        eprintln!("usage: fuzz SECONDS SEED CORES");
        return ExitCode::from(2);
    };
    let time = Duration::from_secs(*seconds);
    let workers = compare::in_workers(*cores as usize, |w| worker(time, Rng::of_worker(*seed, w)));
    workers
        .into_iter()
        .reduce(Fuzz::added)
        .unwrap_or_default()
        .report()
}
