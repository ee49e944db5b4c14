//! The sample that crates/replay replays: sample SEED
//!
//! A line for each case: the call's number, its lists, its other arguments and the buffers that it
//! lends, in front of each of these three how many they are; then each buffer after the call, and as one
//! more list the refusal's six numbers and the counts. A list, mask or buffer is its length and its
//! entries; a fill is two arguments: whether it is given, 0 if not, and its value. The entries of scratch
//! that an answer leaves free stand as they were, and are not to be looked at. The answers are the
//! original's in its domain, and document 01's elsewhere. Both are compared on these cases and on every
//! small input. Seams of document 01 and batches whose keys meet come first.

use compare::answer::Error;
use compare::call::{Arg, CALLS, Call, Outcome};
use compare::inputs::{self, Fit, Rng, Role};
use std::collections::{BTreeMap, BTreeSet};
use std::env;
use std::process::ExitCode;

/// What crates/replay reads: bytes in all, numbers of a line, and entries of a list.
const MOST_BYTES: usize = 64_000;
const MOST_NUMBERS: usize = 128;
const LONGEST_LIST: usize = 16;

/// The most random lines for each call. There are fewer where so many come to more than `MOST_BYTES`.
const LINES: usize = 12;

/// Batches take more lists.
fn longest_line(call: &Call) -> usize {
    match call.takes(Role::Keys) {
        true => 240,
        false => 160,
    }
}

/// Cases made for each call, out of which the lines are picked.
const CASES: usize = 20_000;

/// What the sample has some of each: a refusal, with its what or which, or the first and the last
/// count; and how the buffers fit.
type Class = (u64, [u64; 2], Fit);

fn class(outcome: &Outcome, fit: Fit) -> Class {
    let refusal = outcome.answer.refusal;
    let detail = match outcome.answer.counts[..] {
        _ if refusal.is(Error::LengthMismatch) || refusal.is(Error::ShortBuffer) => {
            [refusal.values[0], 0]
        }
        [first, .., last] => [first, last].map(|count| count.min(5) as u64),
        [count] => [count.min(5) as u64, 0],
        [] => unreachable!("an answer has a count"),
    };
    (refusal.number, detail, fit)
}

/// Whether all numbers are i64 and all lists short.
fn is_plain(args: &[Arg], outcome: &Outcome) -> bool {
    let plain = |count: usize| i64::try_from(count).is_ok();
    let plain_arg = |arg: &Arg| match arg {
        Arg::List(list) => list.len() <= LONGEST_LIST,
        Arg::Places(list) => list.len() <= LONGEST_LIST && list.iter().all(|&place| plain(place)),
        Arg::Keys(list) => list.len() <= LONGEST_LIST,
        Arg::Bytes(list) => list.len() <= LONGEST_LIST,
        Arg::Bits(list) => list.len() <= LONGEST_LIST,
        Arg::Number(_) | Arg::Key(_) | Arg::Code(_) => true,
        Arg::Count(count) => plain(*count),
        Arg::Fill(fill) => i64::try_from(fill.given).is_ok(),
    };
    let mut numbers = outcome.answer.refusal.numbers().into_iter();
    args.iter().all(plain_arg) && numbers.all(|number| i64::try_from(number).is_ok())
}

/// Document 01's answer, which is the original's in its domain.
fn agreed(call: &Call, args: &[Arg]) -> Outcome {
    let outcome = call.agreed(args);
    outcome.unwrap_or_else(|difference| panic!("{difference}"))
}

/// Arguments behind their number; a fill counts as two.
fn section<'a>(args: impl Iterator<Item = &'a Arg>) -> String {
    let (mut count, mut words) = (0, String::new());
    for arg in args {
        count += if matches!(arg, Arg::Fill(_)) { 2 } else { 1 };
        words += &format!(" {arg}");
    }
    format!("{count}{words}")
}

fn line(call: &Call, args: &[Arg], outcome: &Outcome) -> String {
    let (lent, inputs): (Vec<_>, Vec<_>) =
        call.parameters.iter().zip(args).partition(|(p, _)| p.lent);
    let (lists, numbers): (Vec<&Arg>, Vec<&Arg>) = inputs
        .iter()
        .map(|(_, arg)| *arg)
        .partition(|arg| arg.is_list());
    let sections = [
        section(lists.into_iter()),
        section(numbers.into_iter()),
        section(lent.iter().map(|(_, arg)| *arg)),
    ];
    let left: String = outcome.lent.iter().map(|list| format!("{list} ")).collect();
    let answer = outcome.answer.to_string();
    let numbers = answer.split(' ').count();
    format!(
        "{} {} {left}{numbers} {answer}",
        call.number,
        sections.join(" ")
    )
}

type Classes = BTreeMap<Class, Vec<String>>;

/// So many lines, as evenly out of all classes as these last.
fn spread(classes: &Classes, count: usize) -> Vec<String> {
    let classes: Vec<&Vec<String>> = classes.values().collect();
    if classes.len() > count {
        let class = |i: usize| classes[(2 * i + 1) * classes.len() / (2 * count)];
        return (0..count).map(|i| class(i)[0].clone()).collect();
    }
    let of_rank = |rank| classes.iter().filter_map(move |lines| lines.get(rank));
    (0..count).flat_map(of_rank).take(count).cloned().collect()
}

/// What the lines of a call are picked from.
struct Lines {
    seams: Vec<String>,
    answered: Classes,
    refused: Classes,
}

impl Lines {
    fn of(call: &Call, rng: &mut Rng) -> Self {
        let seam = |args: &Vec<Arg>| line(call, args, &agreed(call, args));
        let mut lines = Lines {
            seams: inputs::seams(call).iter().map(seam).collect(),
            answered: BTreeMap::new(),
            refused: BTreeMap::new(),
        };
        let mut seen = BTreeSet::new();
        for _ in 0..CASES {
            let (args, fit) = inputs::random(call, rng);
            let outcome = agreed(call, &args);
            let line = line(call, &args, &outcome);
            let short = line.len() < longest_line(call);
            if short && is_plain(&args, &outcome) && seen.insert(line.clone()) {
                let classes = match outcome.answer.refusal.number {
                    0 => &mut lines.answered,
                    _ => &mut lines.refused,
                };
                classes.entry(class(&outcome, fit)).or_default().push(line);
            }
        }
        lines
    }

    /// The seams, and so many random lines, at most half of them refused.
    fn picked(&self, count: usize) -> Vec<String> {
        let refused = spread(&self.refused, count / 2);
        let answered = spread(&self.answered, count - refused.len());
        [self.seams.clone(), answered, refused].concat()
    }
}

/// What the sample is picked from. On the way both sides are compared on every small input.
fn lines(seed: u64) -> Vec<Lines> {
    let mut rng = Rng::new(seed);
    let calls = CALLS.iter().filter(|call| call.takes_arguments());
    let lines = |call: &Call| {
        inputs::small(call).for_each(|args| drop(agreed(call, &args)));
        Lines::of(call, &mut rng)
    };
    calls.map(lines).collect()
}

/// As many lines of each call as can be read.
fn sample(lines: &[Lines]) -> Vec<String> {
    let picked = |count| -> Vec<String> { lines.iter().flat_map(|of| of.picked(count)).collect() };
    let fits = |sample: &Vec<String>| {
        let bytes: usize = sample.iter().map(|line| line.len() + 1).sum();
        bytes < MOST_BYTES
    };
    let sample = (1..=LINES).rev().map(picked).find(fits);
    sample.expect("a line of each call can be read")
}

fn main() -> ExitCode {
    let Some(Ok(seed)) = env::args().nth(1).map(|word| word.parse()) else {
        eprintln!("usage: sample SEED");
        return ExitCode::from(2);
    };
    let lines = compare::in_pool(|| lines(seed));
    for line in sample(&lines) {
        let numbers = line.split(' ').count();
        assert!(numbers < MOST_NUMBERS, "{numbers} numbers are too many");
        println!("{line}");
    }
    ExitCode::SUCCESS
}
