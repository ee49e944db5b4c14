//! Times the library's calls that look for keys with keys that are hard for its search, beside random ones: keys ROUNDS
//!
//! A row of the table is a call with a pattern of keys, at two numbers of keys. After the rows a search goes through many patterns and
//! prints the worst that it has found for each call. The exit code is 1 where a call takes more than BOUND times as long as with random
//! keys of the same number.
//!
//! New keys of `batch_collapse` make groups, which cost more or less than their search; its times are also divided by those of random
//! keys with the same groups. Where a key that is given twice is refused, the time until then counts.

mod calls;
mod patterns;

use calls::{CALLS, Call, LONG, Lists, Parts};
use compare::inputs::Rng;
use compare::keys::FACTOR;
use compare::timing::{self, shown};
use patterns::{Drawn, Pattern, Second, families, listed, random_keys, with_random_names};
use std::cell::Cell;
use std::env;
use std::process::ExitCode;

/// How many times as long as random keys others may take.
const BOUND: f64 = 10.0;

/// How many keys a batch has.
const SIZES: [usize; 2] = [1_000, 100_000];

/// The rounds in which the search times a pattern, and how many of the worst it then times in all rounds.
const SEARCH_ROUNDS: u32 = 2;
const RETIMED: usize = 5;

/// What a pattern comes to with a call.
#[derive(Clone, Copy)]
struct Ratios {
    /// Nanoseconds for a key.
    time: f64,
    of_random: f64,
    of_same_groups: Option<f64>,
}

impl Ratios {
    fn greatest(&self) -> f64 {
        self.of_same_groups.unwrap_or(0.0).max(self.of_random)
    }
}

/// A number of keys, with random ones, and the best time of each call with them.
struct Size {
    count: usize,
    parts: Parts,
    random: Vec<Lists>,
    best: Vec<Cell<f64>>,
}

impl Size {
    fn new(count: usize) -> Self {
        Size {
            count,
            parts: Parts::new(count),
            random: inputs(&drawn(&random_keys(), count), Second::Reordered),
            best: CALLS.iter().map(|_| Cell::new(f64::INFINITY)).collect(),
        }
    }

    /// Times a call with random keys. The best of all times counts.
    fn time_random(&self, number: usize, rounds: u32) {
        let time = self.time(&CALLS[number], &self.random, rounds);
        self.best[number].set(time.min(self.best[number].get()));
    }

    /// Nanoseconds for a key.
    fn time(&self, call: &Call, inputs: &[Lists], rounds: u32) -> f64 {
        let turn = (call.time)(&self.parts, inputs, rounds);
        turn / (inputs.len() * self.count) as f64
    }

    fn ratios(&self, number: usize, inputs: &[Lists], rounds: u32) -> Ratios {
        let call = &CALLS[number];
        let time = self.time(call, inputs, rounds);
        let of_same_groups = (call.name == "batch_collapse").then(|| {
            let mut rng = Rng::new(3);
            let named =
                |[keys, second]: &Lists| [with_random_names(keys, &mut rng), second.clone()];
            let named: Vec<Lists> = inputs.iter().map(named).collect();
            time / self.time(call, &named, rounds)
        });
        Ratios {
            time,
            of_random: time / self.best[number].get(),
            of_same_groups,
        }
    }

    /// Whether a turn took so long that it is not repeated.
    fn is_long(&self, ratios: &Ratios, inputs: &[Lists]) -> bool {
        ratios.time * (inputs.len() * self.count) as f64 >= LONG
    }
}

/// The same for the same pattern.
fn drawn(pattern: &Pattern, count: usize) -> Vec<Drawn> {
    let mut rng = Rng::new(1);
    timing::inputs(count, || Drawn::new(pattern, &mut rng, count))
}

fn inputs(drawn: &[Drawn], second: Second) -> Vec<Lists> {
    let mut rng = Rng::new(2);
    let lists = drawn.iter().map(|drawn| second.lists(drawn, &mut rng));
    lists.collect()
}

/// A pattern that a call was timed with.
struct Found<'a> {
    pattern: &'a Pattern,
    second: Second,
    ratios: Ratios,
}

impl Found<'_> {
    fn name(&self, call: &Call) -> String {
        match call.two_lists {
            true => format!("{}; second list: {}", self.pattern.name, self.second.name()),
            false => self.pattern.name.clone(),
        }
    }
}

/// Times each call with each pattern, but with none after one that took long: all that the call found.
fn search<'a>(size: &Size, patterns: &'a [Pattern]) -> Vec<Vec<Found<'a>>> {
    let mut found: Vec<Vec<Found>> = CALLS.iter().map(|_| Vec::new()).collect();
    let mut ended = vec![false; CALLS.len()];
    for pattern in patterns {
        if !ended.contains(&false) {
            break;
        }
        let drawn = drawn(pattern, size.count);
        for second in Second::ALL {
            let takes = |call: &Call| call.two_lists || second == Second::Reordered;
            let timed = |number: &usize| takes(&CALLS[*number]) && !ended[*number];
            let timed: Vec<usize> = (0..CALLS.len()).filter(timed).collect();
            let inputs = inputs(&drawn, second);
            for number in timed {
                let ratios = size.ratios(number, &inputs, SEARCH_ROUNDS);
                ended[number] = size.is_long(&ratios, &inputs);
                found[number].push(Found {
                    pattern,
                    second,
                    ratios,
                });
            }
        }
    }
    found
}

/// The worst of all that a call found, timed in all rounds.
fn worst<'a>(size: &Size, number: usize, mut found: Vec<Found<'a>>, rounds: u32) -> Found<'a> {
    let by_ratio = |a: &Found, b: &Found| a.ratios.greatest().total_cmp(&b.ratios.greatest());
    found.sort_by(|a, b| by_ratio(b, a));
    found.truncate(RETIMED);
    size.time_random(number, rounds);
    for candidate in &mut found {
        let drawn = drawn(candidate.pattern, size.count);
        let inputs = inputs(&drawn, candidate.second);
        if !size.is_long(&candidate.ratios, &inputs) {
            candidate.ratios = size.ratios(number, &inputs, rounds);
        }
    }
    let worst = found.into_iter().max_by(by_ratio);
    worst.expect("a call was timed")
}

fn print_row([call, keys, time, of_random, of_same_groups]: [&str; 5]) {
    println!("| {call:18} | {keys:34} | {time:>14} | {of_random:>14} | {of_same_groups:>14} |");
}

fn cell(figures: impl Iterator<Item = f64>) -> String {
    let figures: Vec<String> = figures
        .map(|figure| format!("{:>6}", shown(figure)))
        .collect();
    figures.join(" ")
}

/// A row for each call and listed pattern: the greatest ratio.
fn print_rows(sizes: &[Size], rounds: u32) -> f64 {
    println!("Hash n of a key is the top of its product with {FACTOR}^n modulo 2^32.\n");
    print_row(["call", "keys", "ns per key", "of random", "of same groups"]);
    print_row(["---"; 5]);
    let patterns: Vec<Pattern> = [random_keys()].into_iter().chain(listed()).collect();
    let mut greatest: f64 = 0.0;
    for (number, call) in CALLS.iter().enumerate() {
        for pattern in &patterns {
            let measured = |size: &Size| {
                size.time_random(number, rounds);
                let inputs = inputs(&drawn(pattern, size.count), Second::Reordered);
                size.ratios(number, &inputs, rounds)
            };
            let row: Vec<Ratios> = sizes.iter().map(measured).collect();
            print_row([
                call.name,
                &pattern.name,
                &cell(row.iter().map(|ratios| ratios.time)),
                &cell(row.iter().map(|ratios| ratios.of_random)),
                &cell(row.iter().filter_map(|ratios| ratios.of_same_groups)),
            ]);
            greatest = row.iter().map(Ratios::greatest).fold(greatest, f64::max);
        }
    }
    greatest
}

/// The worst pattern found for each call: the greatest ratio.
fn print_worst(sizes: &[Size], rounds: u32) -> f64 {
    let patterns = families();
    let count = patterns.len();
    println!("\nThe worst of {count} patterns: of random, of same groups, ns per key\n");
    let mut greatest: f64 = 0.0;
    for size in sizes {
        for (number, found) in search(size, &patterns).into_iter().enumerate() {
            let call = &CALLS[number];
            let worst = worst(size, number, found, rounds);
            let Ratios {
                time,
                of_random,
                of_same_groups,
            } = worst.ratios;
            println!(
                "    {:>6} {:>6} {:>6}  {} of {} keys: {}",
                shown(of_random),
                of_same_groups.map_or(String::new(), shown),
                shown(time),
                call.name,
                size.count,
                worst.name(call)
            );
            greatest = greatest.max(worst.ratios.greatest());
        }
    }
    greatest
}

fn main() -> ExitCode {
    let words: Vec<String> = env::args().skip(1).collect();
    let rounds = match &words[..] {
        [rounds] => rounds.parse().ok().filter(|&rounds| rounds > 0),
        _ => None,
    };
    let Some(rounds) = rounds else {
        eprintln!("usage: keys ROUNDS");
        return ExitCode::from(2);
    };
    timing::keep_memory();
    let sizes = SIZES.map(Size::new);
    let greatest = print_rows(&sizes, rounds).max(print_worst(&sizes, rounds));
    println!(
        "\nThe greatest ratio is {}; the bound is {BOUND}.",
        shown(greatest)
    );
    match greatest <= BOUND {
        true => ExitCode::SUCCESS,
        false => ExitCode::FAILURE,
    }
}
