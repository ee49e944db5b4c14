//! The table, a row at a time, and the rows in which the library is behind.

use crate::{Case, SIZES, WITH_THREADS, rows};
use compare::call::CALLS;
use compare::timing::shown;
use std::env;
use std::process::Command;

/// What the library's time is divided by.
const OTHERS: [&str; 3] = [
    "of the Rust's, 1 thread",
    "of the Rust's, default",
    "of a copy's",
];

/// What one size of a row comes to; `None` where nothing is measured.
struct Figures {
    /// Of the library, in nanoseconds for a unit.
    time: Option<f64>,
    ratios: [Option<f64>; OTHERS.len()],
}

struct Row {
    case: &'static Case,
    figures: [Figures; SIZES.len()],
}

/// The times that a process of this program prints.
fn times(rounds: u32, row: usize, runs: usize, threads: bool) -> Vec<f64> {
    let program = env::current_exe().expect("this program has a path");
    let mut command = Command::new(program);
    command.args([rounds.to_string(), row.to_string(), runs.to_string()]);
    if threads {
        command.arg("default").env_remove("RAYON_NUM_THREADS");
    } else {
        command.arg("1").env("RAYON_NUM_THREADS", "1");
    }
    let output = command.output().expect("this program can be run");
    let errors = String::from_utf8_lossy(&output.stderr);
    assert!(output.status.success(), "row {row}, {runs} runs: {errors}");
    let numbers = String::from_utf8_lossy(&output.stdout);
    let numbers = numbers.split_whitespace().map(str::parse);
    numbers
        .collect::<Result<_, _>>()
        .expect("times are printed")
}

impl Figures {
    fn measured(rounds: u32, row: usize, runs: usize, threads: bool) -> Self {
        let one = times(rounds, row, runs, false);
        let default = match threads {
            true => times(rounds, row, runs, true),
            false => Vec::new(),
        };
        let time = one.first().copied();
        let ratio = |other: Option<&f64>| Some(time? / other?);
        Figures {
            time,
            ratios: [one.get(1), default.first(), one.get(2)].map(ratio),
        }
    }
}

impl Row {
    fn measured(rounds: u32, number: usize, case: &'static Case) -> Self {
        let threads = WITH_THREADS.contains(&case.call);
        let figures = SIZES.map(|runs| Figures::measured(rounds, number, runs, threads));
        Row { case, figures }
    }

    fn cell(&self, figure: impl Fn(&Figures) -> Option<f64>) -> String {
        let figures = self.figures.each_ref().map(figure);
        if figures.iter().all(Option::is_none) {
            return String::new();
        }
        let shown = figures.map(|figure| figure.map_or("-".to_string(), shown));
        shown.map(|shown| format!("{shown:>6}")).join(" ")
    }

    fn ratios(&self, other: usize) -> String {
        self.cell(|figures| figures.ratios[other])
    }

    fn print(&self) {
        let Case {
            call, input, unit, ..
        } = self.case;
        let time = self.cell(|figures| figures.time);
        let [one, default, copy] = [0, 1, 2].map(|other| self.ratios(other));
        print_row([call, input, unit, &time, &one, &default, &copy]);
    }

    fn greatest(&self, other: usize) -> f64 {
        let ratios = self
            .figures
            .iter()
            .filter_map(|figures| figures.ratios[other]);
        ratios.fold(0.0, f64::max)
    }
}

fn print_row([call, input, unit, time, one, default, copy]: [&str; 7]) {
    println!(
        "| {call:20} | {input:34} | {unit:8} | {time:20} | {one:23} | {default:22} | {copy:20} |"
    );
}

/// What is shown as more than 1.00.
const BEHIND: f64 = 1.005;

/// The rows in which the library takes longer, by how much at the most.
fn print_behind(rows: &mut [Row], other: usize) {
    rows.sort_by(|a, b| b.greatest(other).total_cmp(&a.greatest(other)));
    println!(
        "\nFurthest behind ({}), at 1k, 100k and 10M runs:\n",
        OTHERS[other]
    );
    for row in rows.iter().filter(|row| row.greatest(other) >= BEHIND) {
        let Case { call, input, .. } = row.case;
        let name = format!("{call} {}", input.trim());
        println!("    {}  {}", row.ratios(other), name.trim());
    }
}

/// All calls, or one.
pub fn print(rounds: u32, only: Option<&str>) {
    for call in CALLS {
        let has_row = rows().any(|case| case.call == call.name);
        assert!(has_row, "{} has a row", call.name);
    }
    let [one, default, copy] = OTHERS;
    print_row([
        "call",
        "input",
        "ns per",
        "1k, 100k, 10M runs",
        one,
        default,
        copy,
    ]);
    print_row(["---"; 7]);
    let mut measured = Vec::new();
    for (number, case) in rows().enumerate() {
        if only.is_none_or(|only| only == case.call) {
            let row = Row::measured(rounds, number, case);
            row.print();
            measured.push(row);
        }
    }
    print_behind(&mut measured, 0);
    print_behind(&mut measured, 1);
}
