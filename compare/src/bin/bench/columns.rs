//! The calls on columns.

use crate::inputs::{self, ANY, DIFFERENT, Flat, LONG, SHORT};
use crate::lists::{Checked, Part, Reduced, Reductions, Viewed};
use crate::measure::{Bench, Work};
use crate::{Case, cases, versus};
use compare::answer::Reduction;
use compare::call::Fill;
use compare::inputs::Rng;
use compare::library::{self, Counted};
use compare::timing::lent;
use runlength::{Keep, Result, Rle, RleLike, RleRef, SliceView};
use std::hint::black_box;

/// Codes of operations.
pub const ADD: u8 = 0;
const LESS: u8 = 8;

/// Codes of reductions, and what is taken off the length that a variance divides by.
const SUM: u8 = 0;
pub const MEAN: u8 = 1;
const VARIANCE: u8 = 2;
pub const DDOF: i64 = 1;

/// A fill for every shorter side.
pub const FILL: Fill = Fill { given: 1, value: 0 };

/// How many runs are added, by a call each.
const ADDED: usize = 100;

pub fn add(x: &i64, y: &i64) -> i64 {
    x.wrapping_add(*y)
}

cases! { bench;
    empty, "", call => empty(bench);
    from_runs, "runs of 1 to 99", run => from_runs(bench, usize::MAX);
    from_runs, "one in 8 of 0", run => from_runs(bench, 8);
    from_ends, "", run => from_ends(bench);
    repeat, "", call => repeat(bench);
    push_run, "", call => build_up(bench, library::push_run, |_, run| run, Rle::push_run);
    extend_to, "", call => build_up(bench, library::extend_to, |end, _| end, Rle::extend_to);
    from_dense, "runs of about 3", value => from_dense(bench, 5);
    from_dense, "runs of 1", value => from_dense(bench, 1);
    from_dense, "so many values, runs of 1000", value => from_dense(bench, 1999);
    to_dense, "runs of about 10", position => to_dense(bench, 19);
    to_dense, "so many positions, runs of 1000", position => to_dense(bench, 1999);
    equals, "equal, split differently", run => equals(bench, split, runs_of);
    equals, "the first values differ", call => equals(bench, different, |_| 1);
    plan, "2 columns", run => plan(bench);
    zip_with, "add, 2^40 values", run => zip_with(bench, DIFFERENT);
    zip_with, "add, 4 values", run => zip_with(bench, 4);
    zip_with, "add, 1 value", run => zip_with(bench, 1);
    zip_with_raw, "add, 2^40 values", run => zip_with_raw(bench, DIFFERENT);
    plan_many, "16 columns", run => plan_many(bench, 16);
    zip_many, "16 columns, add, 4 values", run => zip_many(bench, 16);
    zip_many, "100 columns, add, 4 values", run => zip_many(bench, 100);
    run_index, "a third in", call => run_index(bench, known);
    run_index, "  the Rust checks, too", call => run_index(bench, checked);
    slice, "nearly all", run => slice(bench, nearly_all, RleLike::num_runs, known);
    slice, "100 runs in the middle", call => slice(bench, middle, |_| 1, known);
    slice, "  the Rust checks, too", call => slice(bench, middle, |_| 1, checked);
    slice_view, "the middle third", call => slice_view(bench, known);
    slice_view, "  the Rust checks, too", call => slice_view(bench, checked);
    slice_view_values, "the middle third", call => slice_view_values(bench);
    getitems, "intervals of about 10 runs", interval => getitems(bench);
    concat, "16 columns, 4 values", run => concat(bench, |_| 16);
    concat, "columns of 100 runs, 4 values", run => concat(bench, |runs| runs / 100);
    shift, "a third up", run => shift(bench, 3);
    shift, "a third down", run => shift(bench, -3);
    reversed, "", run => reversed(bench);
    ranges_where, "less, half of them", run => ranges_where(bench);
    merge, "4 values", run => merge(bench);
    merged, "4 values", run => merged(bench, 4);
    merged, "2^40 values", run => merged(bench, DIFFERENT);
    merge_mask, "50 % joined, first", run => merge_mask(bench, 50, 0, Keep::First);
    merge_mask, "50 % joined, last", run => merge_mask(bench, 50, 1, Keep::Last);
    merge_mask, "1 % joined, first", run => merge_mask(bench, 1, 0, Keep::First);
    merge_mask, "99 % joined, first", run => merge_mask(bench, 99, 0, Keep::First);
    merge_by, "less, 2^40 values", run => merge_by(bench);
    merge_plan, "50 % joined", run => merge_plan(bench, 50);
    merge_plan, "1 % joined", run => merge_plan(bench, 1);
    merge_plan, "99 % joined", run => merge_plan(bench, 99);
    group_ids, "50 % joined", run => group_ids(bench, 50);
    group_ids, "1 % joined", run => group_ids(bench, 1);
    group_ids, "99 % joined", run => group_ids(bench, 99);
    sum, "1000 values", run => sum(bench);
    reduce, "mean, 1000 values", run => mean(bench, thousand);
    reduce, "mean, 2^64 values", run => mean(bench, any);
    reduce, "mean, runs above 2^53, 2^64 values", run => mean_of_longest(bench);
    reduce, "variance, 1000 values", run => variance(bench, thousand);
    reduce, "variance, 2^64 values", run => variance(bench, any);
    slice_reduce, "sum, about 10 runs", interval => slice_reduce(bench, 10, SUM, |part| part.sum());
    slice_reduce, "mean, about 10 runs", interval => slice_reduce(bench, 10, MEAN, |part| part.mean());
    slice_reduce, "mean, about 1000 runs", interval => slice_reduce(bench, 1000, MEAN, |part| part.mean());
    slice_reduce, "variance, about 10 runs", interval =>
        slice_reduce(bench, 10, VARIANCE, |part| part.variance(DDOF));
}

/// A column of different values.
fn long(rng: &mut Rng, runs: usize) -> Rle<i64> {
    inputs::column(rng, runs, LONG, DIFFERENT)
}

fn four(rng: &mut Rng, runs: usize) -> Rle<i64> {
    inputs::column(rng, runs, LONG, 4)
}

fn thousand(rng: &mut Rng, runs: usize) -> Rle<i64> {
    inputs::column(rng, runs, LONG, 1000)
}

fn any(rng: &mut Rng, runs: usize) -> Rle<i64> {
    inputs::column(rng, runs, LONG, ANY)
}

/// Runs of 1 to `longest`; where these are long, there are as many positions as elsewhere runs.
fn dense(rng: &mut Rng, runs: usize, longest: usize) -> Rle<i64> {
    let positions = if longest < 1000 { 1 } else { longest / 2 };
    inputs::column(rng, runs.div_ceil(positions), longest, DIFFERENT)
}

fn pair(rng: &mut Rng, runs: usize, values: usize) -> [Rle<i64>; 2] {
    [(); 2].map(|()| inputs::column(rng, runs / 2, SHORT, values))
}

fn different(rng: &mut Rng, runs: usize) -> [Rle<i64>; 2] {
    pair(rng, runs, DIFFERENT)
}

/// Two columns that show the same.
fn split(rng: &mut Rng, runs: usize) -> [Rle<i64>; 2] {
    let shown = inputs::column(rng, runs / 4, SHORT, DIFFERENT);
    [(); 2].map(|()| inputs::split(rng, &shown))
}

fn runs_of([a, b]: &[Rle<i64>; 2]) -> usize {
    a.num_runs() + b.num_runs()
}

/// Columns, and as the library takes them.
fn many(rng: &mut Rng, runs: usize, columns: usize) -> (Vec<Rle<i64>>, Flat) {
    let column = |_| inputs::column(rng, runs / columns, SHORT, 4);
    let columns: Vec<Rle<i64>> = (0..columns).map(column).collect();
    let flat = Flat::new(&columns);
    (columns, flat)
}

fn views(columns: &[Rle<i64>]) -> Vec<RleRef<'_, i64>> {
    columns.iter().map(RleLike::view).collect()
}

/// A column, and intervals that touch about so many runs each, and together about all.
fn with_intervals(rng: &mut Rng, runs: usize, touched: usize) -> (Rle<i64>, Vec<i64>, Vec<i64>) {
    let column = long(rng, runs);
    let (count, longest) = (runs.div_ceil(touched), touched * (LONG + 1));
    let (starts, stops) = inputs::intervals(rng, count, column.len(), longest);
    (column, starts, stops)
}

/// A column, and a mask that joins so many of 100 pairs, also as bytes.
fn with_mask(rng: &mut Rng, runs: usize, percent: usize) -> (Rle<i64>, Vec<bool>, Vec<u8>) {
    let column = long(rng, runs);
    let joined = (1..runs).map(|_| rng.below(100) < percent);
    let (mask, bytes) = joined.map(|joined| (joined, u8::from(joined))).unzip();
    (column, mask, bytes)
}

/// A column, and the start and the end of its middle third.
fn with_third(rng: &mut Rng, runs: usize) -> (Rle<i64>, i64, i64) {
    let column = long(rng, runs);
    let third = column.len() / 3;
    (column, third, 2 * third)
}

fn nearly_all(column: &Rle<i64>) -> [i64; 2] {
    [5, column.len() - 5]
}

fn middle(column: &Rle<i64>) -> [i64; 2] {
    let half = column.num_runs() / 2;
    [column.ends()[half], column.ends()[half + 100]]
}

/// As the original takes a column, which it has checked before.
fn known(column: &Rle<i64>) -> Result<&Rle<i64>> {
    Ok(column)
}

/// After the question that the original asks where it is given lists.
fn checked(column: &Rle<i64>) -> Result<&Rle<i64>> {
    RleRef::from_ends(column.ends(), column.values())?;
    Ok(column)
}

fn empty(bench: &mut Bench) {
    versus!(bench, |_, _| (), |()| 1, empty([];), () => |()| Ok(Rle::<i64>::new()));
}

fn from_ends(bench: &mut Bench) {
    versus!(
        bench,
        long,
        |column| column.num_runs(),
        from_ends([column.ends()], column.values();),
        () => |()| RleRef::from_ends(column.ends(), column.values()).map(Checked)
    );
}

fn repeat(bench: &mut Bench) {
    versus!(
        bench,
        |_, runs| runs as i64,
        |&length| 1,
        repeat([], 7, length; ends: 1, values: 1),
        () => |()| Rle::repeat(black_box(7), length)
    );
}

/// With one in so many runs of 0.
fn from_runs(bench: &mut Bench, one_in: usize) {
    let make = |rng: &mut Rng, runs| {
        let column = long(rng, runs);
        let runs = column.runs().into_iter();
        let runs: Vec<i64> = runs
            .map(|run| run * rng.below(one_in).min(1) as i64)
            .collect();
        (runs, column.into_parts().1)
    };
    versus!(
        bench,
        make,
        |(runs, values)| runs.len(),
        from_runs([runs, values]; ends: runs.len(), out: runs.len()),
        values.clone() => |values| Rle::from_runs(runs, values)
    );
}

/// Runs are added to a column, by a call each: `entry` chooses the new end or the run.
fn build_up(
    bench: &mut Bench,
    library: impl Fn(&mut [i64], &mut [i64], usize, i64, i64) -> Counted,
    entry: impl Fn(i64, i64) -> i64,
    original: impl Fn(&mut Rle<i64>, i64, i64) -> Result<()>,
) {
    let with_room = |column: &Rle<i64>| {
        [column.ends(), column.values()].map(|list| {
            let mut longer = Vec::with_capacity(list.len() + ADDED);
            longer.extend(list);
            longer
        })
    };
    let inputs = bench.inputs(|rng, runs| {
        let column = long(rng, runs);
        let more = (1..=ADDED as i64).map(|i| (entry(column.len() + 3 * i, 3), i));
        let more: Vec<(i64, i64)> = more.collect();
        (column, more)
    });
    bench.measure(
        &inputs,
        |(column, _)| Work {
            calls: ADDED,
            units: 1,
            read: size_of_val(column.ends()),
            kept: size_of_val(column.ends()) + size_of_val(column.values()),
        },
        |(column, _)| {
            let [mut ends, mut values] = with_room(column);
            ends.extend(lent::<i64>(ADDED));
            values.extend(lent::<i64>(ADDED));
            (ends, values)
        },
        |(column, more), (ends, values)| {
            let mut answer = Counted {
                count: column.num_runs(),
                ..Counted::default()
            };
            for &(entry, value) in more {
                answer = library(ends, values, answer.count, entry, value);
            }
            answer
        },
        |(column, _)| {
            let [ends, values] = with_room(column);
            Rle::from_ends(ends, values).expect("it is a sequence")
        },
        |(_, more), mut rle| {
            for &(entry, value) in more {
                original(&mut rle, entry, value)?;
            }
            Ok(rle)
        },
    );
}

fn from_dense(bench: &mut Bench, longest: usize) {
    versus!(
        bench,
        |rng, runs| dense(rng, runs, longest).to_dense(),
        |values| values.len(),
        from_dense([values]; ends: values.len(), out: values.len()),
        () => |()| Ok(Rle::from_dense(values.iter().copied()))
    );
}

fn to_dense(bench: &mut Bench, longest: usize) {
    versus!(
        bench,
        |rng, runs| dense(rng, runs, longest),
        |column| column.len() as usize,
        to_dense([column.ends(), column.values()]; out: column.len() as usize),
        () => |()| Ok(column.to_dense())
    );
}

fn equals(
    bench: &mut Bench,
    make: impl Fn(&mut Rng, usize) -> [Rle<i64>; 2],
    units: impl Fn(&[Rle<i64>; 2]) -> usize,
) {
    versus!(
        bench,
        make,
        |columns @ [a, b]| units(columns),
        equals([a.ends(), a.values(), b.ends(), b.values()];),
        () => |()| Ok(a.equals(b))
    );
}

fn plan(bench: &mut Bench) {
    versus!(
        bench,
        different,
        |columns @ [a, b]| runs_of(columns),
        plan(
            [a.ends(), b.ends()];
            ends: runs_of(columns), idx_a: runs_of(columns), idx_b: runs_of(columns)
        ),
        () => |()| Ok(runlength::plan(a.ends(), b.ends()))
    );
}

/// The sums of two columns of so many values.
macro_rules! zips {
    ($($call:ident)*) => {
        $(fn $call(bench: &mut Bench, values: usize) {
            versus!(
                bench,
                |rng, runs| pair(rng, runs, values),
                |columns @ [a, b]| runs_of(columns),
                $call(
                    [a.ends(), a.values(), b.ends(), b.values()], FILL, FILL, ADD;
                    ends: runs_of(columns), values: runs_of(columns)
                ),
                () => |()| {
                    let fill = Some(&FILL.value);
                    runlength::$call(a.view(), b.view(), fill, fill, add)
                }
            );
        })*
    };
}

zips! { zip_with zip_with_raw }

fn plan_many(bench: &mut Bench, columns: usize) {
    versus!(
        bench,
        |rng, runs| many(rng, runs, columns),
        |(columns, flat)| flat.ends.len(),
        plan_many(
            [&flat.offsets, &flat.ends], &flat.values;
            ends: flat.ends.len(), idx: columns.len() * flat.ends.len()
        ),
        columns.iter().map(RleLike::ends).collect::<Vec<_>>() => |ends| Ok(runlength::plan_many(&ends))
    );
}

/// The sums of so many columns.
fn zip_many(bench: &mut Bench, columns: usize) {
    let sum = |values: &[&i64]| values.iter().fold(0, |sum, value| add(&sum, value));
    versus!(
        bench,
        |rng, runs| many(rng, runs, columns),
        |(columns, flat)| flat.ends.len(),
        zip_many(
            [&flat.offsets, &flat.ends, &flat.values], FILL, ADD;
            ends: flat.ends.len(), values: flat.ends.len()
        ),
        views(columns) => |views| runlength::zip_many(&views, Some(&FILL.value), sum)
    );
}

fn concat(bench: &mut Bench, columns: impl Fn(usize) -> usize) {
    versus!(
        bench,
        |rng, runs| many(rng, runs, columns(runs)),
        |(columns, flat)| flat.ends.len(),
        concat(
            [&flat.offsets, &flat.ends, &flat.values];
            ends: flat.ends.len(), values: flat.ends.len()
        ),
        views(columns) => |views| runlength::concat(views.iter().copied())
    );
}

fn run_index(bench: &mut Bench, taken: impl Fn(&Rle<i64>) -> Result<&Rle<i64>>) {
    versus!(bench, long, |column| 1, run_index([column.ends()], column.len() / 3;), () => |()| {
        Ok(taken(column)?.run_index(black_box(column.len() / 3)))
    });
}

/// Of a column from a start up to an end.
fn slice(
    bench: &mut Bench,
    limits: impl Fn(&Rle<i64>) -> [i64; 2],
    units: impl Fn(&Rle<i64>) -> usize,
    taken: impl Fn(&Rle<i64>) -> Result<&Rle<i64>>,
) {
    let make = |rng: &mut Rng, runs| {
        let column = long(rng, runs);
        let [start, end] = limits(&column);
        let touched = column.slice(start, end).num_runs();
        (column, start, end, touched)
    };
    versus!(
        bench,
        make,
        |(column, start, end, touched)| units(column),
        slice([column.ends(), column.values()], *start, *end; ends: *touched, values: *touched),
        () => |()| Ok(taken(column)?.slice(*start, *end))
    );
}

fn slice_view(bench: &mut Bench, taken: impl Fn(&Rle<i64>) -> Result<&Rle<i64>>) {
    versus!(
        bench,
        with_third,
        |(column, start, end)| 1,
        slice_view([column.ends()], column.values(), *start, *end;),
        () => |()| Ok(Viewed(taken(column)?.slice_view(*start, *end), *start, column.values()))
    );
}

fn slice_view_values(bench: &mut Bench) {
    versus!(
        bench,
        with_third,
        |(column, start, end)| 1,
        slice_view_values([column.ends()], column.values(), *start, *end;),
        () => |()| Ok(Part(column.slice_view(*start, *end).values(), column.values()))
    );
}

fn getitems(bench: &mut Bench) {
    let make = |rng: &mut Rng, runs| {
        let (column, starts, stops) = with_intervals(rng, runs, 10);
        let items = column.getitems(&starts, &stops).expect("they are valid");
        (column, starts, stops, items.ends().len())
    };
    versus!(
        bench,
        make,
        |(column, starts, stops, touched)| starts.len(),
        getitems(
            [column.ends(), column.values(), starts, stops];
            offsets: starts.len() + 1, ends: *touched, values: *touched
        ),
        () => |()| column.getitems(starts, stops)
    );
}

/// A call that makes runs or ranges out of a column, at most one more than it has runs.
macro_rules! remade {
    ($bench:expr, $make:expr, |$column:ident| $call:ident($($argument:expr),*),
     $given:expr => |$taken:pat_param| $original:expr) => {
        versus!(
            $bench,
            $make,
            |$column| $column.num_runs(),
            $call(
                [$column.ends(), $column.values()] $(, $argument)*;
                ends: $column.num_runs() + 1, values: $column.num_runs() + 1
            ),
            $given => |$taken| $original
        )
    };
}

/// By the length divided by so much.
fn shift(bench: &mut Bench, divisor: i64) {
    remade!(bench, long, |column| shift(column.len() / divisor, 7), () => |()| {
        Ok(column.shift(column.len() / divisor, 7))
    });
}

fn reversed(bench: &mut Bench) {
    remade!(bench, long, |column| reversed(), () => |()| Ok(column.reversed()));
}

fn ranges_where(bench: &mut Bench) {
    let half = DIFFERENT as i64 / 2;
    remade!(bench, long, |column| ranges_where(LESS, half), () => |()| {
        let half = black_box(half);
        Ok(column.ranges_where(|value| *value < half))
    });
}

fn merge(bench: &mut Bench) {
    remade!(bench, four, |column| merge(), column.clone() => |column| Ok(column.merge()));
}

fn merged(bench: &mut Bench, values: usize) {
    let make = |rng: &mut Rng, runs| inputs::column(rng, runs, LONG, values);
    remade!(bench, make, |column| merged(), () => |()| Ok(column.merged()));
}

fn merge_by(bench: &mut Bench) {
    remade!(bench, long, |column| merge_by(LESS), column.clone() => |column| {
        Ok(column.merge_by(|x, y| x < y))
    });
}

/// By the code of what is kept, and by its name.
fn merge_mask(bench: &mut Bench, percent: usize, code: u8, keep: Keep) {
    versus!(
        bench,
        |rng, runs| with_mask(rng, runs, percent),
        |(column, mask, bytes)| column.num_runs(),
        merge_mask(
            [column.ends(), column.values(), bytes], code;
            ends: column.num_runs(), values: column.num_runs()
        ),
        column.clone() => |column| column.merge_mask(mask, black_box(keep))
    );
}

fn merge_plan(bench: &mut Bench, percent: usize) {
    versus!(
        bench,
        |rng, runs| with_mask(rng, runs, percent),
        |(column, mask, bytes)| column.num_runs(),
        merge_plan([column.ends(), bytes]; ends: column.num_runs(), offsets: column.num_runs() + 1),
        () => |()| runlength::merge_plan(column.ends(), mask)
    );
}

fn group_ids(bench: &mut Bench, percent: usize) {
    let make = |rng: &mut Rng, runs| {
        let (column, mask, _) = with_mask(rng, runs, percent);
        let plan = column.merge_plan(&mask).expect("a byte for each pair");
        (plan, runs)
    };
    versus!(bench, make, |(plan, runs)| *runs, group_ids([&plan.offsets]; ids: *runs), () => |()| {
        Ok(plan.group_ids())
    });
}

fn sum(bench: &mut Bench) {
    versus!(
        bench,
        thousand,
        |column| column.num_runs(),
        sum([column.ends(), column.values()];),
        () => |()| Ok(column.sum())
    );
}

fn mean(bench: &mut Bench, make: impl Fn(&mut Rng, usize) -> Rle<i64>) {
    versus!(
        bench,
        make,
        |column| column.num_runs(),
        reduce([column.ends(), column.values()], MEAN, DDOF;),
        () => |()| Ok(column.mean().reduction())
    );
}

/// More of these runs would be longer than an i64.
fn mean_of_longest(bench: &mut Bench) {
    if bench.runs <= 1000 {
        mean(bench, |rng, runs| {
            inputs::lengthened(&inputs::column(rng, runs, 1 << 47, ANY), 1 << 53)
        });
    }
}

/// The library answers the mean as well, which is known here.
fn variance(bench: &mut Bench, make: impl Fn(&mut Rng, usize) -> Rle<i64>) {
    let with_mean = |rng: &mut Rng, runs| {
        let column = make(rng, runs);
        let mean = column.mean().expect("there are positions");
        (column, mean)
    };
    versus!(
        bench,
        with_mean,
        |(column, mean)| column.num_runs(),
        reduce([column.ends(), column.values()], VARIANCE, DDOF;),
        () => |()| {
            let variance = column.variance(black_box(DDOF)).expect("there are positions");
            Ok(Reduction::Fraction { mean: *mean, variance })
        }
    );
}

fn slice_reduce<T: Reduced + Send>(
    bench: &mut Bench,
    touched: usize,
    code: u8,
    original: impl Fn(SliceView<i64>) -> T + Sync,
) {
    versus!(
        bench,
        |rng, runs| with_intervals(rng, runs, touched),
        |(column, starts, stops)| starts.len(),
        slice_reduce(
            [column.ends(), column.values(), starts, stops], code, DDOF;
            kinds: starts.len(), bits: starts.len()
        ),
        () => |()| column.slice_reduce(starts, stops, &original).map(Reductions)
    );
}
