//! The calls on batches.

use crate::columns::{ADD, DDOF, FILL, MEAN, add};
use crate::inputs::{self, Batch, Order, RUNS_OF_KEY};
use crate::lists::{Checked, Kept, Reductions};
use crate::measure::Bench;
use crate::{Case, cases, versus};
use compare::inputs::Rng;
use runlength::{How, Result, RleBatch, RleLike};
use std::hint::black_box;

/// The code of an outer join.
const OUTER: u8 = 0;

cases! { bench;
    batch_from_parts, "ascending keys", run => from_parts(bench, RUNS_OF_KEY, Order::Ascending);
    batch_from_parts, "scattered keys", run => from_parts(bench, RUNS_OF_KEY, Order::Scattered);
    batch_from_parts, "scattered keys of 1 run", run => from_parts(bench, 1, Order::Scattered);
    batch_position, "a third in", call => position(bench, false);
    batch_position, "  with an index", call => position(bench, true);
    batch_get, "a third in", call => get(bench, false);
    batch_get, "  with an index", call => get(bench, true);
    batch_getitems, "ascending keys", interval => getitems(bench, Order::Ascending, false);
    batch_getitems, "  with an index", interval => getitems(bench, Order::Ascending, true);
    batch_getitems, "scattered keys", interval => getitems(bench, Order::Scattered, false);
    batch_slice_reduce, "mean, ascending keys", interval => slice_reduce(bench, Order::Ascending, false);
    batch_slice_reduce, "  with an index", interval => slice_reduce(bench, Order::Ascending, true);
    batch_slice_reduce, "mean, scattered keys", interval => slice_reduce(bench, Order::Scattered, false);
    batch_shift, "", run => shift(bench);
    batch_reversed, "", run => reversed(bench);
    batch_map_rles_slice, "nearly all", run => map_rles_slice(bench, 5, i64::MAX);
    batch_map_rles_slice, "about 12 of 100 runs", run => map_rles_slice(bench, 400, 500);
    batch_collapse, "add, 2 neighbours each", run => collapse(bench, |key, _| key / 2);
    batch_collapse, "add, 10 scattered keys each", run => collapse(bench, |key, keys| key % (keys / 10).max(1));
    batch_concat, "the same keys", run => concat(bench, same_keys);
    batch_concat, "reordered", run => concat(bench, reordered);
    batch_zip_with, "outer, add, the same keys", run => zip_with(bench, same_keys);
    batch_zip_with, "outer, add, reordered", run => zip_with(bench, reordered);
}

fn of_runs(rng: &mut Rng, runs: usize, order: Order) -> Batch {
    let keys = inputs::keys(rng, runs / RUNS_OF_KEY, order);
    inputs::batch(rng, &keys, RUNS_OF_KEY)
}

fn ascending(rng: &mut Rng, runs: usize) -> Batch {
    of_runs(rng, runs, Order::Ascending)
}

fn same_keys(rng: &mut Rng, runs: usize) -> [Batch; 2] {
    [(); 2].map(|()| ascending(rng, runs / 2))
}

fn reordered(rng: &mut Rng, runs: usize) -> [Batch; 2] {
    let a = ascending(rng, runs / 2);
    let keys = inputs::reordered(rng, a.keys());
    let b = inputs::batch(rng, &keys, RUNS_OF_KEY);
    [a, b]
}

/// The keys and the runs of two batches.
fn keys_of([a, b]: &[Batch; 2]) -> usize {
    a.len() + b.len()
}

fn runs_of([a, b]: &[Batch; 2]) -> usize {
    a.ends().len() + b.ends().len()
}

/// What the original keeps of the lists is made before.
fn from_parts(bench: &mut Bench, runs_of_key: usize, order: Order) {
    let make = |rng: &mut Rng, runs| {
        let keys = inputs::keys(rng, runs / runs_of_key, order);
        inputs::batch(rng, &keys, runs_of_key)
    };
    versus!(
        bench,
        make,
        |batch| batch.ends().len(),
        batch_from_parts([batch.keys(), batch.offsets(), batch.ends()], batch.values();),
        batch.clone().into_parts() => |(keys, offsets, ends, values)| {
            RleBatch::from_parts(keys, offsets, ends, values).map(Checked)
        }
    );
}

/// A call that looks keys up, in a batch that has an index of them or in one where the original
/// makes it first.
macro_rules! lookup {
    ($bench:expr, $indexed:expr, $make:expr, |$input:pat_param| $units:expr, $call:ident $arguments:tt,
     $batch:ident => $original:expr) => {
        if $indexed {
            versus!($bench, $make, |$input| $units, $call $arguments, () => |()| $original);
        } else {
            versus!($bench, $make, |$input| $units, $call $arguments, $batch.clone() => |owned| {
                let $batch = &owned;
                let result = $original?;
                Ok(Kept(result, owned))
            });
        }
    };
}

/// A batch, and a key a third in.
fn with_key(rng: &mut Rng, runs: usize) -> (Batch, u32) {
    let batch = ascending(rng, runs);
    let key = batch.keys()[batch.len() / 3];
    (batch, key)
}

fn position(bench: &mut Bench, indexed: bool) {
    lookup!(bench, indexed, with_key, |(batch, key)| 1, batch_position([batch.keys()], *key;), batch => {
        Result::Ok(batch.position(key))
    });
}

/// The sequence of a key, copied.
fn get(bench: &mut Bench, indexed: bool) {
    lookup!(
        bench,
        indexed,
        with_key,
        |(batch, key)| 1,
        batch_get(
            [batch.keys(), batch.offsets(), batch.ends()], batch.values(), *key;
            ends: RUNS_OF_KEY, values: RUNS_OF_KEY
        ),
        batch => Result::Ok(batch.get(key).map(|rle| rle.to_rle()))
    );
}

/// A batch, an interval of some 25 runs for each of its keys, in another order, and all their runs.
struct Intervals {
    batch: Batch,
    keys: Vec<u32>,
    starts: Vec<i64>,
    stops: Vec<i64>,
    touched: usize,
}

impl Intervals {
    fn new(rng: &mut Rng, runs: usize, order: Order) -> Self {
        let batch = of_runs(rng, runs, order);
        let keys = inputs::reordered(rng, batch.keys());
        let (starts, stops) = inputs::intervals(rng, keys.len(), 800, 500);
        let items = batch
            .getitems(&keys, &starts, &stops)
            .expect("they are valid");
        let touched = items.ends().len();
        Intervals {
            batch,
            keys,
            starts,
            stops,
            touched,
        }
    }
}

fn getitems(bench: &mut Bench, order: Order, indexed: bool) {
    lookup!(
        bench,
        indexed,
        |rng, runs| Intervals::new(rng, runs, order),
        |Intervals { batch, keys, starts, stops, touched }| keys.len(),
        batch_getitems(
            [batch.keys(), batch.offsets(), batch.ends(), batch.values(), keys, starts, stops];
            offsets: keys.len() + 1, ends: *touched, values: *touched
        ),
        batch => batch.getitems(keys, starts, stops)
    );
}

/// The means.
fn slice_reduce(bench: &mut Bench, order: Order, indexed: bool) {
    lookup!(
        bench,
        indexed,
        |rng, runs| Intervals::new(rng, runs, order),
        |Intervals { batch, keys, starts, stops, .. }| keys.len(),
        batch_slice_reduce(
            [batch.keys(), batch.offsets(), batch.ends(), batch.values(), keys, starts, stops],
            MEAN, DDOF;
            kinds: keys.len(), bits: keys.len()
        ),
        batch => batch.slice_reduce(keys, starts, stops, |part| part.mean()).map(Reductions)
    );
}

/// A call that makes each sequence anew, of at most one run more.
macro_rules! each {
    ($bench:expr, |$batch:ident| $call:ident($($argument:expr),*), $original:expr) => {
        versus!(
            $bench,
            ascending,
            |$batch| $batch.ends().len(),
            $call(
                [$batch.keys(), $batch.offsets(), $batch.ends(), $batch.values()] $(, $argument)*;
                keys: $batch.len(), offsets: $batch.len() + 1,
                ends: $batch.ends().len() + $batch.len(), values: $batch.ends().len() + $batch.len()
            ),
            () => |()| Ok($original)
        )
    };
}

fn shift(bench: &mut Bench) {
    each!(
        bench,
        |batch| batch_shift(10, 7),
        batch.shift(black_box(10), 7)
    );
}

fn reversed(bench: &mut Bench) {
    each!(bench, |batch| batch_reversed(), batch.reversed());
}

/// Of every key from a start up to an end.
fn map_rles_slice(bench: &mut Bench, start: i64, end: i64) {
    each!(bench, |batch| batch_map_rles_slice(start, end), {
        let (start, end) = (black_box(start), black_box(end));
        batch.map_rles(|rle| rle.slice(start, end))
    });
}

/// Sums under new keys, which the library takes as a list: of a key, by the number of keys.
fn collapse(bench: &mut Bench, new_key: fn(u32, u32) -> u32) {
    let make = |rng: &mut Rng, runs| {
        let batch = ascending(rng, runs);
        let count = batch.len() as u32;
        let new_keys: Vec<u32> = batch
            .keys()
            .iter()
            .map(|&key| new_key(key, count))
            .collect();
        (batch, new_keys)
    };
    versus!(
        bench,
        make,
        |(batch, new_keys)| batch.ends().len(),
        batch_collapse(
            [batch.keys(), batch.offsets(), batch.ends(), batch.values(), new_keys], FILL, ADD;
            keys: batch.len(), offsets: batch.len() + 1,
            ends: batch.ends().len(), values: batch.ends().len(),
            scratch_ends: 2 * batch.ends().len(), scratch_values: 2 * batch.ends().len()
        ),
        () => |()| {
            let count = new_keys.len() as u32;
            batch.collapse(|&key| new_key(key, count), Some(&FILL.value), add)
        }
    );
}

fn concat(bench: &mut Bench, make: fn(&mut Rng, usize) -> [Batch; 2]) {
    versus!(
        bench,
        make,
        |batches @ [a, b]| runs_of(batches),
        batch_concat(
            [
                a.keys(), a.offsets(), a.ends(), a.values(),
                b.keys(), b.offsets(), b.ends(), b.values()
            ];
            keys: keys_of(batches), offsets: keys_of(batches) + 1,
            ends: runs_of(batches), values: runs_of(batches)
        ),
        batches.clone() => |[a, b]| Ok(Kept(RleBatch::concat(&[&a, &b])?, [a, b]))
    );
}

/// The sums of an outer join.
fn zip_with(bench: &mut Bench, make: fn(&mut Rng, usize) -> [Batch; 2]) {
    versus!(
        bench,
        make,
        |batches @ [a, b]| runs_of(batches),
        batch_zip_with(
            [
                a.keys(), a.offsets(), a.ends(), a.values(),
                b.keys(), b.offsets(), b.ends(), b.values()
            ],
            OUTER, FILL, FILL, ADD;
            keys: keys_of(batches), offsets: keys_of(batches) + 1,
            ends: runs_of(batches), values: runs_of(batches)
        ),
        batches.clone() => |[a, b]| {
            let (how, fill) = (black_box(How::Outer), Some(&FILL.value));
            Ok(Kept(a.zip_with(&b, how, fill, fill, add)?, [a, b]))
        }
    );
}
