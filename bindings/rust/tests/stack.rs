//! Every call of include/runlength.h on a thread with a stack of 96 KiB, where the header promises 64 KiB at most; what is
//! over is for the thread itself and for the crate. The inputs are made outside of that thread.
//!
//! A call that takes more stack fails no assertion: the process dies (SIGABRT), and its last words are "thread 'batch_concat,
//! 1000 keys, random' has overflowed its stack". `docs/stack` says where the stack goes.

use std::collections::BTreeSet;
use std::thread;

use runlength::{
    Comparison, How, Keep, MergePlan, Op, Reduction, Rle, RleBatch, RleLike, RleRef, concat,
    merge_plan, plan, plan_many, zip_many,
};

const STACK: usize = 96 * 1024;
const SIZES: [usize; 4] = [1, 10, 1_000, 100_000];

/// The factor of the hash by which the library looks keys up.
const FACTOR: u32 = 2_891_336_453;

/// The number that gives 1 with an odd factor, modulo 2^32. Each step doubles how many of the lowest bits are right, of
/// which there are three at first.
const fn inverse(factor: u32) -> u32 {
    let mut inverse = factor;
    let mut right = 3;
    while right < u32::BITS {
        inverse = inverse.wrapping_mul(2_u32.wrapping_sub(factor.wrapping_mul(inverse)));
        right *= 2;
    }
    inverse
}

#[test]
fn crowded_keys_have_neighbouring_hashes() {
    let hashes: Vec<u32> = crowded(5, 3).map(|key| key.wrapping_mul(FACTOR)).collect();
    assert_eq!(hashes, [5, 6, 7]);
}

fn ascending(first: u32, count: u32) -> impl Iterator<Item = u32> {
    first..first + count
}

fn crowded(first: u32, count: u32) -> impl Iterator<Item = u32> {
    ascending(first, count).map(|i| i.wrapping_mul(const { inverse(FACTOR) }))
}

/// An xorshift, which gives no number twice before it has given all but 0.
fn random(first: u32, count: u32) -> impl Iterator<Item = u32> {
    let next = |key: &u32| {
        let key = key ^ (key << 13);
        let key = key ^ (key >> 17);
        Some(key ^ (key << 5))
    };
    std::iter::successors(Some(1), next)
        .skip(first as usize)
        .take(count as usize)
}

type Keys = fn(u32, u32) -> Vec<u32>;

const ORDERS: [(&str, Keys); 4] = [
    ("ascending", |first, count| {
        ascending(first, count).collect()
    }),
    ("descending", |first, count| {
        let mut keys: Vec<u32> = ascending(first, count).collect();
        keys.reverse();
        keys
    }),
    ("random", |first, count| random(first, count).collect()),
    ("crowded", |first, count| crowded(first, count).collect()),
];

/// Runs that end at `first`, `first + step` and so on; neighbours in pairs of one value.
fn column(runs: usize, first: i64, step: i64) -> Rle {
    let ends = (0..runs as i64).map(|r| first + r * step).collect();
    let values = (0..runs as i64).map(|r| r / 2 % 5).collect();
    Rle::from_ends(ends, values).unwrap()
}

struct Columns {
    a: Rle,
    b: Rle,
    /// As many as a call takes, with the runs spread over them; no two end at one position.
    many: Vec<Rle>,
    lengths: Vec<i64>,
    dense: Vec<i64>,
    mask: Vec<bool>,
    merged: MergePlan,
    starts: Vec<i64>,
    stops: Vec<i64>,
}

impl Columns {
    fn new(runs: usize) -> Self {
        let a = column(runs, 3, 3);
        let most = Rle::MAX_COLUMNS;
        let of_many = |c| column(runs.div_ceil(most), c + 1, most as i64);
        let mask: Vec<bool> = (1..runs).map(|r| r % 3 == 0).collect();
        Columns {
            b: column(runs, 2, 4),
            many: (0..most as i64).map(of_many).collect(),
            lengths: a.runs(),
            dense: a.to_dense(),
            merged: merge_plan(a.ends(), &mask).unwrap(),
            mask,
            starts: (0..runs as i64).collect(),
            stops: (0..runs as i64).map(|start| start + 9).collect(),
            a,
        }
    }

    fn views(&self) -> Vec<RleRef<'_>> {
        self.many.iter().map(RleLike::view).collect()
    }
}

struct Batches {
    a: RleBatch,
    /// Half of its keys are those of `a`.
    b: RleBatch,
    starts: Vec<i64>,
    stops: Vec<i64>,
}

impl Batches {
    fn new(keys: Keys, count: u32) -> Self {
        let rles = || (0..3).map(|runs| column(runs, 2, 3)).cycle();
        let batch = |first| RleBatch::from_rles(keys(first, count).into_iter().zip(rles()));
        Batches {
            a: batch(0).unwrap(),
            b: batch(count / 2).unwrap(),
            starts: vec![1; count as usize],
            stops: vec![4; count as usize],
        }
    }
}

/// The name of a call in the header, behind `rl_`, and how the crate is brought to make it.
type Calls<T> = &'static [(&'static str, fn(&T))];

const ON_COLUMNS: Calls<Columns> = &[
    ("empty", |_| _ = Rle::new()),
    ("from_runs", |c| {
        _ = Rle::from_runs(&c.lengths, c.a.values().to_vec()).unwrap()
    }),
    ("from_ends", |c| {
        _ = RleRef::from_ends(c.a.ends(), c.a.values()).unwrap()
    }),
    ("repeat", |c| _ = Rle::repeat(7, c.a.len()).unwrap()),
    ("push_run", |c| c.a.clone().push_run(2, 9).unwrap()),
    ("extend_to", |c| {
        c.a.clone().extend_to(c.a.len() + 2, 9).unwrap()
    }),
    ("from_dense", |c| {
        _ = Rle::from_dense(c.dense.iter().copied())
    }),
    ("to_dense", |c| _ = c.a.try_to_dense().unwrap()),
    ("equals", |c| assert!(c.a.equals(&c.a))),
    ("plan", |c| _ = plan(c.a.ends(), c.b.ends()).unwrap()),
    ("zip_with", |c| {
        _ = c.a.zip_with(&c.b, Some(&0), Some(&0), Op::Add).unwrap()
    }),
    ("zip_with_raw", |c| {
        _ = c.a.zip_with_raw(&c.b, Some(&0), Some(&0), Op::Add).unwrap()
    }),
    ("plan_many", |c| {
        let ends: Vec<&[i64]> = c.many.iter().map(RleLike::ends).collect();
        _ = plan_many(&ends).unwrap()
    }),
    ("zip_many", |c| {
        _ = zip_many(&c.views(), Some(&0), Op::Add).unwrap()
    }),
    ("run_index", |c| {
        assert!(c.a.run_index(c.a.len() - 1).is_some())
    }),
    ("slice", |c| _ = c.a.slice(1, c.a.len() - 1)),
    ("slice_view", |c| _ = c.a.slice_view(1, c.a.len() - 1)),
    ("slice_view_values", |c| {
        _ = c.a.slice_view(1, c.a.len() - 1).values()
    }),
    ("getitems", |c| {
        _ = c.a.getitems(&c.starts, &c.stops).unwrap()
    }),
    ("concat", |c| _ = concat(c.views()).unwrap()),
    ("shift", |c| _ = c.a.shift(2, 0)),
    ("reversed", |c| _ = c.a.reversed()),
    ("ranges_where", |c| {
        _ = c.a.ranges_where(Comparison::Less, 2)
    }),
    ("merge", |c| _ = c.a.clone().merge()),
    ("merged", |c| _ = c.a.merged()),
    ("merge_mask", |c| {
        _ = c.a.clone().merge_mask(&c.mask, Keep::Last).unwrap()
    }),
    ("merge_by", |c| _ = c.a.clone().merge_by(Comparison::Less)),
    ("merge_plan", |c| {
        _ = merge_plan(c.a.ends(), &c.mask).unwrap()
    }),
    ("group_ids", |c| _ = c.merged.group_ids().unwrap()),
    ("sum", |c| _ = c.a.sum()),
    ("reduce", |c| _ = c.a.variance(0)),
    ("slice_reduce", |c| {
        let variance = Reduction::Variance { ddof: 0 };
        _ = c.a.slice_reduce(&c.starts, &c.stops, variance).unwrap()
    }),
];

const ON_BATCHES: Calls<Batches> = &[
    ("batch_from_parts", |b| {
        let (keys, offsets, ends, values) = b.a.clone().into_parts();
        _ = RleBatch::from_parts(keys, offsets, ends, values).unwrap()
    }),
    ("batch_position", |b| {
        assert!(b.a.position(b.a.keys().last().unwrap()).is_some())
    }),
    ("batch_get", |b| {
        assert!(b.a.get_rle(b.a.keys().last().unwrap()).is_some())
    }),
    ("batch_getitems", |b| {
        _ = b.a.getitems(b.b.keys(), &b.starts, &b.stops).unwrap()
    }),
    ("batch_slice_reduce", |b| {
        let variance = Reduction::Variance { ddof: 0 };
        _ =
            b.a.slice_reduce(b.b.keys(), &b.starts, &b.stops, variance)
                .unwrap()
    }),
    ("batch_shift", |b| _ = b.a.shift(2, 0)),
    ("batch_reversed", |b| _ = b.a.reversed()),
    ("batch_map_rles_slice", |b| _ = b.a.map_rles_slice(1, 4)),
    ("batch_collapse", |b| {
        // No new key twice, and ten of them.
        _ = b.a.collapse(|key| *key, Some(&0), Op::Add).unwrap();
        _ = b.a.collapse(|key| key % 10, Some(&0), Op::Add).unwrap()
    }),
    ("batch_concat", |b| {
        _ = RleBatch::concat(&[&b.a, &b.b]).unwrap()
    }),
    ("batch_zip_with", |b| {
        for how in [How::Outer, How::Inner, How::Left, How::Right] {
            _ =
                b.a.zip_with(&b.b, how, Some(&0), Some(&0), Op::Add)
                    .unwrap()
        }
    }),
];

/// Makes each call on a thread of its own, which is named after the call and its input.
fn make_calls<T: Sync>(calls: Calls<T>, input: &T, described: &str) {
    for (name, call) in calls {
        let thread = thread::Builder::new()
            .name(format!("{name}, {described}"))
            .stack_size(STACK);
        thread::scope(|scope| {
            let made = thread.spawn_scoped(scope, || call(input));
            made.unwrap().join().unwrap()
        });
    }
}

#[test]
fn every_call_of_the_header_is_made_here() {
    let declared = |line: &'static str| {
        let (_, rest) = line.strip_prefix("rl_")?.split_once(" rl_")?;
        Some(rest.split_once('(')?.0)
    };
    let header = include_str!("../../../include/runlength.h").lines();
    let declared: BTreeSet<_> = header.filter_map(declared).collect();
    let on_columns = ON_COLUMNS.iter().map(|call| call.0);
    let made: BTreeSet<_> = on_columns
        .chain(ON_BATCHES.iter().map(|call| call.0))
        .collect();
    assert_eq!(made, declared);
    assert_eq!(made.len(), 43);
}

#[test]
fn calls_on_columns() {
    for runs in SIZES {
        make_calls(ON_COLUMNS, &Columns::new(runs), &format!("{runs} runs"));
    }
}

#[test]
fn calls_on_batches() {
    for count in SIZES {
        for (order, keys) in ORDERS {
            let batches = Batches::new(keys, count as u32);
            make_calls(ON_BATCHES, &batches, &format!("{count} keys, {order}"));
        }
    }
}
