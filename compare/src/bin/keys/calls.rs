//! The calls that look for keys, timed with batches of one run for each key.

use compare::answer::{Answer, Error};
use compare::call::Fill;
use compare::library;
use compare::timing::{Side, lent};
use std::hint::black_box;

/// Once a turn has taken so long, in nanoseconds, there is no other.
pub const LONG: f64 = 1e9;

const ADD: u8 = 0;
const MEAN: u8 = 1;
const OUTER: u8 = 0;
const DDOF: i64 = 0;
const FILL: Fill = Fill { given: 1, value: 0 };

/// The positions of each sequence.
const LENGTH: i64 = 10;

/// The sequences of a batch of so many keys, and an interval for each.
pub struct Parts {
    offsets: Vec<usize>,
    ends: Vec<i64>,
    values: Vec<i64>,
    starts: Vec<i64>,
    /// The keys of a batch that is collapsed, in which no key is looked for.
    ascending: Vec<u32>,
}

impl Parts {
    pub fn new(count: usize) -> Self {
        Parts {
            offsets: (0..=count).collect(),
            ends: vec![LENGTH; count],
            values: (0..count as i64).collect(),
            starts: vec![0; count],
            ascending: (0..count as u32).collect(),
        }
    }
}

/// The keys of a batch, and a second list: those that are wanted, or those of another batch.
pub type Lists = [Vec<u32>; 2];

/// Times rounds of a turn with each of the inputs: nanoseconds for a turn.
type Time = fn(&Parts, &[Lists], u32) -> f64;

pub struct Call {
    pub name: &'static str,
    /// Whether it takes a second list.
    pub two_lists: bool,
    pub time: Time,
}

fn time<B>(
    inputs: &[Lists],
    rounds: u32,
    lend: impl Fn(&Lists) -> B,
    call: impl Fn(&Lists, &mut B) -> Answer,
) -> f64 {
    let mut side = Side::new(inputs, lend, |input, mut lent| {
        (call(input, &mut lent), lent)
    });
    for (answer, _) in side.first() {
        let refusal = answer.refusal;
        let looked = refusal.number == 0 || refusal.is(Error::DuplicateKey);
        assert!(looked, "it is refused for no other reason: {answer}");
    }
    for _ in 1..rounds {
        if side.best < LONG {
            side.time(1);
        }
    }
    side.best
}

/// Calls with what each is handed, of the parts and the lists, and the entries of its buffers.
macro_rules! calls {
    ($parts:ident, $first:ident, $second:ident; $($name:ident, $two:literal =>
     ($($argument:expr),*; $($buffer:ident: $room:expr),*);)*) => {
        #[allow(unused_variables)] // Not every call takes a second list.
        pub const CALLS: &[Call] = &[$(Call {
            name: stringify!($name),
            two_lists: $two,
            time: |$parts, inputs, rounds| time(
                inputs,
                rounds,
                |[$first, $second]| ($(lent($room),)*),
                |[$first, $second], ($($buffer,)*)| library::$name(
                    $(black_box($argument),)* $($buffer),*
                ).into(),
            ),
        }),*];
    };
}

calls! { p, first, second;
    batch_from_parts, false => (first, &p.offsets, &p.ends, &p.values;);
    batch_getitems, true => (
        first, &p.offsets, &p.ends, &p.values, second, &p.starts, &p.ends;
        offsets: second.len() + 1, ends: second.len(), values: second.len()
    );
    batch_slice_reduce, true => (
        first, &p.offsets, &p.ends, &p.values, second, &p.starts, &p.ends, MEAN, DDOF;
        kinds: second.len(), bits: second.len()
    );
    batch_zip_with, true => (
        first, &p.offsets, &p.ends, &p.values, second, &p.offsets, &p.ends, &p.values, OUTER, FILL, FILL, ADD;
        keys: 2 * first.len(), offsets: 2 * first.len() + 1, ends: 3 * first.len(), values: 3 * first.len()
    );
    batch_concat, true => (
        first, &p.offsets, &p.ends, &p.values, second, &p.offsets, &p.ends, &p.values;
        keys: 2 * first.len(), offsets: 2 * first.len() + 1, ends: 2 * first.len(), values: 2 * first.len()
    );
    batch_collapse, false => (
        &p.ascending, &p.offsets, &p.ends, &p.values, first, FILL, ADD;
        keys: first.len(), offsets: first.len() + 1, ends: first.len(), values: first.len(),
        scratch_ends: 2 * first.len(), scratch_values: 2 * first.len()
    );
}
