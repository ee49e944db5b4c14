//! Arguments: every small combination, and random ones around the boundaries, some of them damaged.

use crate::answer::Error;
use crate::call::{Arg, Call, Fill, Parameter};
use crate::keys::{crowded, descending, doubled_late, random as random_keys};
use std::collections::BTreeSet;

/// What a parameter stands for.
#[derive(Clone, Copy, PartialEq, Eq)]
pub enum Role {
    Runs,
    Ends,
    Values,
    /// One value for each position.
    Dense,
    /// The number of entries in use.
    Used,
    Run,
    Length,
    Value,
    Position,
    /// How far values are moved.
    Distance,
    /// Of the first sequence, or the only one.
    EndsA,
    ValuesA,
    /// Of the second.
    EndsB,
    ValuesB,
    /// Of any number of sequences laid flat, also of those of a batch, behind its keys.
    Keys,
    Offsets,
    FlatEnds,
    FlatValues,
    /// Of the second batch.
    KeysB,
    OffsetsB,
    FlatEndsB,
    FlatValuesB,
    /// A key that is looked up, and one for each interval.
    Key,
    GetKeys,
    /// One for each sequence of a batch, which puts it into a group.
    NewKeys,
    /// Which keys of two batches are kept.
    How,
    /// Of intervals.
    Starts,
    Stops,
    /// One past the last run of each group, after a 0.
    GroupOffsets,
    /// Which runs go with the run before.
    Mask,
    /// Which value of a group is kept.
    Keep,
    Fill,
    /// An operation.
    Code,
    /// An operation of those that compare.
    Comparison,
    /// A reduction.
    Reduction,
    /// What is taken off a length that a sum of squares is divided by.
    Ddof,
    /// A buffer of which the call reads nothing.
    Room,
    /// Such a buffer for indexes, for keys, for kinds of reductions, and for their bits.
    IndexRoom,
    KeyRoom,
    KindRoom,
    BitRoom,
    /// A buffer whose first entries an answer leaves free.
    Scratch,
}

impl Role {
    /// Whether the parameter is a buffer of which the call reads nothing.
    pub fn is_room(self) -> bool {
        use Role::*;
        matches!(
            self,
            Room | IndexRoom | KeyRoom | KindRoom | BitRoom | Scratch
        )
    }

    /// Whether the parameter says more of the sequences or intervals of the one `before` it.
    fn continues(self, before: Role) -> bool {
        use Role::*;
        match self {
            Offsets => before == Keys,
            Starts => before == GetKeys,
            ValuesA | ValuesB | FlatEnds | FlatValues | Stops | NewKeys => true,
            OffsetsB | FlatEndsB | FlatValuesB => true,
            _ => false,
        }
    }
}

/// The longest buffer that is made to fit an answer, and the longest with batches of many keys.
const LONGEST: u64 = 1 << 16;
const LONGEST_OF_BATCH: u64 = 1 << 20;

const MIN: i64 = i64::MIN;
const MAX: i64 = i64::MAX;

/// What lent buffers hold before a call: recognisable, and another number for each entry.
fn held(parameter: usize, entry: usize) -> i64 {
    -((parameter as i64 + 1) * 1000 + entry as i64)
}

/// A lent buffer of no entries.
fn no_room(role: Role) -> Arg {
    match role {
        Role::IndexRoom => Arg::Places(Vec::new()),
        Role::KeyRoom => Arg::Keys(Vec::new()),
        Role::KindRoom => Arg::Bytes(Vec::new()),
        Role::BitRoom => Arg::Bits(Vec::new()),
        _ => Arg::List(Vec::new()),
    }
}

/// Lent buffers of up to `most` entries, for the parameter at `index`.
fn rooms(index: usize, role: Role, most: usize) -> Vec<Arg> {
    let room = |length| {
        let mut room = no_room(role);
        lengthen(&mut room, index, length);
        room
    };
    (0..=most).map(room).collect()
}

/// Every way to take one out of each of the choices.
fn combinations<T: Clone>(choices: Vec<Vec<T>>) -> impl Iterator<Item = Vec<T>> {
    some_combinations(choices, 1)
}

/// One in `share` of them.
fn some_combinations<T: Clone>(choices: Vec<Vec<T>>, share: usize) -> impl Iterator<Item = Vec<T>> {
    let count: usize = choices.iter().map(Vec::len).product();
    (0..count).step_by(share).map(move |mut number| {
        let take = |choice: &Vec<T>| {
            let taken = choice[number % choice.len()].clone();
            number /= choice.len();
            taken
        };
        choices.iter().map(take).collect()
    })
}

/// Every list of `length` entries out of `entries`.
fn lists_of<T: Clone>(entries: &[T], length: usize) -> impl Iterator<Item = Vec<T>> {
    combinations(vec![entries.to_vec(); length])
}

/// Every list of up to `most` entries out of `entries`.
fn lists_up_to<T: Clone>(entries: &[T], most: usize) -> impl Iterator<Item = Vec<T>> {
    (0..=most).flat_map(|length| lists_of(entries, length))
}

fn lists(entries: &[i64], most: usize) -> Vec<Arg> {
    lists_up_to(entries, most).map(Arg::List).collect()
}

/// Every small argument for the parameter at `index`.
fn small_args(index: usize, parameter: &Parameter) -> Vec<Arg> {
    let numbers = |numbers: &[i64]| numbers.iter().copied().map(Arg::Number).collect();
    match parameter.role {
        Role::Runs => lists(&[MIN, -1, 0, 1, 2, MAX - 1, MAX], 3),
        Role::Ends => lists(&[MIN, -1, 0, 1, 2, 3, MAX - 1, MAX], 3),
        Role::Values => lists(&[7, -2], 3),
        Role::Dense => lists(&[7, -2, 0], 4),
        Role::Used => [0, 1, 2, 3, 4, usize::MAX].map(Arg::Count).to_vec(),
        Role::Run => numbers(&[MIN, -1, 0, 1, 2, MAX - 1, MAX]),
        Role::Length => numbers(&[MIN, -1, 0, 1, 2, 3, 4, MAX - 1, MAX]),
        Role::Value => numbers(&[7, -2]),
        Role::Position => numbers(&[MIN, -1, 0, 1, 2, 3, 4, MAX - 1, MAX]),
        Role::Distance => numbers(&[MIN, MIN + 1, -3, -2, -1, 0, 1, 2, 3, MAX - 1, MAX]),
        Role::EndsA | Role::EndsB => lists(&[0, 1, 2, 3, MAX], 2),
        Role::Fill => {
            // Two fills that stand side by side differ.
            let value = [7, -2][index % 2];
            [0, 1]
                .map(|given| Arg::Fill(Fill { given, value }))
                .to_vec()
        }
        Role::Code => [0, 3, 6, 8, 10].map(Arg::Code).to_vec(),
        Role::Comparison => [6, 7, 8, 9].map(Arg::Code).to_vec(),
        Role::Keep => [0, 1, 2].map(Arg::Code).to_vec(),
        Role::Mask => lists_up_to(&[0, 1, 2], 3).map(Arg::Bytes).collect(),
        Role::GroupOffsets => lists_up_to(&[0, 1, 2, 3, usize::MAX], 4)
            .map(Arg::Places)
            .collect(),
        Role::Reduction => [0, 1, 2, 3].map(Arg::Code).to_vec(),
        Role::Ddof => numbers(&[MIN, -1, 0, 1, 2, 3, MAX]),
        Role::Keys => lists_up_to(&[0, 1, 2, u32::MAX], 5)
            .map(Arg::Keys)
            .collect(),
        Role::Key => [0, 1, 2, 3, u32::MAX].map(Arg::Key).to_vec(),
        Role::How => [0, 1, 2, 3, 4].map(Arg::Code).to_vec(),
        Role::Room | Role::IndexRoom => rooms(index, parameter.role, 6),
        Role::KindRoom | Role::BitRoom => rooms(index, parameter.role, 3),
        Role::ValuesA
        | Role::ValuesB
        | Role::Offsets
        | Role::FlatEnds
        | Role::FlatValues
        | Role::KeysB
        | Role::OffsetsB
        | Role::FlatEndsB
        | Role::FlatValuesB
        | Role::GetKeys
        | Role::NewKeys
        | Role::Starts
        | Role::Stops
        | Role::KeyRoom
        | Role::Scratch => panic!("no argument by itself: {}", parameter.name),
    }
}

/// The sequences with these ends and every choice of two values.
fn with_values(ends: &[i64]) -> impl Iterator<Item = Column> {
    lists_of(&[7, -2], ends.len()).map(|values| Column::new(ends, values))
}

/// Small sequences, valid, and damaged.
fn small_columns() -> Vec<Vec<Arg>> {
    const ENDS: &[&[i64]] = &[
        &[],
        &[1],
        &[2],
        &[3],
        &[MAX],
        &[1, 2],
        &[1, 3],
        &[2, 3],
        &[1, MAX],
        &[1, 2, 3],
    ];
    const DAMAGED: &[(&[i64], &[i64])] = &[
        (&[0], &[7]),
        (&[2, 2], &[7, -2]),
        (&[3, 1], &[7, 7]),
        (&[1], &[]),
        (&[], &[7]),
    ];
    let valid = ENDS.iter().flat_map(|ends| with_values(ends));
    let valid = valid.map(|column| vec![Arg::List(column.ends()), Arg::List(column.values)]);
    let damaged = DAMAGED.iter();
    let damaged = damaged.map(|(ends, values)| vec![list(ends), list(values)]);
    valid.chain(damaged).collect()
}

fn list(entries: &[i64]) -> Arg {
    Arg::List(entries.to_vec())
}

/// Sequences of at most two positions.
fn smallest_columns() -> Vec<Column> {
    const ENDS: &[&[i64]] = &[&[], &[1], &[2], &[1, 2]];
    ENDS.iter().flat_map(|ends| with_values(ends)).collect()
}

/// Up to three small sequences and about 128 alike, laid flat, and damaged ones.
fn small_flat() -> Vec<Vec<Arg>> {
    // 129 sequences, of which the last alone has a run.
    const TOO_MANY: &[usize] = &{
        let mut offsets = [0; 130];
        offsets[129] = 1;
        offsets
    };
    const DAMAGED: &[(&[usize], &[i64], &[i64])] = &[
        (&[], &[], &[]),
        (&[], &[1], &[7]),
        (&[1], &[1], &[7]),
        (&[1, 1], &[1], &[7]),
        (&[0], &[1], &[7]),
        (&[0, 1], &[], &[]),
        (&[0, 1], &[1, 2], &[7, 7]),
        (&[0, 2, 1], &[1], &[7]),
        (&[0, usize::MAX], &[1], &[7]),
        (&[0, usize::MAX, 1], &[1], &[7]),
        (&[usize::MAX, 1], &[1], &[7]),
        (&[0, 1], &[1], &[]),
        (&[0, 0], &[], &[7]),
        (&[0, 1], &[0], &[7]),
        (&[0, 1, 2], &[1, 0], &[7, 7]),
        (&[0, 2, 3], &[2, 2, 0], &[7, 7, 7]),
        (&[0, 1, 3], &[MAX, 1, 1], &[7, 7, 7]),
        (TOO_MANY, &[0], &[7]),
    ];
    let small = smallest_columns();
    let few = (0..=3).flat_map(|number| combinations(vec![small.clone(); number]));
    let many = [127, 128, 129].into_iter().flat_map(|number| {
        let ends: [&[i64]; 3] = [&[], &[1], &[MAX]];
        ends.map(|ends| vec![Column::new(ends, vec![7; ends.len()]); number])
    });
    let valid = few.chain(many).map(|columns| laid_flat(&columns).to_vec());
    let damaged = DAMAGED.iter().map(|(offsets, ends, values)| {
        vec![Arg::Places(offsets.to_vec()), list(ends), list(values)]
    });
    valid.chain(damaged).collect()
}

fn laid_flat(columns: &[Column]) -> [Arg; 3] {
    let ends = Arg::List(flat_ends(columns));
    let values = Arg::List(flat_values(columns));
    [Arg::Places(offsets(columns)), ends, values]
}

fn batch(keys: &[u32], columns: &[Column]) -> Vec<Arg> {
    [&[Arg::Keys(keys.to_vec())], &laid_flat(columns)[..]].concat()
}

/// The smallest sequences in turn, so many of them, from the first or a later one on.
fn in_turn(first: usize, count: usize) -> Vec<Column> {
    let columns = smallest_columns().into_iter().cycle();
    columns.skip(first).take(count).collect()
}

/// Batches of these keys, their sequences in turn from so many different ones on, and damaged ones.
fn batches(key_lists: impl Iterator<Item = Vec<u32>>, turns: usize) -> Vec<Vec<Arg>> {
    let of_keys = |keys: Vec<u32>| {
        let batch = move |first| batch(&keys, &in_turn(first, keys.len()));
        (0..turns).map(batch)
    };
    key_lists
        .flat_map(of_keys)
        .chain(damaged_batches())
        .collect()
}

fn damaged_batches() -> impl Iterator<Item = Vec<Arg>> {
    type Parts = (
        &'static [u32],
        &'static [usize],
        &'static [i64],
        &'static [i64],
    );
    const DAMAGED: &[Parts] = &[
        (&[], &[], &[], &[]),
        (&[], &[0, 0], &[], &[]),
        (&[1], &[], &[1], &[]),
        (&[1], &[0], &[], &[]),
        (&[1], &[0, 1, 1], &[1], &[7]),
        (&[1], &[0, 1], &[1], &[]),
        (&[1], &[1, 1], &[0], &[7]),
        (&[1], &[0, 1], &[1, 2], &[7, 7]),
        (&[1], &[0, usize::MAX], &[1], &[7]),
        (&[2, 1], &[0, 2, 1], &[1], &[7]),
        (&[2, 1], &[0, usize::MAX, 1], &[1], &[7]),
        (&[1], &[0, 1], &[0], &[7]),
        (&[2, 2], &[0, 1, 3], &[1, 2, 2], &[7, 7, -2]),
        (&[2, 1], &[0, 2, 3], &[2, 2, 0], &[7, 7, 7]),
    ];
    DAMAGED.iter().map(|(keys, offsets, ends, values)| {
        let keys = Arg::Keys(keys.to_vec());
        let offsets = Arg::Places(offsets.to_vec());
        vec![keys, offsets, list(ends), list(values)]
    })
}

/// Lists of up to five keys, also of double ones.
fn key_lists() -> impl Iterator<Item = Vec<u32>> {
    const MORE: &[&[u32]] = &[
        &[1, 2, 3],
        &[3, 1, 2],
        &[2, 1, 2],
        &[1, 2, 3, 4],
        &[4, 2, 3, 0],
        &[1, 2, 3, 4, 5],
        &[5, 3, 1, 2, 4],
        &[1, 2, 1, 2, 1],
    ];
    let more = MORE.iter().map(|keys| keys.to_vec());
    lists_up_to(&[1, 2, 3], 2).chain(more)
}

/// Batches for a call that takes one: fewer where there is much to combine them with, more where
/// keys are all that matters.
fn small_batches(call: &Call) -> Vec<Vec<Arg>> {
    if call.takes(Role::Reduction) {
        batches(key_lists(), 3)
    } else if call.takes(Role::GetKeys) || call.takes(Role::KeyRoom) {
        batches(key_lists(), 9)
    } else {
        let mut batches = batches(lists_up_to(&[0, 1, 2, 3, u32::MAX], 5), 9);
        batches.extend(many_keys().map(|keys| batch(&keys, &in_turn(0, keys.len()))));
        batches
    }
}

/// More keys than an index of the library takes at once, descending or scattered, with none twice, and
/// with one that is, near or far.
fn many_keys() -> impl Iterator<Item = Vec<u32>> {
    const COUNT: usize = 20_000;
    const STEPS: [u32; 3] = [1, 1 << 16, 0x9e37_79b9];
    const DOUBLES: [[usize; 2]; 3] = [[0, 0], [0, COUNT - 1], [COUNT / 2, COUNT / 2 + 1]];
    STEPS.into_iter().flat_map(|step| {
        DOUBLES.into_iter().map(move |[first, second]| {
            let descending = (0..COUNT as u32).rev();
            let mut keys: Vec<u32> = descending.map(|k| k.wrapping_mul(step)).collect();
            keys[second] = keys[first];
            keys
        })
    })
}

/// Batches for a call that takes two.
fn small_pairs() -> Vec<Vec<Arg>> {
    let mut pairs = batches(key_lists(), 2);
    // Together they are too long.
    let longest = [&[1], &[MAX]].map(|ends| Column::new(ends, vec![7]));
    pairs.push(batch(&[2, 1], &longest));
    pairs
}

/// Batches of up to five keys with a new key for each, and damaged ones.
fn small_groups() -> Vec<Vec<Arg>> {
    let every = (0..=3).flat_map(|count| combinations(vec![smallest_columns(); count]));
    let more = (4..=5).flat_map(|count| (0..9).map(move |first| in_turn(first, count)));
    let groups = every.chain(more).flat_map(|columns| {
        let keys: Vec<u32> = (1..).take(columns.len()).collect();
        let batch = batch(&keys, &columns);
        let new_keys = lists_of(&[2, 0, u32::MAX], columns.len());
        new_keys.map(move |keys| [&batch[..], &[Arg::Keys(keys)]].concat())
    });
    let damaged = damaged_batches().flat_map(|batch| {
        let new_keys = lists_up_to(&[1], 2);
        new_keys.map(move |keys| [&batch[..], &[Arg::Keys(keys)]].concat())
    });
    groups.chain(damaged).collect()
}

/// Up to two small intervals with a key for each, valid, and damaged.
fn small_lookups() -> Vec<Vec<Arg>> {
    let lookups = small_intervals().into_iter().flat_map(|intervals| {
        let count = <&[i64]>::from(&intervals[0]).len();
        let keys = lists_of(&[1, 3], count).chain([vec![2; count], vec![2; count + 1]]);
        keys.map(move |keys| [&[Arg::Keys(keys)], &intervals[..]].concat())
    });
    lookups.collect()
}

/// Up to two small intervals, valid, and damaged.
fn small_intervals() -> Vec<Vec<Arg>> {
    const PAIRS: &[(&[i64], &[i64])] = &[
        (&[], &[]),
        (&[0], &[]),
        (&[], &[0]),
        (&[0, 1], &[1]),
        (&[0, 1], &[1, 3]),
        (&[1, 0], &[2, MAX]),
        (&[2, 0], &[2, 2]),
        (&[0, 2], &[3, 1]),
        (&[0, -1], &[3, 1]),
        (&[1, -1], &[0, 1]),
    ];
    const LIMITS: &[i64] = &[MIN, -1, 0, 1, 2, 3, MAX];
    let one = lists_of(LIMITS, 2).map(|pair| vec![list(&pair[..1]), list(&pair[1..])]);
    let pairs = PAIRS.iter();
    let pairs = pairs.map(|(starts, stops)| vec![list(starts), list(stops)]);
    one.chain(pairs).collect()
}

/// Batches that have keys in common and sequences of several lengths, for a call that joins two or
/// gathers one's.
fn meeting_batches(call: &Call) -> Vec<Vec<Arg>> {
    let columns =
        |runs: [(&[i64], &[i64]); 3]| runs.map(|(ends, values)| Column::new(ends, values.to_vec()));
    let a = columns([(&[1], &[7]), (&[1], &[2]), (&[2, 3], &[7, 1])]);
    let b = columns([(&[1, 2], &[1, 7]), (&[2], &[3]), (&[3], &[7])]);
    let (a, b) = (batch(&[4, 1, 9], &a), batch(&[9, 2, 4], &b));
    let fill = |value| Arg::Fill(Fill { given: 1, value });
    let add = Arg::Code(0);
    let inputs: Vec<Vec<Arg>> = match call.name {
        "batch_collapse" => [[6, 6, 6], [6, 0, 6]]
            .map(|new_keys| {
                let more = [Arg::Keys(new_keys.to_vec()), fill(5), add.clone()];
                [&a[..], &more].concat()
            })
            .to_vec(),
        "batch_concat" => vec![[a, b].concat()],
        "batch_zip_with" => [0, 1, 2, 3]
            .map(|how| {
                let more = [Arg::Code(how), fill(10), fill(20), add.clone()];
                [&a[..], &b, &more].concat()
            })
            .to_vec(),
        _ => Vec::new(),
    };
    let inputs = inputs.into_iter();
    inputs.map(|inputs| with_rooms(call, inputs)).collect()
}

/// These inputs with buffers as long as document 01 asks.
pub fn with_rooms(call: &Call, inputs: Vec<Arg>) -> Vec<Arg> {
    let mut args = inputs;
    let rooms = call.parameters[args.len()..].iter();
    args.extend(rooms.map(|room| no_room(room.role)));
    lengthen_to_need(call, &call.lent_at(), &mut args);
    args
}

/// Seams of document 01 whose numbers are floats, and what short random cases seldom show.
pub fn seams(call: &Call) -> Vec<Vec<Arg>> {
    const MEAN: u8 = 1;
    const VARIANCE: u8 = 2;
    // The last number up to which all whole numbers are floats.
    const LAST: i64 = 1 << 53;
    const REDUCED: &[(&[i64], &[i64], u8, i64)] = &[
        (&[1], &[LAST + 1], MEAN, 0),
        (&[1], &[LAST + 3], MEAN, 0),
        (&[2, 4], &[1, 3], VARIANCE, 0),
        (&[2, 4], &[1, 3], VARIANCE, 3),
        (&[2, 4], &[1, 3], VARIANCE, 4),
    ];
    let reduced = |intervals: &[Arg], rooms: &[Arg]| {
        let args = |&(ends, values, code, ddof): &_| {
            let column = [list(ends), list(values)];
            let reduction = [Arg::Code(code), Arg::Number(ddof)];
            [&column, intervals, &reduction, rooms].concat()
        };
        REDUCED.iter().map(args).collect()
    };
    match call.name {
        "reduce" => reduced(&[], &[]),
        // All of the sequence, and all but a position.
        "slice_reduce" => reduced(
            &[list(&[0, 1]), list(&[MAX, MAX])],
            &[Arg::Bytes(vec![7; 2]), Arg::Bits(vec![7; 2])],
        ),
        _ => meeting_batches(call),
    }
}

/// Every combination of small arguments. Of buffers there are those of every small length; a call on
/// batches, which has too many, gets such as fit, are longer, and are short of an entry.
pub fn small(call: &Call) -> impl Iterator<Item = Vec<Arg>> {
    some_small(call, 1)
}

/// One in `share` of the combinations of small arguments.
pub fn some_small(call: &Call, share: usize) -> impl Iterator<Item = Vec<Arg>> {
    let on_batches = call.takes(Role::Keys);
    let parameters: Vec<(usize, &Parameter)> = call.parameters.iter().enumerate().collect();
    let groups = parameters.chunk_by(|(_, one), (_, next)| next.role.continues(one.role));
    let choices = groups.map(|group| match group {
        [(_, room)] if on_batches && room.lent => vec![vec![no_room(room.role)]],
        [(index, parameter)] => {
            let args = small_args(*index, parameter).into_iter();
            args.map(|arg| vec![arg]).collect()
        }
        [(_, first), .., (_, last)] => match (first.role, last.role) {
            (Role::Starts, _) => small_intervals(),
            (Role::GetKeys, _) => small_lookups(),
            (Role::Keys, Role::NewKeys) => small_groups(),
            (Role::Keys, _) if !call.takes(Role::KeysB) => small_batches(call),
            (Role::Keys | Role::KeysB, _) => small_pairs(),
            (Role::Offsets, _) => small_flat(),
            _ => small_columns(),
        },
        [] => unreachable!("a group has a parameter"),
    });
    let combinations = some_combinations(choices.collect(), share).map(|groups| groups.concat());
    combinations.flat_map(move |args| match on_batches {
        true => fitted(call, args),
        false => vec![args],
    })
}

/// These arguments with buffers as long as document 01 asks, with longer ones, and with one short.
fn fitted(call: &Call, mut args: Vec<Arg>) -> Vec<Vec<Arg>> {
    let lent = call.lent_at();
    lengthen_to_need(call, &lent, &mut args);
    let mut longer = args.clone();
    lent.iter()
        .for_each(|&index| lengthen(&mut longer[index], index, 1 + index % 3));
    let short = lent.iter().map(|&index| {
        let mut short = args.clone();
        shorten(&mut short[index]);
        short
    });
    let mut fitted: Vec<Vec<Arg>> = short.filter(|short| *short != args).collect();
    if !lent.is_empty() {
        fitted.push(longer);
    }
    fitted.push(args);
    fitted
}

/// So many intervals, and keys, that the library makes an index of the keys.
pub const MANY: usize = 600;

/// SplitMix64.
pub struct Rng(u64);

impl Rng {
    pub fn new(seed: u64) -> Self {
        Rng(seed)
    }

    /// That of one of several workers: the first has the seed itself.
    pub fn of_worker(seed: u64, worker: usize) -> Self {
        Rng(seed.wrapping_add((worker as u64) << 32))
    }

    pub fn word(&mut self) -> u64 {
        self.0 = self.0.wrapping_add(0x9e37_79b9_7f4a_7c15);
        let mut z = self.0;
        z = (z ^ (z >> 30)).wrapping_mul(0xbf58_476d_1ce4_e5b9);
        z = (z ^ (z >> 27)).wrapping_mul(0x94d0_49bb_1331_11eb);
        z ^ (z >> 31)
    }

    /// A number from 0 up to `bound`, not included.
    pub fn below(&mut self, bound: usize) -> usize {
        (self.word() % bound as u64) as usize
    }

    pub fn one_in(&mut self, n: usize) -> bool {
        self.below(n) == 0
    }

    pub fn pick<T: Copy>(&mut self, choices: &[T]) -> T {
        choices[self.below(choices.len())]
    }

    /// Any i64, most often one near 0 or a limit, or near or at the middle of two floats.
    fn number(&mut self) -> i64 {
        let near = self.below(7) as i64 - 3;
        match self.below(5) {
            0 => self.word() as i64,
            1 => i64::MAX.wrapping_add(near),
            2 => {
                // Floats from 2^53 * half on are 2 * half apart.
                let half = 1 << self.below(10);
                let middle = (half << 53) + half * near;
                self.pick(&[middle, -middle]) + self.pick(&[-1, 0, 0, 1])
            }
            _ => near,
        }
    }
}

/// A valid sequence, from which related arguments are taken.
#[derive(Clone)]
struct Column {
    runs: Vec<i64>,
    values: Vec<i64>,
}

impl Column {
    fn new(ends: &[i64], values: Vec<i64>) -> Self {
        let starts = [0].iter().chain(ends);
        let runs = ends.iter().zip(starts).map(|(end, start)| end - start);
        Column {
            runs: runs.collect(),
            values,
        }
    }

    fn random(rng: &mut Rng) -> Self {
        let most = rng.pick(&[2, 7, 7, 40]);
        let count = rng.below(most);
        let longest = rng.pick(&[1, 4, 4, 100, i64::MAX as usize / 40]);
        let mut runs: Vec<i64> = (0..count).map(|_| rng.below(longest) as i64 + 1).collect();
        if count > 0 && rng.one_in(4) {
            let length: i64 = runs.iter().sum();
            let spare = rng.below(3) as i64;
            runs[rng.below(count)] += i64::MAX - spare - length;
        }
        let one = rng.number();
        let other = rng.number();
        // Sums may cancel.
        let different = [
            one,
            other,
            rng.pick(&[one.wrapping_neg(), other.wrapping_add(1)]),
        ];
        let kinds = rng.below(3) + 1;
        let values = (0..count).map(|_| rng.pick(&different[..kinds])).collect();
        Column { runs, values }
    }

    /// A sequence of at most `most` runs that often has ends in common with this one, or shows the
    /// same; of the same length if `equal` says so.
    fn related(&self, most: usize, equal: bool, rng: &mut Rng) -> Self {
        let length = self.length();
        let mut ends = self.ends();
        match rng.below(5) {
            0 => ends = Column::random(rng).ends(),
            1 => {}
            2 => ends.retain(|_| rng.one_in(2)),
            3 => ends
                .iter_mut()
                .for_each(|end| *end = end.saturating_add(rng.below(3) as i64 - 1)),
            _ => {
                ends.extend((0..rng.below(4)).map(|_| 1 + rng.below(length.max(1) as usize) as i64))
            }
        }
        ends.retain(|&end| end > 0 && !(equal && end >= length));
        ends.sort();
        ends.dedup();
        ends.truncate(most - 1);
        if equal && length > 0 {
            ends.push(length);
        }
        let values = self.related_values(&ends, rng);
        Column::new(&ends, values)
    }

    /// Sequences related to this one, under keys of which some are among the given ones.
    fn related_batch(&self, given: &[u32], rng: &mut Rng) -> Keyed {
        let keys = related_keys(given, rng);
        let equal = rng.one_in(3);
        let columns = keys.iter();
        let columns = columns.map(|_| self.related(most_runs(keys.len()), equal, rng));
        Keyed {
            columns: columns.collect(),
            keys,
        }
    }

    /// Values for runs with these ends: what this sequence shows there, but for one at times, or
    /// few different ones.
    fn related_values(&self, ends: &[i64], rng: &mut Rng) -> Vec<i64> {
        let different = [rng.number(), self.values.first().copied().unwrap_or(0)];
        let own = self.ends();
        let same = rng.one_in(2);
        let value = |end: &i64| match own.iter().position(|own| own >= end) {
            Some(run) if same => self.values[run],
            _ => rng.pick(&different),
        };
        let mut values: Vec<i64> = ends.iter().map(value).collect();
        if !values.is_empty() && rng.one_in(4) {
            values[rng.below(ends.len())] = rng.number();
        }
        values
    }

    fn length(&self) -> i64 {
        self.runs.iter().sum()
    }

    fn ends(&self) -> Vec<i64> {
        let add = |end: &mut i64, run: &i64| {
            *end += run;
            Some(*end)
        };
        self.runs.iter().scan(0, add).collect()
    }

    /// The values shown, of a long run only the first positions.
    fn dense(&self) -> Vec<i64> {
        let runs = self.runs.iter().zip(&self.values);
        runs.flat_map(|(&run, &value)| std::iter::repeat_n(value, run.min(100) as usize))
            .collect()
    }

    /// A value that the last run has as well, or any.
    fn value(&self, rng: &mut Rng) -> i64 {
        match self.values.last() {
            Some(&last) if rng.one_in(2) => last,
            _ => rng.number(),
        }
    }

    /// A position, most often near the limit of a run.
    fn position(&self, rng: &mut Rng) -> i64 {
        let near = rng.below(5) as i64 - 2;
        let end = match self.ends()[..] {
            [] => 0,
            ref ends => rng.pick(ends),
        };
        match rng.below(8) {
            0 => rng.number(),
            1 => near,
            2 => rng.below(self.length() as usize + 1) as i64,
            3 => end,
            _ => end.wrapping_add(near),
        }
    }

    /// Intervals, few of them invalid, some past the length.
    fn intervals(&self, rng: &mut Rng) -> Vec<[i64; 2]> {
        let careless = rng.one_in(8);
        let number = rng.pick(&[0, 1, 2, 3, 8]);
        let interval = |_| match careless {
            true => [self.position(rng), self.position(rng)],
            false => self.interval(rng),
        };
        (0..number).map(interval).collect()
    }

    /// A valid interval, at times past the length.
    fn interval(&self, rng: &mut Rng) -> [i64; 2] {
        let mut pair = [self.position(rng), self.position(rng)];
        pair = pair.map(|position| position.max(0));
        pair.sort();
        pair
    }

    /// Offsets of groups of this sequence's runs.
    fn group_offsets(&self, rng: &mut Rng) -> Vec<usize> {
        let runs = self.runs.len();
        let mut offsets: Vec<usize> = (0..rng.below(6)).map(|_| rng.below(runs + 1)).collect();
        match rng.below(16) {
            0 => {}
            1 => offsets.sort(),
            _ => {
                offsets.extend([0, runs]);
                offsets.sort();
            }
        }
        offsets
    }

    /// Runs, some of them of 0 or any number.
    fn careless_runs(&self, rng: &mut Rng) -> Vec<i64> {
        let one_in = rng.pick(&[6, 20]);
        let other = |&run: &i64| match rng.below(one_in) {
            0 => 0,
            1 => rng.number(),
            _ => run,
        };
        self.runs.iter().map(other).collect()
    }
}

/// Sequences under keys.
#[derive(Default)]
struct Keyed {
    keys: Vec<u32>,
    columns: Vec<Column>,
}

impl Keyed {
    fn keys_differ(&self) -> bool {
        let different: BTreeSet<u32> = self.keys.iter().copied().collect();
        different.len() == self.keys.len()
    }
}

/// What the arguments of a call are taken from.
struct Drawn {
    /// A sequence that stands for all.
    column: Column,
    /// The sequences that the call takes, of a batch with their keys.
    first: Keyed,
    /// The second batch, for a call that takes one.
    second: Keyed,
    intervals: Vec<[i64; 2]>,
}

impl Drawn {
    fn new(call: &Call, rng: &mut Rng) -> Self {
        let column = Column::random(rng);
        let columns = columns(call, &column, rng);
        let keys = match call.takes(Role::Keys) {
            true => keys(columns.len(), rng),
            false => Vec::new(),
        };
        let second = match call.takes(Role::KeysB) {
            true => column.related_batch(&keys, rng),
            false => Keyed::default(),
        };
        Drawn {
            intervals: column.intervals(rng),
            column,
            first: Keyed { keys, columns },
            second,
        }
    }

    /// Two or more points from 0 on that never fall and reach the longest length, many of them at
    /// the end of a run, at one another or past the end. Seldom there are more than 128 pieces.
    fn points(&self, rng: &mut Rng) -> Vec<i64> {
        let columns = self.first.columns.iter().chain(&self.second.columns);
        let columns: Vec<&Column> = columns.collect();
        let longest = columns.iter().map(|column| column.length()).max();
        let longest = longest.unwrap_or(0);
        let last = rng.pick(&[longest, longest, longest.saturating_add(1), MAX]);
        let more = match rng.below(100) {
            0 => 150,
            _ => rng.pick(&[0, 1, 2, 2, 3, 3, 5, 8]),
        };
        let mut points = vec![0, last];
        for _ in 0..more {
            let point = match columns[..] {
                [] => rng.number(),
                _ if rng.one_in(4) => rng.pick(&points),
                _ => rng.pick(&columns).position(rng),
            };
            points.push(point.max(0));
        }
        points.sort();
        points
    }

    fn arg(&self, role: Role, rng: &mut Rng) -> Arg {
        let Drawn {
            column,
            first,
            second,
            intervals,
        } = self;
        let length = column.length();
        let near = rng.below(5) as i64 - 2;
        match role {
            Role::Runs => Arg::List(column.careless_runs(rng)),
            Role::Ends => Arg::List(column.ends()),
            Role::Values => Arg::List(column.values.clone()),
            Role::Dense => Arg::List(column.dense()),
            Role::Used => Arg::Count(column.runs.len()),
            Role::Run => Arg::Number(match rng.below(3) {
                0 => (i64::MAX - length).wrapping_add(near),
                1 => rng.number(),
                _ => near.abs(),
            }),
            Role::Length => Arg::Number(match rng.below(3) {
                0 => rng.number(),
                1 => length,
                _ => length.wrapping_add(near),
            }),
            Role::Value => Arg::Number(column.value(rng)),
            Role::Position => Arg::Number(column.position(rng)),
            Role::Distance => {
                let distance = match rng.below(3) {
                    0 => near,
                    1 => length.wrapping_add(near),
                    _ => column.position(rng),
                };
                Arg::Number(rng.pick(&[distance, distance.wrapping_neg()]))
            }
            Role::EndsA => Arg::List(first.columns[0].ends()),
            Role::ValuesA => Arg::List(first.columns[0].values.clone()),
            Role::EndsB => Arg::List(first.columns[1].ends()),
            Role::ValuesB => Arg::List(first.columns[1].values.clone()),
            Role::Keys => Arg::Keys(first.keys.clone()),
            Role::Offsets => Arg::Places(offsets(&first.columns)),
            Role::FlatEnds => Arg::List(flat_ends(&first.columns)),
            Role::FlatValues => Arg::List(flat_values(&first.columns)),
            Role::KeysB => Arg::Keys(second.keys.clone()),
            Role::OffsetsB => Arg::Places(offsets(&second.columns)),
            Role::FlatEndsB => Arg::List(flat_ends(&second.columns)),
            Role::FlatValuesB => Arg::List(flat_values(&second.columns)),
            Role::Key => Arg::Key(key_near(&first.keys, rng)),
            Role::GetKeys => {
                let keys = intervals.iter().map(|_| key_near(&first.keys, rng));
                Arg::Keys(keys.collect())
            }
            Role::NewKeys => Arg::Keys(new_keys(first.keys.len(), rng)),
            Role::How => Arg::Code(match rng.below(16) {
                0 => rng.pick(&[4, 5, 128, 255]),
                _ => rng.below(4) as u8,
            }),
            Role::Starts => Arg::List(intervals.iter().map(|[start, _]| *start).collect()),
            Role::Stops => Arg::List(intervals.iter().map(|[_, stop]| *stop).collect()),
            Role::GroupOffsets => Arg::Places(column.group_offsets(rng)),
            Role::Mask => {
                let runs = column.runs.len();
                let one_in = rng.pick(&[1, 2, 2, 4, 8]);
                let byte = |_| match rng.below(200) {
                    0 => rng.word() as u8,
                    _ => rng.one_in(one_in).into(),
                };
                Arg::Bytes((1..runs).map(byte).collect())
            }
            Role::Keep => Arg::Code(match rng.below(16) {
                0 => rng.pick(&[2, 3, 128, 255]),
                _ => rng.pick(&[0, 1]),
            }),
            Role::Comparison => Arg::Code(match rng.below(16) {
                0 => rng.pick(&[0, 6, 9, 10, 255]),
                _ => rng.pick(&[7, 8]),
            }),
            Role::Fill => Arg::Fill(Fill {
                given: rng.pick(&[0, 1, 1, 2, u64::MAX]),
                value: column.value(rng),
            }),
            Role::Code => Arg::Code(match rng.below(16) {
                0 => rng.pick(&[10, 11, 128, 255]),
                _ => rng.below(10) as u8,
            }),
            Role::Reduction => Arg::Code(match rng.below(16) {
                0 => rng.pick(&[3, 4, 128, 255]),
                _ => rng.below(3) as u8,
            }),
            Role::Ddof => Arg::Number(match rng.below(4) {
                0 => rng.number(),
                1 => length.wrapping_add(near),
                _ => near,
            }),
            Role::Room
            | Role::IndexRoom
            | Role::KeyRoom
            | Role::KindRoom
            | Role::BitRoom
            | Role::Scratch => no_room(role),
        }
    }
}

/// A job to be cut, of valid columns and, in a batch, different keys: the inputs of a call, those
/// that belong together in a group, and the points.
pub fn job(call: &Call, rng: &mut Rng) -> (Vec<Vec<Arg>>, Vec<i64>) {
    let drawn = loop {
        let drawn = Drawn::new(call, rng);
        if [&drawn.first, &drawn.second]
            .iter()
            .all(|batch| batch.keys_differ())
        {
            break drawn;
        }
    };
    let parameters = call.parameters.iter();
    let inputs: Vec<&Parameter> = parameters.filter(|parameter| !parameter.lent).collect();
    let groups = inputs.chunk_by(|one, next| next.role.continues(one.role));
    let groups = groups.map(|group| {
        let args = group.iter().map(|input| drawn.arg(input.role, rng));
        args.collect()
    });
    (groups.collect(), drawn.points(rng))
}

/// Different keys, ascending, descending or in any order, and at times one of them twice.
fn keys(count: usize, rng: &mut Rng) -> Vec<u32> {
    let step = rng.pick(&[1, 1, 7, u32::MAX / 130]);
    let first = rng.pick(&[0, 1, u32::MAX - 1]);
    let mut keys: Vec<u32> = (0..count as u32)
        .map(|k| first.wrapping_add(k.wrapping_mul(step)))
        .collect();
    match rng.below(4) {
        0 => keys.sort(),
        1 => keys.reverse(),
        _ => shuffle(&mut keys, rng),
    }
    if rng.one_in(8) {
        repeat_one(&mut keys, rng);
    }
    keys
}

/// Keys of which all, some or none are among the given ones, in the same order or another.
fn related_keys(given: &[u32], rng: &mut Rng) -> Vec<u32> {
    let mut keys = given.to_vec();
    match rng.below(6) {
        0 | 1 => {}
        2 => keys.retain(|_| rng.one_in(2)),
        3 => keys = self::keys(rng.below(6), rng),
        4 => keys
            .iter_mut()
            .for_each(|key| *key = key.wrapping_add(u32::from(rng.one_in(2)) * 100)),
        _ => keys.extend((0..rng.below(4) as u32).map(|more| 1000 + more)),
    }
    match rng.below(3) {
        0 => {}
        1 => keys.sort(),
        _ => shuffle(&mut keys, rng),
    }
    if rng.one_in(8) {
        repeat_one(&mut keys, rng);
    }
    keys
}

pub fn shuffle(keys: &mut [u32], rng: &mut Rng) {
    for last in (1..keys.len()).rev() {
        keys.swap(last, rng.below(last + 1));
    }
}

/// Puts a key of the list in the place of another, unless there is none.
fn repeat_one(keys: &mut [u32], rng: &mut Rng) {
    if !keys.is_empty() {
        let key = rng.pick(keys);
        keys[rng.below(keys.len())] = key;
    }
}

/// One of the keys, or another.
fn key_near(keys: &[u32], rng: &mut Rng) -> u32 {
    match keys {
        [] => rng.below(3) as u32,
        _ if rng.one_in(6) => rng.pick(keys).wrapping_add(1),
        _ => rng.pick(keys),
    }
}

/// New keys for so many sequences: equal ones, neighbours, any of a few, or all different.
fn new_keys(count: usize, rng: &mut Rng) -> Vec<u32> {
    let groups = rng.pick(&[1, 2, 3, 5]);
    let first = rng.pick(&[0, u32::MAX - 2]);
    let order = rng.below(3);
    let new_key = |k: usize| match order {
        0 => k / groups,
        1 => rng.below(groups),
        _ => k,
    };
    (0..count)
        .map(new_key)
        .map(|key| first.wrapping_add(key as u32))
        .collect()
}

fn offsets(columns: &[Column]) -> Vec<usize> {
    let add = |offset: &mut usize, column: &Column| {
        *offset += column.runs.len();
        Some(*offset)
    };
    let behind = columns.iter().scan(0, add);
    std::iter::once(0).chain(behind).collect()
}

fn flat_ends(columns: &[Column]) -> Vec<i64> {
    columns.iter().flat_map(Column::ends).collect()
}

fn flat_values(columns: &[Column]) -> Vec<i64> {
    let values = columns.iter().flat_map(|column| &column.values);
    values.copied().collect()
}

/// The most runs of each of so many sequences: of many each is short, so that there is room for the
/// plan's indexes.
fn most_runs(sequences: usize) -> usize {
    if sequences > 16 { 3 } else { usize::MAX }
}

/// As many sequences as the call takes, most of them related to the first given.
fn columns(call: &Call, first: &Column, rng: &mut Rng) -> Vec<Column> {
    let any_number = call.takes(Role::Offsets) || call.takes(Role::Keys);
    let number = match (call.takes(Role::EndsB), any_number) {
        (false, false) => 1,
        (true, _) => 2,
        _ if rng.one_in(10) => rng.pick(&[127, 128, 129]),
        _ => rng.pick(&[0, 1, 2, 2, 3, 3, 4, 5, 8, 16]),
    };
    let most = most_runs(number);
    let equal = number > 1 && rng.one_in(3);
    let mut columns = Vec::new();
    if number > 0 && first.runs.len() <= most {
        columns.push(first.clone());
    }
    while columns.len() < number {
        columns.push(first.related(most, equal, rng));
    }
    columns
}

/// How long the lent buffers are, before any damage.
#[derive(Clone, Copy, PartialEq, Eq, PartialOrd, Ord)]
pub enum Fit {
    Exact,
    Spare,
    Short,
}

/// Arguments of a call on batches, with so many keys and wanted keys that an index is made of them, or of a call that takes intervals, so
/// many that the library looks them up block by block.
pub fn large(call: &Call, number: usize, rng: &mut Rng) -> Vec<Arg> {
    let column = Column::random(rng);
    let keys = keys(number, rng);
    let columns = keys.iter().map(|_| column.related(3, false, rng)).collect();
    let drawn = Drawn {
        second: column.related_batch(&keys, rng),
        first: Keyed { keys, columns },
        intervals: (0..MANY).map(|_| column.interval(rng)).collect(),
        column,
    };
    let parameters = call.parameters.iter();
    let mut args: Vec<Arg> = parameters.map(|p| drawn.arg(p.role, rng)).collect();
    lengthen_to_need(call, &call.lent_at(), &mut args);
    args
}

/// How many keys batches of many have: enough for a table, for several, and for many.
pub const KEY_COUNTS: [usize; 3] = [600, 5_000, 40_000];

/// Arguments of a call on batches with so many keys: random, crowded, descending, and with double ones late in the list; of these one
/// in `share`.
pub fn of_keys(
    call: &Call,
    count: usize,
    share: usize,
    rng: &mut Rng,
) -> impl Iterator<Item = Vec<Arg>> {
    let lists = [
        random_keys(count, rng),
        crowded(count, rng),
        descending(count),
        doubled_late(count, rng),
    ];
    let lists = lists.into_iter().step_by(share);
    lists.map(|keys| with_keys(call, keys, rng))
}

/// Arguments with these keys, which are the new ones, too. The second batch has other keys for a third of them, in another order. All
/// sequences are of one length and all codes valid, so that the keys are looked for.
fn with_keys(call: &Call, keys: Vec<u32>, rng: &mut Rng) -> Vec<Arg> {
    let mut others = keys.clone();
    let replaced = others.iter_mut().step_by(3);
    replaced.for_each(|key| *key = rng.word() as u32);
    shuffle(&mut others, rng);
    let first = of_equal_lengths(keys, rng);
    let drawn = Drawn {
        second: of_equal_lengths(others, rng),
        intervals: first.columns.iter().map(|c| c.interval(rng)).collect(),
        column: first.columns[0].clone(),
        first,
    };
    let arg = |parameter: &Parameter| match parameter.role {
        Role::NewKeys => Arg::Keys(drawn.first.keys.clone()),
        Role::How => Arg::Code(rng.below(4) as u8),
        Role::Code => Arg::Code(rng.below(10) as u8),
        Role::Reduction => Arg::Code(rng.below(3) as u8),
        role => drawn.arg(role, rng),
    };
    let mut args: Vec<Arg> = call.parameters.iter().map(arg).collect();
    lengthen_up_to(LONGEST_OF_BATCH, call, &call.lent_at(), &mut args);
    args
}

/// Sequences of two runs and five positions.
fn of_equal_lengths(keys: Vec<u32>, rng: &mut Rng) -> Keyed {
    let column = |_| {
        let values = vec![rng.number(), rng.number()];
        Column::new(&[1 + rng.below(4) as i64, 5], values)
    };
    Keyed {
        columns: keys.iter().map(column).collect(),
        keys,
    }
}

/// Arguments of a call that takes some, made from random sequences and half the time damaged.
pub fn random(call: &Call, rng: &mut Rng) -> (Vec<Arg>, Fit) {
    let drawn = Drawn::new(call, rng);
    let parameters = call.parameters.iter();
    let mut args: Vec<Arg> = parameters.map(|p| drawn.arg(p.role, rng)).collect();
    let lent = call.lent_at();
    lengthen_to_need(call, &lent, &mut args);
    let fit = match lent.len() {
        0 => Fit::Exact,
        _ => rng.pick(&[Fit::Exact, Fit::Spare, Fit::Short]),
    };
    match fit {
        Fit::Exact => {}
        Fit::Spare => lent
            .iter()
            .for_each(|&index| lengthen(&mut args[index], index, rng.below(4))),
        Fit::Short => shorten(&mut args[rng.pick(&lent)]),
    }
    if rng.one_in(2) {
        for _ in 0..=rng.below(2) {
            let index = rng.below(args.len());
            damage(&mut args[index], rng);
        }
    }
    (args, fit)
}

/// Makes each buffer as long as document 01 asks.
fn lengthen_to_need(call: &Call, lent: &[usize], args: &mut [Arg]) {
    lengthen_up_to(LONGEST, call, lent, args);
}

fn lengthen_up_to(longest: u64, call: &Call, lent: &[usize], args: &mut [Arg]) {
    loop {
        let refusal = call.naive(args).answer.refusal;
        let [which, needed, given] = refusal.values;
        if !refusal.is(Error::ShortBuffer) || needed > longest {
            return;
        }
        let index = lent[which as usize];
        lengthen(&mut args[index], index, (needed - given) as usize);
    }
}

/// Puts so many entries behind a buffer, the one for the parameter at `index`.
fn lengthen(arg: &mut Arg, index: usize, more: usize) {
    fn extend<T>(list: &mut Vec<T>, more: usize, held: impl Fn(usize) -> T) {
        list.extend((list.len()..list.len() + more).map(held));
    }
    match arg {
        Arg::List(list) => extend(list, more, |entry| held(index, entry)),
        // An index is not negative.
        Arg::Places(list) => extend(list, more, |entry| {
            held(index, entry).unsigned_abs() as usize
        }),
        Arg::Keys(list) => extend(list, more, |entry| held(index, entry).unsigned_abs() as u32),
        Arg::Bytes(list) => extend(list, more, |entry| held(index, entry) as u8),
        Arg::Bits(list) => extend(list, more, |entry| held(index, entry) as u64),
        arg => panic!("no buffer: {arg}"),
    }
}

/// Takes the last entry off a buffer, if it has any.
fn shorten(arg: &mut Arg) {
    match arg {
        Arg::List(list) => drop(list.pop()),
        Arg::Places(list) => drop(list.pop()),
        Arg::Keys(list) => drop(list.pop()),
        Arg::Bytes(list) => drop(list.pop()),
        Arg::Bits(list) => drop(list.pop()),
        arg => panic!("no buffer: {arg}"),
    }
}

fn damage(arg: &mut Arg, rng: &mut Rng) {
    match arg {
        Arg::List(list) => damage_list(list, rng),
        Arg::Places(list) => {
            damage_as_signed(list, |place| place as i64, |number| number as usize, rng)
        }
        Arg::Bits(list) => damage_as_signed(list, |bits| bits as i64, |number| number as u64, rng),
        Arg::Keys(list) => match rng.below(4) {
            0 => drop(list.pop()),
            1 => list.push(key_near(list, rng)),
            2 => repeat_one(list, rng),
            _ => shuffle(list, rng),
        },
        Arg::Bytes(list) => match (rng.below(3), list.len()) {
            (0, _) => drop(list.pop()),
            (1, _) | (_, 0) => list.push(rng.pick(&[0, 1, 2])),
            (_, length) => list[rng.below(length)] = rng.word() as u8,
        },
        Arg::Number(number) => *number = damaged(*number, rng),
        Arg::Count(count) => {
            *count = match rng.below(3) {
                0 => count.wrapping_sub(1),
                1 => count.wrapping_add(1),
                _ => rng.word() as usize,
            }
        }
        Arg::Key(key) => *key = rng.word() as u32,
        Arg::Fill(fill) => fill.given = u64::from(fill.given == 0),
        Arg::Code(code) => *code = rng.word() as u8,
    }
}

fn damage_as_signed<T: Copy>(
    list: &mut Vec<T>,
    signed: fn(T) -> i64,
    back: fn(i64) -> T,
    rng: &mut Rng,
) {
    let mut numbers = list.iter().copied().map(signed).collect();
    damage_list(&mut numbers, rng);
    *list = numbers.into_iter().map(back).collect();
}

fn damage_list(list: &mut Vec<i64>, rng: &mut Rng) {
    match (rng.below(4), list.len()) {
        (0, _) => {
            list.pop();
        }
        (1, _) | (_, 0) => list.push(rng.number()),
        (_, length) => {
            let entry = rng.below(length);
            let before = if entry == 0 { 0 } else { list[entry - 1] };
            list[entry] = match rng.below(3) {
                0 => before,
                1 => before.wrapping_sub(1),
                _ => damaged(list[entry], rng),
            };
        }
    }
}

fn damaged(number: i64, rng: &mut Rng) -> i64 {
    match rng.below(4) {
        0 => number.wrapping_neg(),
        1 => number.wrapping_sub(1),
        2 => number.wrapping_add(1),
        _ => rng.number(),
    }
}
