//! Demand 3: cutting a job never shows. A job is done whole and in pieces, by one side's calls.

use crate::call::{Arg, Call, Fill, Outcome, Runs};
use crate::inputs::{self, Rng};
use crate::naive;
use std::collections::BTreeSet;
use std::fmt::Debug;

/// The calls that combine columns: two-way, many-way, and of batches.
pub const COMBINATIONS: [&str; 3] = ["zip_with", "zip_many", "batch_zip_with"];

/// What a job comes to, whole as in pieces.
#[derive(Debug, PartialEq, Eq)]
pub struct Joined {
    /// Of a batch.
    pub keys: Vec<u32>,
    pub sequences: Vec<Runs>,
    /// For each set of pieces the sum of each sequence.
    pub sums: Vec<Vec<i64>>,
}

/// The number of the refusal, where the job is refused.
pub type Done = Result<Joined, u64>;

/// How the pieces differ from the whole, or that a call on them was refused.
pub type Difference = String;

/// Whose calls do a job.
#[derive(Clone, Copy, Debug)]
pub enum Side {
    Library,
    Original,
}

impl Side {
    pub const BOTH: [Side; 2] = [Side::Library, Side::Original];

    /// What the call makes of these inputs, in buffers as long as document 01 asks. `None` outside
    /// the side's domain.
    fn outcome(self, call: &Call, inputs: Vec<Arg>) -> Option<Outcome> {
        let args = inputs::with_rooms(call, inputs);
        match self {
            Side::Library => Some(call.library(&args)),
            Side::Original => call.original(&args, &call.naive(&args)),
        }
    }

    /// What the call makes of a part of a job in the domain.
    fn of_part(self, call: &Call, inputs: Vec<Arg>) -> Result<Outcome, Difference> {
        let outcome = self.outcome(call, inputs);
        outcome.ok_or_else(|| format!("{} gets what is outside the domain", call.name))
    }

    /// What the call of this name answers.
    fn answered(self, name: &str, inputs: Vec<Arg>) -> Result<Outcome, Difference> {
        let outcome = self.of_part(Call::named(name), inputs)?;
        match outcome.answer.refusal.number {
            0 => Ok(outcome),
            number => Err(format!("{name} gives {number}")),
        }
    }

    /// The part of every column of a group, from a start up to an end. What is no column stays.
    fn slice(self, group: &[Arg], limits: [i64; 2]) -> Result<Vec<Arg>, Difference> {
        let sliced = |name| {
            let limits = limits.map(Arg::Number);
            let outcome = self.answered(name, [group, &limits].concat())?;
            Ok(written(&outcome))
        };
        match group {
            [_] => Ok(group.to_vec()),
            [_, _] => sliced("slice"),
            [_, _, _] => {
                let columns = sequences(group).into_iter();
                let slices = columns.map(|column| self.slice(&args(column), limits));
                let slices = slices.collect::<Result<Vec<_>, _>>()?;
                Ok(laid_flat(slices.iter().flat_map(|slice| sequences(slice))))
            }
            _ => sliced("batch_map_rles_slice"),
        }
    }

    fn concat(self, parts: impl Iterator<Item = Runs>) -> Result<Runs, Difference> {
        let outcome = self.answered("concat", laid_flat(parts))?;
        Ok(sequences(&written(&outcome)).remove(0))
    }

    fn sum(self, runs: &Runs) -> Result<i64, Difference> {
        let outcome = self.answered("sum", args(runs.clone()))?;
        Ok(outcome.answer.counts[0] as i64)
    }

    fn sums(self, sequences: &[Runs]) -> Result<Vec<i64>, Difference> {
        sequences.iter().map(|runs| self.sum(runs)).collect()
    }
}

/// The ends and values that an answer has written; of a batch, behind its keys and offsets.
fn written(outcome: &Outcome) -> Vec<Arg> {
    let counts = match outcome.answer.counts[..] {
        [runs] => vec![runs, runs],
        [keys, runs] => vec![keys, keys + 1, runs, runs],
        _ => unreachable!("a sequence or a batch is counted"),
    };
    let lent = outcome.lent.iter().zip(counts);
    lent.map(|(list, count)| list.first(count)).collect()
}

/// The sequences of a group of arguments, or of what a call has written.
fn sequences(group: &[Arg]) -> Vec<Runs> {
    match group {
        [.., offsets, ends, values] => {
            let [ends, values] =
                [ends, values].map(|list| naive::parts(offsets.into(), list.into()));
            let parts = ends.into_iter().zip(values);
            parts.map(|(e, v)| (e.to_vec(), v.to_vec())).collect()
        }
        [ends, values] => {
            let [ends, values] = [ends, values].map(|list| <&[i64]>::from(list).to_vec());
            vec![(ends, values)]
        }
        _ => unreachable!("no sequence is by itself"),
    }
}

fn keys(group: &[Arg]) -> Vec<u32> {
    match group {
        [keys, _, _, _] => <&[u32]>::from(keys).to_vec(),
        _ => Vec::new(),
    }
}

fn args((ends, values): Runs) -> Vec<Arg> {
    vec![Arg::List(ends), Arg::List(values)]
}

fn laid_flat(sequences: impl Iterator<Item = Runs>) -> Vec<Arg> {
    let (offsets, ends, values) = naive::laid_flat(sequences.collect());
    [vec![Arg::Places(offsets)], args((ends, values))].concat()
}

/// What a combination has written, or the number of its refusal.
type Combined = Result<Vec<Arg>, u64>;

fn combined(outcome: Outcome) -> Combined {
    match outcome.answer.refusal.number {
        0 => Ok(written(&outcome)),
        number => Err(number),
    }
}

/// Do the pieces come to what the whole does?
fn same<T: PartialEq + Debug>(what: &str, pieces: T, whole: T) -> Result<(), Difference> {
    match pieces == whole {
        true => Ok(()),
        false => Err(format!("{what}: in pieces {pieces:?}, whole {whole:?}")),
    }
}

/// Joins what the sets of pieces come to, and holds it against the whole.
fn joined(side: Side, whole: Combined, sets: Vec<Combined>) -> Result<Done, Difference> {
    let refusal = |result: &Combined| result.as_ref().err().copied();
    let refusals: BTreeSet<u64> = sets.iter().filter_map(refusal).collect();
    same("refusals", refusals, refusal(&whole).into_iter().collect())?;
    let whole = match whole {
        Ok(whole) => whole,
        Err(number) => return Ok(Err(number)),
    };
    let sets: Vec<Vec<Arg>> = sets.into_iter().flatten().collect();
    for set in &sets {
        same("keys", keys(set), keys(&whole))?;
    }
    let (keys, whole) = (keys(&whole), sequences(&whole));
    let sets: Vec<Vec<Runs>> = sets.iter().map(|set| sequences(set)).collect();
    let parts = |k: usize| sets.iter().map(move |set| set[k].clone());
    let joined = (0..whole.len()).map(|k| side.concat(parts(k)));
    let joined: Vec<Runs> = joined.collect::<Result<_, _>>()?;
    same("runs", &joined, &whole)?;
    let sums = sets.iter().map(|set| side.sums(set));
    let sums: Vec<Vec<i64>> = sums.collect::<Result<_, _>>()?;
    let added = |k: usize| sums.iter().map(|set| set[k]).fold(0, i64::wrapping_add);
    let added = (0..whole.len()).map(added).collect();
    same("sums", added, side.sums(&whole)?)?;
    Ok(Ok(Joined {
        keys,
        sequences: joined,
        sums,
    }))
}

/// A job, and the points at which it is cut.
pub struct Job {
    pub call: &'static Call,
    /// The call's inputs, in order. Those of a column, of columns laid flat or of a batch are a
    /// group; any other is one by itself.
    pub groups: Vec<Vec<Arg>>,
    pub points: Vec<i64>,
}

impl Job {
    pub fn random(call: &'static Call, rng: &mut Rng) -> Self {
        let (groups, points) = inputs::job(call, rng);
        Job {
            call,
            groups,
            points,
        }
    }

    /// What the side makes of the job, whole and in pieces. `None` outside the side's domain.
    pub fn run(&self, side: Side) -> Option<Result<Done, Difference>> {
        let whole = combined(side.outcome(self.call, self.groups.concat())?);
        let cuts = self.points.windows(2);
        let sets = cuts.map(|cut| self.set(side, [cut[0], cut[1]]));
        let sets: Result<Vec<_>, _> = sets.collect();
        Some(sets.and_then(|sets| joined(side, whole, sets)))
    }

    /// What a set of pieces comes to.
    fn set(&self, side: Side, limits: [i64; 2]) -> Result<Combined, Difference> {
        let pieces = self.groups.iter().map(|group| side.slice(group, limits));
        let pieces = pieces.collect::<Result<Vec<_>, _>>()?;
        Ok(combined(side.of_part(self.call, pieces.concat())?))
    }
}

/// Document 01's seam: an add with the second's fill, and what it comes to.
pub fn seam() -> (Job, Joined) {
    let fill = |given| vec![Arg::Fill(Fill { given, value: 0 })];
    let column = |ends: &[i64], values: &[i64]| args((ends.to_vec(), values.to_vec()));
    let job = Job {
        call: Call::named("zip_with"),
        groups: vec![
            column(&[3, 5, 9], &[7, 2, 7]),
            column(&[2, 5], &[1, 4]),
            fill(0),
            fill(1),
            vec![Arg::Code(0)],
        ],
        points: vec![0, 4, 4, 12],
    };
    let joined = Joined {
        keys: Vec::new(),
        sequences: vec![(vec![2, 3, 5, 9], vec![8, 11, 6, 7])],
        sums: vec![vec![33], vec![0], vec![34]],
    };
    (job, joined)
}
