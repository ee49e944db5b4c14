//! The Rust original on flat lists. Its domain has no buffers and, outside the calls that only
//! check, valid sequences alone, and in a batch different keys. Of several keys that fail it names
//! the lowest as long as it runs on one thread.

use crate::answer::{self, Reduction, Refusal};
use crate::call::{Fill, Reading, Written};
use runlength::{
    Error, How, Keep, MergePlan, PlanMany, Result, Rle, RleBatch, RleLike, RleRef, SliceView,
};

/// The most positions that the original is asked to list: it allocates them.
const LISTED: i64 = 1 << 16;

impl From<Error> for Refusal {
    fn from(error: Error) -> Self {
        use answer::Error as Paper;
        match error {
            Error::LengthMismatch { what, left, right } => {
                let what = match what {
                    "runs and values" => 1,
                    "offsets and keys + 1" => 2,
                    "ends and values" => 3,
                    "merge mask and neighbouring run pairs" => 6,
                    "keys and starts" => 7,
                    "starts and ends" => 8,
                    _ => unreachable!("the original names no other lengths than these: {what}"),
                };
                Paper::LengthMismatch.with(&[what, left as u64, right as u64])
            }
            Error::InvalidOffsets => Paper::InvalidOffsets.with(&[]),
            Error::InvalidEnds { index } => Paper::InvalidEnds.with(&[index as u64]),
            Error::NegativeRun { index, run } => {
                Paper::NegativeRun.with(&[index as u64, run as u64])
            }
            Error::Overflow => Paper::Overflow.with(&[]),
            Error::DuplicateKey { position } => Paper::DuplicateKey.with(&[position as u64]),
            Error::InvalidInterval { index, start, end } => {
                Paper::InvalidInterval.with(&[index as u64, start as u64, end as u64])
            }
            Error::UnequalLength { left, right } => {
                Paper::UnequalLength.with(&[left as u64, right as u64])
            }
            Error::LengthTooShort {
                requested,
                required,
            } => Paper::LengthTooShort.with(&[requested as u64, required as u64]),
            Error::InKey { position, source } => Refusal::from(*source).at(position),
        }
    }
}

/// `None` outside the domain.
type InDomain = Option<Reading>;

fn made(result: Result<Rle<i64>>) -> InDomain {
    let written = result.map(|rle| Written::runs(rle.into_parts()));
    Some(written.map_err(Refusal::from))
}

/// A valid sequence.
fn view<'a>(ends: &'a [i64], values: &'a [i64]) -> Option<RleRef<'a, i64>> {
    RleRef::from_ends(ends, values).ok()
}

/// Valid ends alone, as a sequence of any values.
fn of_ends(ends: &[i64]) -> Option<RleRef<'_, i64>> {
    view(ends, ends)
}

/// The sequence in the first `used` entries, changed.
fn changed(
    ends: &[i64],
    values: &[i64],
    used: usize,
    change: impl FnOnce(&mut Rle<i64>) -> Result<()>,
) -> InDomain {
    let (ends, values) = (ends.get(..used)?, values.get(..used)?);
    let mut rle = Rle::from_ends(ends.to_vec(), values.to_vec()).ok()?;
    made(change(&mut rle).map(|()| rle))
}

pub fn empty() -> InDomain {
    Some(Ok(Written::nothing([Rle::<i64>::new().num_runs()])))
}

pub fn from_runs(runs: &[i64], values: &[i64]) -> InDomain {
    made(Rle::from_runs(runs, values.to_vec()))
}

pub fn from_ends(ends: &[i64], values: &[i64]) -> InDomain {
    let checked = RleRef::from_ends(ends, values);
    Some(
        checked
            .map(|_| Written::nothing([0]))
            .map_err(Refusal::from),
    )
}

pub fn repeat(value: i64, length: i64) -> InDomain {
    made(Rle::repeat(value, length))
}

pub fn push_run(ends: &[i64], values: &[i64], used: usize, run: i64, value: i64) -> InDomain {
    changed(ends, values, used, |rle| rle.push_run(run, value))
}

pub fn extend_to(ends: &[i64], values: &[i64], used: usize, length: i64, value: i64) -> InDomain {
    changed(ends, values, used, |rle| rle.extend_to(length, value))
}

pub fn from_dense(values: &[i64]) -> InDomain {
    made(Ok(Rle::from_dense(values.iter().copied())))
}

pub fn to_dense(ends: &[i64], values: &[i64]) -> InDomain {
    let rle = view(ends, values)?;
    (rle.len() <= LISTED).then(|| Ok(Written::list(rle.to_dense())))
}

/// The closure of a code's meaning.
fn operation(code: u8) -> Option<fn(&i64, &i64) -> i64> {
    Some(match code {
        0 => |x, y| x.wrapping_add(*y),
        1 => |x, y| x.wrapping_sub(*y),
        2 => |x, y| x.wrapping_mul(*y),
        3 => |x, y| *x.min(y),
        4 => |x, y| *x.max(y),
        5 => |x, _| *x,
        6 => |_, y| *y,
        7 => |x, y| i64::from(x == y),
        8 => |x, y| i64::from(x < y),
        9 => |x, y| ((*x as i128 + *y as i128) / 2) as i64,
        _ => return None,
    })
}

/// Valid sequences laid flat.
fn views<'a>(
    offsets: &[usize],
    ends: &'a [i64],
    values: &'a [i64],
) -> Option<Vec<RleRef<'a, i64>>> {
    let whole = offsets.first()? == &0 && offsets.last()? == &ends.len();
    if !whole || ends.len() != values.len() {
        return None;
    }
    let part = |pair: &[usize]| {
        let (ends, values) = (ends.get(pair[0]..pair[1])?, values.get(pair[0]..pair[1])?);
        view(ends, values)
    };
    offsets.windows(2).map(part).collect()
}

pub fn equals(a_ends: &[i64], a_values: &[i64], b_ends: &[i64], b_values: &[i64]) -> InDomain {
    let a = view(a_ends, a_values)?;
    let b = view(b_ends, b_values)?;
    Some(Ok(Written::nothing([a.equals(&b).into()])))
}

pub fn plan(a: &[i64], b: &[i64]) -> InDomain {
    let plan = runlength::plan(of_ends(a)?.ends(), of_ends(b)?.ends());
    Some(Ok(Written::plan(plan.ends, plan.idx_a, plan.idx_b)))
}

macro_rules! zips {
    ($($name:ident)*) => {
        $(pub fn $name(
            a_ends: &[i64], a_values: &[i64], b_ends: &[i64], b_values: &[i64],
            fill_a: Fill, fill_b: Fill, code: u8,
        ) -> InDomain {
            let a = view(a_ends, a_values)?;
            let b = view(b_ends, b_values)?;
            let (fill_a, fill_b) = (fill_a.option(), fill_b.option());
            let (fill_a, fill_b) = (fill_a.as_ref(), fill_b.as_ref());
            made(runlength::$name(a, b, fill_a, fill_b, operation(code)?))
        })*
    };
}

zips! { zip_with zip_with_raw }

pub fn plan_many(offsets: &[usize], ends: &[i64], values: &[i64]) -> InDomain {
    let views = views(offsets, ends, values)?;
    let inputs: Vec<&[i64]> = views.iter().map(RleLike::ends).collect();
    let PlanMany { ends, idx } = runlength::plan_many(&inputs);
    let segment = |s: usize| idx.iter().map(move |column| column[s]);
    let flat = (0..ends.len()).flat_map(segment).collect();
    Some(Ok(Written::plan_many(ends, flat)))
}

pub fn zip_many(offsets: &[usize], ends: &[i64], values: &[i64], fill: Fill, code: u8) -> InDomain {
    let views = views(offsets, ends, values)?;
    let operation = operation(code)?;
    let fold = |values: &[&i64]| {
        let values = values.iter().map(|&&value| value);
        let folded = values.reduce(|x, y| operation(&x, &y));
        folded.expect("a segment is a sequence's")
    };
    made(runlength::zip_many(&views, fill.option().as_ref(), fold))
}

pub fn run_index(ends: &[i64], pos: i64) -> InDomain {
    let index = of_ends(ends)?.run_index(pos);
    let counts = [index.is_some().into(), index.unwrap_or(0)];
    Some(Ok(Written::nothing(counts)))
}

pub fn slice(ends: &[i64], values: &[i64], start: i64, end: i64) -> InDomain {
    made(Ok(view(ends, values)?.slice(start, end)))
}

/// Where a part of a list starts in it, 0 of an empty part, and its length.
fn place(part: &[i64], list: &[i64]) -> [usize; 2] {
    let bytes = match part.len() {
        0 => 0,
        _ => part.as_ptr().addr() - list.as_ptr().addr(),
    };
    [bytes / size_of::<i64>(), part.len()]
}

pub fn slice_view(ends: &[i64], values: &[i64], start: i64, end: i64) -> InDomain {
    let rle = view(ends, values)?;
    let slice = rle.slice_view(start, end);
    let [first, _] = place(slice.values(), values);
    // A view does not tell its start: one from 0 on has so many positions more.
    let start = match slice.is_empty() {
        true => 0,
        false => rle.slice_view(0, end).len() - slice.len(),
    };
    let counts = [first, start as usize, slice.len() as usize];
    Some(Ok(Written::nothing(counts)))
}

pub fn slice_view_values(ends: &[i64], values: &[i64], start: i64, end: i64) -> InDomain {
    let rle = view(ends, values)?;
    let part = rle.slice_view(start, end).values();
    Some(Ok(Written::nothing(place(part, values))))
}

pub fn getitems(ends: &[i64], values: &[i64], starts: &[i64], stops: &[i64]) -> InDomain {
    made_flat(view(ends, values)?.getitems(starts, stops))
}

/// Without its keys, the interval numbers.
fn made_flat(items: Result<RleBatch<usize, i64>>) -> InDomain {
    let written = items.map(|items| {
        let (_, offsets, ends, values) = items.into_parts();
        Written::flat(offsets, ends, values)
    });
    Some(written.map_err(Refusal::from))
}

pub fn concat(offsets: &[usize], ends: &[i64], values: &[i64]) -> InDomain {
    made(runlength::concat(views(offsets, ends, values)?))
}

pub fn shift(ends: &[i64], values: &[i64], distance: i64, fill: i64) -> InDomain {
    made(Ok(view(ends, values)?.shift(distance, fill)))
}

pub fn reversed(ends: &[i64], values: &[i64]) -> InDomain {
    made(Ok(view(ends, values)?.reversed()))
}

/// The closure of a comparison's code, of those that merges and ranges take.
fn comparison(code: u8) -> Option<fn(&i64, &i64) -> bool> {
    match code {
        7 => Some(|x, y| x == y),
        8 => Some(|x, y| x < y),
        _ => None,
    }
}

pub fn ranges_where(ends: &[i64], values: &[i64], code: u8, number: i64) -> InDomain {
    let comparison = comparison(code)?;
    let (starts, ends) = view(ends, values)?.ranges_where(|value| comparison(value, &number));
    Some(Ok(Written::ranges(starts, ends)))
}

fn owned(ends: &[i64], values: &[i64]) -> Option<Rle<i64>> {
    Rle::from_ends(ends.to_vec(), values.to_vec()).ok()
}

pub fn merge(ends: &[i64], values: &[i64]) -> InDomain {
    made(Ok(owned(ends, values)?.merge()))
}

pub fn merged(ends: &[i64], values: &[i64]) -> InDomain {
    made(Ok(view(ends, values)?.merged()))
}

fn flag(byte: u8) -> Option<bool> {
    match byte {
        0 => Some(false),
        1 => Some(true),
        _ => None,
    }
}

fn flags(mask: &[u8]) -> Option<Vec<bool>> {
    mask.iter().copied().map(flag).collect()
}

pub fn merge_mask(ends: &[i64], values: &[i64], mask: &[u8], keep: u8) -> InDomain {
    let keep = match flag(keep)? {
        false => Keep::First,
        true => Keep::Last,
    };
    made(owned(ends, values)?.merge_mask(&flags(mask)?, keep))
}

pub fn merge_by(ends: &[i64], values: &[i64], code: u8) -> InDomain {
    made(Ok(owned(ends, values)?.merge_by(comparison(code)?)))
}

pub fn merge_plan(ends: &[i64], mask: &[u8]) -> InDomain {
    let plan = of_ends(ends)?.merge_plan(&flags(mask)?);
    let groups = plan.map(|plan| Written::groups(plan.ends, plan.offsets));
    Some(groups.map_err(Refusal::from))
}

pub fn group_ids(offsets: &[usize]) -> InDomain {
    let starts = offsets.first()? == &0 && offsets.is_sorted();
    let few = offsets.last()? <= &(LISTED as usize);
    let plan = MergePlan {
        ends: Vec::new(),
        offsets: offsets.to_vec(),
    };
    (starts && few).then(|| Ok(Written::places(plan.group_ids())))
}

pub fn sum(ends: &[i64], values: &[i64]) -> InDomain {
    let total = view(ends, values)?.sum();
    Some(Ok(Written::nothing([total as usize])))
}

/// The reduction of a code. A sequence and a view of a part have no trait in common.
macro_rules! reduction {
    ($runs:expr, $code:expr, $ddof:expr) => {
        match $code {
            0 => Reduction::Whole($runs.sum()),
            1 => fraction($runs.mean(), $runs.mean()),
            _ => fraction($runs.mean(), $runs.variance($ddof)),
        }
    };
}

fn fraction(mean: Option<f64>, variance: Option<f64>) -> Reduction {
    match (mean, variance) {
        (Some(mean), Some(variance)) => Reduction::Fraction { mean, variance },
        _ => Reduction::Nothing,
    }
}

/// The number of reductions.
const REDUCTIONS: u8 = 3;

pub fn reduce(ends: &[i64], values: &[i64], code: u8, ddof: i64) -> InDomain {
    let rle = view(ends, values)?;
    let answer = || Ok(Written::nothing(reduction!(rle, code, ddof).counts()));
    (code < REDUCTIONS).then(answer)
}

pub fn slice_reduce(
    ends: &[i64],
    values: &[i64],
    starts: &[i64],
    stops: &[i64],
    code: u8,
    ddof: i64,
) -> InDomain {
    let rle = view(ends, values)?;
    let reduced = rle.slice_reduce(starts, stops, |part| reduction!(part, code, ddof));
    (code < REDUCTIONS).then(|| made_reductions(reduced))
}

fn made_reductions(reduced: Result<Vec<Reduction>>) -> Reading {
    let written = reduced.map(|reductions| Written::reductions(&reductions));
    written.map_err(Refusal::from)
}

type Batch = RleBatch<u32, i64>;

fn from_parts(keys: &[u32], offsets: &[usize], ends: &[i64], values: &[i64]) -> Result<Batch> {
    RleBatch::from_parts(
        keys.to_vec(),
        offsets.to_vec(),
        ends.to_vec(),
        values.to_vec(),
    )
}

/// A batch of different keys.
fn batch(keys: &[u32], offsets: &[usize], ends: &[i64], values: &[i64]) -> Option<Batch> {
    from_parts(keys, offsets, ends, values).ok()
}

fn made_batch(result: Result<Batch>) -> InDomain {
    let written = result.map(|batch| {
        let (keys, offsets, ends, values) = batch.into_parts();
        Written::batch(keys, offsets, ends, values)
    });
    Some(written.map_err(Refusal::from))
}

pub fn batch_from_parts(keys: &[u32], offsets: &[usize], ends: &[i64], values: &[i64]) -> InDomain {
    let checked = from_parts(keys, offsets, ends, values);
    Some(
        checked
            .map(|_| Written::nothing([0]))
            .map_err(Refusal::from),
    )
}

pub fn batch_position(keys: &[u32], key: u32) -> InDomain {
    // Sequences of no runs.
    let position = batch(keys, &vec![0; keys.len() + 1], &[], &[])?.position(&key);
    let counts = [position.is_some().into(), position.unwrap_or(0)];
    Some(Ok(Written::nothing(counts)))
}

pub fn batch_get(
    keys: &[u32],
    offsets: &[usize],
    ends: &[i64],
    values: &[i64],
    key: u32,
) -> InDomain {
    let batch = batch(keys, offsets, ends, values)?;
    let sequence = batch.get(&key);
    let sequence = sequence.map(|rle| (rle.ends().to_vec(), rle.values().to_vec()));
    Some(Ok(Written::got(sequence)))
}

pub fn batch_getitems(
    keys: &[u32],
    offsets: &[usize],
    ends: &[i64],
    values: &[i64],
    get_keys: &[u32],
    starts: &[i64],
    stops: &[i64],
) -> InDomain {
    made_flat(batch(keys, offsets, ends, values)?.getitems(get_keys, starts, stops))
}

pub fn batch_slice_reduce(
    keys: &[u32],
    offsets: &[usize],
    ends: &[i64],
    values: &[i64],
    get_keys: &[u32],
    starts: &[i64],
    stops: &[i64],
    code: u8,
    ddof: i64,
) -> InDomain {
    let batch = batch(keys, offsets, ends, values)?;
    let reduce = |part: SliceView<i64>| reduction!(part, code, ddof);
    let reduced = batch.slice_reduce(get_keys, starts, stops, reduce);
    (code < REDUCTIONS).then(|| made_reductions(reduced))
}

pub fn batch_shift(
    keys: &[u32],
    offsets: &[usize],
    ends: &[i64],
    values: &[i64],
    distance: i64,
    fill: i64,
) -> InDomain {
    made_batch(Ok(batch(keys, offsets, ends, values)?.shift(distance, fill)))
}

pub fn batch_reversed(keys: &[u32], offsets: &[usize], ends: &[i64], values: &[i64]) -> InDomain {
    made_batch(Ok(batch(keys, offsets, ends, values)?.reversed()))
}

pub fn batch_map_rles_slice(
    keys: &[u32],
    offsets: &[usize],
    ends: &[i64],
    values: &[i64],
    start: i64,
    end: i64,
) -> InDomain {
    let batch = batch(keys, offsets, ends, values)?;
    made_batch(Ok(batch.map_rles(|rle| rle.slice(start, end))))
}

pub fn batch_collapse(
    keys: &[u32],
    offsets: &[usize],
    ends: &[i64],
    values: &[i64],
    new_keys: &[u32],
    fill: Fill,
    code: u8,
) -> InDomain {
    let batch = batch(keys, offsets, ends, values)?;
    if new_keys.len() != keys.len() {
        return None;
    }
    let new_key = |key: &u32| new_keys[batch.position(key).expect("the key is the batch's")];
    made_batch(batch.collapse(new_key, fill.option().as_ref(), operation(code)?))
}

pub fn batch_concat(
    a_keys: &[u32],
    a_offsets: &[usize],
    a_ends: &[i64],
    a_values: &[i64],
    b_keys: &[u32],
    b_offsets: &[usize],
    b_ends: &[i64],
    b_values: &[i64],
) -> InDomain {
    let a = batch(a_keys, a_offsets, a_ends, a_values)?;
    let b = batch(b_keys, b_offsets, b_ends, b_values)?;
    made_batch(RleBatch::concat(&[&a, &b]))
}

fn how(code: u8) -> Option<How> {
    match code {
        0 => Some(How::Outer),
        1 => Some(How::Inner),
        2 => Some(How::Left),
        3 => Some(How::Right),
        _ => None,
    }
}

pub fn batch_zip_with(
    a_keys: &[u32],
    a_offsets: &[usize],
    a_ends: &[i64],
    a_values: &[i64],
    b_keys: &[u32],
    b_offsets: &[usize],
    b_ends: &[i64],
    b_values: &[i64],
    how_code: u8,
    fill_a: Fill,
    fill_b: Fill,
    code: u8,
) -> InDomain {
    let a = batch(a_keys, a_offsets, a_ends, a_values)?;
    let b = batch(b_keys, b_offsets, b_ends, b_values)?;
    let (fill_a, fill_b) = (fill_a.option(), fill_b.option());
    let (fill_a, fill_b) = (fill_a.as_ref(), fill_b.as_ref());
    made_batch(a.zip_with(&b, how(how_code)?, fill_a, fill_b, operation(code)?))
}
