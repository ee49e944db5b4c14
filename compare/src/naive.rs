//! Document 01 read naively. A column is listed position by position, with a mark where a run ends,
//! and a result is read off that list; the questions stand in document 01's order.

use crate::answer::{Error, Reduction, Refusal};
use crate::call::{Fill, Reading, Runs, Written};
use std::cmp::Ordering;
use std::collections::{BTreeSet, HashMap};
use std::ops::RangeInclusive;

/// A longer run is listed as a single entry. Of longer columns only some positions are looked at.
const LISTED: i64 = 1000;

/// What one position shows, or all positions of a run that is too long to list.
struct Shown {
    positions: i64,
    value: i64,
    /// Whether a run ends here.
    seam: bool,
}

/// The positions of a run.
fn show_run(run: i64, value: i64) -> impl Iterator<Item = Shown> {
    let positions = if run > LISTED { run } else { 1 };
    let entries = run / positions;
    (1..=entries).map(move |entry| Shown {
        positions,
        value,
        seam: entry == entries,
    })
}

/// The positions of a valid sequence.
fn show(ends: &[i64], values: &[i64]) -> Vec<Shown> {
    (0..ends.len())
        .flat_map(|r| show_run(ends[r] - end_before(ends, r), values[r]))
        .collect()
}

/// The runs of listed positions.
fn runs(shown: &[Shown]) -> Runs {
    let (mut ends, mut values, mut position) = (Vec::new(), Vec::new(), 0);
    for entry in shown {
        position += entry.positions;
        if entry.seam {
            ends.push(position);
            values.push(entry.value);
        }
    }
    (ends, values)
}

/// The merged runs of listed entries, each some positions and their value.
fn merged_runs(listed: &[(i64, i64)]) -> Runs {
    let entry = |(i, &(positions, value)): (usize, &(i64, i64))| Shown {
        positions,
        value,
        seam: listed.get(i + 1).is_none_or(|&(_, next)| next != value),
    };
    let shown: Vec<Shown> = listed.iter().enumerate().map(entry).collect();
    runs(&shown)
}

/// The end before run `r`, or 0; for `r` one past the last run, the length.
fn end_before(ends: &[i64], r: usize) -> i64 {
    if r == 0 { 0 } else { ends[r - 1] }
}

fn length(ends: &[i64]) -> i64 {
    end_before(ends, ends.len())
}

/// The run that covers the position.
fn covering(ends: &[i64], position: i64) -> Option<usize> {
    (0..ends.len()).find(|&r| end_before(ends, r) <= position && position < ends[r])
}

/// A sequence, and what stands where it has ended.
struct Side<'a> {
    ends: &'a [i64],
    values: &'a [i64],
    fill: Option<i64>,
}

impl<'a> Side<'a> {
    fn new(ends: &'a [i64], values: &'a [i64], fill: Option<i64>) -> Self {
        Side { ends, values, fill }
    }

    /// What the position shows.
    fn at(&self, position: i64) -> i64 {
        match covering(self.ends, position) {
            Some(r) => self.values[r],
            None => self.filled(),
        }
    }

    /// The value of a run, or the fill for the index that is the run count.
    fn of_run(&self, index: usize) -> i64 {
        match self.values.get(index) {
            Some(&value) => value,
            None => self.filled(),
        }
    }

    fn filled(&self) -> i64 {
        self.fill.expect("every shorter side has a fill")
    }
}

/// The positions to look at, rising, and then the longest length: every position, or of longer
/// sequences those where one of them may show something else than before.
fn positions(sides: &[Side]) -> Vec<i64> {
    let longest = sides.iter().map(|side| length(side.ends)).max();
    match longest {
        None => Vec::new(),
        Some(longest) if longest <= LISTED => (0..=longest).collect(),
        Some(_) => {
            let ends = sides.iter().flat_map(|side| side.ends);
            let changes: BTreeSet<i64> = ends.copied().chain([0]).collect();
            changes.into_iter().collect()
        }
    }
}

/// The value of every position of the sides; merged.
fn merged_at_each(sides: &[Side], value: impl Fn(i64) -> i64) -> Runs {
    let entry = |pair: &[i64]| (pair[1] - pair[0], value(pair[0]));
    let listed: Vec<(i64, i64)> = positions(sides).windows(2).map(entry).collect();
    merged_runs(&listed)
}

/// The operation of what all sides show, from the first on, at every position; merged.
fn zipped(sides: &[Side], code: u8) -> Runs {
    merged_at_each(sides, |position| {
        let shown = sides.iter().map(|side| side.at(position));
        let value = shown.reduce(|x, y| operation(code, x, y));
        value.expect("a position is a side's")
    })
}

/// An operation by its code.
fn operation(code: u8, x: i64, y: i64) -> i64 {
    let (exact_x, exact_y) = (x as i128, y as i128);
    let sum = exact_x + exact_y;
    match code {
        // A cast takes the number modulo 2^64, read as signed.
        0 => sum as i64,
        1 => (exact_x - exact_y) as i64,
        2 => (exact_x * exact_y) as i64,
        3 => x.min(y),
        4 => x.max(y),
        5 => x,
        6 => y,
        7 => (x == y).into(),
        8 => (x < y).into(),
        9 => (sum.signum() * (sum.abs() / 2)) as i64,
        _ => unreachable!("the code has been asked about"),
    }
}

/// A segment: its end, and the index of each column's run there.
struct Segment {
    end: i64,
    places: Vec<usize>,
}

/// The segments of columns with these ends. Each end of a column is a segment's; the column steps
/// on there, so that its index is the number of its ends before the segment's.
fn segments(columns: &[&[i64]]) -> Vec<Segment> {
    let ends: BTreeSet<i64> = columns.iter().copied().flatten().copied().collect();
    let segment = |end| Segment {
        end,
        places: columns
            .iter()
            .map(|column| column.iter().filter(|&&passed| passed < end).count())
            .collect(),
    };
    ends.into_iter().map(segment).collect()
}

/// The ends of segments.
fn segment_ends(segments: &[Segment]) -> Vec<i64> {
    segments.iter().map(|segment| segment.end).collect()
}

/// The parts of a flat list.
pub fn parts<'a>(offsets: &[usize], list: &'a [i64]) -> Vec<&'a [i64]> {
    let part = |pair: &[usize]| &list[pair[0]..pair[1]];
    offsets.windows(2).map(part).collect()
}

/// The codes of the operations, of the comparisons among them, of the reductions and of the joins,
/// and what a mask byte may be.
const OPERATIONS: RangeInclusive<u8> = 0..=9;
const COMPARISONS: RangeInclusive<u8> = 7..=8;
const REDUCTIONS: RangeInclusive<u8> = 0..=2;
const JOINS: RangeInclusive<u8> = 0..=3;
const FLAGS: RangeInclusive<u8> = 0..=1;

/// Is the code a listed one?
fn ask_code(code: u8, listed: RangeInclusive<u8>) -> Result<(), Refusal> {
    if !listed.contains(&code) {
        return Err(Error::UnknownCode.with(&[code as u64]));
    }
    Ok(())
}

/// Is every mask byte 0 or 1?
fn ask_mask(mask: &[u8]) -> Result<(), Refusal> {
    mask.iter().try_for_each(|&byte| ask_code(byte, FLAGS))
}

/// Do lengths that belong together agree?
fn ask_lengths(what: u64, left: usize, right: usize) -> Result<(), Refusal> {
    if left != right {
        return Err(Error::LengthMismatch.with(&[what, left as u64, right as u64]));
    }
    Ok(())
}

/// Is the used count at most the shorter buffer's length?
fn ask_used(used: usize, ends: &[i64], values: &[i64]) -> Result<(), Refusal> {
    let shorter = ends.len().min(values.len());
    if used > shorter {
        return Err(Error::LengthMismatch.with(&[5, used as u64, shorter as u64]));
    }
    Ok(())
}

/// Are ends valid?
fn ask_ends(ends: &[i64]) -> Result<(), Refusal> {
    match (0..ends.len()).find(|&r| ends[r] <= end_before(ends, r)) {
        Some(index) => Err(Error::InvalidEnds.with(&[index as u64])),
        None => Ok(()),
    }
}

/// Do offsets exist, start at 0 and never fall? Gives the last of them.
fn ask_rising(offsets: &[usize]) -> Result<usize, Refusal> {
    match offsets {
        [0, ..] if offsets.windows(2).all(|pair| pair[0] <= pair[1]) => {
            Ok(offsets[offsets.len() - 1])
        }
        _ => Err(Error::InvalidOffsets.with(&[])),
    }
}

/// And do they finish at the number of ends?
fn ask_offsets(offsets: &[usize], ends: usize) -> Result<(), Refusal> {
    if ask_rising(offsets)? != ends {
        return Err(Error::InvalidOffsets.with(&[]));
    }
    Ok(())
}

/// Are the ends of each sequence valid?
fn ask_each_ends(sequences: &[&[i64]]) -> Result<(), Refusal> {
    for (position, ends) in sequences.iter().enumerate() {
        ask_ends(ends).map_err(|refusal| refusal.at(position))?;
    }
    Ok(())
}

/// Are there at most 128 sequences?
fn ask_number(sequences: usize) -> Result<(), Refusal> {
    if sequences > 128 {
        return Err(Error::TooMany.with(&[sequences as u64]));
    }
    Ok(())
}

/// Is the run, the `index`th, not negative?
fn ask_run(index: usize, run: i64) -> Result<(), Refusal> {
    if run < 0 {
        return Err(Error::NegativeRun.with(&[index as u64, run as u64]));
    }
    Ok(())
}

/// Does the new length fit i64?
fn ask_length(length: i128) -> Result<(), Refusal> {
    if length > i64::MAX as i128 {
        return Err(Error::Overflow.with(&[]));
    }
    Ok(())
}

/// Is each interval 0 ≤ start ≤ end?
fn ask_intervals(starts: &[i64], stops: &[i64]) -> Result<(), Refusal> {
    for (index, (&start, &end)) in starts.iter().zip(stops).enumerate() {
        if !(0 <= start && start <= end) {
            return Err(Error::InvalidInterval.with(&[index as u64, start as u64, end as u64]));
        }
    }
    Ok(())
}

/// Has each buffer, in argument order, the entries that it needs?
fn ask_buffers(needed: &[usize], given: &[usize]) -> Result<(), Refusal> {
    for (which, (&needed, &given)) in needed.iter().zip(given).enumerate() {
        if given < needed {
            return Err(Error::ShortBuffer.with(&[which as u64, needed as u64, given as u64]));
        }
    }
    Ok(())
}

/// Has each buffer the entries needed?
fn ask_room<const BUFFERS: usize>(needed: usize, given: [usize; BUFFERS]) -> Result<(), Refusal> {
    ask_buffers(&[needed; BUFFERS], &given)
}

/// The questions of one sequence.
fn ask_sequence(ends: &[i64], values: &[i64]) -> Result<(), Refusal> {
    ask_lengths(3, ends.len(), values.len())?;
    ask_ends(ends)
}

pub fn empty() -> Reading {
    Ok(Written::nothing([0]))
}

pub fn from_runs(
    run_lengths: &[i64],
    values: &[i64],
    out_ends: &[i64],
    out_values: &[i64],
) -> Reading {
    ask_lengths(1, run_lengths.len(), values.len())?;
    let mut length = 0;
    for (index, &run) in run_lengths.iter().enumerate() {
        ask_run(index, run)?;
        length += run as i128;
        ask_length(length)?;
    }
    ask_room(run_lengths.len(), [out_ends.len(), out_values.len()])?;
    let shown = run_lengths.iter().zip(values);
    let shown: Vec<Shown> = shown.flat_map(|(&r, &v)| show_run(r, v)).collect();
    Ok(Written::runs(runs(&shown)))
}

pub fn from_ends(ends: &[i64], values: &[i64]) -> Reading {
    ask_sequence(ends, values)?;
    Ok(Written::nothing([0]))
}

pub fn repeat(value: i64, length: i64, out_ends: &[i64], out_values: &[i64]) -> Reading {
    ask_run(0, length)?;
    ask_room(1, [out_ends.len(), out_values.len()])?;
    let shown: Vec<Shown> = show_run(length, value).collect();
    Ok(Written::runs(runs(&shown)))
}

pub fn push_run(ends: &[i64], values: &[i64], used: usize, run: i64, value: i64) -> Reading {
    ask_used(used, ends, values)?;
    ask_ends(&ends[..used])?;
    ask_run(used, run)?;
    ask_length(end_before(ends, used) as i128 + run as i128)?;
    ask_room(used + 1, [ends.len(), values.len()])?;
    let mut shown = show(&ends[..used], values);
    shown.extend(show_run(run, value));
    Ok(Written::runs(runs(&shown)))
}

pub fn extend_to(ends: &[i64], values: &[i64], used: usize, length: i64, value: i64) -> Reading {
    ask_used(used, ends, values)?;
    ask_ends(&ends[..used])?;
    let present = end_before(ends, used);
    if length < present {
        return Err(Error::LengthTooShort.with(&[length as u64, present as u64]));
    }
    ask_room(used + 1, [ends.len(), values.len()])?;
    let mut shown = show(&ends[..used], values);
    if let Some(last) = shown.last_mut() {
        last.seam = length == present || last.value != value;
    }
    shown.extend(show_run(length - present, value));
    Ok(Written::runs(runs(&shown)))
}

pub fn from_dense(values: &[i64], out_ends: &[i64], out_values: &[i64]) -> Reading {
    ask_room(values.len(), [out_ends.len(), out_values.len()])?;
    let listed: Vec<(i64, i64)> = values.iter().map(|&value| (1, value)).collect();
    Ok(Written::runs(merged_runs(&listed)))
}

pub fn to_dense(ends: &[i64], values: &[i64], out: &[i64]) -> Reading {
    ask_sequence(ends, values)?;
    ask_room(length(ends) as usize, [out.len()])?;
    let shown = show(ends, values);
    let dense = shown
        .iter()
        .flat_map(|entry| (0..entry.positions).map(|_| entry.value));
    Ok(Written::list(dense.collect()))
}

/// The questions of two sequences.
fn ask_both([a, b]: &[Side; 2]) -> Result<(), Refusal> {
    ask_lengths(3, a.ends.len(), a.values.len())?;
    ask_lengths(3, b.ends.len(), b.values.len())?;
    ask_ends(a.ends)?;
    ask_ends(b.ends)
}

pub fn equals(a_ends: &[i64], a_values: &[i64], b_ends: &[i64], b_values: &[i64]) -> Reading {
    let sides = [
        Side::new(a_ends, a_values, None),
        Side::new(b_ends, b_values, None),
    ];
    ask_both(&sides)?;
    let [a, b] = &sides;
    let same = |pair: &[i64]| a.at(pair[0]) == b.at(pair[0]);
    let equal = length(a_ends) == length(b_ends) && positions(&sides).windows(2).all(same);
    Ok(Written::nothing([equal.into()]))
}

pub fn plan(
    a: &[i64],
    b: &[i64],
    out_ends: &[i64],
    out_idx_a: &[usize],
    out_idx_b: &[usize],
) -> Reading {
    ask_ends(a)?;
    ask_ends(b)?;
    let given = [out_ends.len(), out_idx_a.len(), out_idx_b.len()];
    ask_room(a.len() + b.len(), given)?;
    let segments = segments(&[a, b]);
    let idx = |side: usize| segments.iter().map(|s| s.places[side]).collect();
    Ok(Written::plan(segment_ends(&segments), idx(0), idx(1)))
}

/// Is there a fill for the shorter side?
fn ask_filled([a, b]: &[Side; 2]) -> Result<(), Refusal> {
    let (left, right) = (length(a.ends), length(b.ends));
    let shorter = match left.cmp(&right) {
        Ordering::Less => Some(a),
        Ordering::Equal => None,
        Ordering::Greater => Some(b),
    };
    if shorter.is_some_and(|side| side.fill.is_none()) {
        return Err(Error::UnequalLength.with(&[left as u64, right as u64]));
    }
    Ok(())
}

/// The questions of both zips of two sequences.
fn ask_zip(sides: &[Side; 2], code: u8, given: [usize; 2]) -> Result<(), Refusal> {
    ask_code(code, OPERATIONS)?;
    ask_both(sides)?;
    ask_filled(sides)?;
    ask_room(runs_of_both(sides), given)
}

fn runs_of_both([a, b]: &[Side; 2]) -> usize {
    a.ends.len() + b.ends.len()
}

/// The operation of both sides' runs, for each segment.
fn zipped_raw(sides: &[Side; 2], code: u8) -> Runs {
    let [a, b] = sides;
    let segments = segments(&[a.ends, b.ends]);
    let value = |s: &Segment| operation(code, a.of_run(s.places[0]), b.of_run(s.places[1]));
    let values = segments.iter().map(value).collect();
    (segment_ends(&segments), values)
}

macro_rules! zips {
    ($($name:ident: $written:expr;)*) => {
        $(pub fn $name(
            a_ends: &[i64], a_values: &[i64], b_ends: &[i64], b_values: &[i64],
            fill_a: Fill, fill_b: Fill, code: u8, out_ends: &[i64], out_values: &[i64],
        ) -> Reading {
            let sides = [
                Side::new(a_ends, a_values, fill_a.option()),
                Side::new(b_ends, b_values, fill_b.option()),
            ];
            ask_zip(&sides, code, [out_ends.len(), out_values.len()])?;
            Ok(Written::runs($written(&sides, code)))
        })*
    };
}

zips! {
    zip_with: zipped;
    zip_with_raw: zipped_raw;
}

/// The questions of sequences laid flat.
fn ask_flat(offsets: &[usize], ends: &[i64], values: &[i64]) -> Result<(), Refusal> {
    ask_lengths(3, ends.len(), values.len())?;
    ask_offsets(offsets, ends.len())?;
    ask_each_ends(&parts(offsets, ends))
}

/// And of a many-way call.
fn ask_many(offsets: &[usize], ends: &[i64], values: &[i64]) -> Result<(), Refusal> {
    ask_flat(offsets, ends, values)?;
    ask_number(parts(offsets, ends).len())
}

pub fn plan_many(
    offsets: &[usize],
    ends: &[i64],
    values: &[i64],
    out_ends: &[i64],
    out_idx: &[usize],
) -> Reading {
    ask_many(offsets, ends, values)?;
    let columns = parts(offsets, ends);
    let indexes = ends.len().saturating_mul(columns.len());
    ask_buffers(&[ends.len(), indexes], &[out_ends.len(), out_idx.len()])?;
    let segments = segments(&columns);
    let idx = segments.iter().flat_map(|segment| &segment.places);
    let idx = idx.copied().collect();
    Ok(Written::plan_many(segment_ends(&segments), idx))
}

pub fn zip_many(
    offsets: &[usize],
    ends: &[i64],
    values: &[i64],
    fill: Fill,
    code: u8,
    out_ends: &[i64],
    out_values: &[i64],
) -> Reading {
    ask_code(code, OPERATIONS)?;
    ask_many(offsets, ends, values)?;
    let sequences = parts(offsets, ends).into_iter().zip(parts(offsets, values));
    let fill = fill.option();
    let side = |(ends, values)| Side::new(ends, values, fill);
    let sides: Vec<Side> = sequences.map(side).collect();
    let mut lengths: Vec<i64> = sides.iter().map(|side| length(side.ends)).collect();
    lengths.sort();
    if let [least, .., greatest] = lengths[..]
        && least != greatest
        && fill.is_none()
    {
        return Err(Error::UnequalLength.with(&[least as u64, greatest as u64]));
    }
    ask_room(ends.len(), [out_ends.len(), out_values.len()])?;
    Ok(Written::runs(zipped(&sides, code)))
}

pub fn run_index(ends: &[i64], pos: i64) -> Reading {
    ask_ends(ends)?;
    let run = covering(ends, pos);
    let counts = [run.is_some().into(), run.unwrap_or(0)];
    Ok(Written::nothing(counts))
}

/// The positions of a slice, from a start that is at least 0 up to an end that is at most the
/// length, or none.
fn clamped(ends: &[i64], start: i64, end: i64) -> Option<(i64, i64)> {
    let (start, end) = (start.max(0), end.min(length(ends)));
    (start < end).then_some((start, end))
}

/// What a slice shows.
fn show_slice(ends: &[i64], values: &[i64], start: i64, end: i64) -> Vec<Shown> {
    let Some((start, end)) = clamped(ends, start, end) else {
        return Vec::new();
    };
    let run = |r: usize| ends[r].min(end) - end_before(ends, r).max(start);
    (0..ends.len())
        .flat_map(|r| show_run(run(r), values[r]))
        .collect()
}

/// What the slice of each interval shows.
fn show_slices(ends: &[i64], values: &[i64], starts: &[i64], stops: &[i64]) -> Vec<Vec<Shown>> {
    let intervals = starts.iter().zip(stops);
    intervals
        .map(|(&start, &end)| show_slice(ends, values, start, end))
        .collect()
}

/// How many runs end among these positions.
fn seams(shown: &[Shown]) -> usize {
    shown.iter().filter(|entry| entry.seam).count()
}

pub fn slice(
    ends: &[i64],
    values: &[i64],
    start: i64,
    end: i64,
    out_ends: &[i64],
    out_values: &[i64],
) -> Reading {
    ask_sequence(ends, values)?;
    let shown = show_slice(ends, values, start, end);
    ask_room(seams(&shown), [out_ends.len(), out_values.len()])?;
    Ok(Written::runs(runs(&shown)))
}

/// The first run of a slice, its start and its length.
fn view(ends: &[i64], start: i64, end: i64) -> [usize; 3] {
    match clamped(ends, start, end) {
        Some((start, end)) => {
            let first = covering(ends, start).expect("a run covers every position");
            [first, start as usize, (end - start) as usize]
        }
        None => [0; 3],
    }
}

pub fn slice_view(ends: &[i64], values: &[i64], start: i64, end: i64) -> Reading {
    ask_sequence(ends, values)?;
    Ok(Written::nothing(view(ends, start, end)))
}

pub fn slice_view_values(ends: &[i64], values: &[i64], start: i64, end: i64) -> Reading {
    let part = match ask_sequence(ends, values) {
        Ok(()) => {
            let [first, ..] = view(ends, start, end);
            [first, seams(&show_slice(ends, values, start, end))]
        }
        Err(_) => [0; 2],
    };
    Ok(Written::nothing(part))
}

/// Sequences laid flat: where each starts and, at last, how many runs all have; their ends; their
/// values.
pub fn laid_flat(sequences: Vec<Runs>) -> (Vec<usize>, Vec<i64>, Vec<i64>) {
    let before = |k: usize| sequences[..k].iter().map(|(ends, _)| ends.len()).sum();
    let offsets = (0..=sequences.len()).map(before).collect();
    let (ends, values): (Vec<_>, Vec<_>) = sequences.into_iter().unzip();
    (offsets, ends.concat(), values.concat())
}

/// Slices laid flat, in buffers of so many entries.
fn flat_slices(slices: &[Vec<Shown>], given: [usize; 3]) -> Reading {
    let total = slices.iter().map(|shown| seams(shown)).sum();
    ask_buffers(&[slices.len() + 1, total, total], &given)?;
    let sequences = slices.iter().map(|shown| runs(shown)).collect();
    let (offsets, ends, values) = laid_flat(sequences);
    Ok(Written::flat(offsets, ends, values))
}

pub fn getitems(
    ends: &[i64],
    values: &[i64],
    starts: &[i64],
    stops: &[i64],
    out_offsets: &[usize],
    out_ends: &[i64],
    out_values: &[i64],
) -> Reading {
    ask_lengths(3, ends.len(), values.len())?;
    ask_lengths(8, starts.len(), stops.len())?;
    ask_ends(ends)?;
    ask_intervals(starts, stops)?;
    let slices = show_slices(ends, values, starts, stops);
    let given = [out_offsets.len(), out_ends.len(), out_values.len()];
    flat_slices(&slices, given)
}

/// Listed positions without their seams.
fn without_seams(shown: &[Shown]) -> Vec<(i64, i64)> {
    let entry = |entry: &Shown| (entry.positions, entry.value);
    shown.iter().map(entry).collect()
}

pub fn concat(
    offsets: &[usize],
    ends: &[i64],
    values: &[i64],
    out_ends: &[i64],
    out_values: &[i64],
) -> Reading {
    ask_flat(offsets, ends, values)?;
    let sequences = parts(offsets, ends).into_iter().zip(parts(offsets, values));
    let shown: Vec<Shown> = sequences.flat_map(|(e, v)| show(e, v)).collect();
    ask_length(shown.iter().map(|entry| entry.positions as i128).sum())?;
    ask_room(ends.len(), [out_ends.len(), out_values.len()])?;
    Ok(Written::runs(merged_runs(&without_seams(&shown))))
}

/// What the sequence shows, so many positions higher; merged.
fn shifted(ends: &[i64], values: &[i64], distance: i64, fill: i64) -> Runs {
    let length = length(ends);
    let moved = |position: i64| position as i128 + distance as i128;
    // Every position, or of a longer column those where a run may have come to start.
    let positions: BTreeSet<i64> = if length <= LISTED {
        (0..=length).collect()
    } else {
        let starts = ends.iter().copied().chain([0]).map(moved);
        let within = starts.filter(|start| (0..length as i128).contains(start));
        within
            .map(|start| start as i64)
            .chain([0, length])
            .collect()
    };
    let positions: Vec<i64> = positions.into_iter().collect();
    let side = Side::new(ends, values, Some(fill));
    let entry = |pair: &[i64]| {
        let from = pair[0] as i128 - distance as i128;
        // The fill stands at a position that the sequence does not have.
        let value = side.at(i64::try_from(from).unwrap_or(-1));
        (pair[1] - pair[0], value)
    };
    let listed: Vec<(i64, i64)> = positions.windows(2).map(entry).collect();
    merged_runs(&listed)
}

pub fn shift(
    ends: &[i64],
    values: &[i64],
    distance: i64,
    fill: i64,
    out_ends: &[i64],
    out_values: &[i64],
) -> Reading {
    ask_sequence(ends, values)?;
    ask_room(ends.len() + 1, [out_ends.len(), out_values.len()])?;
    Ok(Written::runs(shifted(ends, values, distance, fill)))
}

/// The runs of the positions from the last to the first.
fn turned(ends: &[i64], values: &[i64]) -> Runs {
    let shown = show(ends, values);
    // A run ends where its first position stands, that is one behind which another run ended.
    let entry = |i: usize| Shown {
        seam: i == 0 || shown[i - 1].seam,
        ..shown[i]
    };
    let turned: Vec<Shown> = (0..shown.len()).rev().map(entry).collect();
    runs(&turned)
}

pub fn reversed(ends: &[i64], values: &[i64], out_ends: &[i64], out_values: &[i64]) -> Reading {
    ask_sequence(ends, values)?;
    ask_room(ends.len(), [out_ends.len(), out_values.len()])?;
    Ok(Written::runs(turned(ends, values)))
}

pub fn ranges_where(
    ends: &[i64],
    values: &[i64],
    code: u8,
    number: i64,
    out_starts: &[i64],
    out_ends: &[i64],
) -> Reading {
    ask_code(code, COMPARISONS)?;
    ask_sequence(ends, values)?;
    ask_room(ends.len(), [out_starts.len(), out_ends.len()])?;
    let (mut starts, mut stops) = (Vec::new(), Vec::new());
    let (mut position, mut within) = (0, false);
    for entry in show(ends, values) {
        let holds = operation(code, entry.value, number) == 1;
        if holds && !within {
            starts.push(position);
        }
        if within && !holds {
            stops.push(position);
        }
        position += entry.positions;
        within = holds;
    }
    if within {
        stops.push(position);
    }
    Ok(Written::ranges(starts, stops))
}

pub fn merged(ends: &[i64], values: &[i64], out_ends: &[i64], out_values: &[i64]) -> Reading {
    ask_sequence(ends, values)?;
    ask_room(ends.len(), [out_ends.len(), out_values.len()])?;
    let listed = without_seams(&show(ends, values));
    Ok(Written::runs(merged_runs(&listed)))
}

pub use merged as merge;

/// The groups of so many runs, each its first run and one past its last. A run belongs to the group
/// of the run before it where the mask has a 1.
fn groups(runs: usize, mask: &[u8]) -> Vec<(usize, usize)> {
    let group = |run: usize| mask[..run].iter().filter(|&&byte| byte == 0).count();
    let of = |g: usize| (0..runs).filter(move |&run| group(run) == g);
    let bounds = |g: usize| Some((of(g).min()?, of(g).max()? + 1));
    (0..runs).map_while(bounds).collect()
}

/// A run for each group, with the value of its first run or of its last.
fn grouped(ends: &[i64], values: &[i64], mask: &[u8], keep: u8) -> Written {
    let groups = groups(ends.len(), mask);
    let value = |&(first, past): &(usize, usize)| match keep {
        0 => values[first],
        _ => values[past - 1],
    };
    let kept = groups.iter().map(value).collect();
    Written::runs((group_ends(ends, &groups), kept))
}

/// The last end of each group.
fn group_ends(ends: &[i64], groups: &[(usize, usize)]) -> Vec<i64> {
    groups.iter().map(|&(_, past)| ends[past - 1]).collect()
}

/// Has the mask a byte for each run but the last?
fn ask_mask_length(mask: &[u8], runs: usize) -> Result<(), Refusal> {
    let pairs = if runs == 0 { 0 } else { runs - 1 };
    ask_lengths(6, mask.len(), pairs)
}

pub fn merge_mask(
    ends: &[i64],
    values: &[i64],
    mask: &[u8],
    keep: u8,
    out_ends: &[i64],
    out_values: &[i64],
) -> Reading {
    ask_code(keep, FLAGS)?;
    ask_mask(mask)?;
    ask_lengths(3, ends.len(), values.len())?;
    ask_mask_length(mask, ends.len())?;
    ask_ends(ends)?;
    ask_room(ends.len(), [out_ends.len(), out_values.len()])?;
    Ok(grouped(ends, values, mask, keep))
}

pub fn merge_by(
    ends: &[i64],
    values: &[i64],
    code: u8,
    out_ends: &[i64],
    out_values: &[i64],
) -> Reading {
    ask_code(code, COMPARISONS)?;
    ask_sequence(ends, values)?;
    ask_room(ends.len(), [out_ends.len(), out_values.len()])?;
    let joined = |pair: &[i64]| operation(code, pair[0], pair[1]) as u8;
    let mask: Vec<u8> = values.windows(2).map(joined).collect();
    Ok(grouped(ends, values, &mask, 0))
}

pub fn merge_plan(ends: &[i64], mask: &[u8], out_ends: &[i64], out_offsets: &[usize]) -> Reading {
    ask_mask(mask)?;
    ask_mask_length(mask, ends.len())?;
    ask_ends(ends)?;
    let given = [out_ends.len(), out_offsets.len()];
    ask_buffers(&[ends.len(), ends.len() + 1], &given)?;
    let groups = groups(ends.len(), mask);
    let past = groups.iter().map(|&(_, past)| past);
    let offsets = [0].into_iter().chain(past).collect();
    Ok(Written::groups(group_ends(ends, &groups), offsets))
}

pub fn group_ids(offsets: &[usize], out_ids: &[usize]) -> Reading {
    let runs = ask_rising(offsets)?;
    ask_room(runs, [out_ids.len()])?;
    let holds = |g: &usize, run| offsets[*g] <= run && run < offsets[g + 1];
    let group = |run| (0..offsets.len() - 1).find(|g| holds(g, run));
    let ids = (0..runs).map(|run| group(run).expect("a group has every run"));
    Ok(Written::places(ids.collect()))
}

/// The sum of all positions, taken modulo 2^64. Exactly it is at most 2^63 times 2^63 in size.
fn total(shown: &[Shown]) -> i64 {
    let exact = shown
        .iter()
        .map(|entry| entry.positions as i128 * entry.value as i128);
    exact.sum::<i128>() as i64
}

/// The float nearest to the number, of two equally near the one that is even: where the magnitude
/// has more than 53 digits, the others are dropped or carried.
fn nearest(number: i64) -> f64 {
    let magnitude = number.unsigned_abs();
    let dropped = (64 - 53_u32).saturating_sub(magnitude.leading_zeros());
    let unit = 1 << dropped;
    let (digits, rest) = (magnitude / unit, magnitude % unit);
    let carry = match (2 * rest).cmp(&unit) {
        Ordering::Less => 0,
        Ordering::Equal => digits % 2,
        Ordering::Greater => 1,
    };
    // Nothing is rounded here: both halves and the unit are floats, as is what comes of them.
    let [high, low] = [(digits + carry) >> 32, (digits + carry) & 0xffff_ffff];
    let [high, low, unit] = [high, low, unit].map(|exact| f64::from(exact as u32));
    let float = (high * 4_294_967_296.0 + low) * unit;
    if number < 0 { -float } else { float }
}

/// The length of each run and its value, in run order.
fn weighted(shown: &[Shown]) -> Vec<(i64, i64)> {
    let (ends, values) = runs(shown);
    let run = |r: usize| (ends[r] - end_before(&ends, r), values[r]);
    (0..ends.len()).map(run).collect()
}

/// The mean of runs of this length in all, which is not 0.
fn mean(runs: &[(i64, i64)], length: i64) -> f64 {
    let mut sum = 0.0;
    for &(run, value) in runs {
        let product = nearest(run) * nearest(value);
        sum += product;
    }
    sum / nearest(length)
}

/// The sum of the squares around a mean.
fn squares(runs: &[(i64, i64)], mean: f64) -> f64 {
    let mut sum = 0.0;
    for &(run, value) in runs {
        let d = nearest(value) - mean;
        let square = d * d;
        let product = square * nearest(run);
        sum += product;
    }
    sum
}

/// A reduction by its code.
fn reduction(shown: &[Shown], code: u8, ddof: i64) -> Reduction {
    let runs = weighted(shown);
    let length = runs.iter().map(|(run, _)| run).sum();
    let divisor = i64::try_from(length as i128 - ddof as i128);
    match (code, divisor) {
        (0, _) => Reduction::Whole(total(shown)),
        _ if length == 0 => Reduction::Nothing,
        (1, _) => {
            let mean = mean(&runs, length);
            let variance = mean;
            Reduction::Fraction { mean, variance }
        }
        (2, Ok(divisor)) if divisor > 0 => {
            let mean = mean(&runs, length);
            let variance = squares(&runs, mean) / nearest(divisor);
            Reduction::Fraction { mean, variance }
        }
        _ => Reduction::Nothing,
    }
}

pub fn sum(ends: &[i64], values: &[i64]) -> Reading {
    ask_sequence(ends, values)?;
    let total = total(&show(ends, values));
    Ok(Written::nothing([total as usize]))
}

pub fn reduce(ends: &[i64], values: &[i64], code: u8, ddof: i64) -> Reading {
    ask_code(code, REDUCTIONS)?;
    ask_sequence(ends, values)?;
    let reduction = reduction(&show(ends, values), code, ddof);
    Ok(Written::nothing(reduction.counts()))
}

/// The reduction of each slice.
fn reductions(slices: &[Vec<Shown>], code: u8, ddof: i64) -> Written {
    let reductions = slices.iter().map(|shown| reduction(shown, code, ddof));
    let reductions: Vec<Reduction> = reductions.collect();
    Written::reductions(&reductions)
}

pub fn slice_reduce(
    ends: &[i64],
    values: &[i64],
    starts: &[i64],
    stops: &[i64],
    code: u8,
    ddof: i64,
    out_kinds: &[u8],
    out_bits: &[u64],
) -> Reading {
    ask_code(code, REDUCTIONS)?;
    ask_lengths(3, ends.len(), values.len())?;
    ask_lengths(8, starts.len(), stops.len())?;
    ask_ends(ends)?;
    ask_intervals(starts, stops)?;
    ask_room(starts.len(), [out_kinds.len(), out_bits.len()])?;
    let slices = show_slices(ends, values, starts, stops);
    Ok(reductions(&slices, code, ddof))
}

/// A batch as a call is handed it.
struct Batch<'a> {
    keys: &'a [u32],
    offsets: &'a [usize],
    ends: &'a [i64],
    values: &'a [i64],
    lowest: HashMap<u32, usize>,
}

impl<'a> Batch<'a> {
    fn new(keys: &'a [u32], offsets: &'a [usize], ends: &'a [i64], values: &'a [i64]) -> Self {
        Batch {
            keys,
            offsets,
            ends,
            values,
            lowest: lowest(keys),
        }
    }

    /// The lowest position of a key.
    fn position(&self, key: u32) -> Option<usize> {
        self.lowest.get(&key).copied()
    }

    /// The ends and values at a position of the keys; none, for no position.
    fn sequence(&self, position: Option<usize>) -> (&'a [i64], &'a [i64]) {
        let entries = position.map_or(0..0, |k| self.offsets[k]..self.offsets[k + 1]);
        (&self.ends[entries.clone()], &self.values[entries])
    }

    /// The ends and values of a key; none, for an absent one.
    fn of(&self, key: u32) -> (&'a [i64], &'a [i64]) {
        self.sequence(self.position(key))
    }

    /// What the slice of each interval shows, each of the sequence of its key.
    fn show_slices(&self, keys: &[u32], starts: &[i64], stops: &[i64]) -> Vec<Vec<Shown>> {
        let slice = |k: usize| {
            let (ends, values) = self.of(keys[k]);
            show_slice(ends, values, starts[k], stops[k])
        };
        (0..keys.len()).map(slice).collect()
    }

    /// The same keys, each with what is made of its sequence.
    fn each(&self, made: impl Fn(&[i64], &[i64]) -> Runs) -> Written {
        let sequences = (0..self.keys.len()).map(|position| {
            let (ends, values) = self.sequence(Some(position));
            made(ends, values)
        });
        batch(self.keys.to_vec(), sequences.collect())
    }
}

/// The lowest position of each key: the last that is put in.
fn lowest(keys: &[u32]) -> HashMap<u32, usize> {
    let positions = (0..keys.len()).rev();
    positions
        .map(|position| (keys[position], position))
        .collect()
}

/// The positions of the keys that stand before as well.
fn repeats(keys: &[u32]) -> impl Iterator<Item = usize> {
    let lowest = lowest(keys);
    (0..keys.len()).filter(move |&position| lowest[&keys[position]] < position)
}

/// Each key once, where it first appears.
fn once(keys: &[u32]) -> Vec<u32> {
    let lowest = lowest(keys);
    let first = (0..keys.len()).filter(|&position| lowest[&keys[position]] == position);
    first.map(|position| keys[position]).collect()
}

/// A batch of these keys, with a sequence for each.
fn batch(keys: Vec<u32>, sequences: Vec<Runs>) -> Written {
    let (offsets, ends, values) = laid_flat(sequences);
    Written::batch(keys, offsets, ends, values)
}

/// The entries that a batch of so many keys and runs needs.
fn batch_needs(keys: usize, runs: usize) -> [usize; 4] {
    [keys, keys + 1, runs, runs]
}

/// The questions of batches, each put to one after the other; `lengths` is what a call asks about
/// lengths besides.
fn ask_batches(batches: &[&Batch], lengths: Result<(), Refusal>) -> Result<(), Refusal> {
    let ask_each = |ask: fn(&Batch) -> Result<(), Refusal>| {
        let mut batches = batches.iter();
        batches.try_for_each(|batch| ask(batch))
    };
    ask_each(|batch| ask_lengths(2, batch.offsets.len(), batch.keys.len() + 1))?;
    ask_each(|batch| ask_lengths(3, batch.ends.len(), batch.values.len()))?;
    lengths?;
    ask_each(|batch| ask_offsets(batch.offsets, batch.ends.len()))?;
    ask_each(|batch| ask_each_ends(&parts(batch.offsets, batch.ends)))
}

pub fn batch_from_parts(keys: &[u32], offsets: &[usize], ends: &[i64], values: &[i64]) -> Reading {
    ask_batches(&[&Batch::new(keys, offsets, ends, values)], Ok(()))?;
    match repeats(keys).next() {
        Some(position) => Err(Error::DuplicateKey.with(&[position as u64])),
        None => Ok(Written::nothing([0])),
    }
}

pub fn batch_position(keys: &[u32], key: u32) -> Reading {
    let position = lowest(keys).get(&key).copied();
    let counts = [position.is_some().into(), position.unwrap_or(0)];
    Ok(Written::nothing(counts))
}

pub fn batch_get(
    keys: &[u32],
    offsets: &[usize],
    ends: &[i64],
    values: &[i64],
    key: u32,
    out_ends: &[i64],
    out_values: &[i64],
) -> Reading {
    let batch = Batch::new(keys, offsets, ends, values);
    ask_batches(&[&batch], Ok(()))?;
    let (ends, values) = batch.of(key);
    ask_room(ends.len(), [out_ends.len(), out_values.len()])?;
    let found = batch.position(key);
    Ok(Written::got(found.map(|_| runs(&show(ends, values)))))
}

pub fn batch_getitems(
    keys: &[u32],
    offsets: &[usize],
    ends: &[i64],
    values: &[i64],
    get_keys: &[u32],
    starts: &[i64],
    stops: &[i64],
    out_offsets: &[usize],
    out_ends: &[i64],
    out_values: &[i64],
) -> Reading {
    let batch = Batch::new(keys, offsets, ends, values);
    ask_batches(&[&batch], Ok(()))?;
    ask_lengths(8, starts.len(), stops.len())?;
    ask_intervals(starts, stops)?;
    ask_lengths(7, get_keys.len(), starts.len())?;
    let slices = batch.show_slices(get_keys, starts, stops);
    let given = [out_offsets.len(), out_ends.len(), out_values.len()];
    flat_slices(&slices, given)
}

pub fn batch_slice_reduce(
    keys: &[u32],
    offsets: &[usize],
    ends: &[i64],
    values: &[i64],
    get_keys: &[u32],
    starts: &[i64],
    stops: &[i64],
    code: u8,
    ddof: i64,
    out_kinds: &[u8],
    out_bits: &[u64],
) -> Reading {
    ask_code(code, REDUCTIONS)?;
    let batch = Batch::new(keys, offsets, ends, values);
    let lengths = ask_lengths(7, get_keys.len(), starts.len());
    let lengths = lengths.and_then(|()| ask_lengths(8, starts.len(), stops.len()));
    ask_batches(&[&batch], lengths)?;
    ask_intervals(starts, stops)?;
    ask_room(starts.len(), [out_kinds.len(), out_bits.len()])?;
    let slices = batch.show_slices(get_keys, starts, stops);
    Ok(reductions(&slices, code, ddof))
}

pub fn batch_shift(
    keys: &[u32],
    offsets: &[usize],
    ends: &[i64],
    values: &[i64],
    distance: i64,
    fill: i64,
    out_keys: &[u32],
    out_offsets: &[usize],
    out_ends: &[i64],
    out_values: &[i64],
) -> Reading {
    let batch = Batch::new(keys, offsets, ends, values);
    ask_batches(&[&batch], Ok(()))?;
    let given = given_batch(out_keys, out_offsets, out_ends, out_values);
    ask_buffers(&batch_needs(keys.len(), ends.len() + keys.len()), &given)?;
    Ok(batch.each(|ends, values| shifted(ends, values, distance, fill)))
}

pub fn batch_reversed(
    keys: &[u32],
    offsets: &[usize],
    ends: &[i64],
    values: &[i64],
    out_keys: &[u32],
    out_offsets: &[usize],
    out_ends: &[i64],
    out_values: &[i64],
) -> Reading {
    let batch = Batch::new(keys, offsets, ends, values);
    ask_batches(&[&batch], Ok(()))?;
    let given = given_batch(out_keys, out_offsets, out_ends, out_values);
    ask_buffers(&batch_needs(keys.len(), ends.len()), &given)?;
    Ok(batch.each(turned))
}

pub fn batch_map_rles_slice(
    keys: &[u32],
    offsets: &[usize],
    ends: &[i64],
    values: &[i64],
    start: i64,
    end: i64,
    out_keys: &[u32],
    out_offsets: &[usize],
    out_ends: &[i64],
    out_values: &[i64],
) -> Reading {
    let batch = Batch::new(keys, offsets, ends, values);
    ask_batches(&[&batch], Ok(()))?;
    let given = given_batch(out_keys, out_offsets, out_ends, out_values);
    ask_buffers(&batch_needs(keys.len(), ends.len()), &given)?;
    Ok(batch.each(|ends, values| runs(&show_slice(ends, values, start, end))))
}

/// The entries of a batch's buffers.
fn given_batch(keys: &[u32], offsets: &[usize], ends: &[i64], values: &[i64]) -> [usize; 4] {
    [keys.len(), offsets.len(), ends.len(), values.len()]
}

/// Have all members of a group the first one's length, unless there is a fill?
fn ask_group(members: &[Side]) -> Result<(), Refusal> {
    let lengths: Vec<i64> = members.iter().map(|side| length(side.ends)).collect();
    match lengths.iter().find(|&&length| length != lengths[0]) {
        Some(&other) if members[0].fill.is_none() => {
            Err(Error::UnequalLength.with(&[lengths[0] as u64, other as u64]))
        }
        _ => Ok(()),
    }
}

/// What the members of a group come to at a position. Before one has reached it there is nothing,
/// for which the fill stands; only the first member does without.
fn gathered(members: &[Side], code: u8, position: i64) -> i64 {
    let mut sofar = None;
    for (number, member) in members.iter().enumerate() {
        let reaches = position < length(member.ends);
        sofar = match sofar {
            Some(value) => Some(operation(code, value, member.at(position))),
            None if !reaches => None,
            None if number == 0 => Some(member.at(position)),
            None => Some(operation(code, member.filled(), member.at(position))),
        };
    }
    sofar.expect("a position is a member's")
}

pub fn batch_collapse(
    keys: &[u32],
    offsets: &[usize],
    ends: &[i64],
    values: &[i64],
    new_keys: &[u32],
    fill: Fill,
    code: u8,
    out_keys: &[u32],
    out_offsets: &[usize],
    out_ends: &[i64],
    out_values: &[i64],
    scratch_ends: &[i64],
    scratch_values: &[i64],
) -> Reading {
    ask_code(code, OPERATIONS)?;
    let collapsed = Batch::new(keys, offsets, ends, values);
    let lengths = ask_lengths(4, new_keys.len(), keys.len());
    ask_batches(&[&collapsed], lengths)?;
    let mut members: HashMap<u32, Vec<Side>> = HashMap::new();
    for (position, &new_key) in new_keys.iter().enumerate() {
        let (ends, values) = collapsed.sequence(Some(position));
        let member = Side::new(ends, values, fill.option());
        members.entry(new_key).or_default().push(member);
    }
    let unique = once(new_keys);
    let groups: Vec<&Vec<Side>> = unique.iter().map(|new_key| &members[new_key]).collect();
    for (position, members) in groups.iter().enumerate() {
        ask_group(members).map_err(|refusal| refusal.at(position))?;
    }
    let given = given_batch(out_keys, out_offsets, out_ends, out_values);
    let scratch = [scratch_ends.len(), scratch_values.len()];
    let needed = batch_needs(keys.len(), ends.len());
    ask_buffers(
        &[&needed[..], &[2 * ends.len(); 2]].concat(),
        &[&given[..], &scratch].concat(),
    )?;
    let sequence = |members: &&Vec<Side>| {
        merged_at_each(members, |position| gathered(members, code, position))
    };
    let sequences = groups.iter().map(sequence).collect();
    Ok(batch(unique, sequences))
}

pub fn batch_concat(
    a_keys: &[u32],
    a_offsets: &[usize],
    a_ends: &[i64],
    a_values: &[i64],
    b_keys: &[u32],
    b_offsets: &[usize],
    b_ends: &[i64],
    b_values: &[i64],
    out_keys: &[u32],
    out_offsets: &[usize],
    out_ends: &[i64],
    out_values: &[i64],
) -> Reading {
    let a = Batch::new(a_keys, a_offsets, a_ends, a_values);
    let b = Batch::new(b_keys, b_offsets, b_ends, b_values);
    ask_batches(&[&a, &b], Ok(()))?;
    let keys = once(&[a_keys, b_keys].concat());
    let shown = |&key: &u32| -> Vec<Shown> {
        let sequences = [a.of(key), b.of(key)].into_iter();
        sequences.flat_map(|(e, v)| show(e, v)).collect()
    };
    let joined: Vec<Vec<Shown>> = keys.iter().map(shown).collect();
    for shown in &joined {
        ask_length(shown.iter().map(|entry| entry.positions as i128).sum())?;
    }
    let given = given_batch(out_keys, out_offsets, out_ends, out_values);
    let needed = batch_needs(a_keys.len() + b_keys.len(), a_ends.len() + b_ends.len());
    ask_buffers(&needed, &given)?;
    let sequence = |shown: &Vec<Shown>| merged_runs(&without_seams(shown));
    let sequences = joined.iter().map(sequence).collect();
    Ok(batch(keys, sequences))
}

/// The keys of a join, each with its positions on both sides.
fn joined(a: &Batch, b: &Batch, how: u8) -> Vec<(u32, Option<usize>, Option<usize>)> {
    let (keeps_left, keeps_right) = ([0, 2].contains(&how), [0, 3].contains(&how));
    let left = a.keys.iter().enumerate();
    let left = left.map(|(i, &key)| (key, Some(i), b.position(key)));
    let left = left.filter(|(_, _, right)| keeps_left || right.is_some());
    let own = b.keys.iter().enumerate();
    let own = own.filter(|&(_, &key)| keeps_right && a.position(key).is_none());
    left.chain(own.map(|(j, &key)| (key, None, Some(j))))
        .collect()
}

pub fn batch_zip_with(
    a_keys: &[u32],
    a_offsets: &[usize],
    a_ends: &[i64],
    a_values: &[i64],
    b_keys: &[u32],
    b_offsets: &[usize],
    b_ends: &[i64],
    b_values: &[i64],
    how: u8,
    fill_a: Fill,
    fill_b: Fill,
    code: u8,
    out_keys: &[u32],
    out_offsets: &[usize],
    out_ends: &[i64],
    out_values: &[i64],
) -> Reading {
    ask_code(how, JOINS)?;
    ask_code(code, OPERATIONS)?;
    let a = Batch::new(a_keys, a_offsets, a_ends, a_values);
    let b = Batch::new(b_keys, b_offsets, b_ends, b_values);
    ask_batches(&[&a, &b], Ok(()))?;
    let joined = joined(&a, &b, how);
    let sides = |&(_, left, right): &_| {
        let ((left_ends, left_values), (right_ends, right_values)) =
            (a.sequence(left), b.sequence(right));
        [
            Side::new(left_ends, left_values, fill_a.option()),
            Side::new(right_ends, right_values, fill_b.option()),
        ]
    };
    let pairs: Vec<[Side; 2]> = joined.iter().map(sides).collect();
    for (position, pair) in pairs.iter().enumerate() {
        ask_filled(pair).map_err(|refusal| refusal.at(position))?;
    }
    let given = given_batch(out_keys, out_offsets, out_ends, out_values);
    let runs = pairs.iter().map(runs_of_both).sum();
    ask_buffers(&batch_needs(a_keys.len() + b_keys.len(), runs), &given)?;
    let keys = joined.iter().map(|(key, _, _)| *key).collect();
    let sequences = pairs.iter().map(|pair| zipped(pair, code)).collect();
    Ok(batch(keys, sequences))
}
