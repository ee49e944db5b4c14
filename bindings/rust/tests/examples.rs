//! The examples in the original's documentation comments, each under the name of its call. A function there is a code here.

use runlength::{Comparison, Keep, Op, Reduction, Rle, RleBatch, RleLike, RleRef};
use runlength::{concat, merge_plan, plan, zip_many, zip_with};

#[test]
fn plan_of_two_columns() {
    let p = plan(&[3, 5], &[1, 5]).unwrap();
    assert_eq!(p.ends, vec![1, 3, 5]);
    assert_eq!(p.idx_a, vec![0, 0, 1]);
    assert_eq!(p.idx_b, vec![0, 1, 1]);
}

/// "Applying it is a gather": the fill stands behind the values, where an index equal to the number of runs finds it.
#[test]
fn plan_is_applied_by_gathering() {
    let a = Rle::from_runs(&[3, 2], vec![1, 2]).unwrap();
    let b = Rle::from_runs(&[1, 2], vec![10, 20]).unwrap();
    let p = a.plan_with(&b);
    assert_eq!((p.fill_a, p.fill_b), (2, 2));
    assert_eq!((p.needs_fill_a(), p.needs_fill_b()), (false, true));
    assert_eq!(p.num_segments(), 3);
    let gathered_a = p.gather_a(a.values(), &0);
    let gathered_b = p.gather_b(b.values(), &0);
    let added: Vec<i64> = gathered_a
        .iter()
        .zip(&gathered_b)
        .map(|(x, y)| x + y)
        .collect();
    let raw = a.zip_with_raw(&b, None, Some(&0), Op::Add).unwrap();
    assert_eq!(raw.ends(), p.ends);
    assert_eq!(raw.values(), added);
    assert_eq!(added, [11, 21, 2]);
}

#[test]
fn zip_with_pads_the_shorter_side() {
    let a = Rle::from_runs(&[3, 2], vec![1, 2]).unwrap();
    let b = Rle::from_runs(&[1, 2], vec![10, 20]).unwrap();
    let c = zip_with(a.view(), b.view(), None, Some(&0), Op::Add).unwrap();
    assert_eq!(c.to_dense(), vec![11, 21, 21, 2, 2]);
}

#[test]
fn zip_many_adds_three_columns() {
    let a = Rle::from_runs(&[2, 2], vec![1, 2]).unwrap();
    let b = Rle::from_runs(&[1, 3], vec![10, 20]).unwrap();
    let c = Rle::from_runs(&[3], vec![100]).unwrap();
    let total = zip_many(&[a.view(), b.view(), c.view()], Some(&0), Op::Add).unwrap();
    assert_eq!(total.to_dense(), vec![111, 121, 122, 22]);
}

#[test]
fn slice_view_of_three_runs() {
    let rle = Rle::from_runs(&[3, 2, 4], vec![1, 5, 2]).unwrap();
    let view = rle.slice_view(2, 6);
    assert_eq!(view.len(), 4);
    assert_eq!(view.sum(), 1 + 5 + 5 + 2);
    assert_eq!(view.to_rle().to_dense(), vec![1, 5, 5, 2]);
}

#[test]
fn concat_merges_at_the_join() {
    let a = Rle::from_runs(&[2], vec![1]).unwrap();
    let b = Rle::from_runs(&[1, 1], vec![1, 2]).unwrap();
    let c = concat([a.view(), b.view()]).unwrap();
    assert_eq!(c.runs(), vec![3, 1]);
}

/// "runs `[3, 2]` with values `[a, b]` are stored as ends `[3, 5]`. Run `i` covers positions `ends[i - 1]..ends[i]`".
#[test]
fn rle_stores_ends() {
    let rle = Rle::from_runs(&[3, 2], vec![8, 9]).unwrap();
    assert_eq!(rle.ends(), [3, 5]);
    assert_eq!(rle.runs(), [3, 2]);
    let runs: Vec<_> = rle.iter_runs().collect();
    assert_eq!(runs, [(0, 3, &8), (3, 5, &9)]);
}

/// "A borrowed run-length encoded sequence, for example one entry of an `RleBatch`".
#[test]
fn rle_ref_is_an_entry_of_a_batch() {
    let batch = RleBatch::from_rles([
        (4, Rle::repeat(1, 2).unwrap()),
        (6, Rle::repeat(5, 3).unwrap()),
    ])
    .unwrap();
    let entry: RleRef<'_, i64> = batch.get_index(1).unwrap();
    assert_eq!(entry.to_dense(), [5, 5, 5]);
    assert!(batch.get_index(2).is_none());
}

/// "clamped to the sequence, like slicing in Python, so an out-of-range slice is shorter or empty rather than an error".
#[test]
fn slice_is_clamped() {
    let rle = Rle::from_runs(&[3, 2], vec![8, 9]).unwrap();
    assert_eq!(rle.slice(-4, 4).to_dense(), [8, 8, 8, 9]);
    assert_eq!(rle.slice(4, 100).to_dense(), [9]);
    assert!(rle.slice(5, 100).is_empty());
    assert!(rle.slice(3, 2).is_empty());
}

/// "`rle.slice_reduce(&starts, &ends, |s| s.mean())`".
#[test]
fn slice_reduce_by_mean() {
    let rle = Rle::from_runs(&[3, 2, 4], vec![1, 5, 2]).unwrap();
    let (starts, ends) = ([2, 0, 7], [6, 3, 7]);
    let means = rle.slice_reduce(&starts, &ends, Reduction::Mean).unwrap();
    let means: Vec<Option<f64>> = means.into_iter().map(|mean| mean.fraction()).collect();
    assert_eq!(means, [Some(3.25), Some(1.0), None]);
    let each = |k: usize| rle.slice_view(starts[k], ends[k]).mean();
    assert_eq!(means, [each(0), each(1), each(2)]);
}

/// "For example, where coverage is positive": 0 less than the coverage, as `value comparison number` has no other order.
#[test]
fn ranges_where_coverage_is_positive() {
    let coverage = Rle::from_runs(&[2, 3, 1, 2, 4], vec![0, 1, 4, 0, 2]).unwrap();
    let zero = Rle::repeat(0, coverage.len()).unwrap();
    let positive = zero.zip_with(&coverage, None, None, Op::Less).unwrap();
    let (starts, ends) = positive.ranges_where(Comparison::Equal, 1);
    assert_eq!((starts, ends), (vec![2, 8], vec![6, 12]));
}

/// "`pred` sees the original neighbouring values, so a .. check can chain": 1, 2 and 3 all merge, though 3 is compared with
/// 2.
#[test]
fn merge_by_chains() {
    let rle = Rle::from_runs(&[1, 1, 1], vec![1, 2, 3]).unwrap();
    let merged = rle.merge_by(Comparison::Less);
    assert_eq!((merged.ends(), merged.values()), (&[3][..], &[1][..]));
}

/// "aggregate values per group in any way, for example a length-weighted mean".
#[test]
fn merge_plan_for_a_mean_of_each_group() {
    let rle = Rle::from_runs(&[1, 3, 2], vec![10, 2, 5]).unwrap();
    let mask = [true, false];
    let plan = rle.merge_plan(&mask).unwrap();
    assert_eq!(plan, merge_plan(rle.ends(), &mask).unwrap());
    assert_eq!(plan.num_groups(), 2);
    let runs = rle.runs();
    let weighted = |group: &[usize]| -> i64 {
        (group[0]..group[1])
            .map(|run| runs[run] * rle.values()[run])
            .sum()
    };
    let totals: Vec<i64> = plan.offsets.windows(2).map(weighted).collect();
    assert_eq!(totals, [16, 10]);
    let kept = rle.merge_mask(&mask, Keep::First).unwrap();
    assert_eq!(kept.ends(), plan.ends);
    assert_eq!(kept.runs(), [4, 2]); // so the means are 4 and 5
}

/// "`batch.collapse(|(chrom, _strand)| chrom.clone(), Some(&0), |a, b| a + b)` adds the strands of each chromosome
/// together": a key is a `u32` here, with the strand in its lowest bit.
#[test]
fn collapse_adds_strands() {
    let (chrom_2, chrom_1) = (2 << 1, 1 << 1);
    let batch = RleBatch::from_rles([
        (chrom_2, Rle::from_runs(&[2, 1], vec![1, 2]).unwrap()),
        (chrom_1, Rle::from_runs(&[1], vec![5]).unwrap()),
        (chrom_2 | 1, Rle::from_runs(&[4], vec![10]).unwrap()),
    ])
    .unwrap();
    let collapsed = batch.collapse(|key| key >> 1, Some(&0), Op::Add).unwrap();
    assert_eq!(collapsed.keys(), [2, 1]);
    assert_eq!(collapsed.get(&2).unwrap().to_dense(), [11, 11, 12, 10]);
    assert_eq!(collapsed.get(&1).unwrap().to_dense(), [5]);
}
