//! Each call of librunlength.a under its name in include/runlength.h, by known answers; among them the seams of the scope
//! paper.

use std::collections::BTreeSet;
use std::fmt::Debug;

use runlength::prelude::*;
use runlength::{
    Comparison, How, Keep, MergePlan, Op, Plan, PlanMany, Reduced, Reduction, SliceView,
};

fn column(ends: &[i64], values: &[i64]) -> Rle {
    Rle::from_ends(ends.to_vec(), values.to_vec()).unwrap()
}

fn a() -> Rle {
    column(&[3, 5, 9], &[7, 2, 7])
}

fn b() -> Rle {
    column(&[2, 5], &[1, 4])
}

/// Keys 5, 3 and 8, the last without runs.
fn batch() -> RleBatch {
    RleBatch::from_rles([(5, a()), (3, b()), (8, Rle::new())]).unwrap()
}

/// The runs themselves: `==` of sequences goes by what they show.
#[track_caller]
fn assert_runs(rle: impl RleLike, ends: &[i64], values: &[i64]) {
    assert_eq!((rle.ends(), rle.values()), (ends, values));
}

/// Keys, offsets, ends and values.
#[track_caller]
fn assert_batch<K: Debug + PartialEq>(
    batch: RleBatch<K>,
    keys: &[K],
    offsets: &[usize],
    ends: &[i64],
    values: &[i64],
) {
    let parts = batch.into_parts();
    assert_eq!((&parts.0[..], &parts.1[..]), (keys, offsets));
    assert_eq!((&parts.2[..], &parts.3[..]), (ends, values));
}

/// The names behind each `before` in a text.
fn names<'a>(text: &'a str, before: &str) -> BTreeSet<&'a str> {
    let name = |rest: &'a str| {
        rest.split(|c: char| !c.is_ascii_alphanumeric() && c != '_')
            .next()
    };
    text.split(before).skip(1).filter_map(name).collect()
}

#[test]
fn every_call_that_the_crate_makes_is_tested_here() {
    let sources = [
        include_str!("../src/batch.rs"),
        include_str!("../src/many.rs"),
        include_str!("../src/merge.rs"),
        include_str!("../src/ops.rs"),
        include_str!("../src/plan.rs"),
        include_str!("../src/reduce.rs"),
        include_str!("../src/rle.rs"),
        include_str!("../src/slice.rs"),
        include_str!("../src/transform.rs"),
    ];
    let made: BTreeSet<_> = sources
        .iter()
        .flat_map(|text| names(text, "sys::rl_"))
        .collect();
    assert!(made.len() >= 43, "{made:?}");
    let tests = names(include_str!("calls.rs"), "#[test]\nfn ");
    let missing: Vec<_> = made.difference(&tests).collect();
    assert!(missing.is_empty(), "{missing:?}");
}

#[test]
fn empty() {
    assert_runs(Rle::new(), &[], &[]);
    assert_eq!((Rle::default().len(), Rle::new().is_empty()), (0, true));
    assert_eq!(RleRef::empty(), Rle::new().view());
}

#[test]
fn from_runs() {
    let rle = Rle::from_runs(&[3, 0, 2, 4], vec![7, 1, 7, 2]).unwrap();
    assert_runs(rle, &[3, 5, 9], &[7, 7, 2]);
}

#[test]
fn from_ends() {
    assert_eq!(a().into_parts(), (vec![3, 5, 9], vec![7, 2, 7]));
    let (ends, values) = ([2, 5], [1, 4]);
    assert_eq!(RleRef::from_ends(&ends, &values).unwrap(), b().view());
}

#[test]
fn repeat() {
    assert_runs(Rle::repeat(7, i64::MAX).unwrap(), &[i64::MAX], &[7]);
    assert_runs(Rle::repeat(7, 0).unwrap(), &[], &[]);
}

#[test]
fn push_run() {
    let mut rle = Rle::new();
    for (run, value) in [(2, 1), (0, 9), (3, 4), (4, 4)] {
        rle.push_run(run, value).unwrap();
    }
    assert_runs(rle, &[2, 5, 9], &[1, 4, 4]);
}

#[test]
fn extend_to() {
    let mut rle = b();
    rle.extend_to(9, 4).unwrap();
    assert_runs(rle.view(), &[2, 9], &[1, 4]);
    rle.extend_to(12, 0).unwrap();
    rle.extend_to(12, 5).unwrap();
    assert_runs(rle, &[2, 9, 12], &[1, 4, 0]);
}

#[test]
fn from_dense() {
    let rle = Rle::from_dense([7, 7, 7, 2, 2, 7, 7, 7, 7]);
    assert_runs(rle, &[3, 5, 9], &[7, 2, 7]);
    assert_runs(Rle::from_dense([]), &[], &[]);
}

#[test]
fn to_dense() {
    assert_eq!(a().to_dense(), [7, 7, 7, 2, 2, 7, 7, 7, 7]);
    assert_eq!(b().view().try_to_dense().unwrap(), [1, 1, 4, 4, 4]);
}

#[test]
fn equals() {
    let split = column(&[1, 3, 5, 9], &[7, 7, 2, 7]);
    assert!(split.equals(&a()) && a() == split);
    assert!(!a().equals(&a().slice(0, 8)));
    assert!(a() != column(&[3, 5, 9], &[7, 2, 8]));
}

#[test]
fn plan() {
    let expected = Plan {
        ends: vec![2, 3, 5, 9],
        idx_a: vec![0, 0, 1, 2],
        idx_b: vec![0, 1, 1, 2],
        fill_a: 3,
        fill_b: 2,
    };
    assert_eq!(runlength::plan(&[3, 5, 9], &[2, 5]).unwrap(), expected);
    assert_eq!(a().plan_with(&b()), expected);
}

#[test]
fn zip_with() {
    let added = a().zip_with(&b(), None, Some(&0), Op::Add).unwrap();
    assert_runs(added.view(), &[2, 3, 5, 9], &[8, 11, 6, 7]);
    assert_eq!(added.sum(), 67);
    let (a, b) = (a(), b());
    let first = runlength::zip_with(a.view(), b.view(), None, Some(&0), Op::First).unwrap();
    assert_runs(first, &[3, 5, 9], &[7, 2, 7]);
}

#[test]
fn zip_with_by_every_operation() {
    let at = |x: i64, y: i64, op: Op| {
        let (x, y) = (Rle::repeat(x, 1).unwrap(), Rle::repeat(y, 1).unwrap());
        x.zip_with(&y, None, None, op).unwrap().values()[0]
    };
    let all = |x, y| {
        [
            Op::Add,
            Op::Subtract,
            Op::Multiply,
            Op::Smaller,
            Op::Larger,
            Op::First,
            Op::Second,
            Op::Equal,
            Op::Less,
            Op::Midpoint,
        ]
        .map(|op| at(x, y, op))
    };
    assert_eq!(all(-7, 4), [-3, -11, -28, -7, 4, -7, 4, 0, 1, -1]);
    assert_eq!(all(6, 6), [12, 0, 36, 6, 6, 6, 6, 1, 0, 6]);
    let (min, max) = (i64::MIN, i64::MAX);
    assert_eq!(
        all(max, 1),
        [min, max - 1, max, 1, max, max, 1, 0, 0, 1 << 62]
    );
    assert_eq!(all(min, min), [0, 0, 0, min, min, min, min, 1, 0, min]);
}

#[test]
fn operators_of_columns() {
    let (a, b) = (a(), b());
    assert_runs(&a + &b, &[2, 3, 5, 9], &[8, 11, 6, 7]);
    assert_runs(&a - &b, &[2, 3, 5, 9], &[6, 3, -2, 7]);
    assert_runs(a * b, &[2, 3, 5, 9], &[7, 28, 8, 0]);
}

#[test]
fn zip_with_raw() {
    let raw = a().zip_with_raw(&b(), None, Some(&0), Op::First).unwrap();
    assert_runs(raw, &[2, 3, 5, 9], &[7, 7, 2, 7]);
    let (a, b) = (a(), b());
    let raw = runlength::zip_with_raw(b.view(), a.view(), Some(&4), None, Op::First).unwrap();
    assert_runs(raw, &[2, 3, 5, 9], &[1, 4, 4, 4]);
}

#[test]
fn plan_many() {
    let planned = runlength::plan_many(&[&[3, 5, 9], &[2, 5], &[4]]).unwrap();
    let expected = PlanMany {
        ends: vec![2, 3, 4, 5, 9],
        idx: vec![
            vec![0, 0, 1, 1, 2],
            vec![0, 1, 1, 1, 2],
            vec![0, 0, 0, 1, 1],
        ],
    };
    assert_eq!(planned, expected);
    let none = runlength::plan_many(&[]).unwrap();
    assert_eq!((none.ends.len(), none.idx.len()), (0, 0));
    let empty = runlength::plan_many(&[&[], &[]]).unwrap();
    assert_eq!(empty.idx, [vec![], vec![]]);
}

#[test]
fn zip_many() {
    let (a, b, c) = (a(), b(), Rle::repeat(1, 4).unwrap());
    let columns = [a.view(), b.view(), c.view()];
    let from_the_first = runlength::zip_many(&columns, Some(&0), Op::Subtract).unwrap();
    assert_runs(from_the_first, &[2, 3, 4, 5, 9], &[5, 2, -3, -2, 7]);
    let split = column(&[1, 3], &[6, 6]);
    let one = runlength::zip_many(&[split.view()], None, Op::Add).unwrap();
    assert_runs(one, &[3], &[6]);
    assert_runs(runlength::zip_many(&[], None, Op::Add).unwrap(), &[], &[]);
}

#[test]
fn run_index() {
    let runs = [2, 3, 8, 9, -1].map(|pos| a().run_index(pos));
    assert_eq!(runs, [Some(0), Some(1), Some(2), None, None]);
    assert_eq!((a().get(4), a().get(9)), (Some(&2), None));
}

#[test]
fn slice() {
    assert_runs(a().slice(2, 6), &[1, 3, 4], &[7, 2, 7]);
    assert_runs(a().slice(9, 12), &[], &[]);
    assert_runs(a().slice(i64::MIN, i64::MAX), &[3, 5, 9], &[7, 2, 7]);
}

#[test]
fn slice_view() {
    let rle = a();
    let view: SliceView<'_, i64> = rle.slice_view(2, 5);
    assert_eq!(
        (view.len(), view.is_empty(), view.num_runs()),
        (3, false, 2)
    );
    let runs: Vec<_> = view.iter_runs().collect();
    assert_eq!(runs, [(0, 1, &7), (1, 3, &2)]);
    assert_runs(view.to_rle(), &[1, 3], &[7, 2]);
    assert_eq!((view.sum(), view.mean()), (11, Some(11.0 / 3.0)));
    assert_eq!(rle.slice_view(2, 6).variance(0), Some(6.25));
    assert_eq!(rle.slice_view(2, 6).std(0), Some(2.5));
    let none = rle.slice_view(9, 12);
    assert_eq!((none.len(), none.sum(), none.mean()), (0, 0, None));
    assert!(none.is_empty() && none.to_rle().is_empty());
}

#[test]
fn slice_view_values() {
    let rle = column(&[3, 5, 9], &[7, 2, 8]);
    let part = rle.slice_view(3, 6).values();
    assert_eq!(part, [2, 8]);
    assert!(std::ptr::eq(part, &rle.values()[1..]));
    assert_eq!(rle.slice_view(4, 4).values(), []);
}

#[test]
fn getitems() {
    let slices = a().getitems(&[2, 0, 9], &[6, 3, 12]).unwrap();
    assert_eq!(slices.get_index(1).unwrap().to_dense(), [7, 7, 7]);
    assert_batch(
        slices,
        &[0, 1, 2],
        &[0, 3, 4, 4],
        &[1, 3, 4, 3],
        &[7, 2, 7, 7],
    );
    assert_batch(a().getitems(&[], &[]).unwrap(), &[], &[0], &[], &[]);
}

#[test]
fn concat() {
    let (a, b) = (a(), b());
    let joined = runlength::concat([a.view(), RleRef::empty(), a.view(), b.view()]).unwrap();
    assert_runs(joined, &[3, 5, 12, 14, 18, 20, 23], &[7, 2, 7, 2, 7, 1, 4]);
    assert_runs(runlength::concat([]).unwrap(), &[], &[]);
}

#[test]
fn shift() {
    assert_runs(a().shift(2, 7), &[5, 7, 9], &[7, 2, 7]);
    assert_runs(a().shift(-4, 0), &[1, 5, 9], &[2, 7, 0]);
    assert_runs(a().shift(9, 0), &[9], &[0]);
    assert_runs(a().shift(i64::MIN, 0), &[9], &[0]);
    assert_runs(Rle::new().shift(1, 0), &[], &[]);
}

#[test]
fn reversed() {
    assert_runs(b().reversed(), &[3, 5], &[4, 1]);
    assert_runs(column(&[1, 3], &[6, 6]).reversed(), &[2, 3], &[6, 6]);
}

#[test]
fn ranges_where() {
    let sevens = a().ranges_where(Comparison::Equal, 7);
    assert_eq!(sevens, (vec![0, 5], vec![3, 9]));
    let below = column(&[1, 2, 3, 5], &[4, 5, 6, 7]).ranges_where(Comparison::Less, 7);
    assert_eq!(below, (vec![0], vec![3]));
}

#[test]
fn merge() {
    let rle = column(&[1, 3, 6, 7], &[4, 4, 5, 4]);
    assert_runs(rle.merge(), &[3, 6, 7], &[4, 5, 4]);
}

#[test]
fn merged() {
    let rle = column(&[1, 3, 6], &[4, 4, 5]);
    assert_runs(rle.merged(), &[3, 6], &[4, 5]);
    assert!(!rle.is_merged() && rle.merged().is_merged());
}

#[test]
fn merge_mask() {
    let mask = [true, false];
    let first = a().merge_mask(&mask, Keep::First).unwrap();
    assert_runs(first, &[5, 9], &[7, 7]);
    let last = a().merge_mask(&mask, Keep::Last).unwrap();
    assert_runs(last, &[5, 9], &[2, 7]);
}

#[test]
fn merge_by() {
    let rle = column(&[1, 2, 3], &[3, 5, 4]);
    assert_runs(rle.merge_by(Comparison::Less), &[2, 3], &[3, 4]);
    let rle = column(&[1, 2, 3], &[3, 3, 4]);
    assert_runs(rle.merge_by(Comparison::Equal), &[2, 3], &[3, 4]);
}

#[test]
fn merge_plan() {
    let expected = MergePlan {
        ends: vec![5, 9],
        offsets: vec![0, 2, 3],
    };
    let mask = [true, false];
    assert_eq!(runlength::merge_plan(&[3, 5, 9], &mask).unwrap(), expected);
    assert_eq!(a().merge_plan(&mask).unwrap(), expected);
    assert_eq!(expected.num_groups(), 2);
    let none = runlength::merge_plan(&[], &[]).unwrap();
    assert_eq!((none.ends, none.offsets), (vec![], vec![0]));
}

#[test]
fn group_ids() {
    let mask = [true, false, true];
    let plan = runlength::merge_plan(&[3, 5, 9, 10], &mask).unwrap();
    assert_eq!(plan.group_ids().unwrap(), [0, 0, 1, 1]);
}

#[test]
fn sum() {
    assert_eq!(a().sum(), 53);
    assert_eq!(Rle::repeat(i64::MAX, 2).unwrap().sum(), -2);
    assert_eq!(Rle::new().sum(), 0);
}

#[test]
fn reduce() {
    let rle = column(&[2, 4], &[1, 3]);
    assert_eq!((rle.mean(), Rle::new().mean()), (Some(2.0), None));
    let variances = [0, 3, 4].map(|ddof| rle.variance(ddof));
    assert_eq!(variances, [Some(1.0), Some(4.0), None]);
    assert_eq!((rle.std(3), rle.std(4)), (Some(2.0), None));
    let rounded = [1, 3].map(|odd| Rle::repeat((1 << 53) + odd, 1).unwrap().mean());
    assert_eq!(
        rounded,
        [Some(9007199254740992.0), Some(9007199254740996.0)]
    );
}

#[test]
fn slice_reduce() {
    let reduced = |reduction| a().slice_reduce(&[2, 9], &[6, 12], reduction).unwrap();
    let sums = reduced(Reduction::Sum);
    assert_eq!(sums, [Reduced::Whole(18), Reduced::Whole(0)]);
    assert_eq!((sums[0].whole(), sums[0].fraction()), (Some(18), None));
    let means = reduced(Reduction::Mean);
    assert_eq!(means, [Reduced::Fraction(4.5), Reduced::Nothing]);
    assert_eq!((means[0].whole(), means[0].fraction()), (None, Some(4.5)));
    let variances = reduced(Reduction::Variance { ddof: 0 });
    assert_eq!(variances, [Reduced::Fraction(6.25), Reduced::Nothing]);
}

#[test]
fn batch_from_parts() {
    let parts = batch().into_parts();
    let rebuilt = RleBatch::from_parts(parts.0, parts.1, parts.2, parts.3).unwrap();
    assert!(rebuilt == batch());
    let (ends, values) = ([3, 5, 9, 2, 5], [7, 2, 7, 1, 4]);
    assert_batch(rebuilt, &[5, 3, 8], &[0, 3, 5, 5], &ends, &values);
    assert_batch(RleBatch::new(), &[], &[0], &[], &[]);
}

#[test]
fn batch_position() {
    let positions = [5, 3, 8, 4].map(|key| batch().position(&key));
    assert_eq!(positions, [Some(0), Some(1), Some(2), None]);
}

#[test]
fn batch_get() {
    let batch = batch();
    assert_runs(batch.get(&3).unwrap(), &[2, 5], &[1, 4]);
    assert_runs(batch.get_rle(&3).unwrap(), &[2, 5], &[1, 4]);
    assert!(batch.get_rle(&8).is_some_and(|rle| rle.is_empty()));
    assert!(batch.get(&4).is_none() && batch.get_rle(&4).is_none());
}

#[test]
fn batch_getitems() {
    let slices = batch().getitems(&[3, 4, 5], &[1, 0, 8], &[4, 9, 100]);
    let (ends, values) = ([1, 3, 1], [1, 4, 7]);
    assert_batch(slices.unwrap(), &[0, 1, 2], &[0, 2, 2, 3], &ends, &values);
}

#[test]
fn batch_slice_reduce() {
    let means = batch().slice_reduce(&[3, 4, 5], &[1, 0, 8], &[4, 9, 100], Reduction::Mean);
    let expected = [
        Reduced::Fraction(3.0),
        Reduced::Nothing,
        Reduced::Fraction(7.0),
    ];
    assert_eq!(means.unwrap(), expected);
}

#[test]
fn batch_shift() {
    let (ends, values) = ([1, 4, 6, 9, 1, 3, 5], [0, 7, 2, 7, 0, 1, 4]);
    let shifted = batch().shift(1, 0);
    assert_batch(shifted, &[5, 3, 8], &[0, 4, 7, 7], &ends, &values);
}

#[test]
fn batch_reversed() {
    let (ends, values) = ([4, 6, 9, 3, 5], [7, 2, 7, 4, 1]);
    let reversed = batch().reversed();
    assert_batch(reversed, &[5, 3, 8], &[0, 3, 5, 5], &ends, &values);
}

#[test]
fn batch_map_rles_slice() {
    let slices = batch().map_rles_slice(2, 6);
    assert_batch(
        slices,
        &[5, 3, 8],
        &[0, 3, 4, 4],
        &[1, 3, 4, 3],
        &[7, 2, 7, 4],
    );
}

#[test]
fn batch_collapse() {
    let collapsed = batch().collapse(|key| key % 2, Some(&0), Op::Add).unwrap();
    let (ends, values) = ([2, 3, 5, 9], [8, 11, 6, 7]);
    assert_batch(collapsed, &[1, 0], &[0, 4, 4], &ends, &values);
}

#[test]
fn batch_concat() {
    let other = RleBatch::from_rles([
        (3, Rle::repeat(4, 2).unwrap()),
        (9, Rle::repeat(1, 1).unwrap()),
    ])
    .unwrap();
    let joined = RleBatch::concat(&[&batch(), &other]).unwrap();
    let (ends, values) = ([3, 5, 9, 2, 7, 1], [7, 2, 7, 1, 4, 1]);
    assert_batch(joined, &[5, 3, 8, 9], &[0, 3, 5, 5, 6], &ends, &values);
    let thrice = RleBatch::concat(&[&other, &other, &other]).unwrap();
    assert_batch(thrice, &[3, 9], &[0, 1, 2], &[6, 3], &[4, 1]);
    let split = RleBatch::from_rles([(1, column(&[1, 3], &[6, 6]))]).unwrap();
    let merged = RleBatch::concat(&[&split]).unwrap();
    assert_batch(merged, &[1], &[0, 1], &[3], &[6]);
    assert_batch(RleBatch::concat(&[]).unwrap(), &[], &[0], &[], &[]);
}

#[test]
fn batch_zip_with() {
    let (left, right) = (batch(), RleBatch::from_rles([(9, b()), (3, a())]).unwrap());
    let joined = |how| {
        left.zip_with(&right, how, Some(&0), Some(&1), Op::Subtract)
            .unwrap()
    };
    assert_batch(
        joined(How::Outer),
        &[5, 3, 8, 9],
        &[0, 3, 7, 7, 9],
        &[3, 5, 9, 2, 3, 5, 9, 2, 5],
        &[6, 1, 6, -6, -3, 2, -7, -1, -4],
    );
    assert_batch(
        joined(How::Inner),
        &[3],
        &[0, 4],
        &[2, 3, 5, 9],
        &[-6, -3, 2, -7],
    );
    assert_eq!(joined(How::Left).keys(), [5, 3, 8]);
    assert_eq!(joined(How::Right).keys(), [3, 9]);
}

#[test]
fn operators_of_batches() {
    let (left, right) = (batch(), RleBatch::from_rles([(3, a())]).unwrap());
    let at_3 = |batch: RleBatch| batch.get_rle(&3).unwrap();
    assert_runs(at_3(&left + &right), &[2, 3, 5, 9], &[8, 11, 6, 7]);
    assert_runs(at_3(&left - &right), &[2, 3, 5, 9], &[-6, -3, 2, -7]);
    assert_runs(at_3(&left * &right), &[2, 3, 5, 9], &[7, 28, 8, 0]);
}

/// Types as they are written with the original, and a sequence of the program's own.
#[test]
fn source_of_the_original_names_these_types() {
    struct Cached(Rle<i64>);
    impl RleLike<i64> for Cached {
        fn view(&self) -> RleRef<'_, i64> {
            self.0.view()
        }
    }
    fn total<R: RleLike<i64> + ?Sized>(rle: &R, batch: &RleBatch<u32, i64>) -> i64 {
        rle.sum() + batch.iter().map(|(_, rle)| rle.sum()).sum::<i64>()
    }
    let mut cached = Cached(a());
    cached.0.values_mut()[1] = 3;
    assert_eq!(total(&cached, &batch()), 55 + 53 + 14);
    assert_eq!(cached.to_rle(), cached.0);
    let batch: RleBatch = Default::default();
    assert_eq!((batch.is_empty(), batch.len()), (true, 0));
}

#[test]
fn text_output() {
    let rle = b();
    assert_eq!(format!("{rle:?}"), "Rle { runs: [2, 3], values: [1, 4] }");
    let view = rle.view();
    assert_eq!(
        format!("{view:?}"),
        "RleRef { runs: [2, 3], values: [1, 4] }"
    );
    assert_eq!(format!("{:?}", rle.slice_view(1, 4)), "[(1, 1), (2, 4)]");
    let batch = RleBatch::from_rles([(6, rle)]).unwrap();
    assert_eq!(
        format!("{batch:?}"),
        "{6: RleRef { runs: [2, 3], values: [1, 4] }}"
    );
}
