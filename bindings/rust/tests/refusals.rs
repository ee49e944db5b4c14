//! Every refusal, by a call that gives it where one can, and the text that it prints. Those that the original has print as
//! there.

use std::error::Error as _;

use runlength::{
    Error, How, Keep, MergePlan, Op, Reduction, Result, Rle, RleBatch, RleLike, RleRef,
};
use runlength::{concat, merge_plan, plan, plan_many, zip_many};

fn says<T>(result: Result<T>, text: &str) {
    match result {
        Ok(_) => panic!("answered, in place of: {text}"),
        Err(error) => assert_eq!(error.to_string(), text),
    }
}

fn column(ends: &[i64], values: &[i64]) -> Rle {
    Rle::from_ends(ends.to_vec(), values.to_vec()).unwrap()
}

#[test]
fn negative_run() {
    says(
        Rle::from_runs(&[3, 0, -2, -1], vec![1, 2, 3, 4]),
        "run 2 has negative length -2",
    );
    says(Rle::repeat(7, -1), "run 0 has negative length -1");
    says(
        column(&[2, 5], &[1, 4]).push_run(i64::MIN, 0),
        "run 2 has negative length -9223372036854775808",
    );
}

#[test]
fn length_mismatch() {
    says(
        Rle::from_runs(&[3, 2], vec![1]),
        "runs and values have different lengths (2 and 1)",
    );
    says(
        RleBatch::from_parts(vec![1, 2], vec![0, 0], vec![], vec![]),
        "offsets and keys + 1 have different lengths (2 and 3)",
    );
    says(
        Rle::from_ends(vec![3], vec![1, 2]),
        "ends and values have different lengths (1 and 2)",
    );
    says(
        RleRef::from_ends(&[], &[5]),
        "ends and values have different lengths (0 and 1)",
    );
    says(
        RleBatch::from_parts(vec![1], vec![0, 1], vec![3], vec![]),
        "ends and values have different lengths (1 and 0)",
    );
    says(
        column(&[2, 5], &[1, 4]).merge_mask(&[], Keep::First),
        "merge mask and neighbouring run pairs have different lengths (0 and 1)",
    );
    says(
        merge_plan(&[], &[true]),
        "merge mask and neighbouring run pairs have different lengths (1 and 0)",
    );
    let batch = RleBatch::from_rles([(1, Rle::repeat(5, 3).unwrap())]).unwrap();
    says(
        batch.getitems(&[1, 1], &[0], &[1]),
        "keys and starts have different lengths (2 and 1)",
    );
    says(
        column(&[2], &[1]).getitems(&[0, 1], &[1]),
        "starts and ends have different lengths (2 and 1)",
    );
    says(
        column(&[2], &[1]).slice_reduce(&[], &[1], Reduction::Sum),
        "starts and ends have different lengths (0 and 1)",
    );
}

/// Both are asked of lengths that disagree in two ways, in the original's order.
#[test]
fn length_mismatch_of_a_batch_in_order() {
    let batch = RleBatch::new();
    says(
        batch.getitems(&[], &[5], &[3]),
        "interval 0 [5, 3) has a negative start or ends before it starts",
    );
    says(
        batch.slice_reduce(&[], &[5], &[3], Reduction::Mean),
        "keys and starts have different lengths (0 and 1)",
    );
}

#[test]
fn invalid_ends() {
    says(
        Rle::from_ends(vec![3, 3], vec![1, 2]),
        "run end 1 is not greater than the previous end (or 0)",
    );
    says(
        RleRef::from_ends(&[0], &[1]),
        "run end 0 is not greater than the previous end (or 0)",
    );
    says(
        plan(&[3, 5], &[1, 4, 2]),
        "run end 2 is not greater than the previous end (or 0)",
    );
}

#[test]
fn invalid_interval() {
    says(
        column(&[9], &[1]).getitems(&[0, -1], &[0, 4]),
        "interval 1 [-1, 4) has a negative start or ends before it starts",
    );
    says(
        column(&[9], &[1]).slice_reduce(&[6], &[5], Reduction::Mean),
        "interval 0 [6, 5) has a negative start or ends before it starts",
    );
}

#[test]
fn invalid_offsets() {
    let text = "offsets must start at 0, never decrease and end at the number of runs";
    for offsets in [[1, 1, 2], [0, 2, 1], [0, 1, 1]] {
        let (ends, values) = (vec![3, 4], vec![1, 2]);
        says(
            RleBatch::from_parts(vec![1, 2], offsets.to_vec(), ends, values),
            text,
        );
    }
    for offsets in [vec![], vec![1, 2], vec![0, 2, 1]] {
        let plan = MergePlan {
            ends: vec![],
            offsets,
        };
        says(plan.group_ids(), text);
    }
}

#[test]
fn overflow() {
    let text = "total length does not fit in an i64";
    says(Rle::from_runs(&[i64::MAX, 1], vec![1, 2]), text);
    let mut long = Rle::repeat(1, i64::MAX).unwrap();
    says(long.push_run(1, 2), text);
    says(concat([long.view(), column(&[1], &[1]).view()]), text);
    let batch = RleBatch::from_rles([(1, long)]).unwrap();
    says(RleBatch::concat(&[&batch, &batch]), text);
}

#[test]
fn unequal_length() {
    let (a, b) = (column(&[3, 5, 9], &[7, 2, 7]), column(&[2, 5], &[1, 4]));
    let text = "lengths differ (9 and 5) and the shorter side has no fill value";
    says(a.zip_with(&b, Some(&0), None, Op::Add), text);
    says(a.zip_with_raw(&b, None, None, Op::Add), text);
    says(
        zip_many(&[a.view(), b.view()], None, Op::Add),
        "lengths differ (5 and 9) and the shorter side has no fill value",
    );
}

#[test]
fn length_too_short() {
    says(
        column(&[2, 5], &[1, 4]).extend_to(4, 0),
        "requested length 4 is shorter than the existing length 5",
    );
}

#[test]
fn duplicate_key() {
    let rle = Rle::repeat(1, 1).unwrap();
    let text = "key at position 2 already exists in the batch";
    let twice = [(9, rle.clone()), (4, rle.clone()), (9, rle.clone())];
    says(RleBatch::from_rles(twice), text);
    says(
        RleBatch::from_parts(vec![9, 4, 9], vec![0; 4], vec![], vec![]),
        text,
    );
    let mut batch = RleBatch::from_rles([(9, rle.clone()), (4, rle.clone())]).unwrap();
    says(batch.push(4, rle.clone()), text);
    assert_eq!(batch.len(), 2);
    batch.push(5, rle).unwrap();
    assert_eq!(batch.keys(), [9, 4, 5]);
}

#[test]
fn in_key() {
    says(
        RleBatch::from_parts(vec![1, 2], vec![0, 1, 3], vec![3, 4, 2], vec![0; 3]),
        "key at output position 1: run end 1 is not greater than the previous end (or 0)",
    );
    let a = RleBatch::from_rles([
        (1, Rle::repeat(5, 2).unwrap()),
        (2, Rle::repeat(5, 3).unwrap()),
    ])
    .unwrap();
    let b = RleBatch::from_rles([(2, Rle::repeat(5, 9).unwrap())]).unwrap();
    let refused = a.zip_with(&b, How::Inner, None, Some(&0), Op::Add);
    let error = refused.unwrap_err();
    let (left, right) = (3, 9);
    let unequal = Error::UnequalLength { left, right };
    assert_eq!(
        error.to_string(),
        "key at output position 0: lengths differ (3 and 9) and the shorter side has no fill value"
    );
    assert_eq!(error.source().unwrap().to_string(), unequal.to_string());
    assert!(unequal.source().is_none());
    says(
        a.collapse(|_| 7, None, Op::Add),
        "key at output position 0: lengths differ (2 and 3) and the shorter side has no fill value",
    );
    says(
        plan_many(&[&[3], &[4, 4]]),
        "key at output position 1: run end 1 is not greater than the previous end (or 0)",
    );
}

#[test]
fn too_many() {
    let most: Vec<&[i64]> = vec![&[1]; Rle::MAX_COLUMNS];
    let planned = plan_many(&most).unwrap();
    assert_eq!((planned.ends, planned.idx.len()), (vec![1], 128));
    let more: Vec<&[i64]> = vec![&[1]; 129];
    says(
        plan_many(&more),
        "129 sequences are more than a call takes at once",
    );
    let rle = Rle::repeat(1, 1).unwrap();
    says(
        zip_many(&[rle.view(); 129], None, Op::Add),
        "129 sequences are more than a call takes at once",
    );
    assert_eq!(concat([rle.view(); 129]).unwrap().len(), 129);
}

/// A column with few runs may have more positions than there is memory.
#[test]
fn short_buffer() {
    let positions = 1 << 60;
    says(
        Rle::repeat(7, positions).unwrap().try_to_dense(),
        "buffer 0 needs 1152921504606846976 entries and has 0",
    );
    let plan = MergePlan {
        ends: vec![],
        offsets: vec![0, usize::MAX],
    };
    says(
        plan.group_ids(),
        "buffer 0 needs 18446744073709551615 entries and has 0",
    );
}

/// No call of this crate gives it: the codes are enums.
#[test]
fn unknown_code() {
    let error = Error::UnknownCode { code: 10 };
    assert_eq!(error.to_string(), "code 10 is not a listed one");
}

#[test]
fn a_refused_change_changes_nothing() {
    let mut rle = column(&[2, 5], &[1, 4]);
    rle.push_run(-1, 9).unwrap_err();
    rle.push_run(i64::MAX, 9).unwrap_err();
    rle.extend_to(4, 9).unwrap_err();
    assert_eq!(rle.into_parts(), (vec![2, 5], vec![1, 4]));
}
