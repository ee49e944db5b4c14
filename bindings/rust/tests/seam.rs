//! The reel that went out wrong: 31,000 labels in, two columns break on one position and a third does not. A proof of the
//! head of a reel does not show such a seam.

use runlength::{
    How, Op, PlanMany, Reduced, Reduction, Rle, RleBatch, RleLike, concat, plan_many, zip_many,
};

const SEAM: i64 = 31_000;
const REEL: i64 = 40_000;
const ROLL: i64 = 4_000;

fn flavour() -> Rle {
    Rle::from_runs(&[SEAM, REEL - SEAM], vec![100, 200]).unwrap()
}

fn ink_set() -> Rle {
    Rle::from_runs(&[SEAM, REEL - SEAM], vec![1_000, 2_000]).unwrap()
}

/// A new one with each roll, so none at the seam.
fn barcode() -> Rle {
    Rle::from_runs(&[ROLL; 10], (0..10).collect()).unwrap()
}

/// What a label shows, by its position alone.
fn label(position: i64) -> i64 {
    let behind = i64::from(position >= SEAM);
    (behind + 1) * 1_000 + (behind + 1) * 100 + position / ROLL
}

fn combined(flavour: &Rle, ink_set: &Rle, barcode: &Rle) -> Rle {
    let columns = [flavour.view(), ink_set.view(), barcode.view()];
    zip_many(&columns, None, Op::Add).unwrap()
}

fn runs(rle: &Rle) -> (&[i64], &[i64]) {
    (rle.ends(), rle.values())
}

#[test]
fn columns_that_break_on_one_position_step_together() {
    let two = flavour().plan_with(&ink_set());
    assert_eq!(two.ends, [SEAM, REEL]);
    assert_eq!((two.idx_a, two.idx_b), (vec![0, 1], vec![0, 1]));

    let (flavour, ink_set, barcode) = (flavour(), ink_set(), barcode());
    let PlanMany { ends, idx } =
        plan_many(&[flavour.ends(), ink_set.ends(), barcode.ends()]).unwrap();
    let mut rolls: Vec<i64> = (1..=10).map(|roll| roll * ROLL).collect();
    rolls.insert(7, SEAM);
    assert_eq!(ends, rolls);
    let segment = |s: usize| (idx[0][s], idx[1][s], idx[2][s]);
    assert_eq!(segment(7), (0, 0, 7));
    assert_eq!(segment(8), (1, 1, 7));
    assert_eq!(segment(10), (1, 1, 9));
}

#[test]
fn every_label_shows_its_own_values() {
    let reel = combined(&flavour(), &ink_set(), &barcode());
    assert_eq!(reel.num_runs(), 11);
    assert_eq!(reel.get(SEAM - 1), Some(&1_107));
    assert_eq!(reel.get(SEAM), Some(&2_207));
    let expected: Vec<i64> = (0..REEL).map(label).collect();
    assert_eq!(reel.to_dense(), expected);
    assert_eq!(reel.sum(), expected.iter().sum());
    let around = reel.getitems(&[SEAM - 2], &[SEAM + 2]).unwrap();
    assert_eq!(
        around.get_index(0).unwrap().to_dense(),
        [1_107, 1_107, 2_207, 2_207]
    );
    let sums = reel
        .slice_reduce(&[SEAM - 1, SEAM], &[SEAM, SEAM + 1], Reduction::Sum)
        .unwrap();
    assert_eq!(sums, [Reduced::Whole(1_107), Reduced::Whole(2_207)]);
}

#[test]
fn two_columns_at_a_time_show_the_same() {
    let both = &flavour() + &ink_set();
    assert_eq!(runs(&both), (&[SEAM, REEL][..], &[1_100, 2_200][..]));
    let reel = both.zip_with(&barcode(), None, None, Op::Add).unwrap();
    assert_eq!(
        runs(&reel),
        runs(&combined(&flavour(), &ink_set(), &barcode()))
    );
}

/// Cut before, at and behind the seam, and twice at one label; the pieces joined have the whole's runs, and their sums add
/// up.
#[test]
fn cutting_the_reel_does_not_show() {
    let whole = combined(&flavour(), &ink_set(), &barcode());
    for cuts in [
        vec![0, SEAM, REEL],
        vec![0, SEAM - 1, SEAM, SEAM, SEAM + 1, REEL],
        vec![0, 7, 28_000, 30_999, 32_000, REEL + 5],
    ] {
        let piece = |cut: &[i64]| {
            let part = |column: Rle| column.slice(cut[0], cut[1]);
            combined(&part(flavour()), &part(ink_set()), &part(barcode()))
        };
        let pieces: Vec<Rle> = cuts.windows(2).map(piece).collect();
        let joined = concat(pieces.iter().map(|piece| piece.view())).unwrap();
        assert_eq!(runs(&joined), runs(&whole));
        let sums: i64 = pieces.iter().map(|piece| piece.sum()).sum();
        assert_eq!(sums, whole.sum());
    }
}

/// The cause: a run was kept by row, and the list was sorted anew. A batch goes by its keys, in whichever order they stand.
#[test]
fn a_list_sorted_anew_keeps_each_customers_labels() {
    let job = |column: fn() -> Rle, customers: [u32; 3]| {
        let of = |customer: u32| {
            let number = Rle::repeat(i64::from(customer) * 10_000, REEL).unwrap();
            (customer, column() + number)
        };
        RleBatch::from_rles(customers.map(of)).unwrap()
    };
    let flavours = job(flavour, [1, 2, 3]);
    for resorted in [[1, 2, 3], [3, 1, 2], [2, 3, 1]] {
        let job = flavours
            .zip_with(&job(ink_set, resorted), How::Outer, None, None, Op::Add)
            .unwrap();
        assert_eq!(job.keys(), [1, 2, 3]);
        for customer in 1..=3 {
            let both = i64::from(customer) * 20_000;
            let labels = job.get(&customer).unwrap();
            assert_eq!(labels.ends(), [SEAM, REEL]);
            assert_eq!(labels.values(), [both + 1_100, both + 2_200]);
        }
    }
}
