//! The least and the greatest value beside each node.

mod common;

use common::*;
use panstrait_reference::*;
use panstrait_samples::*;

/// The least and greatest that a list's records say are those of Walk's values
/// on the list that ends with the record, over all X and with offset 0.
fn check_bounds(n: usize, records: &[i32]) {
    for end in (RECORD..=records.len()).step_by(RECORD) {
        let values = tables::of(n, |x| walk(n, 0, &records[..end], x).expect("a sound list"));
        let (_, least, greatest, _) = oracle::numbers(&values);
        assert_eq!(values[0], 0);
        assert_eq!(records[end - 2..end], [least, greatest]);
    }
}

#[test]
fn bounds_of_tables() {
    let mut random = Random(81);
    for n in 1..=6 {
        for table in tables::all(n, &mut random, 30) {
            check_bounds(n, &built(n, &table).1);
        }
    }
}

#[test]
fn bounds_of_unreduced_lists() {
    let mut random = Random(82);
    for n in 1..=6 {
        for _ in 0..60 {
            check_bounds(n, &lists::passing(n, &mut random));
        }
    }
}

/// From the children of each node, and from the block of each record.
#[test]
fn bounds_of_large_tables() {
    let mut random = Random(83);
    for n in 7..=12 {
        for table in tables::all(n, &mut random, 10) {
            assert!(built(n, &table).1 == oracle::records(n, &table));
        }
    }
}

/// The last record's bounds are those of the table less its first value.
#[test]
fn bounds_of_the_root() {
    let mut random = Random(84);
    for n in 1..=12 {
        for table in tables::all(n, &mut random, 10) {
            let (_, records) = built(n, &table);
            let (_, least, greatest, _) = oracle::numbers(&table);
            let bounds = [least - table[0], greatest - table[0]];
            match records.rchunks(RECORD).next() {
                Some(root) => assert_eq!(root[4..], bounds),
                None => assert_eq!(bounds, [0, 0]),
            }
        }
    }
}

/// A value below the first, one above it, both and neither.
#[test]
fn bounds_below_and_above_0() {
    let bounds = |table: [i32; 4]| {
        let (_, records) = built(2, &table);
        let end = records.len();
        [records[end - 2], records[end - 1]]
    };
    assert_eq!(bounds([5, 3, 3, 4]), [-2, 0]);
    assert_eq!(bounds([5, 7, 8, 6]), [0, 3]);
    assert_eq!(bounds([5, 3, 3, 9]), [-2, 4]);
    assert_eq!(bounds([LEAST, LEAST, LEAST, GREATEST]), [0, MOST_WEIGHT]);
    assert_eq!(bounds([GREATEST, LEAST, LEAST, LEAST]), [-MOST_WEIGHT, 0]);
}

/// Every least and greatest around the true ones: those alone pass.
#[test]
fn other_bounds_are_refused() {
    let mut random = Random(85);
    for n in 1..=4 {
        for _ in 0..20 {
            let records = lists::passing(n, &mut random);
            for end in (RECORD..=records.len()).step_by(RECORD) {
                refuse_other_bounds(n, &records, end);
            }
        }
    }
}

fn refuse_other_bounds(n: usize, records: &[i32], end: usize) {
    let mut changed = records.to_vec();
    for (less, more) in (0..25).map(|code| (code / 5 - 2, code % 5 - 2)) {
        changed[end - 2] = records[end - 2] + less;
        changed[end - 1] = records[end - 1] + more;
        let refusal = if (less, more) == (0, 0) {
            None
        } else {
            Some(6)
        };
        assert_eq!(walk(n, 0, &changed, 0).err(), refusal, "{changed:?}");
        assert_eq!(report(n, 0, &changed, 0, 1).err(), refusal, "{changed:?}");
    }
}
