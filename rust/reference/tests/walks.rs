//! Walk on record lists that Build would not make, and on damaged ones.

mod common;

use common::*;
use panstrait_reference::*;
use panstrait_samples::lists::{with_bounds, Branch};
use panstrait_samples::*;

/// The figure's records with one branch changed, and the bounds that follow.
fn changed(number: usize, field: usize, value: i32) -> Vec<i32> {
    let mut branches = cases::figure_branches();
    branches[number - 1][field] = value;
    with_bounds(&branches)
}

#[test]
fn the_empty_list_is_the_offset() {
    for n in 1..=12 {
        assert_eq!(walk(n, -17, &[], 0), Ok(-17));
        assert_eq!(walk(n, -17, &[], (1 << n) - 1), Ok(-17));
        for x in [1 << n, 1 << 16, 1 << 32, usize::MAX] {
            assert_eq!(walk(n, -17, &[], x), Err(7));
        }
    }
}

#[test]
fn lengths() {
    let (_, records) = built(4, &FIGURE);
    for length in 0..=records.len() {
        let expected = if length % 6 == 0 { Ok(true) } else { Err(6) };
        assert_eq!(
            walk(4, 0, &records[..length], 0).map(|value| value == 0),
            expected
        );
    }
    // As many records as the largest diagram has, and one more.
    for n in 1..=12 {
        let record = [0, 0, 0, 9, 0, 9];
        let most = record.repeat((1 << n) - 1);
        assert_eq!(walk(n, 1, &most, 1), Ok(10));
        let beyond = record.repeat(1 << n);
        assert_eq!(walk(n, 1, &beyond, 1), Err(6));
    }
}

#[test]
fn each_rule_alone() {
    for case in cases::broken_lists() {
        for x in [0, (1 << case.n) - 1] {
            assert_eq!(walk(case.n, 0, &case.records, x), Err(6), "{}", case.name);
        }
    }
}

#[test]
fn variables_out_of_range() {
    for variable in [-1, 4, i32::MIN, i32::MAX] {
        for number in 1..=5 {
            assert_eq!(walk(4, 0, &changed(number, 0, variable), 0), Err(6));
        }
    }
}

#[test]
fn variables_that_are_admitted() {
    let passing = |n, branches: &[Branch], x| walk(n, 0, &with_bounds(branches), x);
    // A record may stand at any variable above its children's.
    assert_eq!(passing(4, &[[3, 0, 0, 2]], 8), Ok(2));
    assert_eq!(passing(4, &[[0, 0, 0, 1], [3, 1, 1, 2]], 9), Ok(3));
    // Node 0 may stand below any record.
    for field in [1, 2] {
        assert!(walk(4, 0, &changed(5, field, 0), 0).is_ok());
        assert!(walk(4, 0, &changed(3, field, 0), 0).is_ok());
    }
}

#[test]
fn weights_that_are_admitted() {
    for weight in [MOST_WEIGHT, -MOST_WEIGHT] {
        assert_eq!(walk(4, 0, &changed(5, 3, weight), 8), Ok(weight));
    }
}

#[test]
fn records_off_the_path_are_checked_too() {
    // The first record is no child of the root.
    let walked = |branches: &[Branch]| walk(2, 0, &with_bounds(branches), 0);
    assert_eq!(walked(&[[1, 0, 0, 0], [0, 0, 0, 1]]), Ok(0));
    assert_eq!(walked(&[[2, 0, 0, 0], [0, 0, 0, 1]]), Err(6));
    assert_eq!(walked(&[[0, 0, 0, MOST_WEIGHT + 1], [0, 0, 0, 1]]), Err(6));
    let mut untrue = with_bounds(&[[1, 0, 0, 3], [0, 0, 0, 1]]);
    untrue[5] = 2;
    assert_eq!(walk(2, 0, &untrue, 0), Err(6));
}

#[test]
fn unreduced_lists_are_walked() {
    // Equal children with weight 0, a repeated record, one that none points to.
    let records = [
        [0, 0, 0, 3, 0, 3],
        [0, 0, 0, 3, 0, 3],
        [0, 0, 0, 100, 0, 100],
        [1, 1, 1, 0, 0, 3],
        [2, 4, 2, 50, 0, 53],
    ];
    let values: Vec<i32> = (0..8)
        .map(|x| walk(3, 1, &records.concat(), x).unwrap())
        .collect();
    assert_eq!(values, [1, 4, 1, 4, 51, 54, 51, 54]);
}

#[test]
fn fixed_lists() {
    for case in cases::lists() {
        let answer = walk(case.n, case.offset, &case.records, case.x);
        assert_eq!(answer, case.answer, "{}", case.name);
    }
}
