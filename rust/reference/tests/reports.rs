//! Report beside Walk: every part of small domains, many parts of large ones.

mod common;

use common::*;
use panstrait_reference::walk;
use panstrait_samples::*;

/// Walk's value at every X.
fn walked(n: usize, offset: i32, records: &[i32]) -> Vec<i32> {
    tables::of(n, |x| walk(n, offset, records, x).expect("a sound list"))
}

/// Report over all a and b, and outside the domain.
fn check_all_parts(n: usize, offset: i32, records: &[i32]) {
    let values = walked(n, offset, records);
    for a in 0..=1 << n {
        for b in 0..=1 << n {
            let answer = reported(n, offset, records, a, b);
            let expected = match b < 1 << n && a <= b {
                true => Ok(oracle::numbers(&values[a..=b])),
                false => Err(15),
            };
            assert_eq!(answer, expected, "X {a} to {b} of {records:?}");
        }
    }
}

#[test]
fn all_parts_of_tables() {
    let mut random = Random(71);
    for n in 1..=5 {
        for table in tables::all(n, &mut random, 40) {
            check_all_parts(n, table[0], &built(n, &table).1);
        }
    }
}

#[test]
fn all_parts_of_unreduced_lists() {
    let mut random = Random(72);
    for n in 1..=5 {
        for _ in 0..60 {
            let records = lists::passing(n, &mut random);
            let offset = [LEAST, GREATEST, random.between(LEAST, GREATEST)][random.below(3)];
            check_all_parts(n, offset, &records);
        }
    }
}

#[test]
fn parts_of_large_tables() {
    let mut random = Random(73);
    let mut all = tables::structured(12);
    all.extend([tables::many_classes(), tables::random(12, &mut random)]);
    for table in all {
        let (_, records) = built(12, &table);
        for (a, b) in lists::parts(12, &mut random, 10) {
            let expected = oracle::numbers(&table[a..=b]);
            assert_eq!(reported(12, table[0], &records, a, b), Ok(expected));
        }
    }
}

/// As many records as there can be, with every X walked.
#[test]
fn parts_of_a_full_list() {
    let table = tables::all_different(12);
    let (_, records) = built(12, &table);
    assert_eq!(records.len(), node_numbers(12));
    let values = walked(12, table[0], &records);
    assert!(values == table);
    for (a, b) in lists::parts(12, &mut Random(74), 100) {
        let expected = oracle::numbers(&values[a..=b]);
        assert_eq!(reported(12, table[0], &records, a, b), Ok(expected));
    }
}

#[test]
fn parts_of_large_unreduced_lists() {
    let mut random = Random(75);
    for _ in 0..5 {
        let records = lists::passing(12, &mut random);
        let offset = random.between(LEAST, GREATEST);
        let values = walked(12, offset, &records);
        for (a, b) in lists::parts(12, &mut random, 50) {
            let expected = oracle::numbers(&values[a..=b]);
            assert_eq!(reported(12, offset, &records, a, b), Ok(expected));
        }
    }
}

#[test]
fn parts_outside_the_domain() {
    for n in 1..=12 {
        let record = [n as i32 - 1, 0, 0, -1, -1, 0];
        for (a, b) in cases::wrong_parts(n) {
            assert_eq!(
                reported(n, 0, &record, a, b),
                Err(15),
                "n {n}, X {a} to {b}"
            );
            assert_eq!(reported(n, 0, &[], a, b), Err(15), "n {n}, X {a} to {b}");
        }
    }
}

#[test]
fn fixed_reports() {
    for case in cases::reports() {
        let answer = reported(case.n, case.offset, &case.records, case.a, case.b);
        assert_eq!(answer, case.answer, "{}", case.name);
    }
}
