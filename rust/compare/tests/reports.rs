//! Report: every part of small domains, many parts of large ones, and what is
//! refused.

use panstrait_compare::answers;
use panstrait_reference as reference;
use panstrait_reference::Refusal;
use panstrait_samples::oracle::Numbers;
use panstrait_samples::{
    cases, lists, node_numbers, oracle, tables, Random, GREATEST, LEAST, RECORD,
};

/// Both programs' answers, as the numbers they have.
fn same_report(
    n: usize,
    offset: i32,
    records: &[i32],
    a: usize,
    b: usize,
) -> Result<Numbers, Refusal> {
    let answer = answers::report(n, offset, records, a, b);
    assert!(
        answer == reference::report(n, offset, records, a, b),
        "n {n}, offset {offset}, X {a} to {b}: {answer:?} for {records:?}"
    );
    answer.map(|r| (r.count, r.least, r.greatest, r.sum))
}

/// All a and b of the domain and just outside it, and the proved Walk's values
/// of the list where it passes.
fn check_all_parts(n: usize, offset: i32, records: &[i32]) {
    let walked = |x| answers::walk(n, offset, records, x);
    let values: Result<Vec<i32>, Refusal> = (0..1 << n).map(walked).collect();
    for a in 0..=1 << n {
        for b in 0..=1 << n {
            let expected = match &values {
                Ok(values) if b < 1 << n && a <= b => Ok(oracle::numbers(&values[a..=b])),
                Ok(_) => Err(15),
                Err(refusal) => Err(*refusal),
            };
            let answer = same_report(n, offset, records, a, b);
            assert_eq!(answer, expected, "X {a} to {b} of {records:?}");
        }
    }
}

#[test]
fn all_parts_of_tables() {
    let mut random = Random(61);
    for n in 1..=4 {
        for table in tables::all(n, &mut random, 150) {
            check_all_parts(n, table[0], &oracle::records(n, &table));
        }
    }
}

/// An offset, often at one end of its range.
fn some_offset(random: &mut Random) -> i32 {
    let any = random.between(LEAST, GREATEST);
    [LEAST, GREATEST, 0, any][random.below(4)]
}

#[test]
fn all_parts_of_unreduced_lists() {
    let mut random = Random(62);
    for n in 1..=4 {
        for _ in 0..200 {
            let records = lists::passing(n, &mut random);
            check_all_parts(n, some_offset(&mut random), &records);
        }
    }
}

/// One number of a list is another, mostly a least or a greatest value.
#[test]
fn all_parts_of_damaged_lists() {
    let mut random = Random(63);
    for n in 1..=4 {
        for _ in 0..200 {
            let mut records = lists::passing(n, &mut random);
            let record = RECORD * random.below(records.len() / RECORD);
            let field = [0, 1, 2, 3, 4, 5, 4, 5, 4, 5][random.below(10)];
            records[record + field] += [-1, 1, -2, 100][random.below(4)];
            check_all_parts(n, some_offset(&mut random), &records);
        }
    }
}

#[test]
fn parts_of_larger_tables() {
    let mut random = Random(64);
    for n in 5..=12 {
        for table in tables::all(n, &mut random, 10) {
            let records = oracle::records(n, &table);
            for (a, b) in lists::parts(n, &mut random, 6) {
                let answer = same_report(n, table[0], &records, a, b);
                assert_eq!(answer, Ok(oracle::numbers(&table[a..=b])), "X {a} to {b}");
            }
        }
    }
}

#[test]
fn many_parts_of_a_full_list() {
    let table = tables::all_different(12);
    let records = oracle::records(12, &table);
    assert_eq!(records.len(), node_numbers(12));
    for (a, b) in lists::parts(12, &mut Random(65), 400) {
        let answer = same_report(12, table[0], &records, a, b);
        assert_eq!(answer, Ok(oracle::numbers(&table[a..=b])), "X {a} to {b}");
    }
}

#[test]
fn parts_of_larger_unreduced_lists() {
    let mut random = Random(66);
    for n in 5..=12 {
        for _ in 0..40 {
            let records = lists::passing(n, &mut random);
            let offset = some_offset(&mut random);
            for (a, b) in lists::parts(n, &mut random, 6) {
                assert!(same_report(n, offset, &records, a, b).is_ok());
            }
        }
    }
}

#[test]
fn untrue_numbers_in_a_full_list() {
    let mut random = Random(67);
    let table = tables::all_different(12);
    let mut records = oracle::records(12, &table);
    for _ in 0..200 {
        let place = RECORD * random.below(records.len() / RECORD) + 4 + random.below(2);
        let change = [-1, 1][random.below(2)];
        records[place] += change;
        for (a, b) in [(0, 4_095), (7, 6), (0, 4_096)] {
            assert_eq!(same_report(12, table[0], &records, a, b), Err(6));
        }
        records[place] -= change;
    }
}

#[test]
fn no_records() {
    for n in 1..=12 {
        for offset in [LEAST, -1, 0, GREATEST] {
            for (a, b) in lists::parts(n, &mut Random(68), 10) {
                let answer = same_report(n, offset, &[], a, b);
                assert_eq!(answer, Ok(oracle::numbers(&vec![offset; b - a + 1])));
            }
        }
    }
}

#[test]
fn fixed_reports() {
    for case in cases::reports() {
        let answer = same_report(case.n, case.offset, &case.records, case.a, case.b);
        assert_eq!(answer, case.answer, "{}", case.name);
    }
}

#[test]
fn parts_outside_the_domain() {
    for n in 1..=12 {
        let record = [n as i32 - 1, 0, 0, -1, -1, 0];
        for (a, b) in cases::wrong_parts(n) {
            assert_eq!(same_report(n, 0, &record, a, b), Err(15));
            assert_eq!(same_report(n, 0, &[], a, b), Err(15));
        }
    }
}

#[test]
fn variables_out_of_range() {
    let wrong = [0, 13, 31, 32, 63, 64, 65, 1 << 32, usize::MAX];
    for n in wrong.into_iter().chain(cases::WRAPPED_3) {
        for (a, b) in [(0, 0), (0, 7), (0, 8), (1, 0), (0, usize::MAX)] {
            assert_eq!(same_report(n, 0, &[], a, b), Err(1));
            assert_eq!(same_report(n, 0, &[0, 0, 0, 1, 0, 1], a, b), Err(1));
        }
    }
}

/// Every set of reasons to refuse at once: the first in the paper's order.
#[test]
fn several_reasons_at_once() {
    for call in cases::list_calls() {
        let refusal = |a, b| same_report(call.n, call.offset, &call.records, a, b).err();
        let last = (1 << call.variables()) - 1;
        for a in [0, last] {
            assert_eq!(refusal(a, last), call.refusal, "{}, X from {a}", call.name);
        }
        for (a, b) in cases::wrong_parts(call.variables()) {
            let expected = call.refusal.or(Some(15));
            assert_eq!(refusal(a, b), expected, "{}, X {a} to {b}", call.name);
        }
    }
}
