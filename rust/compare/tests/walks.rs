//! Walk: the lists of tables, other lists that pass, and damaged ones.

use panstrait_compare::answers;
use panstrait_reference as reference;
use panstrait_reference::Refusal;
use panstrait_samples::{
    cases, lists, node_numbers, oracle, tables, Random, GREATEST, LEAST, MOST_WEIGHT, RECORD,
};

/// Both programs' answers.
fn same_walk(n: usize, offset: i32, records: &[i32], x: usize) -> Result<i32, Refusal> {
    let answer = answers::walk(n, offset, records, x);
    assert!(
        answer == reference::walk(n, offset, records, x),
        "n {n}, offset {offset}, X {x}: {answer:?} for {records:?}"
    );
    answer
}

/// Every X, or some with the first and the last where there are many.
fn inputs(n: usize, random: &mut Random) -> Vec<usize> {
    if n <= 8 {
        return (0..1 << n).collect();
    }
    let mut some: Vec<usize> = (0..60).map(|_| random.below(1 << n)).collect();
    some.extend([0, 1, (1 << n) / 2, (1 << n) - 1]);
    some
}

#[test]
fn lists_of_tables() {
    let mut random = Random(21);
    for n in 1..=12 {
        for table in tables::all(n, &mut random, 20) {
            let records = oracle::records(n, &table);
            for x in inputs(n, &mut random) {
                assert_eq!(same_walk(n, table[0], &records, x), Ok(table[x]));
            }
        }
    }
}

#[test]
fn every_input_of_a_large_list() {
    let table = tables::all_different(12);
    let records = oracle::records(12, &table);
    for (x, &value) in table.iter().enumerate() {
        assert_eq!(same_walk(12, table[0], &records, x), Ok(value));
    }
}

#[test]
fn the_empty_list() {
    for n in 1..=12 {
        for offset in [LEAST, -1, 0, GREATEST] {
            for x in [0, (1 << n) - 1] {
                assert_eq!(same_walk(n, offset, &[], x), Ok(offset));
            }
            assert_eq!(same_walk(n, offset, &[], 1 << n), Err(7));
        }
    }
}

#[test]
fn unreduced_lists() {
    let mut random = Random(22);
    for n in 1..=12 {
        for _ in 0..150 {
            let records = lists::passing(n, &mut random);
            let offset = random.between(LEAST, GREATEST);
            for x in inputs(n.min(6), &mut random) {
                let x = x << (n - n.min(6)) | random.below(1 << (n - n.min(6)));
                assert!(same_walk(n, offset, &records, x).is_ok());
            }
        }
    }
}

/// Numbers around the limits of every field.
fn limits(n: usize, number: usize) -> Vec<i32> {
    let number = number as i32;
    let around = [0, 1, n as i32, number, MOST_WEIGHT, -MOST_WEIGHT];
    let mut limits = vec![i32::MIN, i32::MAX, 4_096, -4_096];
    limits.extend(around.iter().flat_map(|&a| [a - 1, a, a + 1]));
    limits
}

/// Every number of a list set to every limit and to its neighbours, one at a
/// time.
fn damage(n: usize, offset: i32, records: &[i32], places: impl Iterator<Item = usize>) {
    let mut damaged = records.to_vec();
    for place in places {
        let neighbours = [records[place] - 1, records[place] + 1];
        for other in limits(n, place / RECORD + 1).into_iter().chain(neighbours) {
            damaged[place] = other;
            for x in [0, (1 << n) - 1, (1 << n) / 3, 1 << n] {
                let _ = same_walk(n, offset, &damaged, x);
            }
        }
        damaged[place] = records[place];
    }
}

#[test]
fn damaged_short_lists() {
    let mut random = Random(23);
    for n in 1..=6 {
        for _ in 0..20 {
            let table = tables::random(n, &mut random);
            let records = oracle::records(n, &table);
            damage(n, table[0], &records, 0..records.len());
            let records = lists::passing(n, &mut random);
            damage(n, 0, &records, 0..records.len());
        }
    }
}

#[test]
fn damaged_long_lists() {
    let mut random = Random(24);
    for n in [9, 12] {
        let table = tables::all_different(n);
        let records = oracle::records(n, &table);
        let ends = [1, 2, 3, 4, 5, 6].map(|back| records.len() - back);
        let places: Vec<usize> = (0..60).map(|_| random.below(records.len())).collect();
        damage(n, table[0], &records, places.into_iter().chain(ends));
    }
}

/// One record's least and greatest set to every pair around the true ones.
fn damage_bounds(n: usize, records: &[i32], end: usize) {
    let mut damaged = records.to_vec();
    let [least, greatest] = [records[end - 2], records[end - 1]];
    for (less, more) in (0..25).map(|code| (code / 5 - 2, code % 5 - 2)) {
        damaged[end - 2] = least + less;
        damaged[end - 1] = greatest + more;
        let refusal = if (less, more) == (0, 0) {
            None
        } else {
            Some(6)
        };
        assert_eq!(same_walk(n, 0, &damaged, 0).err(), refusal);
    }
    damaged[end - 2] = greatest;
    damaged[end - 1] = least;
    assert_eq!(same_walk(n, 0, &damaged, 1).is_ok(), least == greatest);
}

#[test]
fn untrue_least_and_greatest_values() {
    let mut random = Random(25);
    for n in 1..=6 {
        for _ in 0..20 {
            let table = tables::random(n, &mut random);
            for records in [oracle::records(n, &table), lists::passing(n, &mut random)] {
                let ends = (RECORD..=records.len()).step_by(RECORD);
                ends.for_each(|end| damage_bounds(n, &records, end));
            }
        }
    }
}

#[test]
fn each_rule_alone() {
    for case in cases::broken_lists() {
        for x in [0, (1 << case.n) - 1] {
            let answer = same_walk(case.n, 0, &case.records, x);
            assert_eq!(answer, Err(6), "{}", case.name);
        }
    }
}

/// Two children that point past their record, forward or to a higher variable.
#[test]
fn children_that_are_not_lower() {
    for (variable, low, high) in [
        (0, 1, 0),
        (0, 0, 1),
        (1, 1, 1),
        (1, 2, 0),
        (1, 0, 2),
        (1, -1, 0),
    ] {
        let records = lists::with_bounds(&[[0, 0, 0, 5], [variable, low, high, 7]]);
        for x in 0..4 {
            let _ = same_walk(2, 0, &records, x);
        }
    }
}

#[test]
fn fixed_lists() {
    for case in cases::lists() {
        let answer = same_walk(case.n, case.offset, &case.records, case.x);
        assert_eq!(answer, case.answer, "{}", case.name);
    }
}

#[test]
fn lengths_that_do_not_fit() {
    for n in 1..=12 {
        let room = node_numbers(n);
        let unreduced: Vec<i32> = [0, 0, 0, 1, 0, 1].repeat(1 << n);
        assert!(same_walk(n, 0, &unreduced[..room], 0).is_ok());
        assert_eq!(same_walk(n, 0, &unreduced[..room + RECORD], 0), Err(6));
        for other in 1..RECORD {
            for length in [other, room - other, room + other] {
                assert_eq!(same_walk(n, 0, &unreduced[..length], 0), Err(6));
            }
        }
    }
}

#[test]
fn offsets_and_inputs_out_of_range() {
    for n in 1..=12 {
        for offset in [LEAST - 1, GREATEST + 1, i32::MIN, i32::MAX] {
            assert_eq!(same_walk(n, offset, &[], 0), Err(5));
        }
        for x in [1 << n, (1 << n) + 1, 1 << 32, 1 << 63, usize::MAX] {
            assert_eq!(same_walk(n, 0, &[0, 0, 0, 1, 0, 1], x), Err(7));
        }
    }
}

#[test]
fn variables_out_of_range() {
    let wrong = [0, 13, 31, 32, 63, 64, 65, 1 << 32, usize::MAX];
    for n in wrong.into_iter().chain(cases::WRAPPED_3) {
        for x in [0, 1, 7, 8, 1 << 13, usize::MAX] {
            assert_eq!(same_walk(n, 0, &[], x), Err(1));
            assert_eq!(same_walk(n, 0, &[0, 0, 0, 1, 0, 1], x), Err(1));
        }
    }
}

/// Every set of reasons to refuse at once: the first in the paper's order.
#[test]
fn several_reasons_at_once() {
    for call in cases::list_calls() {
        let refusal = |x| same_walk(call.n, call.offset, &call.records, x).err();
        let last = (1 << call.variables()) - 1;
        for x in [0, last] {
            assert_eq!(refusal(x), call.refusal, "{}, X {x}", call.name);
        }
        for x in cases::wrong_inputs(call.variables()) {
            let expected = call.refusal.or(Some(7));
            assert_eq!(refusal(x), expected, "{}, X {x}", call.name);
        }
    }
}
