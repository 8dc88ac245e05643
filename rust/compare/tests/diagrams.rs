//! Build: node count, offset, the records, and what is left of the buffer.

use panstrait_compare::answers;
use panstrait_reference as reference;
use panstrait_reference::Refusal;
use panstrait_samples::{
    cases, node_numbers, tables, Random, FIGURE, GREATEST, LEAST, NUMBER, RECORD,
};

/// Both programs' answers for a buffer of so many numbers, compared whole, with
/// the numbers before and after it.
fn same_build(n: usize, table: &[i32], room: usize) -> Result<(), Refusal> {
    let mut ours = vec![NUMBER; room + 8];
    let mut theirs = ours.clone();
    let lent = 4..room + 4;
    let answer = answers::build(n, table, &mut ours[lent.clone()]);
    assert!(
        answer == reference::build(n, table, &mut theirs[lent]),
        "n {n}, room {room}: {answer:?} for {table:?}"
    );
    assert!(ours == theirs, "n {n}, room {room}: records of {table:?}");
    answer.map(|_| ())
}

fn built(n: usize, table: &[i32]) {
    assert_eq!(same_build(n, table, node_numbers(n) + 5), Ok(()));
}

#[test]
fn structured_tables() {
    for n in 1..=12 {
        tables::structured(n).iter().for_each(|t| built(n, t));
    }
}

#[test]
fn tables_that_are_hard_to_tell_apart() {
    for n in 1..=12 {
        tables::adversarial(n).iter().for_each(|t| built(n, t));
    }
}

/// Both programs' records are the ones worked out by hand.
#[test]
fn records_worked_out_by_hand() {
    for case in cases::diagrams() {
        let mut nodes = vec![NUMBER; node_numbers(case.n)];
        let answer = answers::build(case.n, &case.table, &mut nodes).expect("a sound table");
        let count = case.records.len() / RECORD + 1;
        assert_eq!((answer.nodes, answer.offset), (count, case.table[0]));
        assert_eq!(nodes[..case.records.len()], case.records);
        built(case.n, &case.table);
    }
    assert_eq!(same_build(4, &FIGURE, 89), Err(4));
    assert_eq!(same_build(4, &FIGURE, 90), Ok(()));
}

/// Of every node the least or the greatest value is 0.
#[test]
fn rising_and_falling_tables() {
    let mut random = Random(12);
    for n in 1..=12 {
        for most in [0, 1, 2, 3, 2_000] {
            for sign in [1, -1] {
                let mut value = random.between(-100, 100);
                let step = |_| {
                    value += sign * random.between(0, most);
                    value
                };
                built(n, &tables::of(n, step));
            }
        }
    }
}

#[test]
fn tables_of_extreme_values() {
    let mut random = Random(13);
    for n in 1..=12 {
        for values in [[LEAST, GREATEST, 0], [LEAST, LEAST, GREATEST]] {
            for _ in 0..10 {
                built(n, &tables::of(n, |_| values[random.below(3)]));
            }
        }
        for place in [0, 1, (1 << n) / 2, (1 << n) - 1] {
            let one_of = |here, there| tables::of(n, |x| if x == place { here } else { there });
            built(n, &one_of(GREATEST, LEAST));
            built(n, &one_of(LEAST, GREATEST));
        }
    }
}

#[test]
fn random_tables() {
    let mut random = Random(11);
    for n in 1..=12 {
        for _ in 0..if n < 9 { 500 } else { 60 } {
            built(n, &tables::random(n, &mut random));
        }
    }
}

#[test]
fn all_small_tables() {
    for code in 0..4_usize.pow(4) {
        built(2, &tables::of(2, |x| (code >> (2 * x) & 3) as i32));
    }
    for code in 0..3_usize.pow(8) {
        built(
            3,
            &tables::of(3, |x| (code / 3_usize.pow(x as u32) % 3) as i32),
        );
    }
}

#[test]
fn room_beyond_what_is_needed() {
    for n in 1..=12 {
        for table in [tables::all_different(n), tables::of(n, |_| -3)] {
            for more in [0, 1, 2, 3, 4, 5, 6, 8, 12, 1_000] {
                assert_eq!(same_build(n, &table, node_numbers(n) + more), Ok(()));
            }
        }
    }
}

#[test]
fn variables_out_of_range() {
    let wrong = [0, 13, 14, 31, 32, 63, 64, 65, 1 << 32, usize::MAX];
    for n in wrong.into_iter().chain(cases::WRAPPED_3) {
        for values in [0, 1, 2, 7, 8, 9, 4_096, 8_192] {
            assert_eq!(same_build(n, &vec![0; values], node_numbers(3)), Err(1));
            assert_eq!(same_build(n, &vec![0; values], 40_000), Err(1));
        }
    }
}

#[test]
fn wrong_table_lengths() {
    for n in 1..=12 {
        let size = 1 << n;
        for wrong in [0, 1, size - 1, size + 1, 2 * size] {
            if wrong != size {
                assert_eq!(same_build(n, &vec![0; wrong], node_numbers(n)), Err(2));
            }
        }
    }
}

#[test]
fn values_out_of_range() {
    let wrong = [LEAST - 1, GREATEST + 1, i32::MIN, i32::MAX];
    for n in 1..=12 {
        for place in [0, 1, (1 << n) / 2, (1 << n) - 1] {
            for value in wrong {
                let table = tables::of(n, |x| if x == place { value } else { 0 });
                assert_eq!(same_build(n, &table, node_numbers(n)), Err(3));
            }
        }
        for value in [LEAST, GREATEST] {
            built(n, &tables::of(n, |_| value));
        }
    }
}

#[test]
fn buffers_that_are_too_short() {
    for n in 1..=12 {
        let room = node_numbers(n);
        for table in [tables::all_different(n), tables::of(n, |_| 9)] {
            // Four numbers for each record are too few.
            let fours = room / RECORD * 4;
            for short in [0, 1, room / 2, fours, room - RECORD, room - 1] {
                assert_eq!(same_build(n, &table, short), Err(4));
            }
        }
    }
}

/// Every set of reasons to refuse at once: the first in the paper's order.
#[test]
fn several_reasons_at_once() {
    for reasons in 1..16_usize {
        let holds = |number: u32| reasons >> (number - 1) & 1 == 1;
        let n = if holds(1) { 13 } else { 3 };
        let length = (1 << n) - usize::from(holds(2));
        let value = if holds(3) { GREATEST + 1 } else { 6 };
        let table = vec![value; length];
        let room = node_numbers(n) - usize::from(holds(4));
        let first = reasons.trailing_zeros() as Refusal + 1;
        assert_eq!(same_build(n, &table, room), Err(first));
    }
}
