//! Sum and Remainder: the tables, what is left of the buffer, and what is
//! refused; Build, Plan and the classes on the tables beside them.

mod common;

use common::class_counts;
use panstrait_compare::answers;
use panstrait_reference as reference;
use panstrait_reference::Refusal;
use panstrait_samples::{cases, node_numbers, weights, Random, GREATEST, LEAST, NUMBER};

/// What the proved library answers to a call of Sum, or of Remainder where
/// there is a q.
fn proved_call(
    n: usize,
    weights: &[i32],
    q: Option<usize>,
    table: &mut [i32],
) -> Result<(), Refusal> {
    match q {
        None => answers::sum(n, weights, table),
        Some(q) => answers::remainder(n, weights, q, table),
    }
}

/// What the second program answers to it.
fn reference_call(
    n: usize,
    weights: &[i32],
    q: Option<usize>,
    table: &mut [i32],
) -> Result<(), Refusal> {
    match q {
        None => reference::sum(n, weights, table),
        Some(q) => reference::remainder(n, weights, q, table),
    }
}

/// Both programs' answers for a buffer of so many numbers, compared whole, with
/// the numbers before and after it. A refusal leaves all of them.
fn same_call(
    n: usize,
    weights: &[i32],
    q: Option<usize>,
    room: usize,
) -> Result<Vec<i32>, Refusal> {
    let mut ours = vec![NUMBER; room + 8];
    let mut theirs = ours.clone();
    let lent = 4..room + 4;
    let answer = proved_call(n, weights, q, &mut ours[lent.clone()]);
    assert!(
        answer == reference_call(n, weights, q, &mut theirs[lent.clone()]),
        "n {n}, q {q:?}, room {room}: {answer:?} for {weights:?}"
    );
    assert!(ours == theirs, "n {n}, q {q:?}, room {room}: {weights:?}");
    if answer.is_err() {
        assert!(ours.iter().all(|&value| value == NUMBER));
    }
    answer.map(|()| ours[lent].to_vec())
}

/// Both programs' refusal.
fn refused(n: usize, weights: &[i32], q: Option<usize>, room: usize, refusal: Refusal) {
    let answer = same_call(n, weights, q, room);
    assert_eq!(answer, Err(refusal), "n {n}, q {q:?}, room {room}");
}

/// Both programs' tables of one list, and 18 where a sum is out of range.
fn check_list(weights: &[i32]) {
    let (n, room) = (weights.len(), 1 << weights.len());
    assert_eq!(same_call(n, weights, None, room), weights::sum(weights));
    for q in 1..=11 {
        let expected = weights::remainder(weights, q);
        assert_eq!(same_call(n, weights, Some(q), room), Ok(expected));
    }
}

fn check_call(call: &cases::SumCall) {
    let answer = same_call(call.n, &call.weights, call.q, call.room);
    assert_eq!(answer, call.answer, "{}", call.name);
}

#[test]
fn fixed_calls() {
    cases::sum_calls().iter().for_each(check_call);
}

/// Every set of reasons to refuse at once: the first in the paper's order.
#[test]
fn several_reasons_at_once() {
    for n in 1..=12 {
        cases::sum_calls_by_faults(n).iter().for_each(check_call);
    }
}

/// What Build, through C, answers about a table: the node count.
fn node_count(n: usize, table: &[i32]) -> usize {
    let mut nodes = vec![NUMBER; node_numbers(n)];
    let built = answers::build(n, table, &mut nodes).expect("a sound table");
    built.nodes
}

/// Weights 1, 2, 2, 4, and a single weight that is not 0.
#[test]
fn worked_tables() {
    let table = same_call(4, &[1, 2, 2, 4], None, 16).unwrap();
    assert_eq!(table, [0, 1, 2, 3, 2, 3, 4, 5, 4, 5, 6, 7, 6, 7, 8, 9]);
    assert_eq!(node_count(4, &table), 5);
    let table = same_call(4, &[1, 2, 2, 4], Some(2), 16).unwrap();
    assert_eq!(table, [0, 1, 2, 3, 2, 3, 0, 1, 0, 1, 2, 3, 2, 3, 0, 1]);
    assert_eq!(class_counts(4, &table), [1, 1, 2, 1, 1]);
    assert!(answers::plan(4, &table, 3).is_ok());
    let table = same_call(3, &[0, 7, 0], None, 8).unwrap();
    assert_eq!(table, [0, 0, 7, 7, 0, 0, 7, 7]);
    assert_eq!(node_count(3, &table), 2);
}

/// Where several refusals hold, the first is the answer.
#[test]
fn refusals_worked_out_by_hand() {
    let over = GREATEST + 1;
    refused(13, &[over], None, 8_192, 1);
    refused(13, &[over], Some(12), 0, 1);
    refused(2, &[over], None, 4, 2);
    refused(2, &[over], Some(12), 0, 2);
    refused(2, &[GREATEST, over], None, 0, 3);
    refused(2, &[GREATEST, 1], None, 0, 18);
    refused(2, &[LEAST, -1], None, 4, 18);
    refused(2, &[over, 0], Some(12), 4, 3);
    refused(2, &[GREATEST, 1], Some(12), 0, 19);
    refused(2, &[GREATEST, 1], Some(11), 5, 2);
}

#[test]
fn structured_lists() {
    for n in 1..=12 {
        weights::structured(n).iter().for_each(|w| check_list(w));
    }
}

/// One weight that is not 0.
#[test]
fn single_weights() {
    for n in 1..=12 {
        weights::single(n).iter().for_each(|w| check_list(w));
    }
}

/// The least and the greatest value, what is next to them, and 0.
#[test]
fn extreme_lists() {
    let values = [LEAST, LEAST + 1, -1, 0, 1, GREATEST - 1, GREATEST];
    for a in values {
        check_list(&[a]);
        for b in values {
            check_list(&[a, b]);
            values.iter().for_each(|&c| check_list(&[a, b, c]));
        }
    }
    let mut random = Random(161);
    for n in 4..=12 {
        for _ in 0..20 {
            check_list(&weights::of(n, |_| values[random.below(values.len())]));
        }
    }
}

#[test]
fn random_lists() {
    let mut random = Random(162);
    for n in 1..=12 {
        for _ in 0..[500, 150, 40][n / 5] {
            check_list(&weights::random(n, &mut random));
        }
    }
}

#[test]
fn sparse_lists() {
    let mut random = Random(163);
    for n in 1..=12 {
        for _ in 0..60 {
            check_list(&weights::within(n, &mut random));
        }
    }
}

/// One sum alone is at the border, or 1 past it, at any X.
#[test]
fn borders_of_the_values_range() {
    for n in 1..=12 {
        let last = (1 << n) - 1;
        let step = if n < 8 { 1 } else { (1 << (n - 7)) + 1 };
        for mask in (0..last).step_by(step).chain([last]) {
            check_list(&weights::split(n, mask, GREATEST, LEAST));
            if mask.count_ones() > 1 {
                let above = weights::split(n, mask, GREATEST + 1, LEAST);
                let below = weights::split(n, last - mask, GREATEST, LEAST - 1);
                refused(n, &above, None, 1 << n, 18);
                refused(n, &below, None, 1 << n, 18);
            }
        }
    }
}

/// Whatever was in the buffer has no part in the table, and a refusal leaves it.
#[test]
fn what_was_there_changes_nothing() {
    let counting: Vec<i32> = (0..4_097).collect();
    for held in [&[0; 4_097][..], &[1; 4_097], &[-1; 4_097], &counting] {
        for call in cases::sum_calls() {
            let mut table = held[..call.room].to_vec();
            let answer = proved_call(call.n, &call.weights, call.q, &mut table);
            assert_eq!(answer.err(), call.answer.as_ref().err().copied());
            let expected = call.answer.as_deref().unwrap_or(&held[..call.room]);
            assert!(table == expected, "{}", call.name);
        }
    }
}

/// Choices of the operation, sound and not.
const OPERATIONS: [Option<usize>; 6] =
    [None, Some(0), Some(1), Some(11), Some(12), Some(usize::MAX)];

#[test]
fn variables_out_of_range() {
    for n in cases::wrong_variables() {
        for length in [0, 1, 3, 12, 13, 14, 64, 4_096] {
            for room in [0, 1, 8, 4_096, 8_192] {
                for q in OPERATIONS {
                    refused(n, &vec![0; length], q, room, 1);
                    refused(n, &vec![GREATEST + 1; length], q, room, 1);
                }
            }
        }
    }
}

/// Lists of another length, up to that of a table.
#[test]
fn wrong_list_lengths() {
    for n in 1..=12 {
        let lengths = [0, 1, n - 1, n + 1, 2 * n, 1 << n, 4_096];
        // Two of them are n in their low bits.
        let low_bits = [8, 16].map(|bits| (1 << bits) + n);
        let wrong = lengths.into_iter().filter(|&length| length != n);
        for length in wrong.chain(low_bits) {
            for q in OPERATIONS {
                for weight in [0, GREATEST, LEAST - 1] {
                    let list = vec![weight; length];
                    refused(n, &list, q, 1 << n, 2);
                    refused(n, &list, q, 0, 2);
                }
            }
        }
    }
}

#[test]
fn weights_out_of_range() {
    for n in 1..=12 {
        for place in 0..n {
            for wrong in [LEAST - 1, GREATEST + 1, i32::MIN, i32::MAX] {
                for other in [0, -wrong.signum(), LEAST, GREATEST] {
                    let list = weights::of(n, |j| if j == place { wrong } else { other });
                    for q in OPERATIONS {
                        refused(n, &list, q, 1 << n, 3);
                        refused(n, &list, q, 0, 3);
                    }
                }
            }
        }
    }
}

#[test]
fn remainder_bits_out_of_range() {
    for q in cases::wrong_remainder_bits() {
        for n in 1..=12 {
            for weight in [0, 1, LEAST, GREATEST] {
                let size = 1 << n;
                for room in [size, 0, size - 1, size + 1] {
                    refused(n, &vec![weight; n], Some(q), room, 19);
                }
            }
        }
    }
}

/// One number short, one long, none, and others; 18 comes before.
#[test]
fn wrong_buffer_lengths() {
    for n in 1..=12 {
        let size = 1 << n;
        let rooms = [0, 1, n, size / 2, size - 1, size + 1, 2 * size];
        // Two of them are 2^n in their low bits.
        let low_bits = [8, 16].map(|bits| (1 << bits) + size);
        let wrong = rooms.into_iter().filter(|&room| room != size);
        for room in wrong.chain(low_bits) {
            refused(n, &vec![1; n], None, room, 2);
            if n > 1 {
                refused(n, &vec![GREATEST; n], None, room, 18);
                refused(n, &vec![LEAST; n], None, room, 18);
            }
            for q in 1..=11 {
                refused(n, &vec![1; n], Some(q), room, 2);
                refused(n, &vec![LEAST; n], Some(q), room, 2);
            }
        }
    }
}

/// Some lists over n bits, fewer of the larger ones.
fn some_lists(n: usize, random: &mut Random) -> Vec<Vec<i32>> {
    let mut lists = weights::structured(n);
    let count = [40, 20, 4][n / 5];
    lists.extend((0..count).map(|_| weights::random(n, random)));
    lists.extend((0..count).map(|_| weights::within(n, random)));
    lists
}

/// Through C, Build counts a node for each weight that is not 0, and the
/// terminal.
#[test]
fn node_counts() {
    let mut random = Random(164);
    for n in 1..=12 {
        let mut lists = some_lists(n, &mut random);
        lists.extend(weights::single(n));
        for list in lists {
            let mut table = vec![NUMBER; 1 << n];
            if answers::sum(n, &list, &mut table).is_ok() {
                let nonzero = list.iter().filter(|&&weight| weight != 0).count();
                assert_eq!(node_count(n, &table), 1 + nonzero, "{list:?}");
            }
        }
    }
}

/// The table of a remainder, through C.
fn reduced(weights: &[i32], q: usize) -> Vec<i32> {
    let mut table = vec![NUMBER; 1 << weights.len()];
    let answer = answers::remainder(weights.len(), weights, q, &mut table);
    answer.expect("a sound call");
    table
}

/// Through C, every cut has at most 2^q classes, and Plan has a grouping within
/// address limit q + 1.
#[test]
fn classes_of_remainders() {
    let mut random = Random(165);
    for n in 1..=12 {
        for list in some_lists(n, &mut random) {
            for q in 1..=11 {
                let table = reduced(&list, q);
                let counts = class_counts(n, &table);
                let within = counts.iter().all(|&count| count <= 1 << q);
                assert!(within, "{list:?}, q {q}: {counts:?}");
                let plan = answers::plan(n, &table, q + 1);
                assert!(plan.is_ok(), "{list:?}, q {q}: {plan:?}");
            }
        }
    }
}

/// As many classes as there can be: both halves of the list have every sum from
/// 0 to 2^q - 1. Then no limit below q + 1 fits.
#[test]
fn remainders_with_most_classes() {
    for q in 1..=6 {
        let table = reduced(&weights::of(2 * q, |j| 1 << (j % q)), q);
        assert_eq!(class_counts(2 * q, &table)[q], 1 << q);
        assert!(answers::plan(2 * q, &table, q + 1).is_ok());
        assert_eq!(answers::plan(2 * q, &table, q), Err(9));
    }
}
