//! Weighted sums: tables by their weights, plain and by remainder, their node
//! counts and classes, and every refusal in its order.

mod common;

use common::*;
use panstrait_reference::*;
use panstrait_samples::*;

/// The table of a call of Sum, or of Remainder where there is a q, for a buffer
/// of so many numbers. A refusal leaves all of them.
fn summed(n: usize, weights: &[i32], q: Option<usize>, room: usize) -> Result<Vec<i32>, Refusal> {
    let mut table = vec![NUMBER; room];
    let answer = match q {
        None => sum(n, weights, &mut table),
        Some(q) => remainder(n, weights, q, &mut table),
    };
    if answer.is_err() {
        assert!(table.iter().all(|&value| value == NUMBER));
    }
    answer.map(|()| table)
}

/// Sum's answer for a buffer of the right length.
fn plain(weights: &[i32]) -> Result<Vec<i32>, Refusal> {
    summed(weights.len(), weights, None, 1 << weights.len())
}

/// Remainder's table.
fn reduced(weights: &[i32], q: usize) -> Vec<i32> {
    let answer = summed(weights.len(), weights, Some(q), 1 << weights.len());
    answer.expect("a sound call")
}

/// The class count of every cut.
fn counts(n: usize, table: &[i32]) -> Vec<usize> {
    let count = |cut| 1 + classes(n, table, cut).into_iter().max().expect("a block");
    (0..=n).map(count).collect()
}

fn check_call(call: &cases::SumCall) {
    let answer = summed(call.n, &call.weights, call.q, call.room);
    assert_eq!(answer, call.answer, "{}", call.name);
}

#[test]
fn fixed_calls() {
    cases::sum_calls().iter().for_each(check_call);
}

/// Every set of reasons to refuse at once: the first in the paper's order.
#[test]
fn several_reasons_at_once() {
    for n in 1..=12 {
        cases::sum_calls_by_faults(n).iter().for_each(check_call);
    }
}

/// Weights 1, 2, 2, 4: one node a weight, and two classes at one cut of the
/// remainder's table.
#[test]
fn four_weights() {
    let table = plain(&[1, 2, 2, 4]).unwrap();
    assert_eq!(table, [0, 1, 2, 3, 2, 3, 4, 5, 4, 5, 6, 7, 6, 7, 8, 9]);
    assert_eq!(built(4, &table).0.nodes, 5);
    let table = reduced(&[1, 2, 2, 4], 2);
    assert_eq!(table, [0, 1, 2, 3, 2, 3, 0, 1, 0, 1, 2, 3, 2, 3, 0, 1]);
    assert_eq!(counts(4, &table), [1, 1, 2, 1, 1]);
    assert!(plan(4, &table, 3).is_ok());
}

#[test]
fn small_lists() {
    assert_eq!(plain(&[3, -5]).unwrap(), [0, 3, -5, -2]);
    assert_eq!(reduced(&[3, -5], 2), [0, 3, 3, 2]);
    assert_eq!(reduced(&[3, -5], 11), [0, 3, 2_043, 2_046]);
    let table = plain(&[0, 7, 0]).unwrap();
    assert_eq!(table, [0, 0, 7, 7, 0, 0, 7, 7]);
    assert_eq!(built(3, &table).0.nodes, 2);
    assert_eq!(reduced(&[GREATEST, 1], 11), [0, 2_047, 1, 0]);
}

/// Where several refusals hold, the first is the answer.
#[test]
fn refusals_worked_out_by_hand() {
    let over = GREATEST + 1;
    assert_eq!(summed(13, &[over], None, 8_192), Err(1));
    assert_eq!(summed(13, &[over], Some(12), 0), Err(1));
    assert_eq!(summed(2, &[over], None, 4), Err(2));
    assert_eq!(summed(2, &[over], Some(12), 0), Err(2));
    assert_eq!(summed(2, &[GREATEST, over], None, 0), Err(3));
    assert_eq!(summed(2, &[GREATEST, 1], None, 0), Err(18));
    assert_eq!(summed(2, &[LEAST, -1], None, 4), Err(18));
    assert_eq!(summed(2, &[over, 0], Some(12), 4), Err(3));
    assert_eq!(summed(2, &[GREATEST, 1], Some(12), 0), Err(19));
    assert_eq!(summed(2, &[GREATEST, 1], Some(11), 5), Err(2));
}

/// The answers for one list: a sound plain one, or 18, and the remainders.
fn check_list(weights: &[i32]) {
    assert_eq!(plain(weights), weights::sum(weights), "{weights:?}");
    for q in 1..=11 {
        let expected = weights::remainder(weights, q);
        assert_eq!(reduced(weights, q), expected, "{weights:?}, q {q}");
    }
}

#[test]
fn structured_lists() {
    for n in 1..=12 {
        let mut lists = weights::structured(n);
        lists.extend(weights::single(n));
        lists.iter().for_each(|list| check_list(list));
    }
}

#[test]
fn random_lists() {
    let mut random = Random(151);
    for n in 1..=12 {
        for _ in 0..[200, 60, 10][n / 5] {
            check_list(&weights::random(n, &mut random));
        }
    }
}

/// All lists of three small weights, and of the extremes and what is next to
/// them.
#[test]
fn all_small_lists() {
    let small = [-4, -3, -2, -1, 0, 1, 2, 3, 4];
    let extreme = [LEAST, LEAST + 1, -1, 0, 1, GREATEST - 1, GREATEST];
    for values in [&small[..], &extreme] {
        for &a in values {
            for &b in values {
                check_list(&[a, b]);
                values.iter().for_each(|&c| check_list(&[a, b, c]));
            }
        }
    }
}

/// For every n: all masks of few bits, some of many.
fn masks(n: usize) -> impl Iterator<Item = usize> {
    let step = if n < 8 { 1 } else { (1 << (n - 7)) + 1 };
    (0..1 << n).step_by(step).chain([(1 << n) - 1])
}

/// One sum alone is the greatest value, at the X of any mask, and one alone the
/// least.
#[test]
fn one_sum_at_the_border() {
    for n in 1..=12 {
        for mask in masks(n) {
            let table = plain(&weights::split(n, mask, GREATEST, LEAST)).unwrap();
            let others = (1 << n) - 1 - mask;
            let at = |value| -> Vec<usize> {
                let places = 0..table.len();
                places.filter(|&x| table[x] == value).collect()
            };
            assert!(at(GREATEST).into_iter().eq(Some(mask).filter(|&x| x > 0)));
            assert!(at(LEAST).into_iter().eq(Some(others).filter(|&x| x > 0)));
        }
    }
}

/// One sum alone is out of range, by 1, at the X of any mask.
#[test]
fn one_sum_past_the_border() {
    for n in 2..=12 {
        for mask in masks(n).filter(|mask| mask.count_ones() > 1) {
            let others = (1 << n) - 1 - mask;
            let above = weights::split(n, mask, GREATEST + 1, LEAST);
            let below = weights::split(n, others, GREATEST, LEAST - 1);
            for list in [above, below] {
                let room = 1 << n;
                for room in [room, 0, room - 1, room + 1] {
                    assert_eq!(summed(n, &list, None, room), Err(18), "{list:?}");
                }
                assert_eq!(reduced(&list, 11), weights::remainder(&list, 11));
            }
        }
    }
}

#[test]
fn variables_out_of_range() {
    for n in cases::wrong_variables() {
        for length in [0, 1, 3, 12, 13, 14, 64] {
            for room in [0, 1, 8, 4_096, 8_192] {
                for q in [None, Some(0), Some(3), Some(12)] {
                    for weight in [0, GREATEST, GREATEST + 1] {
                        let answer = summed(n, &vec![weight; length], q, room);
                        assert_eq!(answer, Err(1), "n {n}");
                    }
                }
            }
        }
    }
}

/// Lists of another length, up to that of a table.
#[test]
fn wrong_list_lengths() {
    for n in 1..=12 {
        let lengths = [0, 1, n - 1, n + 1, 2 * n, 1 << n, 4_096];
        // Two of them are n in their low bits.
        let low_bits = [8, 16].map(|bits| (1 << bits) + n);
        let wrong = lengths.into_iter().filter(|&length| length != n);
        for length in wrong.chain(low_bits) {
            for q in [None, Some(0), Some(1), Some(11), Some(12)] {
                for weight in [0, GREATEST, LEAST - 1] {
                    let list = vec![weight; length];
                    assert_eq!(summed(n, &list, q, 1 << n), Err(2), "n {n}");
                    assert_eq!(summed(n, &list, q, 0), Err(2), "n {n}");
                }
            }
        }
    }
}

/// At every place, beside weights of any size.
#[test]
fn weights_out_of_range() {
    for n in 1..=12 {
        for place in 0..n {
            for wrong in [LEAST - 1, GREATEST + 1, i32::MIN, i32::MAX] {
                for other in [0, -wrong.signum(), LEAST, GREATEST] {
                    let list = weights::of(n, |j| if j == place { wrong } else { other });
                    for q in [None, Some(0), Some(1), Some(11), Some(12)] {
                        assert_eq!(summed(n, &list, q, 1 << n), Err(3), "{list:?}");
                        assert_eq!(summed(n, &list, q, 0), Err(3), "{list:?}");
                    }
                }
            }
        }
    }
}

#[test]
fn remainder_bits_out_of_range() {
    for q in cases::wrong_remainder_bits() {
        for n in 1..=12 {
            for weight in [0, 1, LEAST, GREATEST] {
                let size = 1 << n;
                for room in [size, 0, size - 1, size + 1] {
                    let answer = summed(n, &vec![weight; n], Some(q), room);
                    assert_eq!(answer, Err(19), "n {n}, q {q}");
                }
            }
        }
    }
}

#[test]
fn wrong_buffer_lengths() {
    for n in 1..=12 {
        let size = 1 << n;
        let rooms = [0, 1, n, size / 2, size - 1, size + 1, 2 * size];
        // Two of them are 2^n in their low bits.
        let low_bits = [8, 16].map(|bits| (1 << bits) + size);
        let wrong = rooms.into_iter().filter(|&room| room != size);
        for room in wrong.chain(low_bits) {
            assert_eq!(summed(n, &vec![1; n], None, room), Err(2));
            for q in [1, 2, 10, 11] {
                assert_eq!(summed(n, &vec![LEAST; n], Some(q), room), Err(2));
            }
        }
    }
}

/// What was in the buffer has no part in the table.
#[test]
fn what_was_there_changes_nothing() {
    for held in [0, 1, -1, i32::MIN, i32::MAX] {
        let mut table = [held; 8];
        assert_eq!(sum(3, &[3, -5, 9], &mut table), Ok(()));
        assert_eq!(table, [0, 3, -5, -2, 9, 12, 4, 7]);
        let mut table = [held; 8];
        assert_eq!(remainder(3, &[3, -5, 9], 3, &mut table), Ok(()));
        assert_eq!(table, [0, 3, 3, 6, 1, 4, 4, 7]);
    }
}

/// A node for each weight that is not 0, and the terminal.
fn check_node_count(weights: &[i32]) {
    if let Ok(table) = plain(weights) {
        let (answer, _) = built(weights.len(), &table);
        let nonzero = weights.iter().filter(|&&weight| weight != 0).count();
        let expected = (1 + nonzero, 0);
        assert_eq!((answer.nodes, answer.offset), expected, "{weights:?}");
    }
}

/// Lists with a nonzero weight at the set bits of every mask, and others.
#[test]
fn node_counts() {
    let mut random = Random(152);
    for n in 1..=12 {
        for mask in masks(n) {
            let sparse = |weight| weights::of(n, |j| (mask >> j & 1) as i32 * weight);
            [1, -2].map(sparse).iter().for_each(|w| check_node_count(w));
        }
        let mut lists = weights::structured(n);
        lists.extend(weights::single(n));
        lists.extend((0..60).map(|_| weights::within(n, &mut random)));
        lists.iter().for_each(|list| check_node_count(list));
    }
}

/// At every cut at most 2^q classes, and address limit q + 1 fits.
fn check_classes(weights: &[i32], q: usize) {
    let n = weights.len();
    let table = reduced(weights, q);
    let most = counts(n, &table).into_iter().max();
    assert!(most <= Some(1 << q), "{weights:?}, q {q}: {most:?}");
    assert!(plan(n, &table, q + 1).is_ok(), "{weights:?}, q {q}");
}

#[test]
fn classes_of_remainders() {
    let mut random = Random(153);
    for n in 1..=12 {
        let count = [60, 30, 3][n / 5];
        let mut lists = weights::structured(n);
        lists.extend((0..count).map(|_| weights::random(n, &mut random)));
        for q in 1..=11 {
            lists.iter().for_each(|list| check_classes(list, q));
        }
    }
}

/// As many classes as there can be: both halves of the list have every sum from
/// 0 to 2^q - 1. Then no limit below q + 1 fits.
#[test]
fn remainders_with_most_classes() {
    for q in 1..=6 {
        let list = weights::of(2 * q, |j| 1 << (j % q));
        let table = reduced(&list, q);
        assert_eq!(counts(2 * q, &table)[q], 1 << q);
        assert_eq!(plan(2 * q, &table, q), Err(9));
        check_classes(&list, q);
    }
}
