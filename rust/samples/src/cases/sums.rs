//! Calls of Sum and Remainder with their answers.

use super::WRAPPED_3;
use crate::{tables, weights, GREATEST, LEAST};

/// A call of Sum, or of Remainder where there is a q, with a table buffer of so
/// many numbers.
pub struct SumCall {
    pub name: String,
    pub n: usize,
    pub weights: Vec<i32>,
    pub q: Option<usize>,
    pub room: usize,
    pub answer: Result<Vec<i32>, u8>,
}

pub fn sum_calls() -> Vec<SumCall> {
    let mut calls = worked_sums();
    calls.extend(sums_of_one_weight());
    calls.extend(sums_at_the_borders());
    calls.extend(sums_out_of_range());
    calls.extend((1..=11).flat_map(remainders_by_hand));
    calls.extend((1..=12).flat_map(sums_by_shape));
    calls.extend((1..=12).flat_map(remainders_by_shape));
    calls.extend(refused_by_hand());
    calls.extend(wrong_numbers());
    calls
}

fn call(
    n: usize,
    weights: &[i32],
    q: Option<usize>,
    room: usize,
    answer: Result<Vec<i32>, u8>,
) -> SumCall {
    let operation = q.map_or("sum".to_string(), |q| format!("q {q}"));
    SumCall {
        name: format!("{operation}, n {n}, weights {weights:?}, room {room}"),
        n,
        weights: weights.to_vec(),
        q,
        room,
        answer,
    }
}

fn gives(weights: &[i32], q: Option<usize>, table: &[i32]) -> SumCall {
    call(weights.len(), weights, q, table.len(), Ok(table.to_vec()))
}

fn refused(n: usize, weights: &[i32], q: Option<usize>, room: usize, refusal: u8) -> SumCall {
    call(n, weights, q, room, Err(refusal))
}

fn worked_sums() -> Vec<SumCall> {
    let four = [1, 2, 2, 4];
    vec![
        gives(
            &four,
            None,
            &[0, 1, 2, 3, 2, 3, 4, 5, 4, 5, 6, 7, 6, 7, 8, 9],
        ),
        gives(
            &four,
            Some(2),
            &[0, 1, 2, 3, 2, 3, 0, 1, 0, 1, 2, 3, 2, 3, 0, 1],
        ),
        gives(&[3, -5], None, &[0, 3, -5, -2]),
        gives(&[3, -5], Some(2), &[0, 3, 3, 2]),
        gives(&[3, -5], Some(11), &[0, 3, 2_043, 2_046]),
        gives(&[0, 7, 0], None, &[0, 0, 7, 7, 0, 0, 7, 7]),
        gives(&[GREATEST, 1], Some(11), &[0, 2_047, 1, 0]),
    ]
}

fn sums_of_one_weight() -> Vec<SumCall> {
    let values = [0, 1, -1, 7, LEAST, LEAST + 1, GREATEST - 1, GREATEST];
    let mut calls: Vec<SumCall> = values.map(|w| gives(&[w], None, &[0, w])).into();
    let remainders = [
        (LEAST, 1, 0),
        (LEAST, 11, 0),
        (LEAST + 1, 11, 1),
        (GREATEST, 1, 1),
        (GREATEST, 11, 2_047),
        (GREATEST - 1, 11, 2_046),
        (-1, 1, 1),
        (-1, 11, 2_047),
        (-2, 1, 0),
    ];
    calls.extend(remainders.map(|(w, q, value)| gives(&[w], Some(q), &[0, value])));
    calls
}

/// Sums that are the greatest or the least value, and none beyond.
fn sums_at_the_borders() -> Vec<SumCall> {
    let half = 4_194_304;
    let two = |v: i32, w: i32| gives(&[v, w], None, &[0, v, w, v + w]);
    vec![
        two(GREATEST, 0),
        two(0, LEAST),
        two(GREATEST, LEAST),
        two(LEAST, GREATEST),
        two(GREATEST - 1, 1),
        two(1, GREATEST - 1),
        two(half, half - 1),
        two(LEAST + 1, -1),
        two(-1, LEAST + 1),
        two(-half, -half),
        gives(
            &[GREATEST - 3, -4, 3],
            None,
            &[
                0,
                GREATEST - 3,
                -4,
                GREATEST - 7,
                3,
                GREATEST,
                -1,
                GREATEST - 4,
            ],
        ),
        gives(
            &[5, LEAST + 3, -3],
            None,
            &[0, 5, LEAST + 3, LEAST + 8, -3, 2, LEAST, LEAST + 5],
        ),
    ]
}

/// Some sum is out of range. Of some lists the sum at the last X, or any sum
/// from x(0) up or from the top down, is within.
fn sums_out_of_range() -> Vec<SumCall> {
    let half = 4_194_304;
    let lists: [&[i32]; 16] = [
        &[GREATEST, 1],
        &[1, GREATEST],
        &[LEAST, -1],
        &[-1, LEAST],
        &[half, half],
        &[-half, -half - 1],
        &[GREATEST, 1, -1],
        &[-1, 1, GREATEST],
        &[LEAST, -1, 1],
        &[1, -1, LEAST],
        &[GREATEST, -5, 6],
        &[LEAST, 5, -6],
        &[GREATEST, LEAST, 1],
        &[LEAST, GREATEST, -1],
        &[0, GREATEST, LEAST, LEAST, GREATEST],
        &[0, 0, 0, GREATEST, 0, 0, -2, 0, 0, 0, 0, 1],
    ];
    let sum = |weights: &[i32]| refused(weights.len(), weights, None, 1 << weights.len(), 18);
    lists.into_iter().map(sum).collect()
}

/// Weights at and beside 2^q, of both signs.
fn remainders_by_hand(q: usize) -> Vec<SumCall> {
    let power = 1 << q;
    let last = power - 1;
    let one = |weight, value| gives(&[weight], Some(q), &[0, value]);
    let two = |v, w, values: [i32; 3]| {
        let [a, b, c] = values;
        gives(&[v, w], Some(q), &[0, a, b, c])
    };
    vec![
        one(0, 0),
        one(1, 1),
        one(last, last),
        one(power, 0),
        one(power + 1, 1),
        one(-1, last),
        one(-last, 1),
        one(-power, 0),
        one(-power - 1, last),
        two(last, 1, [last, 1, 0]),
        two(1, last, [1, last, 0]),
        two(-1, -1, [last, last, power - 2]),
        two(1, -1, [1, last, 0]),
        two(power, last, [0, last, last]),
        two(-power, -last, [0, 1, 1]),
        two(GREATEST, GREATEST, [last, last, power - 2]),
        two(LEAST, LEAST, [0, 0, 0]),
        two(LEAST, -1, [0, last, last]),
        two(GREATEST, 2, [last, 2 % power, 1]),
    ]
}

/// Lists over n bits whose sums are X itself, X turned round, the ones in X, and
/// so on.
fn sums_by_shape(n: usize) -> Vec<SumCall> {
    let ones = |x: usize| x.count_ones() as i32;
    let turned = |x: usize| (x.reverse_bits() >> (usize::BITS as usize - n)) as i32;
    let gives = |list: Vec<i32>, table: Vec<i32>| gives(&list, None, &table);
    let mut calls = vec![
        gives(weights::of(n, |_| 0), tables::of(n, |_| 0)),
        gives(weights::of(n, |_| 1), tables::of(n, ones)),
        gives(weights::of(n, |_| -3), tables::of(n, |x| -3 * ones(x))),
        gives(weights::of(n, |j| 1 << j), tables::of(n, |x| x as i32)),
        gives(
            weights::of(n, |j| -(1 << j)),
            tables::of(n, |x| -(x as i32)),
        ),
        gives(
            weights::of(n, |j| 2_048 << j),
            tables::of(n, |x| 2_048 * x as i32),
        ),
        gives(weights::of(n, |j| 1 << (n - 1 - j)), tables::of(n, turned)),
    ];
    if n > 1 {
        let extremes = [LEAST, GREATEST].map(|weight| vec![weight; n]);
        calls.extend(extremes.map(|list| refused(n, &list, None, 1 << n, 18)));
    }
    calls
}

/// The same with every q, and lists whose sums are far out of range: the
/// greatest value is 1 less than a multiple of 2^q, the least one a multiple.
fn remainders_by_shape(n: usize) -> Vec<SumCall> {
    let ones = |x: usize| x.count_ones() as i32;
    let mut calls = Vec::new();
    for q in 1..=11 {
        let power = 1 << q;
        let below = |value: i32| (power - value % power) % power;
        let mut gives = |w: &dyn Fn(usize) -> i32, value: &dyn Fn(usize) -> i32| {
            let (list, table) = (weights::of(n, w), tables::of(n, value));
            calls.push(self::gives(&list, Some(q), &table));
        };
        gives(&|_| 0, &|_| 0);
        gives(&|_| LEAST, &|_| 0);
        gives(&|_| GREATEST, &|x| below(ones(x)));
        gives(&|_| 1, &|x| ones(x) % power);
        gives(&|j| 1 << j, &|x| x as i32 % power);
        gives(&|j| -(1 << j), &|x| below(x as i32));
        gives(&|j| LEAST + (1 << j), &|x| x as i32 % power);
        gives(&|j| GREATEST - (1 << j), &|x| below(x as i32 + ones(x)));
    }
    calls
}

/// Where several refusals hold, the first is the answer.
fn refused_by_hand() -> Vec<SumCall> {
    let over = GREATEST + 1;
    vec![
        refused(13, &[over], None, 0, 1),
        refused(13, &[over], Some(12), 0, 1),
        refused(2, &[over], None, 0, 2),
        refused(2, &[over], Some(12), 0, 2),
        refused(2, &[GREATEST, over], None, 0, 3),
        refused(2, &[GREATEST, 1], None, 0, 18),
        refused(2, &[LEAST, -1], None, 4, 18),
        refused(2, &[over, 0], Some(12), 4, 3),
        refused(2, &[GREATEST, 1], Some(12), 0, 19),
        refused(2, &[GREATEST, 1], Some(11), 5, 2),
        refused(2, &[1, 2], None, 5, 2),
        refused(2, &[1, 2], Some(1), 3, 2),
        refused(2, &[1, 2], Some(0), 3, 19),
    ]
}

/// n and q out of range; the low bits of some are within.
fn wrong_numbers() -> Vec<SumCall> {
    let list = [1, -2, 4];
    let mut calls = Vec::new();
    for n in wrong_variables() {
        calls.push(refused(n, &list, None, 8, 1));
        calls.push(refused(n, &list, Some(3), 8, 1));
    }
    for q in wrong_remainder_bits() {
        calls.push(refused(3, &list, Some(q), 8, 19));
    }
    calls
}

/// Some n out of range; the low bits of some are 3.
pub fn wrong_variables() -> Vec<usize> {
    let mut sizes = vec![0, 13, 14, 31, 32, 63, 64, 64 + 3, 1 << 32, usize::MAX];
    sizes.extend(WRAPPED_3);
    sizes
}

/// Some q out of range; the low bits of some are 3.
pub fn wrong_remainder_bits() -> Vec<usize> {
    let mut bits = vec![12, 15, 16, 23, 24];
    bits.extend(wrong_variables());
    bits
}

/// A choice for an argument, and the refusal that it is a reason for.
type Choice<T> = (T, Option<u8>);

/// Over n bits every set of what can be wrong with n, with the list's length,
/// with a weight, with a sum or with q, and with the buffer; the sound calls too.
pub fn sum_calls_by_faults(n: usize) -> Vec<SumCall> {
    let mut calls = Vec::new();
    for (given, wrong_size) in [(n, None), (0, Some(1)), (13, Some(1))] {
        for (q, wrong_bits) in operations() {
            for (list, wrong_list) in lists(n) {
                // A sum out of range is no fault of a remainder.
                let wrong_list = wrong_list.filter(|&number| number != 18 || q.is_none());
                for (room, wrong_room) in rooms(n) {
                    let wrong = wrong_size.or(wrong_list).or(wrong_bits).or(wrong_room);
                    let answer = wrong.map_or_else(|| sound(&list, q), Err);
                    calls.push(call(given, &list, q, room, answer));
                }
            }
        }
    }
    calls
}

fn sound(weights: &[i32], q: Option<usize>) -> Result<Vec<i32>, u8> {
    match q {
        None => weights::sum(weights),
        Some(q) => Ok(weights::remainder(weights, q)),
    }
}

/// Lists for n bits: each length, and of each the weights without a fault, with
/// a sum out of range, and with a weight out of range.
fn lists(n: usize) -> Vec<Choice<Vec<i32>>> {
    let mut lists = Vec::new();
    for length in [n, n - 1, n + 1] {
        let wrong_length = Some(2).filter(|_| length != n);
        let mut list = |refusal: Option<u8>, w: &dyn Fn(usize) -> i32| {
            lists.push((weights::of(length, w), wrong_length.or(refusal)));
        };
        // One weight in range has no sum out of range.
        let sum = Some(18).filter(|_| n > 1);
        list(None, &|j| j as i32 - 2);
        list(sum, &|j| if j == 0 { GREATEST } else { 1 });
        list(sum, &|j| if j + 1 == length { LEAST } else { -1 });
        list(Some(3), &|j| if j == 0 { LEAST - 1 } else { 1 });
        list(Some(3), &|j| i32::from(j + 1 == length) * (GREATEST + 1));
    }
    lists
}

/// Sum, and Remainder with some q.
fn operations() -> [Choice<Option<usize>>; 6] {
    let wrong = |q| (Some(q), Some(19));
    [
        (None, None),
        (Some(1), None),
        (Some(11), None),
        wrong(0),
        wrong(12),
        wrong(usize::MAX),
    ]
}

fn rooms(n: usize) -> [Choice<usize>; 5] {
    let size = 1 << n;
    let wrong = |room| (room, Some(2));
    [
        (size, None),
        wrong(0),
        wrong(size - 1),
        wrong(size + 1),
        wrong(2 * size),
    ]
}
