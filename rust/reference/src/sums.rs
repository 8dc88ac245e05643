//! Weighted sums: Sum and Remainder make a table of one weight for each bit.

use crate::ranges;
use crate::refusal::{require, Refusal, REMAINDER_BITS, SIZE, SUM, TABLE_LENGTH, TABLE_VALUE};

/// Sum: at every X the sum of the weights whose bits are 1.
pub fn sum(n: usize, weights: &[i32], table: &mut [i32]) -> Result<(), Refusal> {
    check(n, weights)?;
    let sums: Vec<i64> = (0..1 << n).map(|x| sum_at(weights, x)).collect();
    require(sums.iter().all(|&sum| ranges::value(sum)), SUM)?;
    fill(table, &sums)
}

/// Remainder: at every X that sum's remainder, from 0 to 2^q - 1. The sum may be
/// out of the values' range.
pub fn remainder(n: usize, weights: &[i32], q: usize, table: &mut [i32]) -> Result<(), Refusal> {
    check(n, weights)?;
    require(ranges::remainder_bits(q), REMAINDER_BITS)?;
    let remainder = |x| sum_at(weights, x).rem_euclid(1 << q);
    let remainders: Vec<i64> = (0..1 << n).map(remainder).collect();
    fill(table, &remainders)
}

/// The refusals that both begin with, in their order.
fn check(n: usize, weights: &[i32]) -> Result<(), Refusal> {
    require(ranges::size(n), SIZE)?;
    require(weights.len() == n, TABLE_LENGTH)?;
    require(weights.iter().all(|&w| ranges::value(w)), TABLE_VALUE)
}

/// The sum of the weights w(j) whose bits x(j) are 1.
fn sum_at(weights: &[i32], x: usize) -> i64 {
    let mut sum = 0;
    for (j, &weight) in weights.iter().enumerate() {
        if x >> j & 1 == 1 {
            sum += i64::from(weight);
        }
    }
    sum
}

/// The values into a table buffer of as many numbers.
fn fill(table: &mut [i32], values: &[i64]) -> Result<(), Refusal> {
    require(table.len() == values.len(), TABLE_LENGTH)?;
    for (place, &value) in table.iter_mut().zip(values) {
        *place = value as i32;
    }
    Ok(())
}
