//! Record lists, reduced or not: Walk gives the value at one X, Report looks at
//! the values of a part of the domain.

use crate::ranges;
use crate::refusal::{require, Refusal, INPUT, OFFSET, PART, RECORDS, SIZE};

/// A record: variable, low, high, weight, and the least and the greatest value
/// of its function, which is 0 where all bits are 0.
pub(crate) type Record = [i32; ranges::RECORD_NUMBERS];

/// What Report answers about the values at the X of a part.
#[derive(Debug, Clone, PartialEq, Eq)]
pub struct Reported {
    /// The count of these X.
    pub count: usize,
    pub least: i32,
    pub greatest: i32,
    /// The exact sum of the values.
    pub sum: i64,
}

/// Walk: the value at X.
pub fn walk(n: usize, offset: i32, records: &[i32], x: usize) -> Result<i32, Refusal> {
    check(n, offset, records)?;
    require(x < 1 << n, INPUT)?;
    Ok(value(offset, records, x))
}

/// Report: the values at all X from a to b, both included.
pub fn report(
    n: usize,
    offset: i32,
    records: &[i32],
    a: usize,
    b: usize,
) -> Result<Reported, Refusal> {
    check(n, offset, records)?;
    require(a <= b && b < 1 << n, PART)?;
    let values: Vec<i32> = (a..=b).map(|x| value(offset, records, x)).collect();
    let (least, greatest) = least_and_greatest(values.iter().copied());
    Ok(Reported {
        count: values.len(),
        least,
        greatest,
        sum: values.into_iter().map(i64::from).sum(),
    })
}

/// The refusals that Walk and Report begin with, in their order.
fn check(n: usize, offset: i32, records: &[i32]) -> Result<(), Refusal> {
    require(ranges::size(n), SIZE)?;
    require(ranges::value(offset), OFFSET)?;
    require(well_formed(n, records), RECORDS)
}

fn well_formed(n: usize, records: &[i32]) -> bool {
    // The records below have passed when a record's function is evaluated.
    records.len() % ranges::RECORD_NUMBERS == 0
        && records.len() <= ranges::most_record_numbers(n)
        && (1..=root(records))
            .all(|number| branch_admitted(n, records, number) && bounds_true(records, number))
}

/// The rules for a record's first four numbers.
fn branch_admitted(n: usize, records: &[i32], number: usize) -> bool {
    let [variable, low, high, weight, ..] = record(records, number);
    let child = |node: i32| {
        (0..number as i32).contains(&node)
            && (node == 0 || record(records, node as usize)[0] < variable)
    };
    (0..n as i32).contains(&variable) && child(low) && child(high) && ranges::weight(weight)
}

/// Are a record's last two numbers the least and the greatest value of its
/// function?
fn bounds_true(records: &[i32], number: usize) -> bool {
    let [variable, .., least, greatest] = record(records, number);
    // Bits above the record's variable have no part in its function.
    let values = (0..2 << variable).map(|x| function(records, number, x));
    (least, greatest) == least_and_greatest(values)
}

pub(crate) fn least_and_greatest(values: impl Iterator<Item = i32>) -> (i32, i32) {
    values.fold((i32::MAX, i32::MIN), |(least, greatest), value| {
        (least.min(value), greatest.max(value))
    })
}

/// The value at X of a list that has passed its checks.
fn value(offset: i32, records: &[i32], x: usize) -> i32 {
    offset + function(records, root(records), x)
}

/// A node's function at X: the weights of the 1-edges on the path from it.
fn function(records: &[i32], mut node: usize, x: usize) -> i32 {
    let mut value = 0;
    while node != 0 {
        let [variable, low, high, weight, ..] = record(records, node);
        let one_edge = x >> variable & 1 == 1;
        value += if one_edge { weight } else { 0 };
        node = if one_edge { high } else { low } as usize;
    }
    value
}

/// The number of the last record, or 0 if there is none.
fn root(records: &[i32]) -> usize {
    records.len() / ranges::RECORD_NUMBERS
}

/// The record of a number from 1.
fn record(records: &[i32], number: usize) -> Record {
    let end = ranges::RECORD_NUMBERS * number;
    let numbers = &records[end - ranges::RECORD_NUMBERS..end];
    numbers.try_into().expect("as many as a record has")
}
