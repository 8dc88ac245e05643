//! Tables, their blocks and classes, and the bound on the node count.

use crate::ranges;
use crate::refusal::{require, Refusal, SIZE, TABLE_LENGTH, TABLE_VALUE};

/// The refusals that every operation on a table begins with, in their order.
pub(crate) fn check(n: usize, table: &[i32]) -> Result<(), Refusal> {
    require(ranges::size(n), SIZE)?;
    require(table.len() == 1 << n, TABLE_LENGTH)?;
    require(table.iter().all(|&v| ranges::value(v)), TABLE_VALUE)
}

/// The differences of a block of a table that has passed its checks.
pub(crate) fn differences(block: &[i32]) -> impl Iterator<Item = i32> + '_ {
    block.iter().map(|value| value - block[0])
}

/// Have two blocks of one height equal differences?
pub(crate) fn equal_differences(one: &[i32], other: &[i32]) -> bool {
    let shift = difference(other[0], one[0]);
    one.iter()
        .zip(other)
        .all(|(&a, &b)| difference(b, a) == shift)
}

/// The class of every block at a cut, left to right.
///
/// For a table of 2^n values and a cut from 0 to n.
pub fn classes(n: usize, table: &[i32], cut: usize) -> Vec<usize> {
    let mut known: Vec<&[i32]> = Vec::new();
    let class_of = |block| {
        let found = known.iter().position(|k| equal_differences(k, block));
        found.unwrap_or_else(|| {
            known.push(block);
            known.len() - 1
        })
    };
    table.chunks(1 << (n - cut)).map(class_of).collect()
}

/// How many classes the search for the class of every block at a cut tries,
/// left to right. It tries the class of the block just before, then the other
/// known ones from class 0 up, and ends with the one it finds.
///
/// For a table of 2^n values and a cut from 0 to n.
pub fn tried(n: usize, table: &[i32], cut: usize) -> Vec<usize> {
    let mut known: Vec<&[i32]> = Vec::new();
    let mut latest = None;
    let search = |block| {
        let mut tried = 0;
        let others = (0..known.len()).filter(|&class| Some(class) != latest);
        let found = latest.into_iter().chain(others).find(|&class| {
            tried += 1;
            equal_differences(known[class], block)
        });
        latest = found.or_else(|| {
            known.push(block);
            Some(known.len() - 1)
        });
        tried
    };
    table.chunks(1 << (n - cut)).map(search).collect()
}

/// How many blocks at a cut, up to and including each one, have its class, left
/// to right.
///
/// For a table of 2^n values and a cut from 0 to n.
pub fn uses(n: usize, table: &[i32], cut: usize) -> Vec<usize> {
    let classes = classes(n, table, cut);
    let up_to = |(block, class): (usize, &usize)| {
        let so_far = classes[..=block].iter();
        so_far.filter(|&other| other == class).count()
    };
    classes.iter().enumerate().map(up_to).collect()
}

/// How many blocks at a cut have each class, by class.
///
/// For a table of 2^n values and a cut from 0 to n.
pub fn use_counts(n: usize, table: &[i32], cut: usize) -> Vec<usize> {
    counts_by_class(&classes(n, table, cut))
}

/// How many blocks have each class, by the classes of a cut's blocks.
pub(crate) fn counts_by_class(classes: &[usize]) -> Vec<usize> {
    let mut counts = Vec::new();
    for &class in classes {
        if class == counts.len() {
            counts.push(0);
        }
        counts[class] += 1;
    }
    counts
}

/// The bound on the node count for a greatest rise p and a height l.
///
/// For a table of 2^n values and l from 1 to n; `i128::MAX` if it is beyond
/// an `i128`.
pub fn node_bound(n: usize, table: &[i32], p: u64, l: usize) -> i128 {
    let jumps = transition_points(table, p);
    let upper = (1_i128 << (n - l)) + (jumps - 1) * l as i128;
    (1..=l)
        .map(|height| rises(p, height))
        .try_fold(upper, |sum, term| sum.checked_add(term?))
        .unwrap_or(i128::MAX)
}

/// k: the adjacent pairs, wherever they lie, that fall or rise by more than p.
fn transition_points(table: &[i32], p: u64) -> i128 {
    let jumps = |pair: &&[i32]| {
        let rise = difference(pair[1], pair[0]);
        rise < 0 || rise as u64 > p
    };
    table.windows(2).filter(jumps).count() as i128
}

/// The number of blocks of a height from 0 up that rise by at most p a step.
fn rises(p: u64, height: usize) -> Option<i128> {
    let steps = (1_u32 << height) - 1;
    (i128::from(p) + 1).checked_pow(steps)
}

fn difference(later: i32, earlier: i32) -> i64 {
    i64::from(later) - i64::from(earlier)
}
