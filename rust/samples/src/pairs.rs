//! Tables of two variables, X and Y, of m bits each: n is 2m, and the entries
//! stand row by row, one row for each X and in it one column for each Y.

use crate::{Random, GREATEST, LEAST};

/// X and Y.
pub type Pair = (usize, usize);

/// Every pair, row by row.
pub fn every(m: usize) -> Vec<Pair> {
    let row = |x: usize| (0..1 << m).map(move |y| (x, y));
    (0..1 << m).flat_map(row).collect()
}

/// Some pairs: the corners and what is next to them, the middle, and so many
/// others. Each of them is there exchanged, too.
pub fn some(m: usize, random: &mut Random, count: usize) -> Vec<Pair> {
    let last = (1 << m) - 1;
    let chosen = [0, 1, last / 2, last / 2 + 1, last - 1, last];
    let row = |x: usize| chosen.map(|y| (x, y));
    let mut pairs = chosen.map(row).concat();
    for _ in 0..count {
        let (x, y) = (random.below(1 << m), random.below(1 << m));
        pairs.extend([(x, y), (y, x)]);
    }
    pairs
}

/// A table of f(X, Y) for every pair.
pub fn of(m: usize, mut f: impl FnMut(usize, usize) -> i32) -> Vec<i32> {
    every(m).into_iter().map(|(x, y)| f(x, y)).collect()
}

/// The entries by rows: `rows[X][Y]`.
pub fn rows(m: usize, table: &[i32]) -> Vec<&[i32]> {
    table.chunks(1 << m).collect()
}

/// The table with rows for columns.
pub fn exchanged(m: usize, table: &[i32]) -> Vec<i32> {
    let rows = rows(m, table);
    of(m, |x, y| rows[y][x])
}

/// Tables in which no exchange of X and Y changes the entry.
pub fn symmetric(m: usize, random: &mut Random) -> Vec<Vec<i32>> {
    let mut tables = vec![
        norm(m),
        of(m, |x, y| (x * y) as i32),
        of(m, |x, y| (x + y) as i32),
        of(m, |x, y| x.max(y) as i32),
        of(m, distance),
        of(m, |x, y| if x == y { LEAST } else { GREATEST }),
    ];
    for (least, greatest) in [(LEAST, GREATEST), (-2, 1)] {
        let entries = of(m, |_, _| random.between(least, greatest));
        let rows = rows(m, &entries);
        tables.push(of(m, |x, y| rows[x.min(y)][x.max(y)]));
    }
    tables
}

/// The distance of (X, Y) from (0, 0), rounded.
pub fn norm(m: usize) -> Vec<i32> {
    of(m, |x, y| (x as f64).hypot(y as f64).round() as i32)
}

fn distance(x: usize, y: usize) -> i32 {
    difference(x, y).abs()
}

fn difference(x: usize, y: usize) -> i32 {
    x as i32 - y as i32
}

/// Tables in which every exchange of an X and another Y changes the entry.
pub fn unsymmetric(m: usize, random: &mut Random) -> Vec<Vec<i32>> {
    let mut tables = vec![
        row_and_column(m),
        of(m, |x, _| x as i32),
        of(m, |_, y| y as i32),
        of(m, difference),
        of(m, |x, y| distance(x, y) + i32::from(x < y)),
        of(m, |x, y| if x < y { LEAST } else { GREATEST }),
    ];
    for (least, greatest) in [(LEAST, GREATEST), (-2, 1)] {
        tables.push(of(m, |x, y| match x < y {
            true => random.between(least, -1),
            false => random.between(0, greatest),
        }));
    }
    tables
}

/// Entries that say where they stand: 1,203 in row 2, column 3.
pub fn row_and_column(m: usize) -> Vec<i32> {
    of(m, |x, y| (1_000 + 100 * x + y) as i32)
}

/// Symmetric and unsymmetric tables.
pub fn all(m: usize, random: &mut Random) -> Vec<Vec<i32>> {
    let mut all = symmetric(m, random);
    all.extend(unsymmetric(m, random));
    all
}
