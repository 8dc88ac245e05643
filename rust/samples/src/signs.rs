//! Tables by the signs of their weights, and with weights at the borders of
//! weight widths.

use crate::tables::{of, weighted_sum};
use crate::{GREATEST, LEAST, MOST_WEIGHT};

/// Tables that rise or stay: no weight of any cell is negative.
pub fn rising(n: usize) -> Vec<Vec<i32>> {
    vec![
        of(n, |_| -7),
        of(n, |x| x as i32),
        of(n, |x| (x * x / 3) as i32 - 4_000_000),
        of(n, |x| i32::from(x > 0)),
        of(n, |x| (x / 2) as i32),
        of(n, |x| if x >> (n - 1) == 0 { LEAST } else { GREATEST }),
    ]
}

/// Tables that fall or stay: no weight of any cell is positive.
pub fn falling(n: usize) -> Vec<Vec<i32>> {
    let turned = |table: Vec<i32>| table.iter().map(|value| -1 - value).collect();
    rising(n).into_iter().map(turned).collect()
}

/// Tables with weights of both signs: the highest variable alone falls, the
/// lowest alone, every second one, a single value.
pub fn mixed(n: usize) -> Vec<Vec<i32>> {
    let powers = |falls: &dyn Fn(usize) -> bool| {
        let weight = |j: usize| (3 << j) * if falls(j) { -1 } else { 1 };
        let weights: Vec<i32> = (0..n).map(weight).collect();
        weighted_sum(-1, &weights)
    };
    vec![
        powers(&|j| j == n - 1),
        powers(&|j| j == 0),
        powers(&|j| j % 2 == 0),
        powers(&|j| j % 2 == 1),
        of(n, |x| if x == (1 << n) - 1 { -1 } else { x as i32 }),
        of(n, |x| if x == 1 { -1 } else { (x / 4) as i32 }),
    ]
}

pub fn all(n: usize) -> Vec<Vec<i32>> {
    [rising(n), falling(n), mixed(n)].concat()
}

/// The weights at the borders of widths, 2^a - 1, 2^a, -2^(a-1) and
/// -2^(a-1) - 1, and the ends of the range, rising.
pub fn borders() -> Vec<i32> {
    let mut borders = vec![MOST_WEIGHT, -MOST_WEIGHT];
    for exponent in 0..24 {
        let power = 1 << exponent;
        borders.extend([power - 1, power, -power, -power - 1]);
    }
    borders.sort_unstable();
    borders.dedup();
    borders
}

/// The tables over one variable whose weight is at a border.
pub fn pairs_at_borders() -> Vec<Vec<i32>> {
    let pair = |weight| in_range([0, weight]).expect("values can differ so much");
    borders().into_iter().map(pair).collect()
}

/// The tables over two variables with two weights at borders: of one block, of
/// two cells, of two classes.
pub fn fours_at_borders() -> Vec<Vec<i32>> {
    let borders = borders();
    let mut tables = Vec::new();
    for &v in &borders {
        for &w in &borders {
            tables.extend(in_range([0, v, w, 0]));
            tables.extend(in_range([0, v, w, v + w]));
            tables.extend(in_range([0, v, 0, w]));
        }
    }
    tables
}

/// A table with the differences of these values, themselves if they are in
/// range; none if they are too far apart.
fn in_range<const COUNT: usize>(values: [i32; COUNT]) -> Option<Vec<i32>> {
    let least = values.into_iter().fold(i32::MAX, i32::min);
    let shifted = |shift: i32| values.map(|value| value + shift).to_vec();
    let fits = |table: &Vec<i32>| table.iter().all(|value| (LEAST..=GREATEST).contains(value));
    [0, LEAST - least].into_iter().map(shifted).find(fits)
}
