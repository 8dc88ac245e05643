//! Least widths, of rails and of weights, and the memory bits they give.

use std::ops::Range;

/// The bits of a rail that carries any of `count` classes: the least b with
/// 2^b at least the count.
pub fn rail_width(count: usize) -> usize {
    let mut width = 0;
    while (1_u128 << width) < count as u128 {
        width += 1;
    }
    width
}

/// The weight width of a cell: unsigned, unless some weight is negative.
pub fn weight_width(weights: &[i32]) -> usize {
    if weights.iter().any(|&weight| weight < 0) {
        signed_width(weights)
    } else {
        unsigned_width(weights)
    }
}

/// The least a with every weight below 2^a, of weights that are not negative.
fn unsigned_width(weights: &[i32]) -> usize {
    least_width(weights, |a| 0..1 << a)
}

/// The least a, two's complement, that holds every weight; 0 holds only 0.
pub(crate) fn signed_width(weights: &[i32]) -> usize {
    least_width(weights, |a| match a {
        0 => 0..1,
        _ => -1 << (a - 1)..1 << (a - 1),
    })
}

/// The least width that holds every weight, where each holds a range.
fn least_width(weights: &[i32], held: impl Fn(usize) -> Range<i64>) -> usize {
    let holds = |&a: &usize| weights.iter().all(|&w| held(a).contains(&w.into()));
    (0..).find(holds).expect("32 bits hold every weight")
}

/// The memory bits of a cell: 2^(address width) words of a class and a weight.
pub(crate) fn cell_bits(incoming: usize, group: usize, outgoing: usize, width: usize) -> usize {
    (rail_width(outgoing) + width) << (rail_width(incoming) + group)
}
