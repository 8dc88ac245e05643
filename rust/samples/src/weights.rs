//! Lists of weights, one for each bit from x(0) up, and what Sum and Remainder
//! should answer for them, in another way than the second program's.

use crate::{Random, GREATEST, LEAST};

/// What Sum should answer where each weight is in range. The positive weights
/// have the greatest sum, and the negative ones the least.
pub fn sum(weights: &[i32]) -> Result<Vec<i32>, u8> {
    let of_sign = |sign| weights.iter().filter(|w| w.signum() == sign).sum::<i32>();
    if of_sign(-1) < LEAST || of_sign(1) > GREATEST {
        return Err(18);
    }
    Ok(sums(weights))
}

/// What Remainder should answer: of each sum the low q bits.
pub fn remainder(weights: &[i32], q: usize) -> Vec<i32> {
    let low_bits = |sum| sum & ((1 << q) - 1);
    sums(weights).into_iter().map(low_bits).collect()
}

/// Every sum: the upper half has the last weight more than the lower half.
fn sums(weights: &[i32]) -> Vec<i32> {
    match weights.split_last() {
        None => vec![0],
        Some((last, rest)) => {
            let lower = sums(rest);
            let upper = lower.iter().map(|sum| sum + last).collect();
            [lower, upper].concat()
        }
    }
}

/// A list of w(j) for every j below n.
pub fn of(n: usize, w: impl FnMut(usize) -> i32) -> Vec<i32> {
    (0..n).map(w).collect()
}

/// Lists with a known shape, for every n from 1 to 12. Some have sums out of
/// range.
pub fn structured(n: usize) -> Vec<Vec<i32>> {
    let both_signs = |j: usize, weight: i32| if j % 2 == 0 { weight } else { -weight };
    vec![
        of(n, |_| 0),
        of(n, |_| 1),
        of(n, |_| -1),
        of(n, |_| LEAST),
        of(n, |_| GREATEST),
        of(n, |j| [LEAST, GREATEST][j % 2]),
        of(n, |j| [GREATEST, LEAST][j % 2]),
        of(n, |j| j as i32 + 1),
        of(n, |j| 1 << j),
        of(n, |j| -(1 << j)),
        of(n, |j| 1 << (n - 1 - j)),
        // No two sums are equal, nor after an exchange of signs.
        of(n, |j| 1 << (2 * j)),
        of(n, |j| both_signs(j, 1 << (2 * j))),
        of(n, |j| both_signs(j, 37 * j as i32 + 150)),
        // The upper weights are the lower ones again.
        of(n, |j| 1 << (j % ((n + 1) / 2))),
        of(n, |_| 1_024),
        of(n, |_| 2_048),
        of(n, |j| both_signs(j, 2_047)),
        split(n, 0b0101_0101_0101, GREATEST, LEAST),
        split(n, 0b1111_1111_1111, GREATEST, 0),
        split(n, 0, 0, LEAST),
    ]
}

/// One weight of a few sizes at every place, and 0 at the others.
pub fn single(n: usize) -> Vec<Vec<i32>> {
    let at = |place: usize| {
        let with = move |weight| of(n, |j| if j == place { weight } else { 0 });
        [1, -1, 2_048, -2_049, LEAST, GREATEST].map(with)
    };
    (0..n).flat_map(at).collect()
}

/// Weights that add up to one number at the set bits of a mask and to another at
/// the rest, where there are any. None is 0 if both numbers are beyond ±n.
pub fn split(n: usize, mask: usize, at_set: i32, at_rest: i32) -> Vec<i32> {
    let is_set = |j: usize| mask >> j & 1 == 1;
    let mut left = [at_rest, at_set];
    let mut places = [0, 0];
    (0..n).for_each(|j| places[usize::from(is_set(j))] += 1);
    of(n, |j| {
        let side = usize::from(is_set(j));
        let weight = left[side] / places[side];
        left[side] -= weight;
        places[side] -= 1;
        weight
    })
}

/// Pseudo-random lists of several sizes, some with sums out of range.
pub fn random(n: usize, random: &mut Random) -> Vec<i32> {
    match random.below(5) {
        0 => of(n, |_| random.between(LEAST, GREATEST)),
        1 => of(n, |_| [LEAST, GREATEST, 0, 1, -1][random.below(5)]),
        2 => of(n, |_| random.between(-1, 1) << random.below(23)),
        _ => within(n, random),
    }
}

/// Pseudo-random lists of several sizes, more or less sparse, with no sum out of
/// range.
pub fn within(n: usize, random: &mut Random) -> Vec<i32> {
    let sizes = [1, 3, 100, 3_000, GREATEST / n as i32];
    let most = sizes[random.below(sizes.len())];
    let sparse = 1 + random.below(4);
    of(n, |_| match random.below(sparse) {
        0 => random.between(-most, most),
        _ => 0,
    })
}
