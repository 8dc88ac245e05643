//! Fixed cases with the paper's answers, which pseudo-random ones would meet
//! seldom or never.

mod broken;
mod calls;
mod lists;
mod older;
mod pair_faults;
mod pairs;
mod passing;
mod plans;
mod reaches;
mod refused;
mod reports;
mod searches;
mod sums;
mod widths;

pub use broken::{broken_lists, BrokenList};
pub use calls::{list_calls, wrong_inputs, wrong_parts, ListCall};
pub use lists::{lists, List};
pub use older::{older_images, OlderImage, OLDER_FALL, OLDER_PAIR};
pub use pair_faults::{numbers_of_any_size, pair_images, wrong_pairs, wrong_sizes, PairImage};
pub use pairs::{norm_answer, pair_runs, PairRun, NORM_IMAGE, TWO_BITS, TWO_BITS_IMAGE};
pub use passing::{passing_images, PassingImage};
pub use plans::{chosen_plans, refused_plans, ChosenCell, ChosenPlan, RefusedPlan};
pub use reaches::{reaches, Reach, COUNTED, STRIPES};
pub use refused::{refused_images, RefusedImage};
pub use reports::{reports, Report};
pub use searches::{searches, Block, Search};
pub use sums::{sum_calls, sum_calls_by_faults, wrong_remainder_bits, wrong_variables, SumCall};
pub use widths::{weight_widths, WeightWidth};

use crate::lists::Branch;
use crate::{tables, FIGURE, GREATEST, LEAST, MOST_WEIGHT, RECORD};

/// n that are 3 to a program that looks at their low 8, 16 or 32 bits alone.
pub const WRAPPED_3: [usize; 3] = [(1 << 8) + 3, (1 << 16) + 3, (1 << 32) + 3];

/// The greatest and the least value that twelve weights lead to, each with the
/// offset and the weight.
pub const EXTREMES: [(i32, i32, i32); 2] = [
    (209_715_187, GREATEST, MOST_WEIGHT),
    (-209_715_188, LEAST, -MOST_WEIGHT),
];

/// A table over 4 variables for which the groupings 2, 1, 1 and 1, 3 both cost
/// 40 bits, and no other that fits limit 4 costs less.
pub const TIE: [i32; 16] = [0, 0, 0, 0, -2, -2, -2, 0, -3, -3, -3, -3, -5, -3, -5, -5];

/// A table over 4 variables that has, at cut 3, one, three, three and one block of
/// its four classes.
pub const EQUAL_USES: [i32; 16] = [3, 2, 3, 1, 2, 0, 2, 2, 2, 0, 0, 3, 0, 0, 0, 0];

/// The records of `FIGURE`.
pub const FIGURE_RECORDS: [[i32; RECORD]; 5] = [
    [0, 0, 0, 1, 0, 1],
    [1, 0, 1, 1, 0, 2],
    [2, 0, 2, 1, 0, 3],
    [2, 2, 0, 3, 0, 3],
    [3, 3, 4, 4, 0, 7],
];

/// The records of `FIGURE` without their least and greatest values.
pub fn figure_branches() -> [Branch; 5] {
    FIGURE_RECORDS.map(|[variable, low, high, weight, ..]| [variable, low, high, weight])
}

/// A table with values below and above its first one, and its records.
pub const FALL_AND_RISE: [i32; 4] = [5, 3, 3, 9];
pub const FALL_AND_RISE_RECORDS: [[i32; RECORD]; 3] = [
    [0, 0, 0, -2, -2, 0],
    [0, 0, 0, 6, 0, 6],
    [1, 1, 2, -2, -2, 4],
];

/// The image of (5, 8).
pub const PAIR_IMAGE: [u8; 32] = [
    0x56, 1, 0, 0, 0, 5, //
    0x43, 1, 0, 1, 0, 1, 2, //
    0x57, 0, 0, 0, 0, 0, 0, //
    0x57, 0, 0, 0, 0, 0, 3, //
    0x45, 0, 0, 0, 4,
];

/// A table and its records.
pub struct Diagram {
    pub n: usize,
    pub table: Vec<i32>,
    pub records: Vec<i32>,
}

/// Tables with records worked out by hand.
pub fn diagrams() -> Vec<Diagram> {
    let worked = |n: usize, table: &[i32], records: &[[i32; RECORD]]| Diagram {
        n,
        table: table.to_vec(),
        records: records.concat(),
    };
    let mut diagrams = extreme_halves();
    diagrams.extend([
        worked(4, &FIGURE, &FIGURE_RECORDS),
        worked(2, &FALL_AND_RISE, &FALL_AND_RISE_RECORDS),
        worked(2, &[7; 4], &[]),
    ]);
    diagrams
}

/// Halves of one value each, as far apart as two values can be.
pub fn extreme_halves() -> Vec<Diagram> {
    let halves = |n: usize, [lower, upper]: [i32; 2]| {
        let rise = upper - lower;
        Diagram {
            n,
            table: tables::of(n, |x| if x >> (n - 1) == 0 { lower } else { upper }),
            records: vec![n as i32 - 1, 0, 0, rise, rise.min(0), rise.max(0)],
        }
    };
    let both_ways = [[GREATEST, LEAST], [LEAST, GREATEST]];
    let pairs = (1..=12).flat_map(|n| both_ways.map(|values| halves(n, values)));
    pairs.collect()
}
