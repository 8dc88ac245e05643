//! Reach: the cuts that fitting cells arrive at, and the least limit that fits.
//! Every list of sizes is tried.

use crate::grouping::{fits, groupings, Cuts};
use crate::refusal::Refusal;
use std::iter;

/// What Reach answers: the cuts, rising, that some list of fitting cells from
/// cut 0 arrives at, cut 0 with them, and the least address limit that some
/// grouping fits.
#[derive(Debug, Clone, PartialEq, Eq)]
pub struct Reached {
    pub cuts: Vec<usize>,
    pub least: usize,
}

/// Reach: Plan's arguments and checks, and no refusal where no grouping fits.
pub fn reach(n: usize, table: &[i32], limit: usize) -> Result<Reached, Refusal> {
    let rails = Cuts::checked(n, table, limit)?.rail_widths();
    let arrives = |cut, limit| lists(cut).any(|sizes| all_fit(&sizes, &rails, limit));
    let least = (1..).find(|&limit| arrives(n, limit));
    Ok(Reached {
        cuts: (0..=n).filter(|&cut| arrives(cut, limit)).collect(),
        least: least.expect("one cell of n variables fits n"),
    })
}

/// All lists of sizes from cut 0 to a cut; the empty one ends where it begins.
fn lists(cut: usize) -> Box<dyn Iterator<Item = Vec<usize>>> {
    match cut {
        0 => Box::new(iter::once(Vec::new())),
        _ => Box::new(groupings(cut)),
    }
}

/// Does each cell keep to the limit, one after another from cut 0?
fn all_fit(sizes: &[usize], rails: &[usize], limit: usize) -> bool {
    let mut cut = 0;
    sizes.iter().all(|&group| {
        let fitting = fits(rails[cut], group, limit);
        cut += group;
        fitting
    })
}
