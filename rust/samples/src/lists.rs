//! Record lists with true bounds, pseudo-random ones among them.

use crate::{Random, MOST_WEIGHT};

/// What says the function of a record: variable, low, high, weight.
pub type Branch = [i32; 4];

/// The records of these branches: each has, after its branch, the least and the
/// greatest value of its function, from those of its children.
pub fn with_bounds(branches: &[Branch]) -> Vec<i32> {
    let mut rising: Vec<usize> = (1..=branches.len()).collect();
    rising.sort_by_key(|&number| branches[number - 1][0]);
    let mut bounds = vec![[0, 0]; branches.len() + 1];
    for number in rising {
        let [variable, low, high, weight] = branches[number - 1];
        let below = |node: i32| bounds[lower_node(branches, variable, node)];
        let (low, high) = (below(low), below(high));
        // Only a weight out of range leads beyond 32 bits.
        bounds[number] = [
            low[0].min(weight.wrapping_add(high[0])),
            low[1].max(weight.wrapping_add(high[1])),
        ];
    }
    let records = branches.iter().zip(&bounds[1..]);
    let numbers = records.flat_map(|(branch, bounds)| branch.iter().chain(bounds));
    numbers.copied().collect()
}

/// The node, or node 0 in place of one that has no record of a variable below
/// the given one.
fn lower_node(branches: &[Branch], variable: i32, node: i32) -> usize {
    let place = (node as usize).wrapping_sub(1);
    match branches.get(place) {
        Some(record) if record[0] < variable => node as usize,
        _ => 0,
    }
}

/// A list that passes, with no care for reduction: children are any lower
/// nodes, weights any in range, and some records may be unused.
pub fn passing(n: usize, random: &mut Random) -> Vec<i32> {
    let most = (1 << n) - 1;
    let count = 1 + random.below(most.min(40));
    let mut variables: Vec<i32> = (0..count).map(|_| random.below(n) as i32).collect();
    if random.below(2) == 0 {
        variables.sort_unstable();
    }
    let mut branches = Vec::new();
    for number in 1..=count {
        let variable = variables[number - 1];
        let mut child = || lower_node(&branches, variable, random.below(number) as i32) as i32;
        let (low, high) = (child(), child());
        branches.push([variable, low, high, passing_weight(random)]);
    }
    with_bounds(&branches)
}

fn passing_weight(random: &mut Random) -> i32 {
    match random.below(4) {
        0 => 0,
        1 => [MOST_WEIGHT, -MOST_WEIGHT][random.below(2)],
        _ => random.between(-MOST_WEIGHT, MOST_WEIGHT),
    }
}

/// Some parts of the domain of n variables, as the first and the last X: parts
/// that begin or end with the domain, single X, and others.
pub fn parts(n: usize, random: &mut Random, count: usize) -> Vec<(usize, usize)> {
    let last = (1 << n) - 1;
    let mut parts = vec![(0, last), (0, 0), (last, last), (0, last / 2)];
    parts.extend([(1, last), (0, last - 1), (last / 2 + 1, last)]);
    for _ in 0..count {
        let (x, y) = (random.below(1 << n), random.below(1 << n));
        parts.extend([(x.min(y), x.max(y)), (0, x), (y, last), (x, x)]);
    }
    parts
}
