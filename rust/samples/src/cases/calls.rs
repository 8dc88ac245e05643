//! Calls of Walk and Report that are refused for several reasons.

use super::{broken_lists, FIGURE_RECORDS};
use crate::{GREATEST, LEAST};

/// A record list with n and an offset, and the first of the refusals 1, 5 and 6
/// that hold for them.
pub struct ListCall {
    pub name: String,
    pub n: usize,
    pub offset: i32,
    pub records: Vec<i32>,
    pub refusal: Option<u8>,
}

impl ListCall {
    /// n, or the nearest number of variables where it is out of range.
    pub fn variables(&self) -> usize {
        self.n.clamp(1, 12)
    }
}

/// Every set of the refusals 1, 5 and 6, none of them too, with every broken
/// list.
pub fn list_calls() -> Vec<ListCall> {
    let mut calls = calls("the figure", 4, &FIGURE_RECORDS.concat(), None);
    calls.extend(self::calls("no record", 4, &[], None));
    for list in broken_lists() {
        calls.extend(self::calls(&list.name, list.n, &list.records, Some(6)));
    }
    calls
}

/// The calls with a list over n variables, for which this refusal holds.
fn calls(name: &str, n: usize, records: &[i32], refusal: Option<u8>) -> Vec<ListCall> {
    let sizes = [(n, None), (0, Some(1)), (13, Some(1))];
    let within = [LEAST, GREATEST].map(|offset| (offset, None));
    let outside = [LEAST - 1, GREATEST + 1].map(|offset| (offset, Some(5)));
    let mut calls = Vec::new();
    for (n, wrong_size) in sizes {
        for (offset, wrong_offset) in [within, outside].concat() {
            calls.push(ListCall {
                name: format!("{name}, n {n}, offset {offset}"),
                n,
                offset,
                records: records.to_vec(),
                refusal: wrong_size.or(wrong_offset).or(refusal),
            });
        }
    }
    calls
}

/// Some X outside the domain of n variables; the low bits of some are within.
pub fn wrong_inputs(n: usize) -> Vec<usize> {
    let outside = 1 << n;
    vec![outside, outside + 1, 1 << 16, 1 << 32, 1 << 63, usize::MAX]
}

/// Ends that no part of the domain of n variables has: a above b, b outside the
/// domain, or both.
pub fn wrong_parts(n: usize) -> Vec<(usize, usize)> {
    let last = (1 << n) - 1;
    let mut parts = vec![(1, 0), (last, last - 1), (last, 0)];
    for wrong in wrong_inputs(n) {
        parts.extend([(0, wrong), (last, wrong), (wrong, wrong)]);
        parts.extend([(wrong, 0), (wrong, last), (wrong, wrong - 1)]);
        parts.push((wrong, wrong.saturating_add(last)));
    }
    parts
}
