//! Sum and Remainder, beside the second program.

use crate::tables::{N, WEIGHTS};
use crate::timing::{self, black_box};
use panstrait_compare::answers;
use panstrait_reference as reference;

/// The bits of the remainder.
const Q: usize = 8;

/// The table buffers are not cleared between runs: each run writes them whole.
fn sum() {
    let (mut ours, mut theirs) = (vec![0; 1 << N], vec![0; 1 << N]);
    timing::line(
        &format!("sum, {N} weights"),
        "reference",
        || {
            let _ = black_box(answers::sum(N, black_box(&WEIGHTS), &mut ours));
        },
        || {
            let _ = black_box(reference::sum(N, black_box(&WEIGHTS), &mut theirs));
        },
    );
    assert!(ours == theirs);
}

fn remainder() {
    let (mut ours, mut theirs) = (vec![0; 1 << N], vec![0; 1 << N]);
    timing::line(
        &format!("remainder, {N} weights, q {Q}"),
        "reference",
        || {
            let _ = black_box(answers::remainder(N, black_box(&WEIGHTS), Q, &mut ours));
        },
        || {
            let _ = black_box(reference::remainder(N, black_box(&WEIGHTS), Q, &mut theirs));
        },
    );
    assert!(ours == theirs);
}

pub fn measure() {
    sum();
    remainder();
}
