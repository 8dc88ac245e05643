//! Build, beside the same method in Rust and beside a program that hashes.

use crate::same_method;
use crate::tables::{self, Named, N};
use crate::timing::{self, black_box};
use panstrait_compare::answers;
use panstrait_samples::{node_numbers, oracle};

/// The node buffers are not cleared between runs.
fn one(Named { name, table }: &Named) {
    let what = format!("build, {name}");
    let room = node_numbers(N);
    let (mut ours, mut theirs) = (vec![0; room], vec![0; room]);
    let mut proved = || {
        let _ = black_box(answers::build(N, black_box(table), &mut ours));
    };
    timing::line(&what, "same method", &mut proved, || {
        black_box(same_method::build(N, black_box(table), &mut theirs));
    });
    timing::line(&what, "hashing", &mut proved, || {
        black_box(oracle::records(N, black_box(table)));
    });
    assert!(ours == theirs && ours.starts_with(&oracle::records(N, table)));
}

pub fn measure() {
    tables::worst().iter().for_each(one);
    tables::typical().iter().for_each(one);
}
