//! Tables over 12 variables: the worst ones for the class search, some with many
//! words in the chosen cells, and typical ones.

use panstrait_samples::tables;
use std::f64::consts::PI;

pub const N: usize = 12;

/// Weights in no order, of both signs.
pub const WEIGHTS: [i32; N] = [
    7, -40, 1_000, 3, -2, 99_999, -650_000, 12, 800, -31, 4_096, 5,
];

/// A table and what it is.
pub struct Named {
    pub name: String,
    pub table: Vec<i32>,
}

fn named(name: &str, table: Vec<i32>) -> Named {
    Named {
        name: name.to_string(),
        table,
    }
}

pub fn worst() -> Vec<Named> {
    let differ = |height: usize| {
        named(
            &format!("blocks of {} differ in the last value", 1 << height),
            tables::last_value_differs(N, height),
        )
    };
    let mut worst = vec![named("all classes different", tables::all_different(N))];
    worst.extend([1, 2, 4, 6, 8].map(differ));
    worst.push(named(
        "blocks of 2, each class far from the one before",
        tables::of_classes(1, &far_classes()),
    ));
    worst.push(named(
        "adjacent ones, two classes alternate",
        tables::of(N, |x| (x & x >> 1).count_ones() as i32),
    ));
    worst
}

/// The classes of blocks of two values: one half are new, and the other half
/// are all of them again, three of four below the one before.
fn far_classes() -> Vec<usize> {
    let known = 1 << (N - 2);
    let again = |block: usize| (known - known / 4 - 1) * block % known;
    (0..known).chain((known..2 * known).map(again)).collect()
}

pub fn many_words() -> Vec<Named> {
    vec![
        named("300 classes at a chosen cut", tables::many_classes()),
        named("a long image", tables::long_image()),
    ]
}

pub fn typical() -> Vec<Named> {
    let root = |x: usize| (100.0 * (x as f64).sqrt()) as i32;
    let sine =
        |most: f64| move |x: usize| (most * (2.0 * PI * x as f64 / f64::from(1 << N)).sin()) as i32;
    vec![
        named("constant", tables::of(N, |_| 7)),
        named("linear", tables::of(N, |x| 3 * x as i32)),
        named("weighted sum", tables::weighted_sum(-9, &WEIGHTS)),
        named("square root", tables::of(N, root)),
        named("sine, 8 bits", tables::of(N, sine(127.0))),
        named("sine, 24 bits", tables::of(N, sine(8_388_607.0))),
        named("remainder by 5", tables::of(N, |x| (x % 5) as i32)),
        named("16 line segments", line_segments(16)),
        named("64 line segments", line_segments(64)),
    ]
}

/// A rising curve of so many straight segments of equal length, each with a
/// slope of its own.
fn line_segments(segments: usize) -> Vec<i32> {
    let length = (1 << N) / segments;
    let mut value = 0;
    tables::of(N, |x| {
        value += 1 + (x / length * 7 % segments) as i32;
        value
    })
}
