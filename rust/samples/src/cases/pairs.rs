//! Calls of the pair run with their answers.

use crate::pairs::{row_and_column, Pair};
use crate::{Cascade, NORM};

/// The image of `NORM` with address limit 4.
pub const NORM_IMAGE: [u8; 130] = [
    0x56, 4, 0, 0, 0, 0, //
    0x43, 1, 0, 1, 0, 2, 2, //
    0x57, 0, 0, 0, 0, 0, 0, //
    0x57, 0, 1, 0, 0, 0, 2, //
    0x43, 2, 0, 2, 0, 2, 2, //
    0x57, 0, 0, 0, 0, 0, 0, //
    0x57, 0, 0, 0, 0, 0, 2, //
    0x57, 0, 1, 0, 0, 0, 1, //
    0x57, 0, 0, 0, 0, 0, 2, //
    0x57, 0, 1, 0, 0, 0, 0, //
    0x57, 0, 0, 0, 0, 0, 1, //
    0x57, 0, 1, 0, 0, 0, 1, //
    0x57, 0, 1, 0, 0, 0, 2, //
    0x43, 1, 0, 2, 0, 1, 1, //
    0x57, 0, 0, 0, 0, 0, 0, //
    0x57, 0, 0, 0, 0, 0, 1, //
    0x57, 0, 0, 0, 0, 0, 0, //
    0x57, 0, 0, 0, 0, 0, 0, //
    0x45, 0, 0, 0, 34,
];

/// A table of two bits, X and Y, and its image with address limit 2.
pub const TWO_BITS: [i32; 4] = [0, 1, 2, 30];
pub const TWO_BITS_IMAGE: [u8; 46] = [
    0x56, 2, 0, 0, 0, 0, //
    0x43, 2, 0, 1, 0, 1, 5, //
    0x57, 0, 0, 0, 0, 0, 0, //
    0x57, 0, 0, 0, 0, 0, 1, //
    0x57, 0, 0, 0, 0, 0, 2, //
    0x57, 0, 0, 0, 0, 0, 30, //
    0x45, 0, 0, 0, 20,
];

/// A call of the pair run, and the value and the words that it answers.
pub struct PairRun {
    pub name: String,
    pub m: usize,
    pub image: Vec<u8>,
    pub x: usize,
    pub y: usize,
    pub answer: Result<(i32, usize), u8>,
}

pub fn pair_runs() -> Vec<PairRun> {
    let mut runs = worked_runs();
    runs.extend((1..=6).flat_map(runs_of_rows_and_columns));
    runs.extend(refused_runs());
    runs.extend(runs_with_a_wrong_size());
    runs.extend(runs_with_another_n());
    runs.extend(runs_outside_the_domain());
    runs
}

/// What the pair run answers about the norm's image, whatever else it is given.
pub fn norm_answer(m: usize, (x, y): Pair) -> Result<(i32, usize), u8> {
    match (m, x, y) {
        (2, 0..=3, 0..=3) => Ok((NORM[4 * x + y], 3)),
        (2, _, _) => Err(17),
        (1..=6, _, _) => Err(13),
        _ => Err(16),
    }
}

fn pair_run(
    name: &str,
    m: usize,
    image: &[u8],
    (x, y): Pair,
    answer: Result<(i32, usize), u8>,
) -> PairRun {
    PairRun {
        name: name.into(),
        m,
        image: image.to_vec(),
        x,
        y,
        answer,
    }
}

fn worked_runs() -> Vec<PairRun> {
    let norm = |pair, value| pair_run("the norm", 2, &NORM_IMAGE, pair, Ok((value, 3)));
    let bits = |pair, value| pair_run("two bits", 1, &TWO_BITS_IMAGE, pair, Ok((value, 1)));
    vec![
        norm((2, 3), 4),
        norm((3, 2), 4),
        norm((0, 1), 1),
        norm((3, 3), 4),
        norm((1, 0), 1),
        norm((1, 3), 3),
        norm((2, 1), 2),
        bits((0, 0), 0),
        bits((0, 1), 1),
        bits((1, 0), 2),
        bits((1, 1), 30),
    ]
}

/// All variables in one cell, in one each, and in cells that end between X and
/// Y or within both.
fn runs_of_rows_and_columns(m: usize) -> Vec<PairRun> {
    let last = (1 << m) - 1;
    let pairs = [
        (0, 0),
        (0, 1),
        (1, 0),
        (0, last),
        (last, 0),
        (last, last - 1),
        (last - 1, last),
        (last, last),
    ];
    let table = row_and_column(m);
    let cascade = Cascade::new(2 * m, &table);
    let run = |sizes: Vec<usize>| {
        let image = cascade.draft(&sizes).bytes();
        let words = sizes.len();
        pairs.map(|(x, y)| {
            let value = (1_000 + 100 * x + y) as i32;
            let name = format!("groups {sizes:?}");
            pair_run(&name, m, &image, (x, y), Ok((value, words)))
        })
    };
    let mut groupings = vec![vec![2 * m], vec![m, m], vec![1; 2 * m]];
    groupings.extend((1..m).map(|g| vec![g, m, m - g]));
    groupings.into_iter().flat_map(run).collect()
}

/// Where several refusals hold, the first is the answer.
fn refused_runs() -> Vec<PairRun> {
    let norm = &NORM_IMAGE[..];
    let longer = [norm, &[0x45]].concat();
    let other = [&[0x43], &norm[1..]].concat();
    let run = |name, m, image, pair, refusal| pair_run(name, m, image, pair, Err(refusal));
    vec![
        run("m, no byte, X", 7, &[], (99, 0), 16),
        run("m, no byte, Y", 0, &[], (0, 99), 16),
        run("m, another command", 7, &other, (0, 0), 16),
        run("m, a byte after", 0, &longer, (0, 0), 16),
        run("m, X", 7, norm, (128, 0), 16),
        run("no byte, X", 2, &[], (4, 0), 11),
        run("no byte, Y", 2, &[], (0, 4), 11),
        run("another command, X", 2, &other, (4, 0), 12),
        run("n 4, cut off, for m 3", 3, &norm[..5], (0, 0), 11),
        run("n 4, no cell, for m 3", 3, &norm[..6], (0, 0), 13),
        run("n 4, no cell, for m 3, X", 3, &norm[..6], (8, 0), 13),
        run("n 4, no cell, for m 2", 2, &norm[..6], (0, 0), 11),
        run("a byte after, X", 2, &longer, (4, 0), 14),
        run("a byte after, Y", 2, &longer, (0, 4), 14),
        run("a byte after", 2, &longer, (3, 3), 14),
        run("a byte after, for m 3", 3, &longer, (3, 3), 13),
        run("X", 2, norm, (4, 0), 17),
        run("Y", 2, norm, (0, 4), 17),
        run("X and Y", 2, norm, (4, 4), 17),
    ]
}

/// m out of range, before every other refusal; the images are sound but for
/// their n, or of the n that 2m is in 8 or in 64 bits.
fn runs_with_a_wrong_size() -> Vec<PairRun> {
    let of_n = |n: u8| {
        let mut image = NORM_IMAGE;
        image[1] = n;
        image
    };
    let runs = [
        (0, 0),
        (0, 4),
        (1 << 7, 0),
        ((1 << 7) + 2, 4),
        (7, 14),
        (7, 12),
        (64, 128),
        (64 + 2, 4),
        (1 << 63, 0),
        ((1 << 63) + 2, 4),
        (usize::MAX, 254),
    ];
    let run = |(m, n): (usize, u8)| {
        let image = of_n(n);
        let name = format!("m {m}, n {n}");
        [&image[..], &image[..6], &image[..1], &[]].map(|image| {
            [(0, 0), (3, 3), (4, usize::MAX)].map(|pair| pair_run(&name, m, image, pair, Err(16)))
        })
    };
    runs.into_iter().flat_map(run).flatten().collect()
}

/// An n in range or not, for m 2, and n 4 for other m: refused at the 0x56,
/// after what is wrong with its command and its length, and before all else.
fn runs_with_another_n() -> Vec<PairRun> {
    let for_two = [0, 2, 3, 5, 13, 255].map(|n| (2, n));
    let of_four = [1, 3, 4, 6].map(|m| (m, 4));
    let mut runs = Vec::new();
    for (m, n) in for_two.into_iter().chain(of_four) {
        let mut image = NORM_IMAGE;
        image[1] = n;
        let mut other = image;
        other[0] = 0x43;
        let mut run = |name: &str, image: &[u8], refusal| {
            let name = format!("m {m}, n {n}: {name}");
            for pair in [(0, 0), (1 << m, 0), (0, usize::MAX)] {
                runs.push(pair_run(&name, m, image, pair, Err(refusal)));
            }
        };
        run("all that an image of n 4 has", &image, 13);
        run("nothing behind", &image[..6], 13);
        run("a byte after", &[&image[..], &[0]].concat(), 13);
        run("a word behind", &[&image[..6], &image[13..]].concat(), 13);
        run("cut off", &image[..5], 11);
        run("n alone", &image[..2], 11);
        run("another command", &other, 12);
        run("another command, cut off", &other[..2], 12);
    }
    runs
}

/// X alone, Y alone and both: the last below 2^m, 2^m itself, and others that
/// are 0 in some of their low bits or lead to such a Z.
fn runs_outside_the_domain() -> Vec<PairRun> {
    let run = |x: usize, y: usize| {
        let answer = match (x, y) {
            (3, 3) => Ok((4, 3)),
            _ => Err(17),
        };
        pair_run("the norm", 2, &NORM_IMAGE, (x, y), answer)
    };
    let numbers = [3, 4, 1 << 8, 1 << 16, 1 << 32, 1 << 62, usize::MAX];
    let runs = numbers.into_iter().flat_map(|x| numbers.map(|y| run(x, y)));
    runs.collect()
}
