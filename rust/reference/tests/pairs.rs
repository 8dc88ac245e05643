//! The pair run: rows and columns of tables of two variables, and every refusal
//! in its order.

mod common;

use common::*;
use panstrait_reference::*;
use panstrait_samples::pairs::Pair;
use panstrait_samples::*;

/// The pair run's value and words.
fn ran(m: usize, image: &[u8], (x, y): Pair) -> Result<(i32, usize), Refusal> {
    pair_run(m, image, x, y).map(|ran| (ran.value, ran.words))
}

/// The images that a table compiles to within every limit, with their cells.
fn images(n: usize, table: &[i32]) -> Vec<(Vec<u8>, usize)> {
    let mut images: Vec<(Vec<u8>, usize)> = (1..=12)
        .filter_map(|limit| compiled(n, table, limit).ok())
        .map(|(answer, image)| (image, answer.cells.len()))
        .collect();
    images.dedup();
    images
}

#[test]
fn fixed_pair_runs() {
    for case in cases::pair_runs() {
        let answer = ran(case.m, &case.image, (case.x, case.y));
        let (name, m, x, y) = (case.name, case.m, case.x, case.y);
        assert_eq!(answer, case.answer, "{name}: m {m}, X {x}, Y {y}");
    }
}

/// Document 002's norm of two bits.
#[test]
fn the_norm() {
    assert_eq!(pairs::norm(2), NORM);
    assert_eq!(plan(4, &NORM, 4).unwrap().sizes, [1, 2, 1]);
    let (answer, image) = compiled(4, &NORM, 4).unwrap();
    assert_eq!(answer.bits, 34);
    assert_eq!(image, cases::NORM_IMAGE);
    let rows = [[0, 1, 2, 3], [1, 1, 2, 3], [2, 2, 3, 4], [3, 3, 4, 4]];
    for (x, row) in rows.iter().enumerate() {
        for (y, &value) in row.iter().enumerate() {
            assert_eq!(ran(2, &image, (x, y)), Ok((value, 3)), "X {x}, Y {y}");
        }
    }
}

#[test]
fn two_bits() {
    let (answer, image) = compiled(2, &cases::TWO_BITS, 2).unwrap();
    assert_eq!(fields(&answer.cells), [[2, 1, 1, 5, 20, 0, 4]]);
    assert_eq!(image, cases::TWO_BITS_IMAGE);
    assert_eq!(ran(1, &image, (0, 1)), Ok((1, 1)));
    assert_eq!(ran(1, &image, (1, 0)), Ok((2, 1)));
    assert_eq!(ran(1, &image, (1, 1)), Ok((30, 1)));
}

/// The worked refusals, each of the norm's image.
#[test]
fn refusals_of_the_norm() {
    let image = &cases::NORM_IMAGE[..];
    let longer = [image, &[0]].concat();
    assert_eq!(pair_run(7, &[], 99, 0), Err(16));
    assert_eq!(pair_run(2, &[], 4, 0), Err(11));
    assert_eq!(pair_run(3, &image[..5], 0, 0), Err(11));
    assert_eq!(pair_run(3, &image[..6], 0, 0), Err(13));
    assert_eq!(pair_run(2, &image[..6], 0, 0), Err(11));
    assert_eq!(pair_run(2, &longer, 4, 0), Err(14));
    assert_eq!(pair_run(2, image, 4, 0), Err(17));
    assert_eq!(pair_run(2, image, 0, 4), Err(17));
}

/// An image gives the entry in row X, column Y, one word read in each cell.
fn gives_entries(m: usize, table: &[i32], pairs: &[Pair]) {
    let rows = pairs::rows(m, table);
    for (image, cells) in images(2 * m, table) {
        for &(x, y) in pairs {
            let entry = rows[x][y];
            let answer = ran(m, &image, (x, y));
            assert_eq!(answer, Ok((entry, cells)), "m {m}, X {x}, Y {y}");
        }
    }
}

#[test]
fn every_entry_of_small_tables() {
    let mut random = Random(101);
    for m in 1..=3 {
        let mut all = pairs::all(m, &mut random);
        all.extend(tables::all(2 * m, &mut random, 30));
        all.extend(signs::all(2 * m));
        for table in all {
            gives_entries(m, &table, &pairs::every(m));
        }
    }
}

#[test]
fn every_entry_of_a_norm() {
    for m in 4..=6 {
        gives_entries(m, &pairs::norm(m), &pairs::every(m));
    }
}

#[test]
fn entries_of_larger_tables() {
    let mut random = Random(102);
    for m in 4..=6 {
        let mut all = pairs::all(m, &mut random);
        all.extend(tables::all(2 * m, &mut random, 4));
        for table in all {
            gives_entries(m, &table, &pairs::some(m, &mut random, 10));
        }
    }
}

/// The answers with X and Y, and with the two exchanged, where they differ.
fn both_ways(m: usize, table: &[i32], random: &mut Random) -> Vec<[(i32, usize); 2]> {
    let mut answers = Vec::new();
    for (image, _) in images(2 * m, table) {
        let answer = |pair| ran(m, &image, pair).expect("a pair of the domain");
        let pairs = pairs::some(m, random, 20).into_iter();
        let different = pairs.filter(|(x, y)| x != y);
        answers.extend(different.map(|(x, y)| [answer((x, y)), answer((y, x))]));
    }
    answers
}

#[test]
fn an_exchange_in_symmetric_tables() {
    let mut random = Random(103);
    for m in 1..=6 {
        for table in pairs::symmetric(m, &mut random) {
            assert!(pairs::exchanged(m, &table) == table);
            for [one, other] in both_ways(m, &table, &mut random) {
                assert_eq!(one, other);
            }
        }
    }
}

#[test]
fn an_exchange_in_unsymmetric_tables() {
    let mut random = Random(104);
    for m in 1..=6 {
        for table in pairs::unsymmetric(m, &mut random) {
            assert!(pairs::exchanged(m, &table) != table);
            for [(value, words), (exchanged, same_words)] in both_ways(m, &table, &mut random) {
                assert_ne!(value, exchanged);
                assert_eq!(words, same_words);
            }
        }
    }
}

/// The answers about an image, sound or not, with a pair of the domain or not,
/// and with m out of range, which comes first.
fn check_image(m: usize, case: &cases::PairImage, table: &[i32], words: usize) {
    let (name, image, rows) = (&case.name, &case.image, pairs::rows(m, table));
    let last = rows.len() - 1;
    for (x, y) in [(0, 0), (0, last), (last, 0), (last, last)] {
        let expected = case.refusal.map_or(Ok((rows[x][y], words)), Err);
        assert_eq!(ran(m, image, (x, y)), expected, "{name}, X {x}, Y {y}");
    }
    for pair in cases::wrong_pairs(m) {
        let expected = Err(case.refusal.unwrap_or(17));
        assert_eq!(ran(m, image, pair), expected, "{name}, {pair:?}");
    }
    for wrong in cases::wrong_sizes(m) {
        for pair in [(0, 0), (last, last), (last + 1, 0), (0, usize::MAX)] {
            assert_eq!(ran(wrong, image, pair), Err(16), "m {wrong}, {name}");
        }
    }
}

/// Every set of reasons to refuse at once: the first in the paper's order.
#[test]
fn several_reasons_at_once() {
    for m in 1..=6 {
        let table = pairs::norm(m);
        let (answer, image) = compiled(2 * m, &table, 12).unwrap();
        for case in cases::pair_images(m, &image) {
            check_image(m, &case, &table, answer.cells.len());
        }
    }
}

/// Images of every n for every m: 13 where n is another, once the first command
/// is whole.
#[test]
fn images_of_every_n() {
    for n in 1..=12 {
        let table = tables::of(n, |x| (x % 5) as i32);
        let (answer, image) = compiled(n, &table, 12).unwrap();
        for m in 1..=6 {
            for (x, y) in [(0, 0), (1, 0), (1 << m, 0), (0, 1 << m)] {
                let expected = match (n == 2 * m, x >> m | y >> m) {
                    (true, 0) => Ok((table[x << m], answer.cells.len())),
                    (true, _) => Err(17),
                    (false, _) => Err(13),
                };
                assert_eq!(ran(m, &image, (x, y)), expected, "m {m}, n {n}");
            }
            for length in 0..image.len() {
                let refusal = if n == 2 * m || length < 6 { 11 } else { 13 };
                assert_eq!(ran(m, &image[..length], (0, 0)), Err(refusal));
            }
        }
    }
}

/// Any byte of an image with n = 2m is changed: Run says what is answered, but
/// where n is another.
#[test]
fn changed_bytes_beside_run() {
    let run = |image: &[u8], z| run(image, z).map(|ran| (ran.value, ran.words));
    let images = [(1, &cases::TWO_BITS_IMAGE[..]), (2, &cases::NORM_IMAGE[..])];
    for (m, image) in images {
        for place in 0..image.len() {
            for byte in 0..=255 {
                let mut changed = image.to_vec();
                changed[place] = byte;
                for pair in [(0, 1), ((1 << m) - 1, 0), (1, 1 << m)] {
                    let expected = oracle::pair_run(m, &changed, pair, run);
                    assert_eq!(ran(m, &changed, pair), expected, "{byte} at {place}");
                }
            }
        }
    }
}

#[test]
fn images_of_any_shape() {
    let mut random = Random(105);
    for _ in 0..600 {
        let m = 1 + random.below(6);
        let draft = drafts::passing_of(2 * m, &mut random);
        let image = draft.bytes();
        let mut values = vec![NUMBER; 1 << (2 * m)];
        assert_eq!(expand(&image, &mut values), Ok(()));
        let rows = pairs::rows(m, &values);
        for _ in 0..8 {
            let (x, y) = (random.below(1 << m), random.below(1 << m));
            let expected = Ok((rows[x][y], draft.cells.len()));
            assert_eq!(ran(m, &image, (x, y)), expected);
        }
    }
}

#[test]
fn arguments_of_any_size() {
    let numbers = cases::numbers_of_any_size();
    for &m in &numbers {
        for &x in &numbers {
            for &y in &numbers {
                let answer = ran(m, &cases::NORM_IMAGE, (x, y));
                let expected = cases::norm_answer(m, (x, y));
                assert_eq!(answer, expected, "m {m}, X {x}, Y {y}");
            }
        }
    }
}
