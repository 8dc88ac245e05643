//! The pair run: every pair of small tables of two variables, many of large
//! ones, images of any shape, of another n and damaged, and what is refused.

mod common;

use common::*;
use panstrait_compare::answers;
use panstrait_samples::pairs::Pair;
use panstrait_samples::{cases, drafts, oracle, pairs, signs, tables, Cascade, Random, BYTE, NORM};
use std::ops::RangeInclusive;

/// Both programs' answer, which is the proved Run's at Z, or 17 for its 7,
/// unless the image's first command says another n than 2m.
fn same_as_run(m: usize, image: &[u8], pair: Pair) {
    let run = |image: &[u8], z| answers::run(image, z).map(|ran| (ran.value, ran.words));
    let expected = oracle::pair_run(m, image, pair, run);
    assert_eq!(
        same_pair_run(m, image, pair),
        expected,
        "m {m}, {pair:?}: {image:02x?}"
    );
}

/// The image gives the entry in row X, column Y, by so many words.
fn gives_entries(m: usize, image: &[u8], words: usize, table: &[i32], pairs: &[Pair]) {
    let rows = pairs::rows(m, table);
    for &(x, y) in pairs {
        let answer = same_pair_run(m, image, (x, y));
        assert_eq!(answer, Ok((rows[x][y], words)), "m {m}, X {x}, Y {y}");
    }
}

/// The images of the chosen groupings give the entries, one word read in each
/// cell.
fn chosen_give_entries(m: usize, table: &[i32], limits: RangeInclusive<usize>, pairs: &[Pair]) {
    for draft in chosen_drafts(2 * m, table, limits) {
        gives_entries(m, &draft.bytes(), draft.cells.len(), table, pairs);
    }
}

/// The image that the proved library compiles a table to, and its cells; none
/// where no grouping fits.
fn compiled(n: usize, table: &[i32], limit: usize) -> Option<(Vec<u8>, usize)> {
    let mut image = vec![BYTE; 65_536];
    let compiled = answers::compile(n, table, limit, &mut image).ok()?;
    image.truncate(compiled.length);
    Some((image, compiled.cells.len()))
}

/// The worked tables, compiled and run through C.
#[test]
fn worked_tables() {
    let (norm, cells) = compiled(4, &NORM, 4).expect("a grouping fits");
    assert_eq!((&norm[..], cells), (&cases::NORM_IMAGE[..], 3));
    gives_entries(2, &norm, 3, &NORM, &pairs::every(2));
    let (bits, cells) = compiled(2, &cases::TWO_BITS, 2).expect("a grouping fits");
    assert_eq!((&bits[..], cells), (&cases::TWO_BITS_IMAGE[..], 1));
    gives_entries(1, &bits, 1, &cases::TWO_BITS, &pairs::every(1));
}

/// Tables of two variables, compiled and run through C.
#[test]
fn compiled_tables() {
    let mut random = Random(124);
    for m in 1..=6 {
        for table in pairs::all(m, &mut random) {
            let pairs = pairs::some(m, &mut random, 6);
            let limits = [1, 2, m, m + 1, 2 * m, 12];
            let images = limits.map(|limit| compiled(2 * m, &table, limit));
            for (image, cells) in images.iter().flatten() {
                gives_entries(m, image, *cells, &table, &pairs);
            }
        }
    }
}

/// Tables of two variables, and all others of as many bits.
fn all_tables(m: usize, random: &mut Random, count: usize) -> Vec<Vec<i32>> {
    let mut all = pairs::all(m, random);
    all.extend(tables::all(2 * m, random, count));
    all.extend(signs::all(2 * m));
    all
}

#[test]
fn every_pair_of_small_tables() {
    let mut random = Random(111);
    for m in 1..=3 {
        for table in all_tables(m, &mut random, 60) {
            chosen_give_entries(m, &table, 1..=12, &pairs::every(m));
        }
    }
}

#[test]
fn every_pair_of_larger_tables() {
    let mut random = Random(112);
    for m in 4..=6 {
        let every = pairs::every(m);
        chosen_give_entries(m, &pairs::norm(m), 1..=11, &every);
        for table in pairs::all(m, &mut random) {
            chosen_give_entries(m, &table, 12..=12, &every);
        }
    }
}

#[test]
fn pairs_of_larger_tables() {
    let mut random = Random(113);
    for m in 4..=6 {
        for table in all_tables(m, &mut random, 10) {
            let pairs = pairs::some(m, &mut random, 10);
            chosen_give_entries(m, &table, 1..=12, &pairs);
        }
    }
}

/// Groupings that need not be the chosen ones, and the longest of those that
/// are.
#[test]
fn pairs_of_the_largest_images() {
    let pairs = pairs::some(6, &mut Random(114), 10);
    let table = tables::all_different(12);
    let cascade = Cascade::new(12, &table);
    let groupings: [&[usize]; 5] = [&[12], &[1; 12], &[6, 6], &[11, 1], &[5, 2, 5]];
    for sizes in groupings {
        let image = cascade.draft(sizes).bytes();
        gives_entries(6, &image, sizes.len(), &table, &pairs);
    }
    for table in [tables::many_classes(), tables::long_image()] {
        chosen_give_entries(6, &table, 1..=12, &pairs);
    }
}

/// The fixed images of Run, which have twelve variables where they pass.
#[test]
fn fixed_images() {
    let pairs = pairs::some(6, &mut Random(123), 10);
    for case in cases::passing_images() {
        gives_entries(6, &case.image, case.words, &case.values, &pairs);
    }
    for case in cases::refused_images() {
        for m in 1..=6 {
            for pair in [(0, 0), (1, 1), (1 << m, 0), (0, 1 << m)] {
                same_as_run(m, &case.image, pair);
            }
        }
    }
}

/// The answers with X and Y, and with the two exchanged, where they differ.
fn both_ways(m: usize, table: &[i32], random: &mut Random) -> Vec<[(i32, usize); 2]> {
    let mut answers = Vec::new();
    for draft in chosen_drafts(2 * m, table, 1..=12) {
        let image = draft.bytes();
        let answer = |pair| same_pair_run(m, &image, pair).expect("a pair of the domain");
        let pairs = pairs::some(m, random, 10).into_iter();
        let different = pairs.filter(|(x, y)| x != y);
        answers.extend(different.map(|(x, y)| [answer((x, y)), answer((y, x))]));
    }
    answers
}

#[test]
fn an_exchange_in_symmetric_tables() {
    let mut random = Random(115);
    for m in 1..=6 {
        for table in pairs::symmetric(m, &mut random) {
            for [one, other] in both_ways(m, &table, &mut random) {
                assert_eq!(one, other);
            }
        }
    }
}

#[test]
fn an_exchange_in_unsymmetric_tables() {
    let mut random = Random(116);
    for m in 1..=6 {
        for table in pairs::unsymmetric(m, &mut random) {
            for [(value, words), (exchanged, same_words)] in both_ways(m, &table, &mut random) {
                assert_ne!(value, exchanged);
                assert_eq!(words, same_words);
            }
        }
    }
}

#[test]
fn fixed_pair_runs() {
    for case in cases::pair_runs() {
        let answer = same_pair_run(case.m, &case.image, (case.x, case.y));
        let (name, m, x, y) = (case.name, case.m, case.x, case.y);
        assert_eq!(answer, case.answer, "{name}: m {m}, X {x}, Y {y}");
    }
}

/// The answers about an image, sound or not, with a pair of the domain or not,
/// and with m out of range, which comes first.
fn check_image(m: usize, case: &cases::PairImage, table: &[i32], words: usize) {
    let (name, image, rows) = (&case.name, &case.image, pairs::rows(m, table));
    let last = rows.len() - 1;
    for (x, y) in [(0, 0), (0, last), (last, 0), (last, last)] {
        let expected = case.refusal.map_or(Ok((rows[x][y], words)), Err);
        assert_eq!(
            same_pair_run(m, image, (x, y)),
            expected,
            "{name}, X {x}, Y {y}"
        );
    }
    for pair in cases::wrong_pairs(m) {
        let expected = Err(case.refusal.unwrap_or(17));
        assert_eq!(same_pair_run(m, image, pair), expected, "{name}, {pair:?}");
    }
    for wrong in cases::wrong_sizes(m) {
        for pair in [(0, 0), (last, last), (last + 1, 0), (0, usize::MAX)] {
            assert_eq!(
                same_pair_run(wrong, image, pair),
                Err(16),
                "m {wrong}, {name}"
            );
        }
    }
}

/// Every set of reasons to refuse at once: the first in the paper's order.
#[test]
fn several_reasons_at_once() {
    for m in 1..=6 {
        let table = pairs::norm(m);
        let draft = chosen_drafts(2 * m, &table, 12..=12).remove(0);
        for case in cases::pair_images(m, &draft.bytes()) {
            check_image(m, &case, &table, draft.cells.len());
        }
    }
}

/// The image of a table over n variables, by one variable a cell.
fn image_of(n: usize) -> Vec<u8> {
    let table = tables::of(n, |x| (x % 5) as i32);
    Cascade::new(n, &table).draft(&vec![1; n]).bytes()
}

/// Refused for its n, within and outside the domain.
fn refused_for_n(m: usize, image: &[u8]) {
    for pair in [(0, 0), (1, 1), (1 << m, 0), (0, usize::MAX)] {
        assert_eq!(
            same_pair_run(m, image, pair),
            Err(13),
            "m {m}: {image:02x?}"
        );
    }
}

/// Of every other n: whole, with a byte after it, cut off anywhere behind its
/// first command, with another byte there, and with any bytes or none.
#[test]
fn images_of_every_other_n() {
    let mut random = Random(117);
    for n in 1..=12 {
        let image = image_of(n);
        for m in (1..=6).filter(|m| 2 * m != n) {
            refused_for_n(m, &image);
            refused_for_n(m, &[&image[..], &[0x45]].concat());
            for length in 6..image.len() {
                refused_for_n(m, &image[..length]);
                let mut damaged = image.clone();
                damaged[length] ^= 1 + random.below(255) as u8;
                refused_for_n(m, &damaged);
                damaged.truncate(6 + random.below(20));
                damaged[6..].fill_with(|| random.number() as u8);
                refused_for_n(m, &damaged);
            }
            for length in 0..6 {
                assert_eq!(same_pair_run(m, &image[..length], (0, 0)), Err(11));
            }
        }
    }
}

#[test]
fn images_of_any_shape() {
    let mut random = Random(118);
    for _ in 0..2_000 {
        let m = 1 + random.below(6);
        let draft = drafts::passing_of(2 * m, &mut random);
        let table = same_expand(&draft.bytes(), 1 << (2 * m)).expect("a passing image");
        let pairs = match m {
            1..=3 => pairs::every(m),
            _ => pairs::some(m, &mut random, 2),
        };
        gives_entries(m, &draft.bytes(), draft.cells.len(), &table, &pairs);
    }
}

/// Some pairs within and outside the domain, for every m.
fn same_answers(image: &[u8], random: &mut Random) {
    for m in 1..=6 {
        let side = 1 << m;
        let (x, y) = (random.below(side), random.below(side));
        for pair in [(x, y), (side - 1, y), (x, side), (side + x, y)] {
            same_as_run(m, image, pair);
        }
    }
}

/// Small images of one cell and of several.
fn small_images() -> Vec<Vec<u8>> {
    let wide = Cascade::new(6, &pairs::row_and_column(3)).draft(&[2, 3, 1]);
    vec![
        cases::TWO_BITS_IMAGE.to_vec(),
        cases::NORM_IMAGE.to_vec(),
        wide.bytes(),
    ]
}

#[test]
fn every_byte_set_to_every_value() {
    let mut random = Random(119);
    for mut image in small_images() {
        for place in 0..image.len() {
            let byte = image[place];
            for value in 0..=u8::MAX {
                image[place] = value;
                same_answers(&image, &mut random);
            }
            image[place] = byte;
        }
    }
}

#[test]
fn two_damaged_bytes() {
    let mut random = Random(120);
    for image in small_images() {
        for _ in 0..5_000 {
            let mut damaged = image.clone();
            for _ in 0..2 {
                let place = random.below(image.len());
                damaged[place] = match random.below(3) {
                    0 => image[place].wrapping_add(1),
                    1 => image[random.below(image.len())],
                    _ => random.number() as u8,
                };
            }
            // An n that some m reads on with.
            if random.below(2) == 0 {
                damaged[1] = 2 * (1 + random.below(6) as u8);
            }
            same_answers(&damaged, &mut random);
        }
    }
}

#[test]
fn every_truncation() {
    for image in small_images() {
        for length in 0..image.len() {
            let cut = &image[..length];
            for m in 1..=6 {
                let own_n = usize::from(image[1]) == 2 * m;
                let refusal = if own_n || length < 6 { 11 } else { 13 };
                for pair in [(0, 0), (1 << m, 0), (0, 1 << m)] {
                    assert_eq!(same_pair_run(m, cut, pair), Err(refusal));
                    same_as_run(m, cut, pair);
                }
            }
        }
    }
}

#[test]
fn appended_bytes() {
    for image in small_images() {
        let m = usize::from(image[1] / 2);
        for byte in 0..=u8::MAX {
            let longer = [&image[..], &[byte]].concat();
            for pair in [(0, 0), (1 << m, 0), (0, 1 << m), (usize::MAX, usize::MAX)] {
                assert_eq!(same_pair_run(m, &longer, pair), Err(14));
                assert_eq!(same_pair_run(m % 6 + 1, &longer, pair), Err(13));
            }
        }
    }
}

#[test]
fn damaged_images_of_any_shape() {
    let mut random = Random(121);
    for _ in 0..10_000 {
        let mut draft = drafts::passing(&mut random);
        for _ in 0..=random.below(2) {
            drafts::damage(&mut draft, &mut random);
        }
        let mut image = draft.bytes();
        match random.below(12) {
            0 => image.truncate(random.below(image.len())),
            1 => image.push(random.number() as u8),
            _ => {}
        }
        same_answers(&image, &mut random);
    }
}

/// One byte of a large image is another.
#[test]
fn damaged_large_images() {
    let mut random = Random(122);
    let table = tables::all_different(12);
    let cascade = Cascade::new(12, &table);
    for sizes in [&[12][..], &[6, 6], &[1; 12]] {
        let mut image = cascade.draft(sizes).bytes();
        for _ in 0..100 {
            let place = random.below(image.len());
            let change = 1 << random.below(8);
            image[place] ^= change;
            for pair in [(0, 0), (63, 63), (64, 0), (0, 64)] {
                same_as_run(6, &image, pair);
            }
            image[place] ^= change;
        }
    }
}

#[test]
fn arguments_of_any_size() {
    let numbers = cases::numbers_of_any_size();
    for &m in &numbers {
        for &x in &numbers {
            for &y in &numbers {
                let answer = same_pair_run(m, &cases::NORM_IMAGE, (x, y));
                let expected = cases::norm_answer(m, (x, y));
                assert_eq!(answer, expected, "m {m}, X {x}, Y {y}");
            }
        }
    }
}
