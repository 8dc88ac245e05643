//! Run and Expand: images of tables, others that pass, and damaged ones.

mod common;

use common::*;
use panstrait_samples::{cases, drafts, figure_draft, signs, tables, Cascade, Draft, Random};

/// Both operations on an image that may be damaged, within and out of range.
fn same_answers(image: &[u8], n: usize) {
    let size = 1 << n;
    for x in [0, size / 3, size - 1, size] {
        let _ = same_run(image, x);
    }
    let _ = same_expand(image, size);
    let _ = same_expand(image, size + 1);
}

#[test]
fn compiled_images() {
    let mut random = Random(31);
    for n in 1..=8 {
        for table in tables::all(n, &mut random, 12) {
            for draft in chosen_drafts(n, &table, 1..=12) {
                let inputs = (0..1 << n).step_by(1 + random.below(n));
                gives_back(&draft.bytes(), &table, draft.cells.len(), inputs);
            }
        }
    }
}

#[test]
fn large_compiled_images() {
    let mut random = Random(32);
    for n in 9..=12 {
        for table in tables::all(n, &mut random, 4) {
            for draft in chosen_drafts(n, &table, 12..=12) {
                let inputs = (0..10).map(|_| random.below(1 << n));
                gives_back(&draft.bytes(), &table, draft.cells.len(), inputs);
            }
        }
    }
}

/// Rising tables, falling ones and those with weights of both signs.
#[test]
fn compiled_images_by_signs() {
    let mut random = Random(38);
    for n in 1..=12 {
        for table in signs::all(n) {
            for draft in chosen_drafts(n, &table, 1..=12) {
                let inputs = (0..10).map(|_| random.below(1 << n));
                gives_back(&draft.bytes(), &table, draft.cells.len(), inputs);
            }
        }
    }
}

#[test]
fn fixed_images_that_pass() {
    for case in cases::passing_images() {
        gives_back(&case.image, &case.values, case.words, case.inputs());
        same_answers(&case.image, 12);
    }
}

#[test]
fn fixed_images_that_are_refused() {
    for case in cases::refused_images() {
        for x in [0, usize::MAX] {
            let answer = same_run(&case.image, x);
            assert_eq!(answer, Err(case.refusal), "{}", case.name);
        }
        for room in [2, 4, 4_096] {
            let answer = same_expand(&case.image, room);
            assert_eq!(answer, Err(case.refusal), "{}", case.name);
        }
    }
}

/// Groupings that need not be the chosen ones, over the table with the most
/// classes.
fn large_drafts() -> Vec<Draft> {
    let table = tables::all_different(12);
    let cascade = Cascade::new(12, &table);
    let groupings: [&[usize]; 6] = [
        &[12],
        &[1; 12],
        &[6, 6],
        &[1, 11],
        &[11, 1],
        &[3, 1, 4, 1, 3],
    ];
    groupings.map(|sizes| cascade.draft(sizes)).to_vec()
}

#[test]
fn inputs_of_large_images() {
    let table = tables::all_different(12);
    for draft in large_drafts() {
        let image = draft.bytes();
        let inputs = (0..table.len()).step_by(37).chain([4_095]);
        gives_back(&image, &table, draft.cells.len(), inputs);
    }
}

/// Small images: the figure's, one cell, no bits at all, two wide cells.
fn small_drafts() -> Vec<Draft> {
    let grouped = |n: usize, table: &[i32], sizes: &[usize]| Cascade::new(n, table).draft(sizes);
    vec![
        figure_draft(),
        grouped(1, &[5, 8], &[1]),
        grouped(1, &[8_388_607, -8_388_608], &[1]),
        grouped(1, &[-8_388_608, 8_388_607], &[1]),
        grouped(2, &[0, 4, -1, 3], &[1, 1]),
        grouped(2, &[0, 4, -1, 1], &[2]),
        grouped(2, &[7; 4], &[2]),
        grouped(2, &[7; 4], &[1, 1]),
        grouped(3, &[0, -1, 3, 2, 9, 8, 0, 4], &[1, 2]),
        grouped(3, &[0, -1, 3, 2, 9, 8, 0, 4], &[2, 1]),
    ]
}

#[test]
fn every_byte_set_to_every_value() {
    for draft in small_drafts() {
        let mut image = draft.bytes();
        for place in 0..image.len() {
            let byte = image[place];
            for value in 0..=u8::MAX {
                image[place] = value;
                same_answers(&image, draft.n.into());
            }
            image[place] = byte;
        }
    }
}

#[test]
fn two_damaged_bytes() {
    let mut random = Random(33);
    for draft in small_drafts() {
        let image = draft.bytes();
        for _ in 0..20_000 {
            let mut damaged = image.clone();
            for _ in 0..2 {
                let place = random.below(image.len());
                damaged[place] = match random.below(3) {
                    0 => image[place].wrapping_add(1),
                    1 => image[random.below(image.len())],
                    _ => random.number() as u8,
                };
            }
            same_answers(&damaged, draft.n.into());
        }
    }
}

#[test]
fn every_truncation() {
    for draft in small_drafts() {
        let image = draft.bytes();
        for length in 0..image.len() {
            assert_eq!(same_run(&image[..length], 0), Err(11));
            assert_eq!(same_run(&image[..length], usize::MAX), Err(11));
            assert_eq!(same_expand(&image[..length], 1 << draft.n), Err(11));
        }
    }
    for draft in large_drafts() {
        let image = draft.bytes();
        for length in (0..image.len()).rev().take(20) {
            assert_eq!(same_run(&image[..length], 0), Err(11));
        }
        for length in (0..image.len()).step_by(997) {
            assert_eq!(same_expand(&image[..length], 4_096), Err(11));
        }
    }
}

#[test]
fn appended_bytes() {
    for draft in small_drafts().iter().chain(&large_drafts()) {
        let image = draft.bytes();
        for byte in 0..=u8::MAX {
            let longer = [&image[..], &[byte]].concat();
            assert_eq!(same_run(&longer, 0), Err(14));
            assert_eq!(same_expand(&longer, 1 << draft.n), Err(14));
        }
        let twice = image.repeat(2);
        assert_eq!(same_run(&twice, usize::MAX), Err(14));
        assert_eq!(same_expand(&twice, 3), Err(14));
    }
}

/// Big-endian fields of a command: place after the command byte, and width.
fn fields(command: u8) -> &'static [(usize, usize)] {
    match command {
        0x56 => &[(1, 1), (2, 4)],
        0x43 => &[(1, 1), (2, 2), (4, 2), (6, 1)],
        0x57 => &[(1, 2), (3, 4)],
        _ => &[(1, 4)],
    }
}

/// Values around a field's own, around limits, and one at random.
fn values(own: i64, random: &mut Random) -> Vec<i64> {
    let limits = [
        0,
        12,
        2_048,
        4_096,
        8_388_608,
        -8_388_608,
        16_777_215,
        -16_777_215,
        i64::MAX,
    ];
    let mut values = vec![own - 1, own + 1, random.number() as i64];
    let limit = limits[random.below(limits.len())];
    values.extend([limit - 1, limit, limit.wrapping_add(1)]);
    values
}

/// One field of an image set to some values, with both operations after each.
fn damage_field(image: &mut [u8], n: usize, place: usize, width: usize, random: &mut Random) {
    let own = image[place..place + width].to_vec();
    let number = own.iter().fold(0, |sum, &b| sum << 8 | i64::from(b));
    for value in values(number, random) {
        image[place..place + width].copy_from_slice(&value.to_be_bytes()[8 - width..]);
        let _ = same_run(image, random.below(2 << n));
        if random.below(4) == 0 {
            let _ = same_expand(image, (1 << n) - random.below(2));
        }
    }
    image[place..place + width].copy_from_slice(&own);
}

/// Every operand of the header, of the cells and of the end, and some words.
#[test]
fn operands_of_large_images() {
    let mut random = Random(34);
    for draft in large_drafts() {
        let mut image = draft.bytes();
        for place in draft.command_places() {
            if image[place] == 0x57 && random.below(12) != 0 {
                continue;
            }
            for &(after, width) in fields(image[place]) {
                damage_field(&mut image, 12, place + after, width, &mut random);
            }
        }
    }
}

#[test]
fn images_of_any_shape() {
    let mut random = Random(35);
    for _ in 0..4_000 {
        let draft = drafts::passing(&mut random);
        let image = draft.bytes();
        let table = same_expand(&image, 1 << draft.n).expect("a passing image");
        let inputs = (0..8).map(|_| random.below(1 << draft.n));
        gives_back(&image, &table, draft.cells.len(), inputs);
        same_answers(&image, draft.n.into());
    }
}

#[test]
fn damaged_images_of_any_shape() {
    let mut random = Random(36);
    for _ in 0..60_000 {
        let mut draft = drafts::passing(&mut random);
        let n = draft.n.into();
        for _ in 0..=random.below(2) {
            drafts::damage(&mut draft, &mut random);
        }
        let mut image = draft.bytes();
        match random.below(12) {
            0 => image.truncate(random.below(image.len())),
            1 => image.push(random.number() as u8),
            _ => {}
        }
        same_answers(&image, n);
    }
}

#[test]
fn inputs_out_of_range() {
    for draft in small_drafts().iter().chain(&large_drafts()) {
        let image = draft.bytes();
        let size = 1 << draft.n;
        assert!(same_run(&image, size - 1).is_ok());
        for x in [size, size + 1, 2 * size, 1 << 32, 1 << 63, usize::MAX] {
            assert_eq!(same_run(&image, x), Err(7));
        }
    }
}

#[test]
fn table_buffers_of_another_length() {
    for draft in small_drafts().iter().chain(&large_drafts()) {
        let image = draft.bytes();
        let size = 1 << draft.n;
        for room in [0, 1, size - 1, size + 1, 2 * size, 10_000] {
            assert_eq!(same_expand(&image, room), Err(2));
        }
    }
}

/// A damaged image is refused before X and before the table's length.
#[test]
fn a_damaged_image_comes_first() {
    for draft in small_drafts() {
        let mut image = draft.bytes();
        let last = image.len() - 1;
        image[last] ^= 1;
        assert_eq!(same_run(&image, usize::MAX), Err(13));
        assert_eq!(same_expand(&image, 0), Err(13));
        image[last - 4] ^= 1;
        assert_eq!(same_run(&image, usize::MAX), Err(12));
        assert_eq!(same_expand(&image, 0), Err(12));
    }
}

#[test]
fn the_shortest_images() {
    assert_eq!(same_run(&[], 0), Err(11));
    assert_eq!(same_expand(&[], 0), Err(11));
    for first in 0..=u8::MAX {
        same_answers(&[first], 1);
        for second in 0..=u8::MAX {
            same_answers(&[first, second], 1);
            same_answers(&[0x56, first, second, 0, 0, 0], 1);
            same_answers(&[0x56, 1, 0, 0, 0, 0, first, second], 1);
        }
    }
}

#[test]
fn random_bytes() {
    let mut random = Random(37);
    let commands = [0x56, 0x43, 0x57, 0x45, 0, 1];
    for _ in 0..50_000 {
        let mut image = vec![0x56, 1 + random.below(3) as u8, 0, 0, 0, 0];
        for _ in 0..random.below(40) {
            image.push(commands[random.below(commands.len())]);
        }
        same_answers(&image, 2);
    }
}

/// A count of 4,096 classes passes by its own rule; the next cell's address is
/// then too wide.
#[test]
fn the_most_classes() {
    let table = tables::of(12, |_| 0);
    let mut draft = Cascade::new(12, &table).draft(&[11, 1]);
    for outgoing in [2_048, 2_049, 4_095, 4_096, 4_097] {
        draft.cells[0].outgoing = outgoing;
        draft.cells[1].incoming = outgoing;
        draft.cells[1].words = vec![(0, 0); 2 * usize::from(outgoing)];
        draft.bits = drafts::total_bits(&draft.cells);
        let passes = outgoing <= 2_048;
        assert_eq!(same_run(&draft.bytes(), 5).is_ok(), passes);
        same_answers(&draft.bytes(), 12);
    }
}
