//! Older images, by whose rule the weights of every cell are signed: Run and
//! Expand refuse those of which a width is not the least, and take the others.

mod common;

use common::*;
use panstrait_reference as reference;
use panstrait_reference::{Ran, Refusal};
use panstrait_samples::{cases, drafts, signs, tables, Draft, Random, NUMBER};

/// Both programs' refusal, within and outside the domain and with room of any
/// size: the image comes first.
fn refused(image: &[u8], n: usize, refusal: Refusal) {
    for x in [0, (1 << n) - 1, 1 << n, usize::MAX] {
        assert_eq!(same_run(image, x), Err(refusal), "X {x}");
    }
    for room in [1 << n, 0, (1 << n) + 1] {
        assert_eq!(same_expand(image, room), Err(refusal), "room {room}");
    }
}

/// Refused for a cell's width, right after the cell's last word, which is the
/// last of so many bytes.
fn refused_from(image: &[u8], end: usize, n: usize) {
    refused(image, n, 13);
    refused(&image[..end], n, 13);
    refused(&image[..end - 1], n, 11);
    for byte in [0x43, 0x45, 0x57, 0] {
        refused(&[&image[..end], &[byte]].concat(), n, 13);
    }
}

/// The reader of older images gives the table back.
fn older_gives_back(image: &[u8], table: &[i32]) {
    let mut values = vec![NUMBER; table.len()];
    assert_eq!(reference::expand_older(image, &mut values), Ok(()));
    assert!(values == table);
}

#[test]
fn the_older_image_of_a_pair() {
    refused_from(&cases::OLDER_PAIR, 27, 1);
    for x in [0, 1, 2] {
        assert_eq!(same_run(&cases::OLDER_PAIR, x), Err(13));
    }
    let ran = Ok(Ran { value: 2, words: 1 });
    assert_eq!(same_run(&cases::OLDER_FALL, 1), ran);
}

#[test]
fn fixed_older_images() {
    for case in cases::older_images() {
        let size = case.table.len();
        older_gives_back(&case.image, &case.table);
        match case.refused_after {
            Some(end) => refused_from(&case.image, end, size.trailing_zeros() as usize),
            None => gives_back(&case.image, &case.table, case.words, 0..size),
        }
    }
}

/// The older image with a draft's words: refused, or the draft itself.
fn check_older(draft: &Draft, table: &[i32], random: &mut Random) {
    let older = draft.older();
    let image = older.bytes();
    older_gives_back(&image, table);
    match draft.first_unsigned_cell() {
        Some(place) => refused_from(&image, older.bytes_with_cell(place), draft.n.into()),
        None => {
            let inputs = (0..6).map(|_| random.below(table.len()));
            gives_back(&image, table, draft.cells.len(), inputs);
        }
    }
}

#[test]
fn older_images_of_tables_by_signs() {
    let mut random = Random(93);
    for n in 1..=12 {
        for table in signs::all(n) {
            for draft in chosen_drafts(n, &table, 1..=12) {
                check_older(&draft, &table, &mut random);
            }
        }
    }
}

#[test]
fn older_images_of_tables() {
    let mut random = Random(94);
    for n in 1..=12 {
        for table in tables::all(n, &mut random, 20) {
            for draft in chosen_drafts(n, &table, 12..=12) {
                check_older(&draft, &table, &mut random);
            }
        }
    }
}

#[test]
fn older_images_of_any_shape() {
    let mut random = Random(95);
    for _ in 0..2_000 {
        let draft = drafts::passing(&mut random);
        let table = same_expand(&draft.bytes(), 1 << draft.n).expect("a passing image");
        check_older(&draft, &table, &mut random);
    }
}

/// One width of an image is another, and the total is as the widths say.
#[test]
fn other_widths() {
    let mut random = Random(96);
    for _ in 0..2_000 {
        let draft = drafts::passing(&mut random);
        let place = random.below(draft.cells.len());
        for width in draft.cells[place].other_widths() {
            let mut cells = draft.cells.clone();
            cells[place].width = width;
            let other = Draft::new(draft.n.into(), draft.offset, cells);
            refused_from(&other.bytes(), other.bytes_with_cell(place), draft.n.into());
        }
    }
}

/// Of all widths that a byte says, the least alone passes, for weights at every
/// border of a width.
#[test]
fn every_width_of_cells_at_borders() {
    for case in cases::weight_widths() {
        for width in 0..=u8::MAX {
            for (draft, place) in case.drafts(width) {
                let (image, n) = (draft.bytes(), usize::from(draft.n));
                if usize::from(width) != case.width {
                    refused_from(&image, draft.bytes_with_cell(place), n);
                    continue;
                }
                assert!(same_expand(&image, 1 << n).is_ok(), "{:?}", case.weights);
                assert!((0..1 << n).all(|x| same_run(&image, x).is_ok()));
            }
        }
    }
}
