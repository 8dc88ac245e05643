//! Older images, by whose rule the weights of every cell are signed: the reader
//! of older images takes them, and where a width is not the least by the present
//! rule, Run and Expand refuse them.

use panstrait_reference::*;
use panstrait_samples::*;

/// What Run and Expand both say of an image; Expand's buffer stays as it was.
fn refusal(image: &[u8], n: usize) -> Option<Refusal> {
    let mut table = vec![NUMBER; 1 << n];
    let refusal = expand(image, &mut table).err();
    if refusal.is_some() {
        assert!(table.iter().all(|&value| value == NUMBER));
    }
    for x in [0, (1 << n) - 1] {
        assert_eq!(run(image, x).err(), refusal);
    }
    let outside = run(image, 1 << n).err();
    assert_eq!(outside, refusal.or(Some(7)), "the image comes before X");
    let other_room = expand(image, &mut [NUMBER; 3]).err();
    assert_eq!(other_room, refusal.or(Some(2)));
    refusal
}

/// The reader of older images gives the table back, one word read in each cell.
fn older_gives_back(image: &[u8], table: &[i32], words: usize) {
    let mut values = vec![NUMBER; table.len()];
    assert_eq!(expand_older(image, &mut values), Ok(()));
    assert!(values == table);
    let step = 1 + table.len() / 64;
    for x in (0..table.len()).step_by(step).chain([table.len() - 1]) {
        let value = table[x];
        assert_eq!(run_older(image, x), Ok(Ran { value, words }));
    }
    assert_eq!(run_older(image, table.len()), Err(7));
    assert_eq!(expand_older(image, &mut [NUMBER; 3]), Err(2));
}

/// The image is refused for a cell's width, right after the cell's last word,
/// which is the last of so many bytes.
fn refused_from(image: &[u8], end: usize, n: usize) {
    assert_eq!(refusal(image, n), Some(13));
    assert_eq!(refusal(&image[..end], n), Some(13));
    assert_eq!(refusal(&image[..end - 1], n), Some(11));
    for byte in [0x43, 0x45, 0x56, 0x57, 0] {
        let behind = [&image[..end], &[byte]].concat();
        assert_eq!(refusal(&behind, n), Some(13));
    }
}

#[test]
fn the_older_image_of_a_pair() {
    let hex = "5601000000054301000100010357000000000000570000000000034500000006";
    let byte = |place: usize| u8::from_str_radix(&hex[place..place + 2], 16).unwrap();
    let image: Vec<u8> = (0..hex.len()).step_by(2).map(byte).collect();
    assert_eq!(image, cases::OLDER_PAIR);
    for x in [0, 1, 2] {
        assert_eq!(run(&image, x), Err(13));
    }
    let mut table = [NUMBER; 2];
    assert_eq!(expand(&image, &mut table), Err(13));
    assert_eq!(table, [NUMBER; 2]);
    assert_eq!(expand_older(&image, &mut table), Ok(()));
    assert_eq!(table, [5, 8]);
    assert_eq!(run_older(&image, 1), Ok(Ran { value: 8, words: 1 }));
    assert_eq!(run_older(&image, 2), Err(7));
    assert_eq!(expand_older(&cases::PAIR_IMAGE, &mut table), Err(13));
}

#[test]
fn an_older_image_that_stays_good() {
    let ran = Ok(Ran { value: 2, words: 1 });
    assert_eq!(run(&cases::OLDER_FALL, 1), ran);
    assert_eq!(run_older(&cases::OLDER_FALL, 1), ran);
    let mut image = [BYTE; 32];
    assert!(compile(1, &[3, 2], 1, &mut image).is_ok());
    assert_eq!(image, cases::OLDER_FALL);
}

#[test]
fn fixed_older_images() {
    for case in cases::older_images() {
        let n = case.table.len().trailing_zeros() as usize;
        older_gives_back(&case.image, &case.table, case.words);
        match case.refused_after {
            Some(end) => refused_from(&case.image, end, n),
            None => assert_eq!(refusal(&case.image, n), None, "{}", case.name),
        }
    }
}

/// The chosen groupings of a table within every limit, as older images.
fn check_older_images(n: usize, table: &[i32]) {
    let cascade = Cascade::new(n, table);
    let costs = cascade.costs();
    let mut sizes: Vec<Vec<usize>> = (1..=12)
        .filter_map(|limit| cascade.chosen(&costs, limit))
        .map(|(_, sizes)| sizes)
        .collect();
    sizes.dedup();
    for sizes in sizes {
        let draft = cascade.draft(&sizes);
        let older = draft.older();
        older_gives_back(&older.bytes(), table, sizes.len());
        match draft.first_unsigned_cell() {
            Some(place) => {
                assert_eq!(older.cells[place].width, draft.cells[place].width + 1);
                refused_from(&older.bytes(), older.bytes_with_cell(place), n);
            }
            None => {
                assert!(older.bytes() == draft.bytes());
                assert_eq!(refusal(&older.bytes(), n), None);
            }
        }
    }
}

#[test]
fn older_images_of_tables_by_signs() {
    for n in 1..=12 {
        signs::all(n).iter().for_each(|t| check_older_images(n, t));
    }
}

#[test]
fn older_images_of_tables() {
    let mut random = Random(91);
    for n in 1..=12 {
        for table in tables::all(n, &mut random, 20) {
            check_older_images(n, &table);
        }
    }
}

/// An image of the present rule that has an unsigned cell is no older one.
#[test]
fn present_images_are_no_older_ones() {
    let mut random = Random(92);
    for _ in 0..2_000 {
        let draft = drafts::passing(&mut random);
        let image = draft.bytes();
        assert!(run(&image, 0).is_ok());
        let expected = draft.first_unsigned_cell().map(|_| 13);
        assert_eq!(run_older(&image, 0).err(), expected);
        assert!(run_older(&draft.older().bytes(), 0).is_ok());
    }
}
