//! The reader: each command and operand rule, broken, and their order.

use panstrait_reference::*;
use panstrait_samples::*;

/// What Run and Expand both say of an image.
fn refusal(image: &[u8]) -> Option<Refusal> {
    let ran = run(image, 0).err();
    let mut table = [NUMBER; 16];
    let expanded = expand(image, &mut table).err();
    if expanded.is_some() {
        assert_eq!(table, [NUMBER; 16]);
    }
    assert_eq!(ran, expanded);
    ran
}

/// The figure's image with some operand changed.
fn changed(change: impl FnOnce(&mut Draft)) -> Vec<u8> {
    let mut draft = figure_draft();
    change(&mut draft);
    draft.bytes()
}

/// The first bytes of an image, and then others.
fn cut(image: &[u8], length: usize, rest: &[u8]) -> Vec<u8> {
    [&image[..length], rest].concat()
}

#[test]
fn sound() {
    assert_eq!(refusal(&figure_draft().bytes()), None);
}

#[test]
fn every_prefix_is_cut_off() {
    let image = figure_draft().bytes();
    for length in 0..image.len() {
        assert_eq!(refusal(&image[..length]), Some(11), "{length}");
    }
}

#[test]
fn bytes_after_the_end() {
    let image = figure_draft().bytes();
    for byte in 0..=255 {
        assert_eq!(refusal(&cut(&image, image.len(), &[byte])), Some(14));
    }
    assert_eq!(refusal(&[image.clone(), image].concat()), Some(14));
}

#[test]
fn every_other_command_byte() {
    let draft = figure_draft();
    let image = draft.bytes();
    for place in draft.command_places() {
        for byte in (0..=255).filter(|&byte| byte != image[place]) {
            let mut damaged = image.clone();
            damaged[place] = byte;
            assert_eq!(refusal(&damaged), Some(12), "{byte} at {place}");
            // A wrong command byte counts before its missing operands.
            assert_eq!(refusal(&damaged[..=place]), Some(12));
        }
    }
}

#[test]
fn missing_and_extra_cells_and_words() {
    assert_eq!(refusal(&changed(|d| d.cells.truncate(2))), Some(12));
    assert_eq!(
        refusal(&changed(|d| d.cells[1].words.truncate(3))),
        Some(12)
    );
    assert_eq!(
        refusal(&changed(|d| d.cells[1].words.push((0, 0)))),
        Some(12)
    );
    assert_eq!(
        refusal(&changed(|d| d.cells.push(d.cells[2].clone()))),
        Some(12)
    );
}

#[test]
fn opening_operands() {
    for n in [0, 13, 64, 255] {
        assert_eq!(refusal(&changed(|d| d.n = n)), Some(13));
    }
    for offset in [LEAST - 1, GREATEST + 1, i32::MIN, i32::MAX] {
        assert_eq!(refusal(&changed(|d| d.offset = offset)), Some(13));
    }
    for offset in [LEAST, GREATEST] {
        assert_eq!(refusal(&changed(|d| d.offset = offset)), None);
    }
}

#[test]
fn groups() {
    for group in [0, 5, 12, 255] {
        assert_eq!(refusal(&changed(|d| d.cells[0].group = group)), Some(13));
    }
    for group in [0, 3, 255] {
        assert_eq!(refusal(&changed(|d| d.cells[1].group = group)), Some(13));
    }
    assert_eq!(refusal(&changed(|d| d.cells[2].group = 2)), Some(13));
}

#[test]
fn class_counts() {
    for count in [0, 2, 4096, 65_535] {
        assert_eq!(refusal(&changed(|d| d.cells[0].incoming = count)), Some(13));
    }
    for count in [0, 1, 3, 65_535] {
        assert_eq!(refusal(&changed(|d| d.cells[1].incoming = count)), Some(13));
    }
    for count in [0, 4097, 65_535] {
        assert_eq!(refusal(&changed(|d| d.cells[0].outgoing = count)), Some(13));
    }
    for count in [0, 2, 4096] {
        assert_eq!(refusal(&changed(|d| d.cells[2].outgoing = count)), Some(13));
    }
    // A cell that is the last because its group takes all that is left.
    assert_eq!(refusal(&changed(|d| d.cells[0].group = 4)), Some(13));
}

#[test]
fn four_thousand_and_ninety_six_classes() {
    // Admitted in its own cell, but too wide an address for any next one.
    let words: Vec<(u16, i32)> = (0..2048).map(|class| (class, 0)).collect();
    let mut draft = Draft {
        n: 12,
        offset: 0,
        cells: vec![DraftCell::new(11, 1, 4096, 0, &words)],
        bits: 0,
    };
    let image = draft.bytes();
    let next = [0x43, 1, 0x10, 0, 0, 1, 0];
    let before_end = image.len() - 5;
    assert_eq!(run(&image, 0), Err(12));
    assert_eq!(run(&cut(&image, before_end, &[]), 0), Err(11));
    assert_eq!(run(&cut(&image, before_end, &next), 0), Err(13));
    draft.cells[0].outgoing = 4097;
    assert_eq!(run(&draft.bytes(), 0), Err(13));
}

#[test]
fn address_widths() {
    let opening = [0x56, 12, 0, 0, 0, 0];
    let cell = |group, incoming: u16, outgoing: u16| {
        let [a, b] = incoming.to_be_bytes();
        let [c, d] = outgoing.to_be_bytes();
        vec![0x43, group, a, b, c, d, 0]
    };
    let words = |count: usize| [0x57, 0, 0, 0, 0, 0, 0].repeat(count);
    let after = |outgoing, group| {
        let first = [&opening[..], &cell(1, 1, outgoing), &words(2)].concat();
        run(&[first, cell(group, outgoing, 1)].concat(), 0)
    };
    // Words are missing where the group fits; one more is refused before them.
    for (outgoing, fitting) in [(3, 10), (4, 10), (5, 9), (8, 9), (9, 8), (2048, 1)] {
        assert_eq!(after(outgoing, fitting), Err(11));
        assert_eq!(after(outgoing, fitting + 1), Err(13));
    }
    // Limit 12 itself, by group alone and with a rail of one bit.
    let whole = [
        &opening[..],
        &cell(12, 1, 1),
        &words(4096),
        &[0x45, 0, 0, 0, 0],
    ]
    .concat();
    assert_eq!(run(&whole, 4095), Ok(Ran { value: 0, words: 1 }));
    assert_eq!(after(2, 11), Err(11));
}

#[test]
fn word_operands() {
    for class in [2, 3, 65_535] {
        assert_eq!(
            refusal(&changed(|d| d.cells[0].words[1].0 = class)),
            Some(13)
        );
    }
    assert_eq!(refusal(&changed(|d| d.cells[2].words[0].0 = 1)), Some(13));
    for weight in [1, -1, MOST_WEIGHT] {
        assert_eq!(
            refusal(&changed(|d| d.cells[0].words[0].1 = weight)),
            Some(13)
        );
        assert_eq!(
            refusal(&changed(|d| d.cells[1].words[2].1 = weight)),
            Some(13)
        );
    }
    for weight in [MOST_WEIGHT + 1, -MOST_WEIGHT - 1, i32::MIN, i32::MAX] {
        assert_eq!(
            refusal(&changed(|d| d.cells[0].words[3].1 = weight)),
            Some(13)
        );
    }
    for (weight, width) in [(MOST_WEIGHT, 24), (-MOST_WEIGHT, 25)] {
        let widest = changed(|d| {
            d.cells[0].words[3].1 = weight;
            d.cells[0].width = width;
            d.bits = 4 * (1 + u32::from(width)) + 8 + 4;
        });
        assert_eq!(refusal(&widest), None);
        assert_eq!(run(&widest, 15).map(|ran| ran.value), Ok(weight));
    }
}

#[test]
fn a_broken_word_is_refused_at_once() {
    // Nothing after the word is looked at.
    let places = figure_draft().command_places();
    let image = changed(|d| d.cells[0].words[1].0 = 2);
    assert_eq!(refusal(&image[..places[4]]), Some(13));
    // Cut off operands count before a broken rule.
    assert_eq!(refusal(&image[..places[4] - 1]), Some(11));
    assert_eq!(refusal(&[0x56, 13]), Some(11));
    assert_eq!(refusal(&[0x56, 13, 0, 0, 0]), Some(11));
    assert_eq!(refusal(&[0x56, 13, 0, 0, 0, 0]), Some(13));
}

#[test]
fn widths_are_judged_after_the_last_word() {
    let draft = figure_draft();
    let places = draft.command_places();
    let second_cell = places[6];
    for width in (0..=255).filter(|&width| width != 3) {
        let image = changed(|d| d.cells[0].width = width);
        assert_eq!(refusal(&image), Some(13));
        // While the words last, other refusals come first.
        assert_eq!(refusal(&cut(&image, places[5], &[])), Some(11));
        assert_eq!(refusal(&cut(&image, places[5], &[0x45])), Some(12));
        // Then the width counts before the next command byte.
        assert_eq!(refusal(&cut(&image, second_cell, &[])), Some(13));
        assert_eq!(refusal(&cut(&image, second_cell, &[0x56])), Some(13));
    }
    assert_eq!(
        refusal(&cut(&draft.bytes(), second_cell, &[0x56])),
        Some(12)
    );
}

#[test]
fn totals() {
    for bits in [0, 27, 29, 40, u32::MAX, 1 << 31 | 28] {
        let image = changed(|d| d.bits = bits);
        assert_eq!(refusal(&image), Some(13));
        // A wrong total counts before bytes after it.
        assert_eq!(refusal(&cut(&image, image.len(), &[0])), Some(13));
    }
}

#[test]
fn images_no_compiler_would_write_are_run() {
    // Classes that do not differ, one never reached, and a zero cell between.
    let draft = Draft {
        n: 3,
        offset: -5,
        cells: vec![
            DraftCell::new(1, 1, 3, 1, &[(2, 0), (0, -1)]),
            DraftCell::new(1, 3, 1, 0, &[(0, 0); 6]),
            DraftCell::new(1, 1, 1, 2, &[(0, 0), (0, 3)]),
        ],
        bits: 2 * 3 + 2 * 2,
    };
    let mut table = [NUMBER; 8];
    assert_eq!(expand(&draft.bytes(), &mut table), Ok(()));
    assert_eq!(table, [-5, -2, -5, -2, -6, -3, -6, -3]);
    assert_eq!(
        run(&draft.bytes(), 7),
        Ok(Ran {
            value: -3,
            words: 3
        })
    );
}

#[test]
fn run_and_expand_agree_on_any_changed_byte() {
    let image = figure_draft().bytes();
    for place in 0..image.len() {
        for byte in 0..=255 {
            let mut damaged = image.clone();
            damaged[place] = byte;
            assert!(matches!(refusal(&damaged), None | Some(11..=14)));
        }
    }
}

#[test]
fn fixed_images_that_pass() {
    for case in cases::passing_images() {
        let mut values = vec![NUMBER; case.values.len()];
        assert_eq!(expand(&case.image, &mut values), Ok(()), "{}", case.name);
        assert!(values == case.values, "{}", case.name);
        for x in case.inputs() {
            let (value, words) = (values[x], case.words);
            let ran = run(&case.image, x);
            assert_eq!(ran, Ok(Ran { value, words }), "{}, X {x}", case.name);
        }
    }
}

#[test]
fn fixed_images_that_are_refused() {
    for case in cases::refused_images() {
        assert_eq!(refusal(&case.image), Some(case.refusal), "{}", case.name);
    }
}

/// One variable a cell, and 2,048 classes at each of the eleven inner cuts.
#[test]
fn the_longest_fixed_image() {
    let words = 2 + 11 * 2 * 2_048;
    let length = 6 + 12 * 7 + words * 7 + 5;
    assert_eq!(length, 315_501);
    let lengths = cases::passing_images().into_iter().map(|c| c.image.len());
    assert_eq!(lengths.max(), Some(length));
}
