//! Weight widths: unsigned where no weight of a cell is negative, else signed.

use panstrait_reference::*;
use panstrait_samples::*;

#[test]
fn weight_widths() {
    let expected = [
        (0, 0),
        (-1, 1),
        (1, 1),
        (-2, 2),
        (2, 2),
        (3, 2),
        (-4, 3),
        (4, 3),
        (-5, 4),
        (7, 3),
        (8, 4),
        (MOST_WEIGHT, 24),
        (-MOST_WEIGHT, 25),
        (i32::MAX, 31),
        (i32::MIN, 32),
    ];
    for (weight, width) in expected {
        assert_eq!(weight_width(&[weight]), width, "{weight}");
        assert_eq!(weight_width(&[0, weight, 0]), width, "{weight}");
    }
    assert_eq!(weight_width(&[]), 0);
    assert_eq!(weight_width(&[0, 0]), 0);
    assert_eq!(weight_width(&[-2, 1]), 2);
    assert_eq!(weight_width(&[-2, 2]), 3);
}

/// Neither their order nor weights of 0 have a part in it.
#[test]
fn weight_widths_at_borders() {
    for case in cases::weight_widths() {
        let mut weights = case.weights;
        for _ in 0..2 {
            assert_eq!(weight_width(&weights), case.width, "{weights:?}");
            weights.reverse();
        }
        weights.extend([0, 0]);
        weights.insert(0, 0);
        assert_eq!(weight_width(&weights), case.width, "{weights:?}");
    }
}

#[test]
fn weight_widths_around_powers_of_two() {
    let mut near = vec![0, i32::MIN, i32::MAX];
    for bit in 0..31 {
        let power = 1_i64 << bit;
        near.extend((power - 2..=power + 2).map(|weight| weight as i32));
        near.extend((power - 2..=power + 2).map(|weight| -weight as i32));
    }
    for &one in &near {
        assert_eq!(weight_width(&[one]), oracle::width([one]), "{one}");
        for &other in &near {
            let weights = [one, other];
            assert_eq!(
                weight_width(&weights),
                oracle::width(weights),
                "{weights:?}"
            );
        }
    }
}

/// The definition, word by word: with so many bits, and with no fewer.
#[test]
fn weight_widths_are_least() {
    for case in cases::weight_widths() {
        let signed = case.weights.iter().any(|&weight| weight < 0);
        let holds = |a: u32, weight: i32| {
            let (weight, all) = (i128::from(weight), 1_i128 << a);
            match (signed, a) {
                (false, _) => weight < all,
                (true, 0) => weight == 0,
                (true, _) => -all <= 2 * weight && 2 * weight < all,
            }
        };
        let hold = |a: u32| case.weights.iter().all(|&weight| holds(a, weight));
        let width = weight_width(&case.weights) as u32;
        assert!(hold(width), "{:?}", case.weights);
        assert!((0..width).all(|a| !hold(a)), "{:?}", case.weights);
    }
}

/// A weight of the other sign among many, at every place.
#[test]
fn one_negative_weight_among_many() {
    for place in 0..64 {
        let mut weights = [4; 64];
        weights[place] = -1;
        assert_eq!(weight_width(&weights), 4, "{place}");
        weights = [0; 64];
        weights[place] = 4;
        assert_eq!(weight_width(&weights), 3, "{place}");
        weights = [-1; 64];
        weights[place] = 4;
        assert_eq!(weight_width(&weights), 4, "{place}");
    }
}

/// Of all widths that a byte says, the reader admits the least alone, and
/// refuses another right after the cell's last word.
#[test]
fn the_reader_admits_one_width() {
    for case in cases::weight_widths() {
        for width in 0..=u8::MAX {
            for (draft, place) in case.drafts(width) {
                let image = draft.bytes();
                let end = draft.bytes_with_cell(place);
                let refusals = match usize::from(width) == case.width {
                    true => [None, Some(11), Some(11), Some(12)],
                    false => [Some(13), Some(13), Some(11), Some(13)],
                };
                let wrong_byte = [&image[..end], &[0x57]].concat();
                let images = [&image[..], &image[..end], &image[..end - 1], &wrong_byte];
                for (image, refusal) in images.into_iter().zip(refusals) {
                    let weights = &case.weights;
                    assert_eq!(run(image, 0).err(), refusal, "{weights:?}, {width}");
                    let mut table = vec![NUMBER; 1 << draft.n];
                    assert_eq!(expand(image, &mut table).err(), refusal);
                    let patterned = table.iter().all(|&value| value == NUMBER);
                    assert_eq!(patterned, refusal.is_some());
                }
            }
        }
    }
}
