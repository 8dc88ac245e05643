//! Older images, by whose rule the weights of every cell are signed.

use crate::{tables, Draft, DraftCell, FIGURE, GREATEST, LEAST};

/// An older image, its table and the words that one Run reads.
pub struct OlderImage {
    pub name: &'static str,
    pub image: Vec<u8>,
    pub table: Vec<i32>,
    pub words: usize,
    /// The bytes up to the last word of the first cell whose width is not the
    /// least; none if the image is still good.
    pub refused_after: Option<usize>,
}

/// The older image of (5, 8): weight width 3 where 2 is least.
pub const OLDER_PAIR: [u8; 32] = [
    0x56, 1, 0, 0, 0, 5, //
    0x43, 1, 0, 1, 0, 1, 3, //
    0x57, 0, 0, 0, 0, 0, 0, //
    0x57, 0, 0, 0, 0, 0, 3, //
    0x45, 0, 0, 0, 6,
];

/// The older image of (3, 2), with a negative weight.
pub const OLDER_FALL: [u8; 32] = [
    0x56, 1, 0, 0, 0, 3, //
    0x43, 1, 0, 1, 0, 1, 1, //
    0x57, 0, 0, 0, 0, 0, 0, //
    0x57, 0, 0, 0xFF, 0xFF, 0xFF, 0xFF, //
    0x45, 0, 0, 0, 2,
];

/// With the place of the first cell whose width is not the least.
fn older(
    name: &'static str,
    table: &[i32],
    cells: &[DraftCell],
    bits: u32,
    refused_at: Option<usize>,
) -> OlderImage {
    let draft = Draft {
        n: table.len().trailing_zeros() as u8,
        offset: table[0],
        cells: cells.to_vec(),
        bits,
    };
    OlderImage {
        name,
        image: draft.bytes(),
        table: table.to_vec(),
        words: cells.len(),
        refused_after: refused_at.map(|place| draft.bytes_with_cell(place)),
    }
}

/// A cell of one variable with one class before and behind it.
fn one_variable(width: u8, weight: i32) -> DraftCell {
    DraftCell::new(1, 1, 1, width, &[(0, 0), (0, weight)])
}

pub fn older_images() -> Vec<OlderImage> {
    let whole = |name, image: [u8; 32], table: [i32; 2], refused_after| OlderImage {
        name,
        image: image.into(),
        table: table.into(),
        words: 1,
        refused_after,
    };
    let mut images = vec![
        whole("a rise by 3", OLDER_PAIR, [5, 8], Some(27)),
        whole("a fall by 1", OLDER_FALL, [3, 2], None),
    ];
    images.extend(older_images_of_one_cell());
    images.extend(older_images_of_several_cells());
    images
}

fn older_images_of_one_cell() -> Vec<OlderImage> {
    let pair = |name, table: [i32; 2], width: u8, refused_at| {
        let cell = one_variable(width, table[1] - table[0]);
        older(name, &table, &[cell], 2 * u32::from(width), refused_at)
    };
    let both_signs = [(0, 0), (0, 4), (0, -1), (0, 1)];
    vec![
        pair("a rise by 1", [2, 3], 2, Some(0)),
        pair("a fall by 2", [4, 2], 2, None),
        pair("no weight", [7, 7], 0, None),
        pair("the greatest rise", [LEAST, GREATEST], 25, Some(0)),
        pair("the greatest fall", [GREATEST, LEAST], 25, None),
        older(
            "weights of both signs",
            &[0, 4, -1, 1],
            &[DraftCell::new(2, 1, 1, 4, &both_signs)],
            16,
            None,
        ),
    ]
}

fn older_images_of_several_cells() -> Vec<OlderImage> {
    let figure = [
        DraftCell::new(2, 1, 2, 4, &[(0, 0), (1, 1), (1, 4), (0, 7)]),
        DraftCell::new(1, 2, 2, 2, &[(0, 0), (0, 0), (0, 0), (1, 1)]),
        DraftCell::new(1, 2, 1, 2, &[(0, 0), (0, 0), (0, 0), (0, 1)]),
    ];
    // One variable a cell, with a weight of 0, 4 or -4.
    let sum = |name, weights: &[i32], bits, refused_at| {
        let width = |weight| match weight {
            0 => 0,
            4 => 4,
            _ => 3,
        };
        let cell = |&weight: &i32| one_variable(width(weight), weight);
        let cells: Vec<DraftCell> = weights.iter().map(cell).collect();
        let lowest_first: Vec<i32> = weights.iter().rev().copied().collect();
        let table = tables::weighted_sum(0, &lowest_first);
        older(name, &table, &cells, bits, refused_at)
    };
    vec![
        older("the figure", &FIGURE, &figure, 40, Some(0)),
        sum("a rise below a fall", &[-4, 4], 14, Some(1)),
        sum("a rise above a fall", &[4, -4], 14, Some(0)),
        sum("a rise below two falls", &[-4, -4, 4], 20, Some(2)),
        sum("no weight above two falls", &[0, -4, -4], 12, None),
    ]
}
