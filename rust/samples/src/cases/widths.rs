//! The weights of a cell at the borders of its width.

use crate::{Draft, DraftCell, MOST_WEIGHT};

/// The weights of a cell and its width.
pub struct WeightWidth {
    pub weights: Vec<i32>,
    pub width: usize,
}

/// Weights at every border of both rules, alone and beside others, up to those
/// of 32 bits.
pub fn weight_widths() -> Vec<WeightWidth> {
    let mut widths = small_weight_widths();
    for a in 1..=32 {
        widths.extend(unsigned_borders(a));
        widths.extend(signed_borders(a));
    }
    widths
}

fn weight_width(weights: &[i32], width: usize) -> WeightWidth {
    WeightWidth {
        weights: weights.to_vec(),
        width,
    }
}

/// One negative weight, at whatever place, makes the whole cell signed.
fn small_weight_widths() -> Vec<WeightWidth> {
    vec![
        weight_width(&[], 0),
        weight_width(&[0], 0),
        weight_width(&[0, 0, 0], 0),
        weight_width(&[1], 1),
        weight_width(&[-1], 1),
        weight_width(&[2], 2),
        weight_width(&[3], 2),
        weight_width(&[-2], 2),
        weight_width(&[4], 3),
        weight_width(&[-4], 3),
        weight_width(&[-5], 4),
        weight_width(&[1, 1, 4, 7], 3),
        weight_width(&[-2, 1], 2),
        weight_width(&[-2, 2], 3),
        weight_width(&[-1, 1, 2, 4], 4),
        weight_width(&[4, -1, 1, 2], 4),
        weight_width(&[1, 2, 4, -1], 4),
        weight_width(&[7, -8], 4),
        weight_width(&[8, -8], 5),
        weight_width(&[MOST_WEIGHT], 24),
        weight_width(&[-MOST_WEIGHT], 25),
        weight_width(&[MOST_WEIGHT, -1], 25),
        weight_width(&[MOST_WEIGHT, -MOST_WEIGHT], 25),
    ]
}

/// Weights that are not negative: a bits hold 2^a - 1, and a - 1 bits do not
/// hold 2^(a-1).
fn unsigned_borders(a: usize) -> Vec<WeightWidth> {
    let half = 1_i64 << (a - 1);
    in_32_bits(vec![
        (vec![2 * half - 1], a),
        (vec![half], a),
        (vec![half - 1, half], a),
        (vec![2 * half - 1, 2 * half], a + 1),
    ])
}

/// Weights of which one is negative: a bits hold -2^(a-1) to 2^(a-1) - 1.
fn signed_borders(a: usize) -> Vec<WeightWidth> {
    let half = 1_i64 << (a - 1);
    in_32_bits(vec![
        (vec![-half], a),
        (vec![-half - 1], a + 1),
        (vec![half - 1, -1], a),
        (vec![half, -1], a + 1),
        (vec![2 * half - 1, -1], a + 1),
        (vec![half - 1, -half], a),
        (vec![half, -half], a + 1),
        (vec![half - 1, -half - 1], a + 1),
    ])
}

/// Those that 32 bits hold.
fn in_32_bits(widths: Vec<(Vec<i64>, usize)>) -> Vec<WeightWidth> {
    let held = |(weights, width): (Vec<i64>, usize)| {
        let weights: Result<Vec<i32>, _> = weights.into_iter().map(i32::try_from).collect();
        Some(weight_width(&weights.ok()?, width))
    };
    widths.into_iter().filter_map(held).collect()
}

impl WeightWidth {
    /// Images of which one cell has these weights and a given width, sound but
    /// for it, with the place of that cell: all of one class, and each of
    /// another. None if a weight is out of an image's range.
    pub fn drafts(&self, width: u8) -> Vec<(Draft, usize)> {
        let range = -MOST_WEIGHT..=MOST_WEIGHT;
        match self.weights.iter().all(|weight| range.contains(weight)) {
            true => vec![(self.of_one_class(width), 0), (self.of_classes(width), 1)],
            false => Vec::new(),
        }
    }

    /// The only cell, with weight 0 at the other group values.
    fn of_one_class(&self, width: u8) -> Draft {
        let group = 3;
        let mut words = vec![(0, 0); 1 << group];
        for (word, &weight) in words[1..].iter_mut().zip(&self.weights) {
            word.1 = weight;
        }
        let cell = DraftCell::new(group, 1, 1, width, &words);
        Draft::new(group.into(), 0, vec![cell])
    }

    /// The second cell, with a class for each weight and one more.
    fn of_classes(&self, width: u8) -> Draft {
        let classes = self.weights.len() as u16 + 1;
        let upper: Vec<(u16, i32)> = (0..8).map(|v| (v % classes, 0)).collect();
        let lower: Vec<(u16, i32)> = [0]
            .iter()
            .chain(&self.weights)
            .flat_map(|&weight| [(0, 0), (0, weight)])
            .collect();
        let cells = vec![
            DraftCell::new(3, 1, classes, 0, &upper),
            DraftCell::new(1, classes, 1, width, &lower),
        ];
        Draft::new(4, 0, cells)
    }
}
