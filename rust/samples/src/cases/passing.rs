//! Images that pass, with their values.

use super::EXTREMES;
use crate::{tables, Cascade, Draft, DraftCell, MOST_WEIGHT};

/// An image that passes, its value at every X, and the words that one Run
/// reads.
pub struct PassingImage {
    pub name: String,
    pub image: Vec<u8>,
    pub values: Vec<i32>,
    pub words: usize,
}

impl PassingImage {
    fn new(name: String, draft: &Draft, values: Vec<i32>) -> PassingImage {
        PassingImage {
            name,
            image: draft.bytes(),
            values,
            words: draft.cells.len(),
        }
    }

    /// Every X, or of a long image some, with the last.
    pub fn inputs(&self) -> impl Iterator<Item = usize> {
        let last = self.values.len() - 1;
        let step = if self.image.len() < 50_000 { 1 } else { 89 };
        (0..last).step_by(step).chain([last])
    }
}

pub fn passing_images() -> Vec<PassingImage> {
    let mut images = extreme_images();
    images.push(many_classes_image());
    let ones = [7, 8, 9, 255, 256, 257, 2_047, 2_048].map(|count| (vec![1; 12], count));
    let wider = [
        (vec![3; 4], 512),
        (vec![4, 3, 3, 2], 257),
        (vec![4; 3], 256),
    ];
    let counted = ones.into_iter().chain(wider);
    images.extend(counted.map(|(sizes, count)| Counted { sizes, count }.image()));
    images
}

/// Twelve weights as great as they can be, one in each cell.
fn extreme_images() -> Vec<PassingImage> {
    let image = |(last, offset, weight)| {
        let width = if weight < 0 { 25 } else { 24 };
        let cell = DraftCell::new(1, 1, 1, width, &[(0, 0), (0, weight)]);
        let draft = Draft::new(12, offset, vec![cell; 12]);
        let value = |x: usize| offset + x.count_ones() as i32 * weight;
        assert_eq!(value(4_095), last);
        let name = format!("twelve weights of {weight}");
        PassingImage::new(name, &draft, tables::of(12, value))
    };
    EXTREMES.map(image).into()
}

/// The chosen grouping of a table with 300 classes at cut 9: their numbers need
/// both bytes.
fn many_classes_image() -> PassingImage {
    let table = tables::many_classes();
    let draft = Cascade::new(12, &table).draft(&[5, 4, 3]);
    PassingImage::new("300 classes of a table".into(), &draft, table)
}

/// An image over 12 variables with one class count at every inner cut. The
/// class there is the number in the bits above the cut, turned by some steps
/// for each cut, modulo the count.
struct Counted {
    sizes: Vec<usize>,
    count: usize,
}

impl Counted {
    const OFFSET: i32 = -77;
    const TURN: usize = 5;

    fn classes(&self, cut: usize) -> usize {
        match cut {
            0 | 12 => 1,
            _ => self.count,
        }
    }

    fn class(&self, cut: usize, above: usize) -> usize {
        (above + Self::TURN * cut) % self.classes(cut)
    }

    /// Some bits above a cut that lead to a class.
    fn leading_to(&self, cut: usize, class: usize) -> usize {
        let turns = 12 * Self::TURN;
        (class + turns * self.count - Self::TURN * cut) % self.classes(cut)
    }

    /// A weight of any size that cut, class and group value have a part in.
    fn weight(cut: usize, class: usize, group_value: usize) -> i32 {
        match group_value {
            0 => 0,
            v => ((class + 1) * v * 7_919_117 + cut) as i32 % MOST_WEIGHT,
        }
    }

    /// The cut above each cell, with its group.
    fn places(&self) -> Vec<(usize, usize)> {
        let mut below = 0;
        let place = |&group: &usize| {
            below += group;
            (below - group, group)
        };
        self.sizes.iter().map(place).collect()
    }

    fn cell(&self, (cut, group): (usize, usize)) -> DraftCell {
        let below = cut + group;
        let word = |address: usize| {
            let (from, group_value) = (address >> group, address & ((1 << group) - 1));
            let to = self.class(below, self.leading_to(cut, from) << group | group_value);
            (to as u16, Self::weight(cut, from, group_value))
        };
        let words: Vec<(u16, i32)> = (0..self.classes(cut) << group).map(word).collect();
        DraftCell::least(group, self.classes(cut), self.classes(below), &words)
    }

    /// The value at X, from the bits of X alone.
    fn value(&self, x: usize) -> i32 {
        let weight = |&(cut, group): &(usize, usize)| {
            let group_value = x >> (12 - cut - group) & ((1 << group) - 1);
            Self::weight(cut, self.class(cut, x >> (12 - cut)), group_value)
        };
        Self::OFFSET + self.places().iter().map(weight).sum::<i32>()
    }

    fn image(self) -> PassingImage {
        let cells = self.places().into_iter().map(|place| self.cell(place));
        let draft = Draft::new(12, Self::OFFSET, cells.collect());
        let name = format!("{} classes, groups {:?}", self.count, self.sizes);
        PassingImage::new(name, &draft, tables::of(12, |x| self.value(x)))
    }
}
