//! Images that are turned away for one reason alone.

use crate::{Draft, DraftCell, GREATEST, LEAST, MOST_WEIGHT};

/// An image that is turned away, and the refusal's number.
pub struct RefusedImage {
    pub name: String,
    pub image: Vec<u8>,
    pub refusal: u8,
}

impl RefusedImage {
    fn new(name: &str, image: Vec<u8>, refusal: u8) -> RefusedImage {
        RefusedImage {
            name: name.into(),
            image,
            refusal,
        }
    }
}

pub fn refused_images() -> Vec<RefusedImage> {
    let mut images = images_with_ends_out_of_range();
    images.extend(images_with_a_broken_command());
    images.extend(images_with_a_wrong_width());
    images.extend(images_with_a_broken_word());
    images.extend(images_that_end_with_a_cell());
    images
}

/// n or the offset out of range, before sound cells.
fn images_with_ends_out_of_range() -> Vec<RefusedImage> {
    let cells = |n: usize| vec![one_variable(); n];
    [
        ("n 0", 0, 0),
        ("n 13", 13, 0),
        ("an offset too great", 1, GREATEST + 1),
        ("an offset too small", 1, LEAST - 1),
    ]
    .map(|(name, n, offset)| {
        let image = Draft::new(n, offset, cells(n)).bytes();
        RefusedImage::new(name, image, 13)
    })
    .into()
}

/// The only cell of an image.
fn one_variable() -> DraftCell {
    DraftCell::least(1, 1, 1, &[(0, 0), (0, 3)])
}

/// The first of two cells, with two classes between them, and the second.
fn two_variables() -> [DraftCell; 2] {
    [
        DraftCell::least(1, 1, 2, &[(0, 0), (1, 3)]),
        DraftCell::least(1, 2, 1, &[(0, 0), (0, 1), (0, 0), (0, 2)]),
    ]
}

/// Cells that break one rule of their command. Words and total are as the
/// operands ask, so that nothing else is wrong.
fn images_with_a_broken_command() -> Vec<RefusedImage> {
    let cell = |group, incoming, outgoing| {
        let words = vec![(0, 0); incoming << group];
        DraftCell::least(group, incoming, outgoing, &words)
    };
    let [upper, lower] = two_variables();
    let below = |cell: DraftCell| vec![upper.clone(), cell];
    let images = vec![
        ("no variable, first", 1, vec![cell(0, 1, 1), one_variable()]),
        (
            "no variable, between",
            2,
            vec![upper.clone(), cell(0, 2, 2), lower],
        ),
        ("no variable, alone", 1, vec![cell(0, 1, 1)]),
        ("more variables than n", 1, vec![cell(2, 1, 1)]),
        ("more variables than are left", 2, below(cell(2, 2, 1))),
        ("no class before the first", 1, vec![cell(1, 0, 1)]),
        ("two classes before the first", 1, vec![cell(1, 2, 1)]),
        ("no class of two", 2, below(cell(1, 0, 1))),
        ("one class of two", 2, vec![cell(1, 1, 2), one_variable()]),
        ("three classes of two", 2, below(cell(1, 3, 1))),
        ("no class after the last", 1, vec![cell(1, 1, 0)]),
        ("two classes after the last", 1, vec![cell(1, 1, 2)]),
        (
            "4,097 classes",
            2,
            vec![cell(1, 1, 4_097), cell(1, 4_097, 1)],
        ),
        (
            "13 address bits",
            2,
            vec![cell(1, 1, 4_096), cell(1, 4_096, 1)],
        ),
    ];
    let image = |(name, n, cells)| RefusedImage::new(name, Draft::new(n, 0, cells).bytes(), 13);
    images.into_iter().map(image).collect()
}

/// Cells that are sound but for their width, alone and below another cell. The
/// total is as the widths ask.
fn images_with_a_wrong_width() -> Vec<RefusedImage> {
    let wrong: [(&str, [i32; 3], u8); 12] = [
        ("a sign's bit beside no negative weight", [1, 4, 7], 4),
        ("too few bits for 4", [1, 4, 7], 2),
        ("too many bits for 3", [3, 0, 1], 3),
        ("too few bits for 3", [3, 0, 1], 1),
        ("no sign's bit beside 4 and -1", [4, -1, 1], 3),
        ("too many bits for 4 and -1", [4, -1, 1], 5),
        ("no sign's bit beside 3 and -4", [-4, 3, 0], 2),
        ("as many bits as for 3", [-5, 3, 0], 3),
        ("no bit where no weight is above 0", [-4, 0, -1], 0),
        ("too few bits for -4", [-4, 0, -1], 2),
        ("too many bits for -4", [-4, 0, -1], 4),
        ("a sign's bit beside 0", [0, 0, 0], 1),
    ];
    let [upper, _] = two_variables();
    let images = wrong.into_iter().flat_map(|(name, weights, width)| {
        let [a, b, c] = weights.map(|weight| (0, weight));
        let alone = DraftCell::new(2, 1, 1, width, &[(0, 0), a, b, c]);
        let words = [(0, 0), a, (0, 0), (0, 0), (0, 0), (0, 0), b, c];
        let below = DraftCell::new(2, 2, 1, width, &words);
        [vec![alone], vec![upper.clone(), below]].map(|cells| {
            let name = format!("{name}, in the last of {}", cells.len());
            let image = Draft::new(1 + cells.len(), 0, cells).bytes();
            RefusedImage::new(&name, image, 13)
        })
    });
    images.collect()
}

/// Words that break one rule, in the only cell and in the last of two. Width
/// and total are as the words ask.
fn images_with_a_broken_word() -> Vec<RefusedImage> {
    let [upper, lower] = two_variables();
    let great = [MOST_WEIGHT + 1, -MOST_WEIGHT - 1, i32::MAX, i32::MIN];
    let mut words: Vec<(usize, (u16, i32))> = great.map(|weight| (1, (0, weight))).into();
    words.extend([(0, (0, 3)), (0, (0, -1)), (0, (1, 0)), (1, (1, 0))]);
    let images = words.into_iter().flat_map(|(place, word)| {
        let with_word = |cell: &DraftCell, place: usize| {
            let mut words = cell.words.clone();
            words[place] = word;
            DraftCell::least(1, cell.incoming.into(), 1, &words)
        };
        let alone = vec![with_word(&one_variable(), place)];
        let last = vec![upper.clone(), with_word(&lower, 2 + place)];
        [alone, last].map(|cells| {
            let name = format!(
                "the word {word:?} at {place} in the last of {}",
                cells.len()
            );
            let image = Draft::new(cells.len(), 0, cells).bytes();
            RefusedImage::new(&name, image, 13)
        })
    });
    images.collect()
}

/// Bytes that end with a cell: its outgoing count is in range, so that more is
/// due, or it is not.
fn images_that_end_with_a_cell() -> Vec<RefusedImage> {
    let words: [(u16, i32); 2] = [(0, 0), (4_095, 0)];
    [
        (1, 0, 0, 13),
        (2, 0, 0, 13),
        (2, 0, 2, 13),
        (2, 1, 0, 11),
        (12, 4_096, 0, 11),
        (12, 4_096, 2, 11),
        (12, 4_095, 2, 13),
        (12, 4_097, 0, 13),
        (12, 4_097, 2, 13),
        (12, 65_535, 0, 13),
    ]
    .map(|(n, outgoing, written, refusal)| {
        let cell = DraftCell::least(1, 1, outgoing, &words[..written]);
        let mut image = Draft::new(n, 0, vec![cell]).bytes();
        image.truncate(image.len() - 5);
        let name = format!("n {n}, {outgoing} outgoing classes, {written} words");
        RefusedImage::new(&name, image, refusal)
    })
    .into()
}
