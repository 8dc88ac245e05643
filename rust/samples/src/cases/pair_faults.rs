//! What can be wrong with the arguments of the pair run: with m, with the pair,
//! with the image.

use super::wrong_inputs;
use crate::pairs::Pair;
use crate::{GREATEST, LEAST};

/// Numbers of every size: small ones and those at and beside a power of two.
pub fn numbers_of_any_size() -> Vec<usize> {
    let mut numbers = vec![0, 1, 2, 3, 4, usize::MAX - 1, usize::MAX];
    numbers.extend((3..64).flat_map(|bit| [(1 << bit) - 1, 1 << bit, (1 << bit) + 2]));
    numbers
}

/// Some m out of range; the low bits of some are those of m.
pub fn wrong_sizes(m: usize) -> Vec<usize> {
    let mut sizes = vec![0, 7, 8, 12, 13, usize::MAX];
    sizes.extend((3..64).flat_map(|bit| [1 << bit, (1 << bit) + m]));
    sizes
}

/// Pairs of which X, Y or both are not below 2^m. Of some the Z is below 2^(2m)
/// all the same, by itself or in 32 or 64 bits.
pub fn wrong_pairs(m: usize) -> Vec<Pair> {
    let (side, size) = (1 << m, 1 << (2 * m));
    let mut outside = wrong_inputs(m);
    outside.extend([size - 1, 1 << (32 - m), 1 << (64 - m)]);
    let last = side - 1;
    let mut pairs = vec![(usize::MAX, 1), (1, usize::MAX)];
    pairs.push((side, usize::MAX - size + 1));
    for wrong in outside {
        pairs.extend([(wrong, 0), (wrong, last), (wrong, wrong)]);
        pairs.extend([(0, wrong), (last, wrong)]);
    }
    pairs
}

/// An image, sound or not, and its refusal by the pair run with a given m.
pub struct PairImage {
    pub name: String,
    pub image: Vec<u8>,
    pub refusal: Option<u8>,
}

impl PairImage {
    fn new(name: &str, image: &[u8], refusal: Option<u8>) -> PairImage {
        PairImage {
            name: name.into(),
            image: image.to_vec(),
            refusal,
        }
    }
}

/// A sound image with n = 2m, and what becomes of it by any set of faults: its
/// first command is another one, is cut off, or has another n or an offset out
/// of range; behind that command it is damaged.
pub fn pair_images(m: usize, sound: &[u8]) -> Vec<PairImage> {
    let (first, rest) = sound.split_at(6);
    let mut images = vec![PairImage::new("no byte", &[], Some(11))];
    for opening in openings(m, first) {
        for length in 1..6 {
            let name = format!("{}, {length} bytes", opening.name);
            let cut = &opening.image[..length];
            let refusal = if cut[0] == 0x56 { 11 } else { 12 };
            images.push(PairImage::new(&name, cut, Some(refusal)));
        }
        for behind in behind_the_opening(rest) {
            let name = format!("{}, {}", opening.name, behind.name);
            let image = [&opening.image[..], &behind.image].concat();
            let refusal = opening.refusal.or(behind.refusal);
            images.push(PairImage::new(&name, &image, refusal));
        }
    }
    images
}

/// The first command of an image with n = 2m, sound or not, none cut off.
fn openings(m: usize, sound: &[u8]) -> Vec<PairImage> {
    let mut openings = Vec::new();
    for n in (0..=13).chain([64, 255]) {
        let mut first = sound.to_vec();
        first[1] = n;
        let wrong_n = (usize::from(n) != 2 * m).then_some(13);
        openings.push(PairImage::new(&format!("n {n}"), &first, wrong_n));
        for command in [0x43, 0x57, 0x45, 0] {
            let other = [&[command], &first[1..]].concat();
            let name = format!("n {n} by command {command}");
            openings.push(PairImage::new(&name, &other, Some(12)));
        }
        for offset in [LEAST - 1, GREATEST + 1] {
            let other = [&first[..2], &offset.to_be_bytes()].concat();
            let name = format!("n {n}, offset {offset}");
            openings.push(PairImage::new(&name, &other, Some(13)));
        }
    }
    openings
}

/// What stands behind the first command of an image, sound or not.
fn behind_the_opening(sound: &[u8]) -> Vec<PairImage> {
    let end = sound.len();
    let with = |place: usize, byte: u8| {
        let mut bytes = sound.to_vec();
        bytes[place] = byte;
        bytes
    };
    let damaged = |name, bytes: &[u8], refusal| PairImage::new(name, bytes, Some(refusal));
    vec![
        PairImage::new("sound behind", sound, None),
        damaged("nothing behind", &[], 11),
        damaged("a word for a cell", &with(0, 0x57), 12),
        damaged("the end for a cell", &with(0, 0x45), 12),
        damaged("a cell of no variable", &with(1, 0), 13),
        damaged("another width", &with(6, 255), 13),
        damaged("no word", &sound[..7], 11),
        damaged("a cell for a word", &with(7, 0x43), 12),
        damaged("a word cut off", &sound[..13], 11),
        damaged("a weight at group value 0", &with(13, 1), 13),
        damaged("a cell for the end", &with(end - 5, 0x43), 12),
        damaged("another total", &with(end - 1, sound[end - 1] ^ 1), 13),
        damaged("the total cut off", &sound[..end - 1], 11),
        damaged("a byte after", &[sound, &[0x45]].concat(), 14),
    ]
}
