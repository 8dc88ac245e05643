//! Images by hand: sound or not, pseudo-random ones that pass, and ways to
//! damage one.

use crate::oracle::{older_width, rail, width};
use crate::{Random, GREATEST, LEAST, MOST_WEIGHT};

/// An image by its operands, sound or not.
#[derive(Clone)]
pub struct Draft {
    pub n: u8,
    pub offset: i32,
    pub cells: Vec<DraftCell>,
    pub bits: u32,
}

#[derive(Clone)]
pub struct DraftCell {
    pub group: u8,
    pub incoming: u16,
    pub outgoing: u16,
    pub width: u8,
    pub words: Vec<(u16, i32)>,
}

impl DraftCell {
    pub fn new(
        group: u8,
        incoming: u16,
        outgoing: u16,
        width: u8,
        words: &[(u16, i32)],
    ) -> DraftCell {
        DraftCell {
            group,
            incoming,
            outgoing,
            width,
            words: words.to_vec(),
        }
    }

    /// The bits that the command's operands say, however wrong they are.
    pub fn bits(&self) -> u32 {
        let address = rail(self.incoming.into()) + usize::from(self.group);
        let word = rail(self.outgoing.into()) + usize::from(self.width);
        (word as u32).wrapping_shl(address as u32)
    }

    /// A cell with the least width of its weights.
    pub fn least(group: usize, incoming: usize, outgoing: usize, words: &[(u16, i32)]) -> Self {
        let mut cell = DraftCell::new(group as u8, incoming as u16, outgoing as u16, 0, words);
        cell.width = cell.least_width();
        cell
    }

    fn weights(&self) -> impl Iterator<Item = i32> + '_ {
        self.words.iter().map(|word| word.1)
    }

    fn least_width(&self) -> u8 {
        width(self.weights()) as u8
    }

    /// Widths that are not the least: an older image's, that of the weights
    /// that are not negative, that of each weight by its own sign, one less and
    /// one more.
    pub fn other_widths(&self) -> Vec<u8> {
        let least = self.least_width();
        let without_negative = width(self.weights().filter(|&weight| weight >= 0));
        let by_own_sign = self.weights().map(|weight| width([weight])).max();
        let others = [
            older_width(self.weights()) as u8,
            without_negative as u8,
            by_own_sign.unwrap_or(0) as u8,
            least.wrapping_sub(1),
            least + 1,
        ];
        others.into_iter().filter(|&other| other != least).collect()
    }
}

impl Draft {
    /// An image with the bits that its cells say.
    pub fn new(n: usize, offset: i32, cells: Vec<DraftCell>) -> Draft {
        let bits = total_bits(&cells);
        Draft {
            n: n as u8,
            offset,
            cells,
            bits,
        }
    }

    pub fn bytes(&self) -> Vec<u8> {
        let mut bytes = vec![0x56, self.n];
        bytes.extend(self.offset.to_be_bytes());
        for cell in &self.cells {
            bytes.extend([0x43, cell.group]);
            bytes.extend(cell.incoming.to_be_bytes());
            bytes.extend(cell.outgoing.to_be_bytes());
            bytes.push(cell.width);
            for (class, weight) in &cell.words {
                bytes.push(0x57);
                bytes.extend(class.to_be_bytes());
                bytes.extend(weight.to_be_bytes());
            }
        }
        bytes.push(0x45);
        bytes.extend(self.bits.to_be_bytes());
        bytes
    }

    /// The older image with the same words: the weights of every cell are
    /// signed.
    pub fn older(&self) -> Draft {
        let older = |cell: &DraftCell| DraftCell {
            width: older_width(cell.weights()) as u8,
            ..cell.clone()
        };
        let cells = self.cells.iter().map(older).collect();
        Draft::new(self.n.into(), self.offset, cells)
    }

    /// The first cell that has weights above 0 and none below.
    pub fn first_unsigned_cell(&self) -> Option<usize> {
        let unsigned = |cell: &DraftCell| {
            cell.weights().any(|weight| weight > 0) && cell.weights().all(|weight| weight >= 0)
        };
        self.cells.iter().position(unsigned)
    }

    /// The bytes up to the last word of a cell, with it.
    pub fn bytes_with_cell(&self, place: usize) -> usize {
        let cells = self.cells[..=place].iter();
        6 + cells.map(|cell| 7 * (1 + cell.words.len())).sum::<usize>()
    }

    /// Where the command bytes of `bytes` stand.
    pub fn command_places(&self) -> Vec<usize> {
        let mut places = vec![0];
        let mut place = 6;
        for cell in &self.cells {
            places.push(place);
            place += 7;
            for _ in &cell.words {
                places.push(place);
                place += 7;
            }
        }
        places.push(place);
        places
    }
}

/// The image of `FIGURE` with address limit 4, worked out by hand.
pub fn figure_draft() -> Draft {
    let cell = DraftCell::new;
    Draft {
        n: 4,
        offset: 0,
        cells: vec![
            cell(2, 1, 2, 3, &[(0, 0), (1, 1), (1, 4), (0, 7)]),
            cell(1, 2, 2, 1, &[(0, 0), (0, 0), (0, 0), (1, 1)]),
            cell(1, 2, 1, 1, &[(0, 0), (0, 0), (0, 0), (0, 1)]),
        ],
        bits: 28,
    }
}

/// An image that passes every check, of any shape.
pub fn passing(random: &mut Random) -> Draft {
    let most = if random.below(8) == 0 { 12 } else { 6 };
    let n = 1 + random.below(most);
    passing_of(n, random)
}

/// An image over n variables that passes every check, of any shape.
pub fn passing_of(n: usize, random: &mut Random) -> Draft {
    let mut cells = Vec::new();
    let mut left = n;
    let mut incoming = 1;
    while left > 0 {
        let widest = left.min(12 - rail(incoming));
        let group = 1 + random.below(widest);
        left -= group;
        let outgoing = match (left, random.below(4)) {
            (0, _) => 1,
            (_, 0) => 1,
            _ => 1 + random.below(6),
        };
        cells.push(passing_cell(group, incoming, outgoing, random));
        incoming = outgoing;
    }
    Draft::new(n, random.between(LEAST, GREATEST), cells)
}

/// A cell with weights of both signs, of one or of none.
fn passing_cell(group: usize, incoming: usize, outgoing: usize, random: &mut Random) -> DraftCell {
    let most = [0, 1, 300, MOST_WEIGHT][random.below(4)];
    let (least, greatest) = [(-most, most), (0, most), (-most, 0)][random.below(3)];
    let words = (0..incoming << group).map(|place| {
        let first = place & ((1 << group) - 1) == 0;
        let weight = if first {
            0
        } else {
            random.between(least, greatest)
        };
        (random.below(outgoing) as u16, weight)
    });
    let words: Vec<(u16, i32)> = words.collect();
    DraftCell::least(group, incoming, outgoing, &words)
}

/// The total bits that the cells say.
pub fn total_bits(cells: &[DraftCell]) -> u32 {
    cells.iter().map(DraftCell::bits).fold(0, u32::wrapping_add)
}

/// One change, of an operand or of the order; sometimes what depends on it is
/// put right again, so that a later check is reached.
pub fn damage(draft: &mut Draft, random: &mut Random) {
    if draft.cells.is_empty() || random.below(8) == 0 {
        damage_ends(draft, random);
        return;
    }
    let place = random.below(draft.cells.len());
    match random.below(7) {
        0 => damage_cells(draft, place, random),
        1 => damage_width(&mut draft.cells[place], random),
        2 | 3 => damage_command(&mut draft.cells[place], random),
        _ => damage_words(&mut draft.cells[place], random),
    }
    if random.below(3) == 0 {
        let cell = random.below(draft.cells.len().max(1));
        if let Some(cell) = draft.cells.get_mut(cell) {
            cell.width = cell.least_width();
        }
    }
    if random.below(2) == 0 {
        draft.bits = total_bits(&draft.cells);
    }
}

fn damage_ends(draft: &mut Draft, random: &mut Random) {
    match random.below(3) {
        0 => draft.n = [0, 1, 12, 13, 64, 255, draft.n ^ 1][random.below(7)],
        1 => draft.offset = near(&[LEAST, GREATEST, i32::MIN + 1], random),
        _ => {
            draft.bits = draft
                .bits
                .wrapping_add(random.below(3) as u32)
                .wrapping_sub(1)
        }
    }
}

fn damage_cells(draft: &mut Draft, place: usize, random: &mut Random) {
    match random.below(3) {
        0 => drop(draft.cells.remove(place)),
        1 => draft.cells.insert(place, draft.cells[place].clone()),
        _ => draft.cells.swap(place, 0),
    }
}

fn damage_command(cell: &mut DraftCell, random: &mut Random) {
    let groups = [0, 1, 12, 13, 32, 63, 64, 255, cell.group.wrapping_add(1)];
    match random.below(3) {
        0 => cell.group = groups[random.below(groups.len())],
        1 => cell.incoming = near_count(cell.incoming, random),
        _ => cell.outgoing = near_count(cell.outgoing, random),
    }
}

fn damage_width(cell: &mut DraftCell, random: &mut Random) {
    let mut widths = cell.other_widths();
    if random.below(3) == 0 {
        widths = vec![0, 1, 24, 25, 26, 255];
    }
    cell.width = widths[random.below(widths.len())];
}

fn near_count(count: u16, random: &mut Random) -> u16 {
    let counts = [0, 1, 2_048, 4_095, 4_096, 4_097, u16::MAX];
    match random.below(2) {
        0 => counts[random.below(counts.len())],
        _ => count.wrapping_add(random.below(3) as u16).wrapping_sub(1),
    }
}

fn damage_words(cell: &mut DraftCell, random: &mut Random) {
    if cell.words.is_empty() {
        return;
    }
    let place = random.below(cell.words.len());
    match random.below(6) {
        0 => drop(cell.words.remove(place)),
        1 => cell.words.insert(place, cell.words[place]),
        2 | 3 => cell.words[place].0 = near_count(cell.outgoing, random),
        _ => {
            let limits = [0, MOST_WEIGHT, -MOST_WEIGHT, i32::MIN + 1, i32::MAX - 1];
            cell.words[place].1 = near(&limits, random);
        }
    }
}

fn near(limits: &[i32], random: &mut Random) -> i32 {
    limits[random.below(limits.len())] + random.between(-1, 1)
}
