//! The compiler: the chosen grouping's cells, written as an image.

use crate::diagram;
use crate::grouping::{plan_with_cuts, Cell, Cuts, Planned, Word};
use crate::reader::{CELL, END, OPEN, WORD};
use crate::refusal::{Refusal, IMAGE_BUFFER};

/// What Compile answers beside the image.
#[derive(Debug, Clone, PartialEq, Eq)]
pub struct Compiled {
    /// The bytes of the image.
    pub length: usize,
    /// Build's node count.
    pub nodes: usize,
    /// Plan's cells.
    pub cells: Vec<Cell>,
    /// Plan's total bits.
    pub bits: usize,
}

/// Compile: the table's image, into the first bytes of the image buffer.
pub fn compile(
    n: usize,
    table: &[i32],
    limit: usize,
    image: &mut [u8],
) -> Result<Compiled, Refusal> {
    let (cuts, plan) = plan_with_cuts(n, table, limit)?;
    let bytes = image_bytes(n, table[0], &cuts, &plan);
    let place = image.get_mut(..bytes.len()).ok_or(IMAGE_BUFFER)?;
    place.copy_from_slice(&bytes);
    Ok(Compiled {
        length: bytes.len(),
        nodes: diagram::node_count(n, table),
        cells: plan.cells,
        bits: plan.bits,
    })
}

fn image_bytes(n: usize, offset: i32, cuts: &Cuts, plan: &Planned) -> Vec<u8> {
    let mut bytes = vec![OPEN, n as u8];
    bytes.extend(offset.to_be_bytes());
    let mut cut = 0;
    for cell in &plan.cells {
        write_cell(&mut bytes, cell, &cuts.words(cut, cell.group));
        cut += cell.group;
    }
    bytes.push(END);
    bytes.extend((plan.bits as u32).to_be_bytes());
    bytes
}

fn write_cell(bytes: &mut Vec<u8>, cell: &Cell, words: &[Word]) {
    bytes.extend([CELL, cell.group as u8]);
    bytes.extend((cell.incoming as u16).to_be_bytes());
    bytes.extend((cell.outgoing as u16).to_be_bytes());
    bytes.push(cell.width as u8);
    for word in words {
        bytes.push(WORD);
        bytes.extend((word.class as u16).to_be_bytes());
        bytes.extend(word.weight.to_be_bytes());
    }
}
