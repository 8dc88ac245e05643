//! The diagram: Build makes the records of a table.

use crate::lists::{least_and_greatest, Record};
use crate::ranges;
use crate::refusal::{require, Refusal, NODE_BUFFER};
use crate::table;

/// What Build answers beside the records.
#[derive(Debug, Clone, PartialEq, Eq)]
pub struct Built {
    /// The node count: records and the terminal.
    pub nodes: usize,
    pub offset: i32,
}

/// Build: the table's records, into the first numbers of the node buffer.
pub fn build(n: usize, table: &[i32], nodes: &mut [i32]) -> Result<Built, Refusal> {
    table::check(n, table)?;
    require(nodes.len() >= ranges::most_record_numbers(n), NODE_BUFFER)?;
    let records = records(n, table);
    for (place, record) in nodes.chunks_exact_mut(ranges::RECORD_NUMBERS).zip(&records) {
        place.copy_from_slice(record);
    }
    Ok(Built {
        nodes: records.len() + 1,
        offset: table[0],
    })
}

/// The node count of a table that has passed its checks.
pub(crate) fn node_count(n: usize, table: &[i32]) -> usize {
    records(n, table).len() + 1
}

/// All records in the order of their numbers: low blocks before high ones, and
/// at one height the leftmost first.
fn records(n: usize, table: &[i32]) -> Vec<Record> {
    let mut records = Vec::new();
    let mut below = vec![0; table.len()];
    for height in 1..=n {
        below = level(height, table, &below, &mut records);
    }
    records
}

/// The node of every block of a height, from those of the height below.
fn level(height: usize, table: &[i32], below: &[i32], records: &mut Vec<Record>) -> Vec<i32> {
    let half = 1 << (height - 1);
    let mut known: Vec<(&[i32], i32)> = Vec::new();
    let mut nodes = Vec::new();
    for (block, halves) in table.chunks(2 * half).zip(below.chunks(2)) {
        let (lower, upper) = block.split_at(half);
        let same = |&&(other, _): &&(&[i32], i32)| table::equal_differences(other, block);
        let node = if upper == lower {
            halves[0]
        } else if let Some(&(_, number)) = known.iter().find(same) {
            number
        } else {
            let variable = height as i32 - 1;
            let weight = upper[0] - lower[0];
            let (least, greatest) = least_and_greatest(table::differences(block));
            records.push([variable, halves[0], halves[1], weight, least, greatest]);
            known.push((block, records.len() as i32));
            records.len() as i32
        };
        nodes.push(node);
    }
    nodes
}
