//! The listing program: a table's diagram and cells, one line for each.

use crate::compiler::{compile, Compiled};
use crate::diagram::{build, Built};
use crate::ranges;
use crate::refusal::{require, Refusal, SIZE, TABLE_LENGTH};

const IMAGE_BUFFER_LENGTH: usize = 65_536;

/// The numbers of a record that its line has: variable, low, high, weight.
const LISTED_NUMBERS: usize = 4;

/// The bytes the listing program prints for its standard input.
pub fn listing(input: &[u8]) -> Vec<u8> {
    let text = match list(input) {
        Ok(text) => text,
        Err(refusal) => format!("refused {refusal}\n"),
    };
    text.into_bytes()
}

fn list(input: &[u8]) -> Result<String, Refusal> {
    let (n, limit, values) = match input {
        [n, limit, values @ ..] => (usize::from(*n), usize::from(*limit), values),
        _ => return Err(TABLE_LENGTH),
    };
    // A wrong byte count takes the place of a wrong table length, after n.
    require(ranges::listed_size(n), SIZE)?;
    require(values.len() == 4 << n, TABLE_LENGTH)?;
    let value = |v: &[u8]| i32::from_be_bytes([v[0], v[1], v[2], v[3]]);
    let table: Vec<i32> = values.chunks_exact(4).map(value).collect();
    let mut image = vec![0; IMAGE_BUFFER_LENGTH];
    let compiled = compile(n, &table, limit, &mut image)?;
    let mut nodes = vec![0; ranges::most_record_numbers(n)];
    let built = build(n, &table, &mut nodes)?;
    Ok(text(n, &built, &nodes, &compiled))
}

fn text(n: usize, built: &Built, nodes: &[i32], compiled: &Compiled) -> String {
    let mut text = format!("table {n} {}\n", built.offset);
    for (number, record) in (1..built.nodes).zip(nodes.chunks(ranges::RECORD_NUMBERS)) {
        let listed = record[..LISTED_NUMBERS].iter();
        let fields: Vec<String> = listed.map(i32::to_string).collect();
        text += &format!("node {number} {}\n", fields.join(" "));
    }
    text += &format!("nodes {}\n", compiled.nodes);
    for cell in &compiled.cells {
        text += &format!(
            "cell {} {} {} {} {}\n",
            cell.group, cell.incoming, cell.outgoing, cell.width, cell.bits
        );
    }
    text + &format!("bits {}\n", compiled.bits)
}
