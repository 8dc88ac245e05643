//! The operations as several test files call them, with patterns in buffers.
#![allow(dead_code)]

use panstrait_reference::{build, compile, report, Built, Cell, Compiled, Refusal};
use panstrait_samples::cases::ChosenCell;
use panstrait_samples::oracle::Numbers;
use panstrait_samples::*;

/// Build's answer and its records; a success leaves the rest of the buffer.
pub fn built(n: usize, table: &[i32]) -> (Built, Vec<i32>) {
    let mut nodes = vec![NUMBER; node_numbers(n) + 5];
    let built = build(n, table, &mut nodes).expect("a sound table");
    let records = RECORD * (built.nodes - 1);
    assert!(nodes[records..].iter().all(|&v| v == NUMBER));
    nodes.truncate(records);
    (built, nodes)
}

/// Compile's answer and its image; a success leaves the rest of the buffer.
pub fn compiled(n: usize, table: &[i32], limit: usize) -> Result<(Compiled, Vec<u8>), Refusal> {
    let mut image = vec![BYTE; 65_536];
    let compiled = compile(n, table, limit, &mut image)?;
    assert!(image[compiled.length..].iter().all(|&b| b == BYTE));
    image.truncate(compiled.length);
    Ok((compiled, image))
}

/// Report's answer as the numbers it has.
pub fn reported(
    n: usize,
    offset: i32,
    records: &[i32],
    a: usize,
    b: usize,
) -> Result<Numbers, Refusal> {
    let answer = report(n, offset, records, a, b);
    answer.map(|r| (r.count, r.least, r.greatest, r.sum))
}

/// The input bytes of the listing program.
pub fn listing_input(n: u8, limit: u8, values: &[i32]) -> Vec<u8> {
    let mut input = vec![n, limit];
    input.extend(values.iter().flat_map(|v| v.to_be_bytes()));
    input
}

/// The numbers of each cell.
pub fn fields(cells: &[Cell]) -> Vec<ChosenCell> {
    let fields = |c: &Cell| {
        [
            c.group,
            c.incoming,
            c.outgoing,
            c.width,
            c.bits,
            c.commonest,
            c.uses,
        ]
    };
    cells.iter().map(fields).collect()
}

/// The commonest class where each cell ends, with its use count.
pub fn commonest(cells: &[Cell]) -> Vec<(usize, usize)> {
    cells.iter().map(|c| (c.commonest, c.uses)).collect()
}

/// Each of many tables of small and middling size.
pub fn for_each_table(seed: u64, mut check: impl FnMut(usize, &[i32])) {
    let mut random = Random(seed);
    for n in 1..=8 {
        let mut tables = tables::all(n, &mut random, 20);
        tables.extend((0..20).map(|_| tables::wandering(n, &mut random)));
        tables.extend((0..20).map(|_| tables::contested(n, &mut random)));
        tables.iter().for_each(|table| check(n, table));
    }
}

/// Each of them at each of its cuts.
pub fn for_each_cut(seed: u64, mut check: impl FnMut(usize, &[i32], usize)) {
    for_each_table(seed, |n, table| {
        (0..=n).for_each(|cut| check(n, table, cut));
    });
}
