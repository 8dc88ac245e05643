//! The proved operations with the second program's answers. What is lent for a
//! value holds a pattern at first, which a refusal must leave.

use crate::proved;
use panstrait_reference::{Built, Cell, Compiled, Planned, Ran, Reached, Refusal, Reported};

/// What is lent for single values before a call.
const NUMBER: i32 = 0x5EED_1234;
const COUNT: usize = 0x5EED_1234_5678;
const SUM: i64 = 0x5EED_1234_5678_9ABC;

/// The answer that a result number stands for, and what was lent for values.
fn answer<T, L: PartialEq>(number: u8, value: T, lent: L, pattern: L) -> Result<T, Refusal> {
    match number {
        0 => Ok(value),
        refusal => {
            assert!(lent == pattern, "refusal {refusal} changed what was lent");
            Err(refusal)
        }
    }
}

pub fn build(n: usize, table: &[i32], nodes: &mut [i32]) -> Result<Built, Refusal> {
    let (mut count, mut offset) = (COUNT, NUMBER);
    let number = proved::build(n, table, nodes, &mut count, &mut offset);
    let built = Built {
        nodes: count,
        offset,
    };
    answer(number, built, (count, offset), (COUNT, NUMBER))
}

pub fn walk(n: usize, offset: i32, records: &[i32], x: usize) -> Result<i32, Refusal> {
    let mut value = NUMBER;
    let number = proved::walk(n, offset, records, x, &mut value);
    answer(number, value, value, NUMBER)
}

pub fn report(
    n: usize,
    offset: i32,
    records: &[i32],
    a: usize,
    b: usize,
) -> Result<Reported, Refusal> {
    let pattern = (COUNT, NUMBER, NUMBER, SUM);
    let (mut count, mut least, mut greatest, mut sum) = pattern;
    let number = proved::report(
        n,
        offset,
        records,
        a,
        b,
        &mut count,
        &mut least,
        &mut greatest,
        &mut sum,
    );
    let reported = Reported {
        count,
        least,
        greatest,
        sum,
    };
    answer(number, reported, (count, least, greatest, sum), pattern)
}

pub fn run(image: &[u8], x: usize) -> Result<Ran, Refusal> {
    let (mut value, mut words) = (NUMBER, COUNT);
    let number = proved::run(image, x, &mut value, &mut words);
    let ran = Ran { value, words };
    answer(number, ran, (value, words), (NUMBER, COUNT))
}

pub fn pair_run(m: usize, image: &[u8], x: usize, y: usize) -> Result<Ran, Refusal> {
    let (mut value, mut words) = (NUMBER, COUNT);
    let number = proved::pair_run(m, image, x, y, &mut value, &mut words);
    let ran = Ran { value, words };
    answer(number, ran, (value, words), (NUMBER, COUNT))
}

pub fn expand(image: &[u8], table: &mut [i32]) -> Result<(), Refusal> {
    answer(proved::expand(image, table), (), (), ())
}

/// Numbers that stand for a cell: group, incoming, outgoing, width, bits,
/// commonest class, its use count.
const CELL: usize = 7;

/// An array of fixed size as it is lent, with places beside it that no call
/// may change.
#[derive(Clone, Copy, PartialEq)]
#[repr(C)]
struct Lent<const PLACES: usize> {
    before: [usize; 4],
    array: [usize; PLACES],
    after: [usize; 4],
}

impl<const PLACES: usize> Lent<PLACES> {
    const PATTERN: Self = Lent {
        before: [COUNT; 4],
        array: [COUNT; PLACES],
        after: [COUNT; 4],
    };

    /// The entries of an answer, so many; the places past the last one hold 0.
    fn entries(&self, count: usize) -> &[usize] {
        assert_eq!((self.before, self.after), ([COUNT; 4], [COUNT; 4]));
        let (entries, rest) = self.array.split_at(count);
        assert!(rest.iter().all(|&place| place == 0), "{:?}", self.array);
        entries
    }
}

fn cells(row: &Lent<84>, count: usize) -> Vec<Cell> {
    let cell = |numbers: &[usize]| Cell {
        group: numbers[0],
        incoming: numbers[1],
        outgoing: numbers[2],
        width: numbers[3],
        bits: numbers[4],
        commonest: numbers[5],
        uses: numbers[6],
    };
    row.entries(CELL * count).chunks(CELL).map(cell).collect()
}

pub fn plan(n: usize, table: &[i32], limit: usize) -> Result<Planned, Refusal> {
    let pattern = (Lent::PATTERN, Lent::PATTERN, COUNT, COUNT);
    let (mut sizes, mut row, mut count, mut bits) = pattern;
    let number = proved::plan(
        n,
        table,
        limit,
        &mut sizes.array,
        &mut row.array,
        &mut count,
        &mut bits,
    );
    answer(number, (), (sizes, row, count, bits), pattern)?;
    Ok(Planned {
        sizes: sizes.entries(count).to_vec(),
        cells: cells(&row, count),
        bits,
    })
}

pub fn reach(n: usize, table: &[i32], limit: usize) -> Result<Reached, Refusal> {
    let pattern = (Lent::PATTERN, COUNT, COUNT);
    let (mut cuts, mut count, mut least) = pattern;
    let number = proved::reach(n, table, limit, &mut cuts.array, &mut count, &mut least);
    answer(number, (), (cuts, count, least), pattern)?;
    Ok(Reached {
        cuts: cuts.entries(count).to_vec(),
        least,
    })
}

pub fn compile(
    n: usize,
    table: &[i32],
    limit: usize,
    image: &mut [u8],
) -> Result<Compiled, Refusal> {
    let pattern = (Lent::PATTERN, COUNT, COUNT, COUNT, COUNT);
    let (mut row, mut length, mut nodes, mut count, mut bits) = pattern;
    let number = proved::compile(
        n,
        table,
        limit,
        image,
        &mut row.array,
        &mut length,
        &mut nodes,
        &mut count,
        &mut bits,
    );
    answer(number, (), (row, length, nodes, count, bits), pattern)?;
    Ok(Compiled {
        length,
        nodes,
        cells: cells(&row, count),
        bits,
    })
}

pub fn sum(n: usize, weights: &[i32], table: &mut [i32]) -> Result<(), Refusal> {
    answer(proved::sum(n, weights, table), (), (), ())
}

pub fn remainder(n: usize, weights: &[i32], q: usize, table: &mut [i32]) -> Result<(), Refusal> {
    answer(proved::remainder(n, weights, q, table), (), (), ())
}
