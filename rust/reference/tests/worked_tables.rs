//! The worked tables of the sources, with what they print about them.

mod common;

use common::*;
use panstrait_reference::*;
use panstrait_samples::*;

/// Build, Walk, Compile, Expand and Run give the table back.
fn round_trip(n: usize, table: &[i32]) {
    let (answer, records) = built(n, table);
    let (_, image) = compiled(n, table, 12).unwrap();
    let mut expanded = vec![NUMBER; 1 << n];
    assert_eq!(expand(&image, &mut expanded), Ok(()));
    assert_eq!(expanded, table);
    for (x, &value) in table.iter().enumerate() {
        assert_eq!(walk(n, answer.offset, &records, x), Ok(value));
        assert_eq!(run(&image, x).map(|ran| ran.value), Ok(value));
    }
}

/// Document 000, example 3: the cascade of figure 6(b) has the same cells, and
/// its weights are unsigned.
#[test]
fn segment_index_cascade() {
    round_trip(4, &FIGURE);
    let printed = [4 * 4, 4 * 2, 4];
    let planned = plan(4, &FIGURE, 4).unwrap();
    let bits: Vec<usize> = planned.cells.iter().map(|cell| cell.bits).collect();
    assert_eq!(bits, printed);
    assert_eq!(planned.bits, 28);
}

/// Document 002, table 1(a): the norm in quarters, rounded.
#[test]
fn norm_values() {
    for (z, &value) in NORM.iter().enumerate() {
        let (x, y) = ((z / 4) as f64 / 4.0, (z % 4) as f64 / 4.0);
        assert_eq!((4.0 * x.hypot(y)).round() as i32, value);
    }
}

#[test]
fn norm_diagram() {
    round_trip(4, &NORM);
    let (answer, records) = built(4, &NORM);
    let expected = [
        [0, 0, 0, 1, 0, 1],
        [1, 1, 1, 2, 0, 3],
        [1, 0, 1, 1, 0, 2],
        [1, 0, 0, 1, 0, 1],
        [2, 2, 3, 1, 0, 3],
        [2, 3, 4, 1, 0, 2],
        [3, 5, 6, 2, 0, 4],
    ];
    assert_eq!(records, expected.concat());
    assert_eq!((answer.nodes, answer.offset), (8, 0));
    // Example 2 evaluates at X = (10), Y = (10).
    assert_eq!(walk(4, 0, &records, 0b1010), Ok(3));
}

/// Document 002, table 4: the first eight edges part at cut 3. Its next node
/// 8 is class 0, and its terminal is class 1.
#[test]
fn norm_memory_data() {
    let next_node = [8, 8, 0, 8, 0, 8, 0, 0];
    let edge_weight = [0, 2, 1, 2, 2, 3, 3, 4];
    let at_cut = classes(4, &NORM, 3);
    for edge in 0..8 {
        assert_eq!(at_cut[edge] == 0, next_node[edge] == 8);
        assert_eq!(NORM[2 * edge] - NORM[0], edge_weight[edge]);
    }
    // The edges at 8 and 9.
    let (_, records) = built(4, &NORM);
    assert_eq!(records[..RECORD], [0, 0, 0, 1, 0, 1]);
}

/// Document 002, theorem 1 at the largest l it admits for 4 bits and p 1;
/// by example 4 its rises within columns keep to it, whatever lies between.
#[test]
fn norm_bound() {
    let restricted = (1 << 3) + 2 - 1;
    assert!(built(4, &NORM).0.nodes <= restricted);
    // The bound here counts the three falls from column to column as well.
    assert_eq!(node_bound(4, &NORM, 1, 1), restricted as i128 + 3);
}

/// Document 002, example 3: bounds for 16 bits and no transition point.
#[test]
fn printed_bounds() {
    let flat = vec![0; 1 << 16];
    assert_eq!(node_bound(16, &flat, 1, 3), 8_327);
    assert_eq!(node_bound(16, &flat, 3, 2), 16_450);
}

/// Documents 001 and 002, corollary 1: a multiple and a shift keep the count.
#[test]
fn affine_tables_have_equal_node_counts() {
    for table in [FIGURE, NORM] {
        for (a, b) in [(1, 9), (-1, 0), (3, -5), (-1_000, 77)] {
            let affine: Vec<i32> = table.iter().map(|v| a * v + b).collect();
            assert_eq!(built(4, &affine).0.nodes, built(4, &table).0.nodes);
        }
    }
}

/// Document 004, table III: rows by (x3, x4), columns by (x0, x1, x2).
const CHART: [[i32; 8]; 4] = [
    [0, 3, 2, 5, 1, 4, 3, 6],
    [5, 8, 7, 10, 6, 9, 8, 11],
    [4, 7, 6, 9, 5, 8, 7, 10],
    [9, 12, 11, 14, 10, 13, 12, 15],
];

/// The X of a chart entry: a label's leftmost bit is its lowest variable.
fn chart_input(row: usize, column: usize) -> usize {
    let bit = |label: usize, place: usize| label >> place & 1;
    bit(column, 2) | bit(column, 1) << 1 | bit(column, 0) << 2 | bit(row, 1) << 3 | bit(row, 0) << 4
}

#[test]
fn weighted_sum() {
    let table = tables::weighted_sum(0, &[1, 2, 3, 4, 5]);
    for (row, values) in CHART.iter().enumerate() {
        for (column, &value) in values.iter().enumerate() {
            assert_eq!(table[chart_input(row, column)], value);
        }
    }
    round_trip(5, &table);
    for cut in 0..=5 {
        assert_eq!(classes(5, &table, cut), vec![0; 1 << cut]);
    }
    let (answer, records) = built(5, &table);
    assert_eq!(answer.nodes, 6);
    for (variable, record) in records.chunks(RECORD).enumerate() {
        let v = variable as i32;
        let sum = (v + 1) * (v + 2) / 2;
        assert_eq!(record, [v, v, v, v + 1, 0, sum]);
    }
}

/// Document 001, table 1: 3 bits of exponent and 4 of mantissa, no sign.
fn floating_point(code: i32) -> f64 {
    let (exponent, mantissa) = (code >> 4, f64::from(code & 15) / 16.0);
    match exponent {
        0 => mantissa / 4.0,
        _ => (1.0 + mantissa) * 2_f64.powi(exponent - 3),
    }
}

/// Document 001, table 2(a) and (b): the same values as numbers and as bits.
#[test]
fn square_root_values() {
    let numbers = [
        0.000000, 0.125000, 0.171875, 0.218750, 0.250000, 0.281250, 0.312500, 0.328125,
    ];
    let bits = [
        0b0000_0000,
        0b0000_1000,
        0b0000_1011,
        0b0000_1110,
        0b0001_0000,
        0b0001_0010,
        0b0001_0100,
        0b0001_0101,
    ];
    assert_eq!(ROOT, bits);
    for (x, &code) in ROOT.iter().enumerate() {
        assert_eq!(floating_point(code), numbers[x]);
        let exact = floating_point(x as i32).sqrt();
        assert!((exact - numbers[x]).abs() <= 1.0 / 128.0);
    }
}

#[test]
fn square_root_diagram() {
    round_trip(3, &ROOT);
    let (answer, records) = built(3, &ROOT);
    let expected = [
        [0, 0, 0, 8, 0, 8],
        [0, 0, 0, 3, 0, 3],
        [0, 0, 0, 2, 0, 2],
        [0, 0, 0, 1, 0, 1],
        [1, 1, 2, 11, 0, 14],
        [1, 3, 4, 4, 0, 5],
        [2, 5, 6, 16, 0, 21],
    ];
    assert_eq!(records, expected.concat());
    assert_eq!(answer.nodes, 8);
    // Theorem 1 with p 3, where the first step is the only transition point.
    for (l, bound) in [(1, 4 + 4), (2, 2 + 4 + 64), (3, 1 + 4 + 64 + 16_384)] {
        assert_eq!(node_bound(3, &ROOT, 3, l), bound);
    }
}
