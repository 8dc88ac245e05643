//! The paper's checked values, P1 to P10 and those it marks to be run.

mod common;

use common::*;
use panstrait_reference::*;
use panstrait_samples::*;

const FIGURE_CELLS: [cases::ChosenCell; 3] = [
    [2, 1, 2, 3, 16, 0, 2],
    [1, 2, 2, 1, 8, 0, 6],
    [1, 2, 1, 1, 4, 0, 16],
];

#[test]
fn p1_listing() {
    let expected = "table 4 0\n\
                    node 1 0 0 0 1\n\
                    node 2 1 0 1 1\n\
                    node 3 2 0 2 1\n\
                    node 4 2 2 0 3\n\
                    node 5 3 3 4 4\n\
                    nodes 6\n\
                    cell 2 1 2 3 16\n\
                    cell 1 2 2 1 8\n\
                    cell 1 2 1 1 4\n\
                    bits 28\n";
    let printed = listing(&listing_input(4, 4, &FIGURE));
    assert_eq!(String::from_utf8(printed).as_deref(), Ok(expected));
}

#[test]
fn p1_operations() {
    let (answer, records) = built(4, &FIGURE);
    let expected = Built {
        nodes: 6,
        offset: 0,
    };
    assert_eq!(answer, expected);
    assert_eq!(records, cases::FIGURE_RECORDS.concat());
    let (answer, image) = compiled(4, &FIGURE, 4).unwrap();
    assert_eq!(image, figure_draft().bytes());
    assert_eq!((answer.nodes, answer.length), (6, image.len()));
    assert_eq!(fields(&answer.cells), FIGURE_CELLS);
    assert_eq!(answer.bits, 28);
    let planned = plan(4, &FIGURE, 4).unwrap();
    assert_eq!(planned.sizes, [2, 1, 1]);
    assert_eq!((planned.cells, planned.bits), (answer.cells, answer.bits));
}

#[test]
fn p2_same_cells_at_limit_2() {
    let planned = plan(4, &FIGURE, 2).unwrap();
    assert_eq!(planned.sizes, [2, 1, 1]);
    assert_eq!(fields(&planned.cells), FIGURE_CELLS);
    assert_eq!(planned.bits, 28);
}

#[test]
fn p3_no_grouping_at_limit_1() {
    assert_eq!(plan(4, &FIGURE, 1), Err(9));
    assert_eq!(compiled(4, &FIGURE, 1), Err(9));
    assert_eq!(listing(&listing_input(4, 1, &FIGURE)), b"refused 9\n");
}

#[test]
fn p4_image() {
    let expected = [
        0x56, 1, 0, 0, 0, 5, //
        0x43, 1, 0, 1, 0, 1, 2, //
        0x57, 0, 0, 0, 0, 0, 0, //
        0x57, 0, 0, 0, 0, 0, 3, //
        0x45, 0, 0, 0, 4,
    ];
    let mut short = [BYTE; 31];
    assert_eq!(compile(1, &[5, 8], 1, &mut short), Err(10));
    assert_eq!(short, [BYTE; 31]);
    let mut image = [BYTE; 32];
    let answer = compile(1, &[5, 8], 1, &mut image).unwrap();
    assert_eq!((image, answer.length), (expected, 32));
    assert_eq!(image, cases::PAIR_IMAGE);
}

#[test]
fn p5_to_p8_costs() {
    let bits = |table: [i32; 2]| plan(1, &table, 1).unwrap().bits;
    assert_eq!(bits([3, 2]), 2);
    assert_eq!(bits([2, 3]), 2);
    assert_eq!(bits([4, 2]), 4);
    assert_eq!(bits([LEAST, GREATEST]), 48);
}

#[test]
fn costs_of_other_pairs() {
    let bits = |table: [i32; 2]| plan(1, &table, 1).unwrap().bits;
    assert_eq!(bits([5, 8]), 4);
    assert_eq!(bits([GREATEST, LEAST]), 50);
    assert_eq!(bits([7, 7]), 0);
}

#[test]
fn p9_constant() {
    let (answer, _) = compiled(2, &[7; 4], 2).unwrap();
    assert_eq!(fields(&answer.cells), [[2, 1, 1, 0, 0, 0, 4]]);
    assert_eq!((answer.bits, answer.nodes), (0, 1));
    let (answer, records) = built(2, &[7; 4]);
    assert_eq!(answer.nodes, 1);
    assert!(records.is_empty());
}

#[test]
fn p10_bound() {
    assert_eq!(node_bound(4, &FIGURE, 1, 1), 9);
}

#[test]
fn n_12_is_taken_and_13_refused() {
    let table = tables::of(12, |x| (x / 3) as i32);
    let (answer, image) = compiled(12, &table, 12).unwrap();
    assert_eq!(run(&image, 4095).map(|ran| ran.value), Ok(1365));
    let (_, records) = built(12, &table);
    assert_eq!(walk(12, 0, &records, 4095), Ok(1365));
    let planned = plan(12, &table, 12).unwrap();
    assert_eq!((planned.cells, planned.bits), (answer.cells, answer.bits));

    let table = vec![0; 1 << 13];
    let mut nodes = vec![NUMBER; node_numbers(13)];
    assert_eq!(build(13, &table, &mut nodes), Err(1));
    assert_eq!(plan(13, &table, 12), Err(1));
    assert_eq!(compiled(13, &table, 12), Err(1));
    assert_eq!(walk(13, 0, &[], 0), Err(1));
    let of_13 = Draft {
        n: 13,
        ..figure_draft()
    };
    assert_eq!(run(&of_13.bytes(), 0), Err(13));
}

#[test]
fn x_15_and_16() {
    let (_, image) = compiled(4, &FIGURE, 4).unwrap();
    assert_eq!(run(&image, 15), Ok(Ran { value: 7, words: 3 }));
    assert_eq!(run(&image, 16), Err(7));
    let (_, records) = built(4, &FIGURE);
    assert_eq!(walk(4, 0, &records, 15), Ok(7));
    assert_eq!(walk(4, 0, &records, 16), Err(7));
}

#[test]
fn empty_image() {
    assert_eq!(run(&[], 0), Err(11));
    assert_eq!(expand(&[], &mut [NUMBER; 2]), Err(11));
}
