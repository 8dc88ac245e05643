//! Classes, rail widths and the bound, and the traps the paper names.

mod common;

use common::*;
use panstrait_reference::*;
use panstrait_samples::*;

#[test]
fn classes_of_the_figure() {
    let expected: [&[usize]; 5] = [
        &[0],
        &[0, 1],
        &[0, 1, 1, 0],
        &[0, 0, 0, 1, 0, 1, 0, 0],
        &[0; 16],
    ];
    for (cut, expected) in expected.iter().enumerate() {
        assert_eq!(classes(4, &FIGURE, cut), *expected);
    }
}

#[test]
fn classes_by_a_map_of_differences() {
    let mut random = Random(11);
    for n in 1..=9 {
        for _ in 0..30 {
            let table = tables::random(n, &mut random);
            for cut in 0..=n {
                assert_eq!(classes(n, &table, cut), oracle::classes(n, &table, cut));
            }
        }
    }
}

/// Differences that are equal only modulo 2^32 are not equal.
#[test]
fn differences_beyond_32_bits() {
    assert_eq!(classes(2, &[i32::MIN, i32::MAX, 0, -1], 1), [0, 1]);
    let rise = (1 << 32) - 1;
    for (p, jumps) in [(rise - 1, 1), (rise, 0)] {
        let bound = node_bound(1, &[i32::MIN, i32::MAX], p, 1);
        assert_eq!(bound, 1 + i128::from(p) + 1 + (jumps - 1));
    }
}

#[test]
fn one_class_at_the_outer_cuts() {
    for n in 1..=12 {
        let table = tables::of(n, |x| (x * x) as i32);
        assert_eq!(classes(n, &table, 0), [0]);
        assert_eq!(classes(n, &table, n), vec![0; 1 << n]);
    }
}

#[test]
fn rail_widths() {
    let expected = [(1, 0), (2, 1), (3, 2), (4, 2), (5, 3), (8, 3), (9, 4)];
    for (count, width) in expected {
        assert_eq!(rail_width(count), width);
    }
    for count in 1..=4096 {
        let width = rail_width(count);
        assert!(1 << width >= count);
        assert!(width == 0 || 1 << (width - 1) < count);
        assert_eq!(width, oracle::rail(count));
    }
    assert_eq!(rail_width(4096), 12);
    assert_eq!(rail_width(4097), 13);
    assert_eq!(rail_width(usize::MAX), usize::BITS as usize);
}

#[test]
fn bounds_by_hand() {
    // The figure has no fall; its rises over 0 are seven single steps.
    assert_eq!(node_bound(4, &FIGURE, 0, 2), 4 + (1 + 1) + 6 * 2);
    assert_eq!(node_bound(4, &FIGURE, 1, 2), 4 + (2 + 8) - 2);
    assert_eq!(node_bound(4, &FIGURE, 2, 3), 2 + (3 + 27 + 2187) - 3);
    assert_eq!(
        node_bound(1, &[LEAST, GREATEST], 16_777_214, 1),
        1 + 16_777_215
    );
    assert_eq!(node_bound(1, &[LEAST, GREATEST], 16_777_215, 1), 16_777_216);
}

#[test]
fn every_adjacent_pair_counts() {
    // One fall within a block of height 1, one between blocks, one rise of 2.
    let table = [1, 0, 2, 1, 1, 1, 0, 0];
    assert_eq!(node_bound(3, &table, 1, 1), 4 + 2 + 3);
    assert_eq!(node_bound(3, &table, 2, 1), 4 + 3 + 2);
}

#[test]
fn a_fall_is_a_jump_for_every_p() {
    for p in [0, 1, 1 << 63, u64::MAX] {
        assert_eq!(node_bound(1, &[1, 0], p, 1), 1 + i128::from(p) + 1);
    }
}

#[test]
fn bounds_beyond_the_numbers_saturate() {
    let table = tables::of(12, |x| x as i32);
    assert_eq!(node_bound(12, &table, 1, 12), i128::MAX);
    assert_eq!(node_bound(12, &table, u64::MAX, 2), i128::MAX);
    assert_eq!(node_bound(12, &table, u64::MAX, 1), 2048 + (1 << 64) - 1);
    assert_eq!(node_bound(12, &table, 0, 12), 1 + 12 + 4094 * 12);
}

#[test]
fn trap_equal_children_with_a_weight() {
    let (answer, records) = built(2, &[0, 0, 5, 5]);
    assert_eq!(records, [1, 0, 0, 5, 0, 5]);
    assert_eq!(answer.nodes, 2);
    let (_, records) = built(2, &[0, 1, 5, 6]);
    assert_eq!(records, [[0, 0, 0, 1, 0, 1], [1, 1, 1, 5, 0, 6]].concat());
}

#[test]
fn trap_blocks_share_by_differences() {
    assert_eq!(classes(2, &[3, 4, 90, 91], 1), [0, 0]);
    let (answer, _) = built(2, &[3, 4, 90, 91]);
    assert_eq!(answer.nodes, 3);
}

/// The trap is left to cells with a negative weight.
#[test]
fn trap_width_of_4() {
    assert_eq!(weight_width(&[4, -1]), 4);
    assert_eq!(weight_width(&[-1, 4]), 4);
    assert_eq!(weight_width(&[4]), 3);
}

#[test]
fn a_tie_of_a_wide_first_group_and_fewer_cells() {
    let cascade = Cascade::new(4, &cases::TIE);
    let two_cells = cascade.cost(0, 1) + cascade.cost(1, 3);
    let planned = plan(4, &cases::TIE, 4).unwrap();
    assert_eq!((planned.bits, two_cells), (40, 40));
    assert_eq!(planned.sizes, [2, 1, 1]);
}

/// By the older rule, with a bit for a sign in every cell, one cell costs least.
#[test]
fn unsigned_cells_can_move_the_choice() {
    let table = [1, 3, 2, 1, 0, 3, 2, 2];
    let cascade = Cascade::new(3, &table);
    let groupings: [&[usize]; 4] = [&[3], &[2, 1], &[1, 2], &[1, 1, 1]];
    let drafts = groupings.map(|sizes| cascade.draft(sizes));
    assert_eq!(drafts.clone().map(|d| d.bits), [24, 40, 20, 44]);
    assert_eq!(drafts.map(|d| d.older().bits), [24, 40, 28, 48]);
    let planned = plan(3, &table, 3).unwrap();
    assert_eq!((planned.sizes, planned.bits), (vec![1, 2], 20));
}

#[test]
fn cells_worked_out_by_hand() {
    for case in cases::chosen_plans() {
        let planned = plan(case.n, &case.table, case.limit).unwrap();
        assert_eq!(planned.sizes, case.sizes());
        assert_eq!(fields(&planned.cells), case.cells);
        assert_eq!(planned.bits, case.bits());
        let (answer, image) = compiled(case.n, &case.table, case.limit).unwrap();
        assert_eq!((answer.cells, answer.bits), (planned.cells, planned.bits));
        assert_eq!((answer.length, answer.nodes), (case.length(), case.nodes()));
        assert!(image == case.image(), "{:?}", case.cells);
    }
}

#[test]
fn equal_costs_take_the_wider_first_group() {
    for n in 1..=12 {
        for limit in 1..=12 {
            let planned = plan(n, &vec![-1; 1 << n], limit).unwrap();
            let mut left = n;
            for cell in &planned.cells {
                assert_eq!(cell.group, left.min(limit));
                left -= cell.group;
            }
            assert_eq!((left, planned.bits), (0, 0));
        }
    }
}

#[test]
fn records_worked_out_by_hand() {
    for case in cases::diagrams() {
        let (answer, records) = built(case.n, &case.table);
        assert_eq!(records, case.records);
        let nodes = case.records.len() / RECORD + 1;
        assert_eq!((answer.nodes, answer.offset), (nodes, case.table[0]));
    }
}
