//! How many blocks use a class, and the commonest class where a cell ends.

mod common;

use common::*;
use panstrait_reference::*;
use panstrait_samples::*;

#[test]
fn uses_worked_out_by_hand() {
    for case in cases::searches() {
        let (n, table, cut, name) = (case.n, &case.table, case.cut, case.name);
        assert_eq!(uses(n, table, cut), case.uses(), "{name}");
        assert_eq!(use_counts(n, table, cut), case.use_counts, "{name}");
    }
}

#[test]
fn no_variables() {
    for value in [0, LEAST, i32::MIN, i32::MAX] {
        assert_eq!(uses(0, &[value], 0), [1]);
        assert_eq!(use_counts(0, &[value], 0), [1]);
    }
}

/// Every class of a cut is used, and all its uses are its blocks.
#[test]
fn use_counts_sum_to_the_blocks() {
    let check = |n: usize, table: &[i32], cut: usize| {
        let counts = use_counts(n, table, cut);
        let classes = 1 + *classes(n, table, cut).iter().max().expect("a block");
        assert_eq!(counts.len(), classes);
        assert!(counts.iter().all(|&uses| uses > 0), "{counts:?}");
        assert_eq!(counts.iter().sum::<usize>(), 1 << cut);
    };
    for_each_cut(101, check);
    for n in 9..=12 {
        for table in tables::all(n, &mut Random(102), 10) {
            (0..=n).for_each(|cut| check(n, &table, cut));
        }
    }
}

/// The uses of a class are 1, 2 and so on, up to its use count.
#[test]
fn uses_rise_by_one() {
    for_each_cut(103, |n, table, cut| {
        let (classes, uses) = (classes(n, table, cut), uses(n, table, cut));
        for (class, count) in use_counts(n, table, cut).into_iter().enumerate() {
            let of_class = classes.iter().zip(&uses).filter(|of| *of.0 == class);
            assert!(of_class.map(|of| *of.1).eq(1..=count), "class {class}");
        }
    });
}

/// Every row of classes that 1, 2, 4 and 8 blocks can have.
#[test]
fn all_rows_of_few_classes() {
    for cut in 0..=3 {
        for row in tables::class_rows(1 << cut) {
            for height in 1..=3 {
                let (n, table) = (cut + height, tables::of_classes(height, &row));
                assert_eq!(uses(n, &table, cut), oracle::uses(&row), "{row:?}");
                let counts = use_counts(n, &table, cut);
                assert_eq!(counts, oracle::use_counts(&row), "{row:?}");
            }
        }
    }
}

#[test]
fn uses_by_the_classes_alone() {
    let mut random = Random(104);
    for n in 1..=12 {
        let mut tables = tables::all(n, &mut random, 20);
        tables.extend((0..20).map(|_| tables::wandering(n, &mut random)));
        for table in tables {
            for cut in 0..=n {
                let classes = classes(n, &table, cut);
                assert!(uses(n, &table, cut) == oracle::uses(&classes));
                assert_eq!(use_counts(n, &table, cut), oracle::use_counts(&classes));
            }
        }
    }
}

/// All zeros, and values at the ends of the range.
#[test]
fn one_class() {
    for n in 1..=12 {
        let constants = [0, LEAST, GREATEST].map(|value| vec![value; 1 << n]);
        let alternating = tables::of(n, |x| [LEAST, GREATEST][x % 2]);
        for table in constants.iter().chain([&alternating]) {
            for cut in 0..=n {
                assert!(uses(n, table, cut).into_iter().eq(1..=1 << cut));
                assert_eq!(use_counts(n, table, cut), [1 << cut]);
            }
        }
    }
}

/// Each class above single values has one block, and at single values there is
/// one class.
#[test]
fn all_classes_different() {
    for n in 1..=12 {
        let table = tables::all_different(n);
        for cut in 0..n {
            assert_eq!(uses(n, &table, cut), vec![1; 1 << cut]);
            assert_eq!(use_counts(n, &table, cut), vec![1; 1 << cut]);
        }
        assert!(uses(n, &table, n).into_iter().eq(1..=1 << n));
        assert_eq!(use_counts(n, &table, n), [1 << n]);
    }
}

/// Half of the blocks are of new classes, the rest of the last two.
#[test]
fn the_last_two_classes_alternate() {
    for height in 1..=10 {
        let cut = 12 - height;
        let half = 1 << (cut - 1);
        let table = tables::alternating_last_classes(12, height);
        let mut expected = vec![1; half];
        expected[half - 2..].fill(1 + half / 2);
        assert_eq!(use_counts(12, &table, cut), expected);
        let later = (0..half).map(|block| 2 + block / 2);
        assert!(uses(12, &table, cut)[half..].iter().copied().eq(later));
    }
}

/// Neither at the cut whose blocks are moved nor at a cut below it.
#[test]
fn other_offsets_change_nothing() {
    let mut random = Random(105);
    for_each_cut(106, |n, table, cut| {
        let moved = tables::moved_blocks(n, table, cut, &mut random);
        for cut in cut..=n {
            assert_eq!(uses(n, &moved, cut), uses(n, table, cut));
            assert_eq!(use_counts(n, &moved, cut), use_counts(n, table, cut));
        }
    });
}

/// Differences that are equal only modulo 2^32 are not equal.
#[test]
fn differences_beyond_32_bits() {
    let table = [i32::MIN, i32::MAX, 0, -1, i32::MIN, i32::MAX, i32::MAX, 0];
    assert_eq!(uses(3, &table, 2), [1, 1, 2, 1]);
    assert_eq!(use_counts(3, &table, 2), [2, 1, 1]);
}

/// Plan's answers for many tables within every limit.
fn for_each_plan(seed: u64, mut check: impl FnMut(usize, &[i32], Planned)) {
    let mut within_limits = |n: usize, table: &[i32]| {
        let plans = (1..=12).filter_map(|limit| plan(n, table, limit).ok());
        plans.for_each(|planned| check(n, table, planned));
    };
    for_each_table(seed, &mut within_limits);
    let mut random = Random(seed);
    for n in 3..=8 {
        for _ in 0..150 {
            within_limits(n, &tables::contested(n, &mut random));
        }
    }
}

#[test]
fn the_last_cell_ends_with_one_class() {
    for_each_plan(107, |n, _, planned| {
        let last = planned.cells.last().expect("a cell");
        assert_eq!((last.commonest, last.uses), (0, 1 << n));
    });
}

/// No class has more uses, and none of the smaller numbers has as many. In many
/// ties class 0 takes part, and in many it does not.
#[test]
fn the_smallest_class_on_a_tie() {
    let mut ties = [0, 0];
    for_each_plan(108, |n, table, planned| {
        let mut cut = 0;
        for cell in planned.cells {
            cut += cell.group;
            let counts = use_counts(n, table, cut);
            let (before, from) = counts.split_at(cell.commonest);
            assert_eq!(from[0], cell.uses);
            assert!(before.iter().all(|&uses| uses < cell.uses), "{counts:?}");
            assert!(from.iter().all(|&uses| uses <= cell.uses), "{counts:?}");
            let tie = from[1..].contains(&cell.uses);
            ties[usize::from(cell.commonest > 0)] += usize::from(tie);
        }
    });
    assert!(ties.iter().all(|&count| count > 100), "{ties:?}");
}

/// Every row of classes that eight blocks can have, and so every tie.
#[test]
fn all_ties_of_eight_blocks() {
    for row in tables::class_rows(8) {
        let table = tables::of_classes(1, &row);
        for planned in (1..=4).filter_map(|limit| plan(4, &table, limit).ok()) {
            let expected = Cascade::new(4, &table).commonest(&planned.sizes);
            assert_eq!(commonest(&planned.cells), expected, "{row:?}");
        }
    }
}

/// Blocks of the cut are counted: among a cell's words another class is often
/// the commonest.
#[test]
fn blocks_are_counted_and_not_words() {
    let mut others = 0;
    for_each_plan(109, |n, table, planned| {
        let cascade = Cascade::new(n, table);
        let numbers = commonest(&planned.cells);
        assert_eq!(numbers, cascade.commonest(&planned.sizes));
        let draft = cascade.draft(&planned.sizes);
        for (cell, (class, _)) in draft.cells.iter().zip(numbers) {
            let words: Vec<usize> = cell.words.iter().map(|word| word.0.into()).collect();
            others += usize::from(oracle::commonest(&words).0 != class);
        }
    });
    assert!(others > 100, "{others}");
}

#[test]
fn compile_has_the_cells_of_plan() {
    for_each_table(110, |n, table| {
        for limit in 1..=12 {
            let planned = plan(n, table, limit).map(|planned| planned.cells);
            let compiled = compiled(n, table, limit).map(|(answer, _)| answer.cells);
            assert_eq!(compiled, planned, "n {n}, limit {limit}");
        }
    });
}
