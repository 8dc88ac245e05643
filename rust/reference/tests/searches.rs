//! How many classes the search for each block's class tries.

mod common;

use common::*;
use panstrait_reference::*;
use panstrait_samples::*;

/// A search at every block but a cut's first: the classes known before it, the
/// class of the block just before, its own class, and how many were tried.
struct Later {
    known: usize,
    latest: usize,
    class: usize,
    tried: usize,
}

fn later_searches(n: usize, table: &[i32], cut: usize) -> Vec<Later> {
    let (classes, tried) = (classes(n, table, cut), tried(n, table, cut));
    let search = |block: usize| Later {
        known: 1 + classes[..block].iter().max().expect("a block before"),
        latest: classes[block - 1],
        class: classes[block],
        tried: tried[block],
    };
    (1..1 << cut).map(search).collect()
}

#[test]
fn searches_worked_out_by_hand() {
    for case in cases::searches() {
        let name = case.name;
        assert_eq!(classes(case.n, &case.table, case.cut), case.classes());
        assert_eq!(tried(case.n, &case.table, case.cut), case.tried(), "{name}");
    }
}

#[test]
fn a_cut_begins_with_no_class() {
    for value in [0, LEAST, i32::MIN, i32::MAX] {
        assert_eq!(tried(0, &[value], 0), [0]);
    }
    for_each_cut(91, |n, table, cut| {
        let tried = tried(n, table, cut);
        assert_eq!((tried.len(), tried[0]), (1 << cut, 0));
    });
}

#[test]
fn a_new_class_tries_all_known_ones() {
    let mut new = 0;
    for_each_cut(92, |n, table, cut| {
        for search in later_searches(n, table, cut) {
            if search.class == search.known {
                assert_eq!(search.tried, search.known);
                new += 1;
            }
        }
    });
    assert!(new > 1_000);
}

#[test]
fn the_latest_class_is_tried_first() {
    for_each_cut(93, |n, table, cut| {
        for search in later_searches(n, table, cut) {
            let first = search.class == search.latest || search.known == 1;
            assert_eq!(search.tried == 1, first);
        }
    });
}

/// A known class is the last one tried in many of the searches.
#[test]
fn no_class_is_tried_twice() {
    let mut last = 0;
    for_each_cut(94, |n, table, cut| {
        for search in later_searches(n, table, cut) {
            assert!((1..=search.known).contains(&search.tried));
            last += usize::from(search.class < search.known && search.tried == search.known);
        }
    });
    assert!(last > 1_000);
}

/// With 14 known classes: whichever is the latest, and whichever is found.
#[test]
fn the_others_follow_from_class_0_up() {
    for latest in 0..14 {
        let mut order = vec![latest];
        order.extend((0..14).filter(|&class| class != latest));
        for (place, &class) in order.iter().enumerate() {
            let mut row: Vec<usize> = (0..14).collect();
            row.extend([latest, class]);
            let table = tables::of_classes(1, &row);
            assert_eq!(tried(5, &table, 4)[15], place + 1, "{latest}, {class}");
        }
    }
}

/// Every row of classes that 1, 2, 4 and 8 blocks can have.
#[test]
fn all_rows_of_few_classes() {
    for cut in 0..=3 {
        for row in tables::class_rows(1 << cut) {
            for height in 1..=3 {
                let (n, table) = (cut + height, tables::of_classes(height, &row));
                assert_eq!(classes(n, &table, cut), row);
                assert_eq!(tried(n, &table, cut), oracle::tried(&row), "{row:?}");
            }
        }
    }
}

#[test]
fn tried_by_the_classes_alone() {
    let mut random = Random(95);
    for n in 1..=12 {
        let mut tables = tables::all(n, &mut random, 20);
        tables.extend((0..20).map(|_| tables::wandering(n, &mut random)));
        for table in tables {
            for cut in 0..=n {
                let expected = oracle::tried(&classes(n, &table, cut));
                assert!(tried(n, &table, cut) == expected, "cut {cut}: {table:?}");
            }
        }
    }
}

/// One class everywhere, and a new one at every block above single values.
#[test]
fn one_class_and_all_different() {
    for n in 1..=12 {
        for cut in 0..=n {
            let mut one = vec![1; 1 << cut];
            one[0] = 0;
            assert_eq!(tried(n, &tables::of(n, |x| 3 * x as i32), cut), one);
            let all = tried(n, &tables::all_different(n), cut);
            if cut < n {
                assert!(all.into_iter().eq(0..1 << cut));
            } else {
                assert_eq!(all, one);
            }
        }
    }
}

/// All known classes at every block, at each height of 12 variables.
#[test]
fn the_last_two_classes_alternate() {
    for height in 1..=10 {
        let cut = 12 - height;
        let half = 1 << (cut - 1);
        let table = tables::alternating_last_classes(12, height);
        let expected = (0..2 * half).map(|block: usize| block.min(half));
        assert!(tried(12, &table, cut).into_iter().eq(expected));
    }
}

/// Neither at the cut whose blocks are moved nor at a cut below it.
#[test]
fn other_offsets_change_nothing() {
    let mut random = Random(96);
    for_each_cut(97, |n, table, cut| {
        let moved = tables::moved_blocks(n, table, cut, &mut random);
        for cut in cut..=n {
            assert_eq!(tried(n, &moved, cut), tried(n, table, cut));
        }
    });
}

/// Differences that are equal only modulo 2^32 are not equal.
#[test]
fn differences_beyond_32_bits() {
    let table = [i32::MIN, i32::MAX, 0, -1, i32::MIN, i32::MAX, 1, 0];
    assert_eq!(tried(3, &table, 2), [0, 1, 2, 2]);
}
