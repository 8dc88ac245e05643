//! The classes of all cuts, row by row.

use panstrait_compare::proved;
use panstrait_reference as reference;
use panstrait_samples::{cases, tables, Random};
use std::ops::Range;

/// What the rows are filled with before a call, and the places beside each.
const PLACE: usize = 0x5EED_1234_5678;
const MARGIN: [usize; 4] = [PLACE; 4];

/// The rows in the order of the C interface: each block's class, each class's
/// first block, the counts, how many classes each block's search tried, the uses
/// of its class up to it, and each class's use count.
type Rows = [Vec<usize>; 6];

/// The rows with a place for every block.
const BLOCK_ROWS: [usize; 5] = [0, 1, 3, 4, 5];

fn patterned(sizes: [usize; 6]) -> Rows {
    sizes.map(|size| vec![PLACE; size])
}

/// A row within its margins.
fn inner(row: &mut [usize]) -> &mut [usize] {
    let end = row.len() - MARGIN.len();
    &mut row[MARGIN.len()..end]
}

/// The answer to a call with these rows, which leaves the places beside them.
fn call(n: usize, table: &[i32], rows: &mut Rows) -> bool {
    let mut lent = rows
        .clone()
        .map(|row| [&MARGIN, &row[..], &MARGIN].concat());
    let [classes, firsts, counts, tried, uses, use_counts] = &mut lent;
    let answer = proved::classes(
        n,
        table,
        inner(classes),
        inner(firsts),
        inner(counts),
        inner(tried),
        inner(uses),
        inner(use_counts),
    );
    *rows = lent.map(|mut row| {
        assert!(row.starts_with(&MARGIN) && row.ends_with(&MARGIN), "n {n}");
        inner(&mut row).to_vec()
    });
    answer
}

/// The places of the blocks of all cuts.
fn places(n: usize) -> usize {
    (2 << n) - 1
}

/// The places of the blocks of one cut.
fn cut_places(cut: usize) -> Range<usize> {
    (1 << cut) - 1..(2 << cut) - 1
}

fn sizes(n: usize) -> [usize; 6] {
    let blocks = places(n);
    [blocks, blocks, n + 1, blocks, blocks, blocks]
}

/// The rows by the second program, cut by cut.
fn expected(n: usize, table: &[i32]) -> Rows {
    let mut rows = patterned([0; 6]);
    for cut in 0..=n {
        let classes = reference::classes(n, table, cut);
        let count = classes.iter().max().map_or(0, |most| most + 1);
        let first = |class| classes.iter().position(|&c| c == class);
        let mut firsts: Vec<usize> = (0..count).filter_map(first).collect();
        firsts.resize(classes.len(), 0);
        let mut use_counts = reference::use_counts(n, table, cut);
        use_counts.resize(classes.len(), 0);
        rows[0].extend(classes);
        rows[1].extend(firsts);
        rows[2].push(count);
        rows[3].extend(reference::tried(n, table, cut));
        rows[4].extend(reference::uses(n, table, cut));
        rows[5].extend(use_counts);
    }
    rows
}

/// The rows by the proved library.
fn answered(n: usize, table: &[i32]) -> Rows {
    let mut rows = patterned(sizes(n));
    assert!(call(n, table, &mut rows), "n {n}");
    rows
}

fn same_rows(n: usize, table: &[i32]) {
    assert!(answered(n, table) == expected(n, table), "n {n}: {table:?}");
}

#[test]
fn no_variables() {
    for value in [0, 7, i32::MIN, i32::MAX] {
        same_rows(0, &[value]);
    }
}

#[test]
fn structured_tables() {
    for n in 1..=12 {
        for table in tables::structured(n) {
            same_rows(n, &table);
        }
    }
}

#[test]
fn tables_that_are_hard_to_tell_apart() {
    for n in 1..=12 {
        for table in tables::adversarial(n) {
            same_rows(n, &table);
        }
    }
}

/// With uses of the first class, of the last and of the last two.
#[test]
fn more_than_256_classes() {
    same_rows(12, &tables::many_classes());
    same_rows(12, &tables::last_class_commonest());
    same_rows(12, &tables::last_two_classes_commonest());
}

#[test]
fn random_tables() {
    let mut random = Random(3);
    for n in 1..=12 {
        for _ in 0..if n < 9 { 300 } else { 40 } {
            same_rows(n, &tables::random(n, &mut random));
            same_rows(n, &tables::wandering(n, &mut random));
            same_rows(n, &tables::contested(n, &mut random));
        }
    }
}

/// All tables of four small values, and of eight bits.
#[test]
fn all_small_tables() {
    for code in 0..4_usize.pow(4) {
        same_rows(2, &tables::of(2, |x| (code >> (2 * x) & 3) as i32));
    }
    for code in 0..1_usize << 8 {
        same_rows(3, &tables::of(3, |x| (code >> x & 1) as i32));
    }
}

/// Each block's class, how many classes were tried for it and its uses so far,
/// and each class's use count.
#[test]
fn searches_worked_out_by_hand() {
    for case in cases::searches() {
        let [classes, _, _, tried, uses, use_counts] = answered(case.n, &case.table);
        let at_cut = |row: Vec<usize>| row[cut_places(case.cut)].to_vec();
        let mut expected = case.use_counts.clone();
        expected.resize(1 << case.cut, 0);
        assert_eq!(at_cut(classes), case.classes(), "{}", case.name);
        assert_eq!(at_cut(tried), case.tried(), "{}", case.name);
        assert_eq!(at_cut(uses), case.uses(), "{}", case.name);
        assert_eq!(at_cut(use_counts), expected, "{}", case.name);
    }
}

/// Every row of classes that 1, 2, 4 and 8 blocks can have.
#[test]
fn all_rows_of_few_classes() {
    for cut in 0..=3 {
        for row in tables::class_rows(1 << cut) {
            same_rows(cut + 1, &tables::of_classes(1, &row));
        }
    }
}

/// All known classes are tried at every block of a cut, and none at the first
/// block of the next cut; half of the blocks use the last two.
#[test]
fn the_last_two_classes_alternate() {
    for n in 3..=12 {
        for height in 1..=n - 2 {
            let table = tables::alternating_last_classes(n, height);
            same_rows(n, &table);
            let [.., tried, uses, use_counts] = answered(n, &table);
            let cut = n - height;
            let known = 1 << (cut - 1);
            assert_eq!(tried[cut_places(cut)][known..], vec![known; known]);
            assert_eq!(tried[cut_places(cut + 1)][0], 0);
            assert_eq!(uses[cut_places(cut)][2 * known - 1], 1 + known / 2);
            assert_eq!(uses[cut_places(cut + 1)][0], 1);
            let last_two = &use_counts[cut_places(cut)][known - 2..known];
            assert_eq!(last_two, [1 + known / 2; 2]);
        }
    }
}

/// By the answers alone: every class of a cut is used, no other is, and all uses
/// are the cut's blocks.
#[test]
fn use_counts_sum_to_the_blocks() {
    for n in 0..=12 {
        for table in [vec![0; 1 << n], tables::all_different(n)] {
            let [_, _, counts, _, _, use_counts] = answered(n, &table);
            for (cut, &count) in counts.iter().enumerate() {
                let (used, rest) = use_counts[cut_places(cut)].split_at(count);
                assert!(used.iter().all(|&uses| uses > 0), "n {n}, cut {cut}");
                assert!(rest.iter().all(|&uses| uses == 0), "n {n}, cut {cut}");
                assert_eq!(used.iter().sum::<usize>(), 1 << cut, "n {n}");
            }
        }
    }
}

/// Neither at the cut whose blocks are moved nor at a cut below it.
#[test]
fn other_offsets_change_nothing() {
    let mut random = Random(6);
    for n in 1..=10 {
        for _ in 0..10 {
            let table = tables::wandering(n, &mut random);
            let rows = answered(n, &table);
            for cut in 0..=n {
                let moved = answered(n, &tables::moved_blocks(n, &table, cut, &mut random));
                let from = cut_places(cut).start;
                for row in BLOCK_ROWS {
                    assert!(moved[row][from..] == rows[row][from..], "{table:?}");
                }
                assert_eq!(moved[2][cut..], rows[2][cut..]);
            }
        }
    }
}

/// Rows that are full of one number, that count, and that have the answer for
/// another table.
#[test]
fn what_the_rows_held_changes_nothing() {
    let mut random = Random(7);
    for n in 1..=10 {
        let table = tables::wandering(n, &mut random);
        let expected = expected(n, &table);
        let mut held: Vec<Rows> = [0, 1, n, usize::MAX]
            .map(|number| sizes(n).map(|size| vec![number; size]))
            .into();
        held.push(sizes(n).map(|size| (0..size).collect()));
        held.push(answered(n, &tables::all_different(n)));
        for mut rows in held {
            assert!(call(n, &table, &mut rows), "n {n}");
            assert!(rows == expected, "n {n}: {table:?}");
        }
    }
}

/// Differences that are equal only modulo 2^32 are not equal.
#[test]
fn differences_beyond_32_bits() {
    same_rows(2, &[i32::MIN, i32::MAX, 0, -1]);
    same_rows(2, &[i32::MAX, i32::MIN, -1, 0]);
    let mut random = Random(4);
    for n in 1..=12 {
        for _ in 0..20 {
            let extremes = [i32::MIN, -1, 0, i32::MAX];
            same_rows(n, &tables::of(n, |_| extremes[random.below(4)]));
            same_rows(n, &tables::of(n, |_| random.number() as i32));
        }
    }
}

/// A call with these sizes answers false and leaves the rows.
fn refused(n: usize, values: usize, sizes: [usize; 6]) {
    let table = vec![5; values];
    let mut rows = patterned(sizes);
    assert!(!call(n, &table, &mut rows), "n {n}, {values}, {sizes:?}");
    assert!(rows == patterned(sizes), "n {n}, {values}, {sizes:?}");
}

/// The table and the rows, each of the right size or of a wrong one: one less,
/// one more, none, and another's size. All are refused but where each is right.
/// Above two variables no more than two are wrong at once.
#[test]
fn wrong_sizes() {
    for n in 0..=12 {
        let (values, places) = (1 << n, places(n));
        let tables = [values, values - 1, values + 1, 0, 2 * values];
        let blocks = [places, places - 1, places + 1, 0, values];
        let counts = [n + 1, n, n + 2, 0, places + 1];
        let choices = [blocks, blocks, counts, blocks, blocks, blocks];
        for code in 1..5_usize.pow(7) {
            let digit = |place: usize| code / 5_usize.pow(place as u32) % 5;
            let wrong = (0..7).filter(|&place| digit(place) != 0).count();
            if n > 2 && wrong > 2 {
                continue;
            }
            let rows = [0, 1, 2, 3, 4, 5].map(|row| choices[row][digit(row)]);
            let values = tables[digit(6)];
            if (values, rows) != (1 << n, sizes(n)) {
                refused(n, values, rows);
            }
        }
    }
}

#[test]
fn too_many_variables() {
    for n in [13, 14, 31, 32, 62, 63, 64, 65, 1 << 32, usize::MAX] {
        refused(n, 0, [0; 6]);
        refused(n, 1, [1; 6]);
        refused(n, 4_096, sizes(12));
    }
    refused(13, 8_192, sizes(13));
    for n in cases::WRAPPED_3 {
        for values in [8, 0, 1, 16] {
            refused(n, values, sizes(3));
        }
    }
}
