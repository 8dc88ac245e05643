//! Many tables through all operations, and against the definitions.

mod common;

use common::*;
use panstrait_reference::*;
use panstrait_samples::*;

/// Every X, or for large n a spread of them with both ends.
fn inputs(n: usize) -> Vec<usize> {
    let step = if n > 9 { 37 } else { 1 };
    let mut inputs: Vec<usize> = (0..1 << n).step_by(step).collect();
    inputs.push((1 << n) - 1);
    inputs
}

fn check_diagram(n: usize, table: &[i32]) {
    let (answer, records) = built(n, table);
    assert_eq!(records, oracle::records(n, table));
    assert_eq!(answer.offset, table[0]);
    assert_eq!(answer.nodes, records.len() / RECORD + 1);
    for x in inputs(n) {
        assert_eq!(walk(n, answer.offset, &records, x), Ok(table[x]));
    }
    check_reports(n, table, &records);
    for p in [0, 1, 2, 3, 7, 100, 1 << 24, u64::MAX] {
        for l in 1..=n {
            assert!(answer.nodes as i128 <= node_bound(n, table, p, l));
        }
    }
}

/// The whole domain and its halves.
fn check_reports(n: usize, table: &[i32], records: &[i32]) {
    let (middle, last) = ((1 << n) / 2, (1 << n) - 1);
    for (a, b) in [(0, last), (0, middle - 1), (middle, last)] {
        let expected = oracle::numbers(&table[a..=b]);
        assert_eq!(reported(n, table[0], records, a, b), Ok(expected));
    }
}

/// Plan and Compile against the dynamic programme, for every limit.
fn check_groupings(n: usize, table: &[i32]) {
    let cascade = Cascade::new(n, table);
    let costs = cascade.costs();
    let mut last = None;
    for limit in 1..=12 {
        let expected = cascade.chosen(&costs, limit);
        let planned = plan(n, table, limit);
        if let Some((bits, sizes)) = &expected {
            let planned = planned.expect("a grouping fits");
            assert_eq!((planned.bits, &planned.sizes), (*bits, sizes));
            assert_eq!(commonest(&planned.cells), cascade.commonest(sizes));
            if last != expected {
                check_image(n, table, limit, &planned, cascade.draft(sizes));
            }
        } else {
            assert_eq!(planned, Err(9));
        }
        last = expected;
    }
    assert!(last.is_some(), "one cell always fits limit 12");
}

fn check_image(n: usize, table: &[i32], limit: usize, planned: &Planned, draft: Draft) {
    let (answer, image) = compiled(n, table, limit).expect("a grouping fits");
    assert!(image == draft.bytes());
    assert_eq!(answer.length, image.len());
    assert_eq!((&answer.cells, answer.bits), (&planned.cells, planned.bits));
    assert_eq!(answer.nodes, built(n, table).0.nodes);
    assert_eq!(planned.cells.len(), draft.cells.len());
    for (cell, drafted) in planned.cells.iter().zip(&draft.cells) {
        assert_eq!(cell.group, usize::from(drafted.group));
        assert_eq!(cell.incoming, usize::from(drafted.incoming));
        assert_eq!(cell.outgoing, usize::from(drafted.outgoing));
        assert_eq!(cell.width, usize::from(drafted.width));
        assert_eq!(cell.bits, drafted.bits() as usize);
    }
    let mut expanded = vec![NUMBER; 1 << n];
    assert_eq!(expand(&image, &mut expanded), Ok(()));
    assert!(expanded == table);
    for x in inputs(n) {
        let (value, words) = (table[x], planned.cells.len());
        assert_eq!(run(&image, x), Ok(Ran { value, words }));
    }
}

fn check(n: usize, table: &[i32]) {
    check_diagram(n, table);
    check_groupings(n, table);
}

#[test]
fn all_tables_of_one_and_two_variables_over_few_values() {
    for code in 0..7 * 7 {
        check(1, &[code % 7 - 3, code / 7 - 3]);
    }
    for code in 0..5 * 5 * 5 * 5 {
        check(
            2,
            &[
                code % 5 - 2,
                code / 5 % 5 - 2,
                code / 25 % 5 - 2,
                code / 125 - 2,
            ],
        );
    }
}

#[test]
fn structured_tables() {
    for n in 1..=12 {
        for table in tables::structured(n) {
            check(n, &table);
        }
    }
}

#[test]
fn tables_by_signs() {
    for n in 1..=12 {
        for table in signs::all(n) {
            check(n, &table);
        }
    }
}

/// The signs of a cell's weights: is some weight negative, is some positive?
fn cell_signs(cell: &DraftCell) -> (bool, bool) {
    let some = |holds: fn(i32) -> bool| cell.words.iter().any(|word| holds(word.1));
    (some(|weight| weight < 0), some(|weight| weight > 0))
}

/// The chosen cells of the tables by signs have the signs that they should.
#[test]
fn signs_of_chosen_cells() {
    let cells = |n: usize, table: &[i32]| {
        let sizes = plan(n, table, 12).unwrap().sizes;
        Cascade::new(n, table).draft(&sizes).cells
    };
    for n in 1..=12 {
        for table in signs::rising(n) {
            assert!(cells(n, &table).iter().all(|cell| !cell_signs(cell).0));
        }
        for table in signs::falling(n) {
            assert!(cells(n, &table).iter().all(|cell| !cell_signs(cell).1));
        }
        let both_kinds = |table: &Vec<i32>| {
            let signs: Vec<(bool, bool)> = cells(n, table).iter().map(cell_signs).collect();
            signs.contains(&(false, true)) && signs.iter().any(|cell| cell.0)
        };
        let mixed = signs::mixed(n);
        let count = mixed.iter().filter(|table| both_kinds(table)).count();
        assert_eq!(count, [0, 4, 5, mixed.len()][n.min(4) - 1]);
    }
}

#[test]
fn tables_at_the_borders_of_widths() {
    for (table, weight) in signs::pairs_at_borders().iter().zip(signs::borders()) {
        let planned = plan(1, table, 1).unwrap();
        assert_eq!(planned.cells[0].width, oracle::width([weight]));
        check_groupings(1, table);
    }
    for table in signs::fours_at_borders() {
        check_groupings(2, &table);
    }
}

#[test]
fn random_small_tables() {
    let mut random = Random(1);
    for n in 1..=7 {
        for _ in 0..300 {
            check(n, &tables::random(n, &mut random));
        }
    }
}

#[test]
fn random_middling_tables() {
    let mut random = Random(2);
    for n in 8..=10 {
        for _ in 0..40 {
            check(n, &tables::random(n, &mut random));
        }
    }
}

#[test]
fn random_large_tables() {
    let mut random = Random(3);
    for n in 11..=12 {
        for _ in 0..20 {
            check(n, &tables::random(n, &mut random));
        }
    }
}

#[test]
fn equal_costs_occur_and_are_settled() {
    let mut random = Random(5);
    let mut ties = 0;
    for _ in 0..400 {
        let n = 3 + random.below(3);
        let table = tables::of(n, |_| random.between(-2, 1));
        let cascade = Cascade::new(n, &table);
        let costs = cascade.costs();
        let (bits, sizes) = cascade.chosen(&costs, 12).expect("one cell fits");
        let equals = groupings(n, &costs)
            .into_iter()
            .filter(|(cost, _)| *cost == bits);
        let equals: Vec<Vec<usize>> = equals.map(|(_, sizes)| sizes).collect();
        ties += usize::from(equals.len() > 1);
        assert_eq!(equals.iter().max(), Some(&sizes));
        assert_eq!(plan(n, &table, 12).unwrap().sizes, sizes);
    }
    assert!(ties > 0);
}

/// All groupings of the last variables with their costs, first groups first.
fn groupings(n: usize, costs: &[Vec<usize>]) -> Vec<(usize, Vec<usize>)> {
    let cut = costs.len() - n;
    if n == 0 {
        return vec![(0, Vec::new())];
    }
    let mut found = Vec::new();
    for group in 1..=n {
        for (cost, sizes) in groupings(n - group, costs) {
            found.push((cost + costs[cut][group - 1], [vec![group], sizes].concat()));
        }
    }
    found
}
