//! Record lists that are turned away for one reason alone.

use super::{figure_branches, FIGURE_RECORDS};
use crate::lists::with_bounds;
use crate::{MOST_WEIGHT, RECORD};

/// A record list that breaks one rule of refusal 6.
pub struct BrokenList {
    pub name: String,
    pub n: usize,
    pub records: Vec<i32>,
}

impl BrokenList {
    fn of(n: usize, name: &str, records: Vec<i32>) -> BrokenList {
        BrokenList {
            name: name.into(),
            n,
            records,
        }
    }
}

pub fn broken_lists() -> Vec<BrokenList> {
    let mut lists = lists_with_a_broken_branch();
    lists.extend(lists_with_an_untrue_number());
    lists.extend(lists_with_other_untrue_numbers());
    lists.extend(lists_of_a_wrong_length());
    lists
}

/// One number of one of the figure's branches is wrong. The least and greatest
/// are those of the function that the branches say, as far as they say one.
fn lists_with_a_broken_branch() -> Vec<BrokenList> {
    let mut changes = vec![
        // A variable out of range, and one that is not above a child's.
        (1, 0, -1),
        (1, 0, i32::MIN),
        (5, 0, 4),
        (5, 0, i32::MAX),
        (3, 0, 1),
        (4, 0, 1),
        (5, 0, 2),
        (5, 0, 1),
    ];
    for child in [1, 2] {
        let wrong = [(1, 1), (1, -1), (4, 5), (5, 5), (5, 6)];
        changes.extend(wrong.map(|(number, node)| (number, child, node)));
        changes.extend([(5, child, i32::MIN), (4, child, i32::MAX)]);
    }
    for number in 1..=5 {
        let wrong = [MOST_WEIGHT + 1, -MOST_WEIGHT - 1, i32::MIN, i32::MAX];
        changes.extend(wrong.map(|weight| (number, 3, weight)));
    }
    let list = |(number, field, value): (usize, usize, i32)| {
        let mut branches = figure_branches();
        branches[number - 1][field] = value;
        let name = format!("field {field} of record {number} is {value}");
        BrokenList::of(4, &name, with_bounds(&branches))
    };
    changes.into_iter().map(list).collect()
}

/// One of the figure's records has another least or greatest, or the two are
/// exchanged.
fn lists_with_an_untrue_number() -> Vec<BrokenList> {
    let list = |number: usize, [least, greatest]: [i32; 2]| {
        let mut records = FIGURE_RECORDS;
        records[number - 1][4..].copy_from_slice(&[least, greatest]);
        let name = format!("record {number} says {least} and {greatest}");
        BrokenList::of(4, &name, records.concat())
    };
    let untrue = |number: usize| {
        let [.., least, greatest] = FIGURE_RECORDS[number - 1];
        [
            [least - 1, greatest],
            [least + 1, greatest],
            [least, greatest - 1],
            [least, greatest + 1],
            [greatest, least],
            [-greatest, -least],
            [i32::MIN, greatest],
            [least, i32::MAX],
            [least - 1, greatest + 1],
        ]
        .map(|numbers| list(number, numbers))
    };
    (1..=5).flat_map(untrue).collect()
}

/// Numbers that another reading of least and greatest would lead to, and an
/// untrue number off every path.
fn lists_with_other_untrue_numbers() -> Vec<BrokenList> {
    let mut sum_of_weights = FIGURE_RECORDS;
    sum_of_weights[4][5] = 1 + 1 + 3 + 4;
    let unused = [[0, 0, 0, 3, 0, 4], [1, 0, 0, 1, 0, 1]].concat();
    vec![
        BrokenList::of(4, "the weights of all variables", sum_of_weights.concat()),
        BrokenList::of(1, "0 left out of the rise", vec![0, 0, 0, 3, 3, 3]),
        BrokenList::of(1, "0 left out of the fall", vec![0, 0, 0, -3, -3, -3]),
        BrokenList::of(1, "the weight left out", vec![0, 0, 0, 3, 0, 0]),
        BrokenList::of(1, "an offset of 5 in both", vec![0, 0, 0, 3, 5, 8]),
        BrokenList::of(2, "an unused record", unused),
    ]
}

/// Too many numbers for whole records, too few, four a record, and one record
/// more than the largest diagram has.
fn lists_of_a_wrong_length() -> Vec<BrokenList> {
    let records = FIGURE_RECORDS.concat();
    let branches = figure_branches().concat();
    let mut lists = Vec::new();
    for other in 1..RECORD {
        let longer = [&records[..], &vec![0; other]].concat();
        lists.push(BrokenList::of(4, &format!("{other} more"), longer));
        let shorter = records[..records.len() - other].to_vec();
        lists.push(BrokenList::of(4, &format!("{other} fewer"), shorter));
    }
    for count in 1..=5 {
        let name = format!("{count} records of four numbers");
        lists.push(BrokenList::of(4, &name, branches[..4 * count].to_vec()));
    }
    for n in 1..=12 {
        let name = format!("{} records", 1 << n);
        let records = [0, 0, 0, 9, 0, 9].repeat(1 << n);
        lists.push(BrokenList::of(n, &name, records));
    }
    lists
}
