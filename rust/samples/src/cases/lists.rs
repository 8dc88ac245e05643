//! Record lists for Walk.

use super::{EXTREMES, FIGURE_RECORDS};
use crate::lists::{with_bounds, Branch};
use crate::RECORD;

/// A record list, an X and Walk's answer.
pub struct List {
    pub name: String,
    pub n: usize,
    pub offset: i32,
    pub records: Vec<i32>,
    pub x: usize,
    pub answer: Result<i32, u8>,
}

pub fn lists() -> Vec<List> {
    let mut lists = extreme_lists();
    lists.push(list_with_a_low_root());
    lists.extend(lists_with_an_x_outside());
    lists.extend(lists_with_forward_children());
    lists.extend(lists_beyond_16_bits());
    lists
}

/// Twelve records on one path, each with this weight.
pub(super) fn extreme_records(weight: i32) -> Vec<i32> {
    let branches: Vec<Branch> = (0..12).map(|v| [v, v, v, weight]).collect();
    with_bounds(&branches)
}

fn extreme_lists() -> Vec<List> {
    let list = |(value, offset, weight)| List {
        name: format!("twelve weights of {weight}"),
        n: 12,
        offset,
        records: extreme_records(weight),
        x: 4_095,
        answer: Ok(value),
    };
    EXTREMES.map(list).into()
}

/// The root is the last record, whatever its variable.
fn list_with_a_low_root() -> List {
    List {
        name: "the root has the lowest variable".into(),
        n: 3,
        offset: -4,
        records: with_bounds(&[[2, 0, 0, 5], [1, 0, 0, 7], [0, 0, 0, 9]]),
        x: 0b111,
        answer: Ok(5),
    }
}

/// X 16 over 4 variables, and an untrue greatest value before it.
fn lists_with_an_x_outside() -> Vec<List> {
    let list = |name: &str, greatest: i32, answer| {
        let mut records = FIGURE_RECORDS;
        records[0][5] = greatest;
        List {
            name: name.into(),
            n: 4,
            offset: 0,
            records: records.concat(),
            x: 16,
            answer,
        }
    };
    vec![
        list("X outside", 1, Err(7)),
        list("untrue, X outside", 2, Err(6)),
    ]
}

/// A child with its record's own number or a higher one. Where it can be, the
/// child's variable is below the record's, so that its number alone is wrong.
fn lists_with_forward_children() -> Vec<List> {
    let sound = [[2, 0, 0, 5], [1, 0, 0, 7], [0, 0, 0, 9], [2, 3, 2, 11]];
    let list = |name: String, branches: [Branch; 4], answer| List {
        name,
        n: 3,
        offset: 1,
        records: with_bounds(&branches),
        x: 0b111,
        answer,
    };
    let mut lists = vec![list("children below".into(), sound, Ok(1 + 11 + 7))];
    for (number, child) in [(1, 1), (1, 2), (1, 3), (2, 2), (2, 3), (4, 4), (4, 5)] {
        for field in [1, 2] {
            let mut branches = sound;
            branches[number - 1][field] = child;
            let name = format!("field {field} of record {number} is {child}");
            lists.push(list(name, branches, Err(6)));
        }
    }
    lists
}

/// Lists whose number of numbers or of records, kept in 16 bits, would be one
/// that fits.
fn lists_beyond_16_bits() -> Vec<List> {
    let list = |length: usize| List {
        name: format!("{length} numbers"),
        n: 12,
        offset: 0,
        records: (0..length)
            .map(|place| i32::from(matches!(place % RECORD, 3 | 5)))
            .collect(),
        x: 0,
        answer: Err(6),
    };
    [1 << 16, 3 << 16, RECORD << 16]
        .into_iter()
        .flat_map(|beyond| [0, RECORD, RECORD * 4_095].map(|fits| list(beyond + fits)))
        .collect()
}
