//! Parts of the domain with what Report answers about them.

use super::lists::extreme_records;
use super::{figure_branches, EXTREMES, FALL_AND_RISE_RECORDS, FIGURE_RECORDS};
use crate::lists::with_bounds;
use crate::oracle::Numbers;
use crate::{GREATEST, MOST_WEIGHT};

/// A record list, the first and the last X of a part, and Report's answer.
pub struct Report {
    pub name: String,
    pub n: usize,
    pub offset: i32,
    pub records: Vec<i32>,
    pub a: usize,
    pub b: usize,
    pub answer: Result<Numbers, u8>,
}

pub fn reports() -> Vec<Report> {
    let mut reports = reports_of_tables();
    reports.extend(reports_of_other_lists());
    reports.extend(reports_of_extreme_lists());
    reports.extend(refused_reports());
    reports
}

fn report(
    name: &str,
    (n, offset, records): (usize, i32, &[i32]),
    (a, b): (usize, usize),
    answer: Result<Numbers, u8>,
) -> Report {
    Report {
        name: name.into(),
        n,
        offset,
        records: records.to_vec(),
        a,
        b,
        answer,
    }
}

fn reports_of_tables() -> Vec<Report> {
    let (figure, other) = (FIGURE_RECORDS.concat(), FALL_AND_RISE_RECORDS.concat());
    let figure = |a, b, numbers| report("the figure", (4, 0, &figure), (a, b), Ok(numbers));
    let other = |a, b, numbers| report("a fall and a rise", (2, 5, &other), (a, b), Ok(numbers));
    vec![
        figure(5, 10, (6, 1, 5, 19)),
        figure(0, 15, (16, 0, 7, 54)),
        figure(7, 7, (1, 3, 3, 3)),
        other(0, 3, (4, 3, 9, 20)),
        other(1, 2, (2, 3, 3, 6)),
    ]
}

/// Values outside the table's range, lists that are not reduced, and no record
/// at all.
fn reports_of_other_lists() -> Vec<Report> {
    let rise = [0, 0, 0, MOST_WEIGHT, 0, MOST_WEIGHT];
    let doubled = with_bounds(&[[0, 0, 0, 3], [0, 0, 0, 3], [1, 1, 2, 0], [2, 3, 3, -7]]);
    let unused = with_bounds(&[[0, 0, 0, MOST_WEIGHT], [1, 0, 0, -2]]);
    vec![
        report(
            "above the table's range",
            (1, GREATEST, &rise),
            (0, 1),
            Ok((2, 8_388_607, 25_165_822, 33_554_429)),
        ),
        report("no weight", (1, 7, &[0; 6]), (0, 1), Ok((2, 7, 7, 14))),
        report("no record", (3, -3, &[]), (2, 6), Ok((5, -3, -3, -15))),
        report(
            "equal records",
            (3, 1, &doubled),
            (1, 6),
            Ok((6, -6, 4, -6)),
        ),
        report(
            "an unused record",
            (2, 0, &unused),
            (1, 2),
            Ok((2, -2, 0, -2)),
        ),
    ]
}

/// Twelve weights of one sign on every path: each is added at half of all X.
fn reports_of_extreme_lists() -> Vec<Report> {
    let whole = |(last, offset, weight): (i32, i32, i32)| {
        let sum = 4_096 * i64::from(offset) + 12 * 2_048 * i64::from(weight);
        let numbers = (4_096, offset.min(last), offset.max(last), sum);
        (weight, offset, (0, 4_095), numbers)
    };
    let end = |(last, offset, weight): (i32, i32, i32)| {
        let numbers = (1, last, last, i64::from(last));
        (weight, offset, (4_095, 4_095), numbers)
    };
    let case = |(weight, offset, part, numbers)| {
        let name = format!("twelve weights of {weight}");
        let records = extreme_records(weight);
        report(&name, (12, offset, &records), part, Ok(numbers))
    };
    let cases = EXTREMES.map(whole).into_iter().chain(EXTREMES.map(end));
    cases.map(case).collect()
}

/// Where several refusals hold, the first is the answer.
fn refused_reports() -> Vec<Report> {
    let sound = FIGURE_RECORDS.concat();
    let mut untrue = FIGURE_RECORDS;
    untrue[0][5] = 2;
    let untrue = untrue.concat();
    let fours = figure_branches().concat();
    let other = FALL_AND_RISE_RECORDS.concat();
    vec![
        report("untrue, a above b", (4, 0, &untrue), (3, 2), Err(6)),
        report("untrue, offset", (4, GREATEST + 1, &untrue), (3, 2), Err(5)),
        report("four numbers a record", (4, 0, &fours), (0, 15), Err(6)),
        report("a above b", (4, 0, &sound), (3, 2), Err(15)),
        report("b outside the domain", (2, 5, &other), (0, 4), Err(15)),
    ]
}
