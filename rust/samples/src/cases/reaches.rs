//! Calls of Reach with answers worked out by hand.

use crate::{tables, FIGURE, GREATEST, LEAST};

/// A table and a limit, with the cuts arrived at and the least limit that fits.
pub struct Reach {
    pub name: String,
    pub n: usize,
    pub table: Vec<i32>,
    pub limit: usize,
    pub cuts: Vec<usize>,
    pub least: usize,
}

/// A table with class counts 1, 1, 2 and 1.
pub const STRIPES: [i32; 8] = [0, 1, 0, 2, 0, 1, 0, 2];

pub fn reaches() -> Vec<Reach> {
    let mut reaches = worked_reaches();
    reaches.extend(reaches_of_small_tables());
    reaches.extend(reaches_by_counts());
    reaches.extend(reaches_of_one_class());
    reaches.extend(reaches_of_all_different());
    reaches.extend(reaches_stopped_at_a_cut());
    reaches.extend(reaches_by_peaks());
    reaches
}

fn reach(name: &str, table: &[i32], limit: usize, cuts: &[usize], least: usize) -> Reach {
    Reach {
        name: format!("{name}, limit {limit}"),
        n: table.len().trailing_zeros() as usize,
        table: table.to_vec(),
        limit,
        cuts: cuts.to_vec(),
        least,
    }
}

/// The calls whose cuts are those from 0 to the last, by limit and last cut.
fn up_to(name: &str, table: &[i32], lasts: &[(usize, usize)], least: usize) -> Vec<Reach> {
    let call = |&(limit, last): &(usize, usize)| {
        let cuts: Vec<usize> = (0..=last).collect();
        reach(name, table, limit, &cuts, least)
    };
    lasts.iter().map(call).collect()
}

fn worked_reaches() -> Vec<Reach> {
    let squares: Vec<i32> = (0..16).map(|x| x * x).collect();
    let figure = |limit, cuts| reach("the figure", &FIGURE, limit, cuts, 2);
    let square = |limit, cuts| reach("squares", &squares, limit, cuts, 4);
    let stripes = |limit, cuts| reach("stripes", &STRIPES, limit, cuts, 2);
    let all = [0, 1, 2, 3, 4, 5, 6, 7, 8, 9, 10, 11, 12];
    vec![
        figure(1, &[0, 1]),
        figure(2, &[0, 1, 2, 3, 4]),
        figure(12, &[0, 1, 2, 3, 4]),
        square(1, &[0, 1]),
        square(2, &[0, 1, 2]),
        square(3, &[0, 1, 2, 3]),
        square(4, &[0, 1, 2, 3, 4]),
        reach("one variable", &[0, 5], 1, &[0, 1], 1),
        stripes(1, &[0, 1, 2]),
        stripes(2, &[0, 1, 2, 3]),
        reach("one value", &[7; 4_096], 1, &all, 1),
    ]
}

/// One and two variables, and values as far apart as can be.
fn reaches_of_small_tables() -> Vec<Reach> {
    let pairs = [[0, 0], [5, 8], [LEAST, GREATEST], [GREATEST, LEAST]];
    // Equal differences are one class, whatever the values are.
    let one_class = [[0; 4], [5, 8, 1, 4], [LEAST, -1, 0, GREATEST]];
    let two_classes = [
        [0, 0, 0, 1],
        [5, 8, 4, 1],
        [LEAST, GREATEST, GREATEST, LEAST],
    ];
    let mut calls = Vec::new();
    for table in pairs {
        let lasts = [(1, 1), (2, 1), (11, 1), (12, 1)];
        calls.extend(up_to(&format!("{table:?}"), &table, &lasts, 1));
    }
    for table in one_class {
        let lasts = [(1, 2), (2, 2), (12, 2)];
        calls.extend(up_to(&format!("{table:?}"), &table, &lasts, 1));
    }
    for table in two_classes {
        let lasts = [(1, 1), (2, 2), (12, 2)];
        calls.extend(up_to(&format!("{table:?}"), &table, &lasts, 2));
    }
    calls
}

/// Class counts, the last cut arrived at within the limits 1, 2, 3 and so on,
/// which is the bottom one within all further ones, and the least limit that
/// fits. A rail of 3 or 4 classes has 2 bits, one of 5 to 8 has 3, and so on.
pub const COUNTED: [(&[usize], &[usize], usize); 18] = [
    (&[1, 2, 1], &[1], 2),
    (&[1, 2, 2, 1], &[1], 2),
    (&[1, 2, 3, 1], &[1, 2], 3),
    (&[1, 2, 4, 1], &[1, 2], 3),
    (&[1, 2, 4, 5, 1], &[1, 2, 3], 4),
    (&[1, 2, 4, 8, 9, 1], &[1, 2, 3, 4], 5),
    (&[1, 2, 4, 8, 16, 17, 1], &[1, 2, 3, 4, 5], 6),
    // Two classes at some cuts, one at the others.
    (&[1, 2, 1, 2, 1, 2, 1], &[1], 2),
    (&[1, 1, 2, 1, 1, 1], &[2], 2),
    (&[1, 1, 1, 1, 2, 1], &[4], 2),
    // The counts grow and fall again.
    (&[1, 2, 4, 2, 1, 1, 1], &[1, 2], 3),
    (&[1, 2, 3, 3, 2, 1, 1, 1], &[1, 2], 3),
    (&[1, 1, 1, 1, 2, 4, 8, 1], &[4, 5, 6], 4),
    // One peak stops it, and a higher one below that.
    (&[1, 2, 4, 2, 1, 2, 4, 8, 1], &[1, 2, 7], 4),
    (&[1, 2, 1, 2, 4, 2, 4, 8, 16, 1, 1, 1], &[1, 4, 7, 8], 5),
    // One peak stops it, and lower ones follow.
    (&[1, 2, 4, 8, 2, 4, 3, 1, 2, 1], &[1, 2, 3], 4),
    (&[1, 1, 2, 2, 4, 8, 7, 5, 6, 3, 2, 2, 1], &[2, 4, 5], 4),
    (
        &[1, 2, 4, 8, 16, 32, 64, 128, 256, 512, 1_024, 1_025, 1],
        &[1, 2, 3, 4, 5, 6, 7, 8, 9, 10, 11],
        12,
    ),
];

/// Tables of given class counts, within every limit.
fn reaches_by_counts() -> Vec<Reach> {
    let calls = |&(counts, lasts, least): &(&[usize], &[usize], usize)| {
        let bottom = counts.len() - 1;
        let last = |limit: usize| lasts.get(limit - 1).copied().unwrap_or(bottom);
        let lasts: Vec<(usize, usize)> = (1..=12).map(|limit| (limit, last(limit))).collect();
        let name = format!("counts {counts:?}");
        up_to(&name, &tables::of_class_counts(counts), &lasts, least)
    };
    COUNTED.iter().flat_map(calls).collect()
}

/// One class everywhere: limit 1 fits, by one variable a cell.
fn reaches_of_one_class() -> Vec<Reach> {
    let mut calls = Vec::new();
    for n in 1..=12 {
        let lasts = [1, 2, n, 12].map(|limit| (limit, n));
        let zeros = tables::of(n, |_| 0);
        calls.extend(up_to(&format!("zeros, n {n}"), &zeros, &lasts, 1));
        let line = tables::of(n, |x| 3 * x as i32 - 4_000);
        calls.extend(up_to(&format!("a line, n {n}"), &line, &lasts, 1));
    }
    calls
}

/// As many classes at each cut as there are blocks: every cut as far down as the
/// limit, and no limit below n fits.
fn reaches_of_all_different() -> Vec<Reach> {
    let calls = |n: usize| {
        let lasts: Vec<(usize, usize)> = (1..=12).map(|limit| (limit, limit.min(n))).collect();
        let name = format!("all different, n {n}");
        up_to(&name, &tables::all_different(n), &lasts, n)
    };
    (1..=12).flat_map(calls).collect()
}

/// Two classes at one inner cut alone: limit 1 arrives there and not below.
fn reaches_stopped_at_a_cut() -> Vec<Reach> {
    let mut calls = Vec::new();
    for n in 2..=12 {
        for stop in 1..n {
            let mut counts = vec![1; n + 1];
            counts[stop] = 2;
            let name = format!("two classes at cut {stop} of {n}");
            let table = tables::of_class_counts(&counts);
            calls.extend(up_to(&name, &table, &[(1, stop), (2, n)], 2));
        }
    }
    calls
}

/// Over 12 variables the counts double to a peak at one cut and are 1 below it.
/// Its rail has as many bits as there are cuts above it, whether the peak is the
/// greatest such count or the least.
fn reaches_by_peaks() -> Vec<Reach> {
    let mut calls = Vec::new();
    for peak in 2..=11 {
        for most in [1 << peak, (1 << (peak - 1)) + 1] {
            let mut counts = vec![1; 13];
            (1..peak).for_each(|cut| counts[cut] = 1 << cut);
            counts[peak] = most;
            let name = format!("{most} classes at cut {peak}");
            let table = tables::of_class_counts(&counts);
            let lasts = [(1, 1), (peak - 1, peak - 1), (peak, peak), (peak + 1, 12)];
            calls.extend(up_to(&name, &table, &lasts, peak + 1));
        }
    }
    calls
}
