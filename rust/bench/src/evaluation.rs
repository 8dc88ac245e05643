//! Walk, Report, Run and Expand on the largest record list and the largest
//! images, beside the second program; Report beside Walk, too, and the pair run
//! beside Run.

use crate::same_method;
use crate::timing::{self, black_box};
use panstrait_compare::answers;
use panstrait_reference as reference;
use panstrait_samples::{oracle, tables, Cascade, RECORD};

const X: usize = 0b1010_1100_0110;

/// The image of a table with all classes different, by one variable a cell:
/// the longest that a table of n variables has.
fn longest_image(n: usize) -> Vec<u8> {
    let table = tables::all_different(n);
    Cascade::new(n, &table).draft(&vec![1; n]).bytes()
}

fn walk() {
    let table = tables::all_different(12);
    let records = oracle::records(12, &table);
    timing::line(
        &format!("walk, {} records", records.len() / RECORD),
        "reference",
        || {
            let _ = black_box(answers::walk(12, table[0], black_box(&records), X));
        },
        || {
            let _ = black_box(reference::walk(12, table[0], black_box(&records), X));
        },
    );
}

/// The whole domain. Walk is the check of the same list and one path: Report
/// must stay within ten times its time.
fn report() {
    let table = tables::all_different(12);
    let records = oracle::records(12, &table);
    let what = format!("report, {} records, 4096 X", records.len() / RECORD);
    let mut proved = || {
        let _ = black_box(answers::report(12, table[0], black_box(&records), 0, 4_095));
    };
    timing::line(&what, "walk, one X", &mut proved, || {
        let _ = black_box(answers::walk(12, table[0], black_box(&records), X));
    });
    timing::line(&what, "reference", &mut proved, || {
        let _ = black_box(reference::report(
            12,
            table[0],
            black_box(&records),
            0,
            4_095,
        ));
    });
}

fn run(n: usize) {
    let image = longest_image(n);
    let x = X % (1 << n);
    timing::line(
        &format!("run, {} bytes", image.len()),
        "reference",
        || {
            let _ = black_box(answers::run(black_box(&image), x));
        },
        || {
            let _ = black_box(reference::run(black_box(&image), x));
        },
    );
}

/// Run at the same Z, of which X and Y are the halves.
fn pair_run() {
    let image = longest_image(12);
    let (x, y) = (X >> 6, X & 0b11_1111);
    timing::line(
        &format!("pair run, {} bytes", image.len()),
        "run",
        || {
            let _ = black_box(answers::pair_run(6, black_box(&image), x, y));
        },
        || {
            let _ = black_box(answers::run(black_box(&image), X));
        },
    );
}

/// The table buffers are not cleared between runs: each run writes them whole.
fn expand() {
    let image = longest_image(12);
    let (mut ours, mut theirs) = (vec![0; 4_096], vec![0; 4_096]);
    let what = format!("expand, {} bytes", image.len());
    let mut proved = || {
        let _ = black_box(answers::expand(black_box(&image), &mut ours));
    };
    timing::line(&what, "reference", &mut proved, || {
        let _ = black_box(reference::expand(black_box(&image), &mut theirs));
    });
    timing::line(&what, "run, 4096 evaluations", &mut proved, || {
        let _ = black_box(answers::run(black_box(&image), X));
        for (x, value) in theirs.iter_mut().enumerate() {
            *value = same_method::evaluate(black_box(&image), x);
        }
    });
    assert!(ours == theirs);
    let mut proved = || {
        let _ = black_box(answers::expand(black_box(&image), &mut ours));
    };
    timing::line(&what, "run, same method", &mut proved, || {
        let _ = black_box(answers::run(black_box(&image), X));
        same_method::expand(black_box(&image), &mut theirs);
    });
    assert!(ours == theirs);
}

pub fn measure() {
    walk();
    report();
    [6, 9, 12].into_iter().for_each(run);
    pair_run();
    expand();
}
