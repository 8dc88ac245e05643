//! Run, the pair run, Expand and the classes as several test files call them.
#![allow(dead_code)]

use panstrait_compare::{answers, proved};
use panstrait_reference as reference;
use panstrait_reference::{Ran, Refusal};
use panstrait_samples::pairs::Pair;
use panstrait_samples::{Cascade, Draft, NUMBER};
use std::ops::RangeInclusive;

/// Both programs' answers at X.
pub fn same_run(image: &[u8], x: usize) -> Result<Ran, Refusal> {
    let answer = answers::run(image, x);
    assert!(
        answer == reference::run(image, x),
        "X {x}: {answer:?} for {image:02x?}"
    );
    answer
}

/// Both programs' answers at X and Y, as value and words.
pub fn same_pair_run(m: usize, image: &[u8], (x, y): Pair) -> Result<(i32, usize), Refusal> {
    let answer = answers::pair_run(m, image, x, y);
    assert!(
        answer == reference::pair_run(m, image, x, y),
        "m {m}, X {x}, Y {y}: {answer:?} for {image:02x?}"
    );
    answer.map(|ran| (ran.value, ran.words))
}

/// Both programs' answers for a table buffer of so many numbers, compared
/// whole, with the numbers before and after it. A refusal leaves all of them.
pub fn same_expand(image: &[u8], room: usize) -> Result<Vec<i32>, Refusal> {
    let mut ours = vec![NUMBER; room + 8];
    let mut theirs = ours.clone();
    let lent = 4..room + 4;
    let answer = answers::expand(image, &mut ours[lent.clone()]);
    assert!(
        answer == reference::expand(image, &mut theirs[lent.clone()]),
        "room {room}: {answer:?} for {image:02x?}"
    );
    assert!(ours == theirs, "room {room}: values of {image:02x?}");
    if answer.is_err() {
        assert!(ours.iter().all(|&value| value == NUMBER));
    }
    answer.map(|()| ours[lent].to_vec())
}

/// An image gives its table back, one word read in each cell.
pub fn gives_back(image: &[u8], table: &[i32], cells: usize, inputs: impl Iterator<Item = usize>) {
    assert_eq!(same_expand(image, table.len()).as_deref(), Ok(table));
    for x in inputs {
        let value = table[x];
        let words = cells;
        assert_eq!(same_run(image, x), Ok(Ran { value, words }));
    }
}

/// The images of a table's chosen groupings within some limits.
pub fn chosen_drafts(n: usize, table: &[i32], limits: RangeInclusive<usize>) -> Vec<Draft> {
    let cascade = Cascade::new(n, table);
    let costs = cascade.costs();
    limits
        .filter_map(|limit| cascade.chosen(&costs, limit))
        .map(|(_, sizes)| cascade.draft(&sizes))
        .collect()
}

/// The class count of every cut, through C.
pub fn class_counts(n: usize, table: &[i32]) -> Vec<usize> {
    use_counts(n, table).iter().map(Vec::len).collect()
}

/// How many blocks have each class, of every cut, through C.
pub fn use_counts(n: usize, table: &[i32]) -> Vec<Vec<usize>> {
    let mut rows = [(); 5].map(|()| vec![0; (2 << n) - 1]);
    let [classes, firsts, tried, uses, use_counts] = &mut rows;
    let mut counts = vec![0; n + 1];
    assert!(proved::classes(
        n,
        table,
        classes,
        firsts,
        &mut counts,
        tried,
        uses,
        use_counts,
    ));
    let of_cut = |cut: usize| use_counts[(1 << cut) - 1..][..counts[cut]].to_vec();
    (0..=n).map(of_cut).collect()
}
