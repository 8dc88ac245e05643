//! Plan and Compile: sizes, cells, bits, the image, and what is left of the
//! buffers; then Run and Expand on what was compiled.

mod common;

use common::use_counts;
use panstrait_compare::answers;
use panstrait_reference as reference;
use panstrait_reference::{Cell, Compiled, Planned, Ran, Refusal};
use panstrait_samples::cases::ChosenCell;
use panstrait_samples::{
    cases, oracle, signs, tables, Random, BYTE, FIGURE, GREATEST, LEAST, NORM, NUMBER, ROOT,
};

/// Both programs' plans.
fn same_plan(n: usize, table: &[i32], limit: usize) -> Result<Planned, Refusal> {
    let answer = answers::plan(n, table, limit);
    assert!(
        answer == reference::plan(n, table, limit),
        "n {n}, limit {limit}: {answer:?} for {table:?}"
    );
    answer
}

/// Both programs' answers for an image buffer of so many bytes, compared
/// whole, with the bytes before and after it.
fn same_compile(
    n: usize,
    table: &[i32],
    limit: usize,
    room: usize,
) -> Result<(Compiled, Vec<u8>), Refusal> {
    let mut ours = vec![BYTE; room + 8];
    let mut theirs = ours.clone();
    let lent = 4..room + 4;
    let answer = answers::compile(n, table, limit, &mut ours[lent.clone()]);
    assert!(
        answer == reference::compile(n, table, limit, &mut theirs[lent]),
        "n {n}, limit {limit}, room {room}: {answer:?} for {table:?}"
    );
    assert!(ours == theirs, "n {n}, limit {limit}: image of {table:?}");
    let compiled = answer?;
    let image = ours[4..4 + compiled.length].to_vec();
    Ok((compiled, image))
}

/// The same answer with a buffer of the image's length, and one byte short of
/// it a refusal.
fn exact_and_short(n: usize, table: &[i32], limit: usize, compiled: &Compiled, image: &[u8]) {
    let mut exact = vec![BYTE; image.len()];
    let answer = answers::compile(n, table, limit, &mut exact);
    assert_eq!(answer.as_ref(), Ok(compiled));
    assert!(exact == image, "n {n}, limit {limit}: image of {table:?}");
    let mut short = vec![BYTE; image.len() - 1];
    assert_eq!(answers::compile(n, table, limit, &mut short), Err(10));
    assert!(short.iter().all(|&byte| byte == BYTE));
}

/// The image gives the table back, one word read in each cell.
fn gives_back(table: &[i32], image: &[u8], words: usize, random: &mut Random) {
    let mut values = vec![NUMBER; table.len()];
    assert_eq!(answers::expand(image, &mut values), Ok(()));
    assert!(values == table, "values of {table:?}");
    let some = (0..6).map(|_| random.below(table.len()));
    for x in some.chain([0, table.len() - 1]) {
        let value = table[x];
        assert_eq!(answers::run(image, x), Ok(Ran { value, words }));
    }
}

/// Plan, Compile and what follows from them, for one table and one limit.
fn check(n: usize, table: &[i32], limit: usize, random: &mut Random) {
    let planned = same_plan(n, table, limit);
    let compiled = same_compile(n, table, limit, 65_536);
    let (planned, (compiled, image)) = match (planned, compiled) {
        (Ok(planned), Ok(compiled)) => (planned, compiled),
        (planned, compiled) => {
            assert_eq!((planned.err(), compiled.err()), (Some(9), Some(9)));
            return;
        }
    };
    assert_eq!(planned.cells, compiled.cells);
    assert_eq!(planned.bits, compiled.bits);
    exact_and_short(n, table, limit, &compiled, &image);
    gives_back(table, &image, planned.sizes.len(), random);
}

fn check_limits(n: usize, table: &[i32], random: &mut Random) {
    for limit in 1..=12 {
        check(n, table, limit, random);
    }
}

#[test]
fn structured_tables() {
    let mut random = Random(41);
    for n in 1..=12 {
        for table in tables::structured(n) {
            check_limits(n, &table, &mut random);
        }
    }
}

#[test]
fn tables_that_are_hard_to_tell_apart() {
    let mut random = Random(42);
    for n in 1..=12 {
        for table in tables::adversarial(n) {
            check_limits(n, &table, &mut random);
        }
    }
}

/// Rising tables, falling ones and those with weights of both signs.
#[test]
fn tables_by_signs() {
    let mut random = Random(49);
    for n in 1..=12 {
        for table in signs::all(n) {
            check_limits(n, &table, &mut random);
        }
    }
}

#[test]
fn pairs_at_the_borders_of_widths() {
    let mut random = Random(50);
    for (table, weight) in signs::pairs_at_borders().iter().zip(signs::borders()) {
        check_limits(1, table, &mut random);
        let width = oracle::width([weight]);
        let planned = same_plan(1, table, 1).expect("one cell");
        let cells = fields(&planned.cells);
        assert_eq!(cells, [[1, 1, 1, width, 2 * width, 0, 2]], "{table:?}");
    }
}

#[test]
fn fours_at_the_borders_of_widths() {
    let mut random = Random(51);
    for table in signs::fours_at_borders() {
        for limit in [1, 2] {
            check(2, &table, limit, &mut random);
        }
    }
}

#[test]
fn random_tables() {
    let mut random = Random(43);
    for n in 1..=12 {
        for _ in 0..[300, 80, 24][n / 5] {
            let table = tables::random(n, &mut random);
            check_limits(n, &table, &mut random);
        }
    }
}

#[test]
fn all_small_tables() {
    let mut random = Random(44);
    for code in 0..4_usize.pow(4) {
        let table = tables::of(2, |x| (code >> (2 * x) & 3) as i32);
        check_limits(2, &table, &mut random);
    }
    for code in 0..1_usize << 8 {
        let table = tables::of(3, |x| (code >> x & 1) as i32);
        check_limits(3, &table, &mut random);
    }
}

/// Small weights and few values, where costs are often equal.
#[test]
fn tables_with_ties() {
    let mut random = Random(45);
    for _ in 0..400 {
        let n = 3 + random.below(4);
        let table = tables::of(n, |_| random.between(-2, 1));
        check_limits(n, &table, &mut random);
    }
}

/// The numbers of each cell.
fn fields(cells: &[Cell]) -> Vec<ChosenCell> {
    let fields = |c: &Cell| {
        [
            c.group,
            c.incoming,
            c.outgoing,
            c.width,
            c.bits,
            c.commonest,
            c.uses,
        ]
    };
    cells.iter().map(fields).collect()
}

/// The paper's checked values, the tie at 40 bits, commonest classes of all kinds,
/// as many cells as can be, more than 256 classes at a chosen cut, a long image.
#[test]
fn cells_worked_out_by_hand() {
    for case in cases::chosen_plans() {
        let (n, table, limit) = (case.n, &case.table, case.limit);
        let planned = same_plan(n, table, limit).expect("a grouping fits");
        assert_eq!((planned.sizes, planned.bits), (case.sizes(), case.bits()));
        assert_eq!(fields(&planned.cells), case.cells);
        let (compiled, image) = same_compile(n, table, limit, 65_536).expect("a grouping fits");
        assert_eq!(fields(&compiled.cells), case.cells);
        assert_eq!(compiled.length, case.length());
        assert_eq!(compiled.nodes, case.nodes());
        assert!(image == case.image(), "{:?}", case.cells);
        check_limits(n, table, &mut Random(46));
    }
}

/// Each cell has the commonest class of the cut where it ends, by the use counts
/// of all cuts.
fn check_commonest(use_counts: &[Vec<usize>], planned: &Planned) {
    let mut cut = 0;
    for cell in &planned.cells {
        cut += cell.group;
        let counts = &use_counts[cut];
        let most = counts.iter().max().expect("every cut has a class");
        let first = counts.iter().position(|uses| uses == most);
        assert_eq!((Some(cell.commonest), cell.uses), (first, *most));
    }
}

/// Where cells end, several classes are often equally common. Plan is held
/// against the classes by themselves, too.
#[test]
fn contested_cuts() {
    let mut random = Random(52);
    for n in 1..=12 {
        for _ in 0..if n < 9 { 60 } else { 6 } {
            let table = tables::contested(n, &mut random);
            check_limits(n, &table, &mut random);
            let counts = use_counts(n, &table);
            let plans = (1..=12).filter_map(|limit| answers::plan(n, &table, limit).ok());
            plans.for_each(|planned| check_commonest(&counts, &planned));
        }
    }
}

#[test]
fn worked_tables() {
    let mut random = Random(48);
    check_limits(4, &FIGURE, &mut random);
    refused(4, &FIGURE, 1, 9);
    check_limits(4, &NORM, &mut random);
    check_limits(3, &ROOT, &mut random);
}

/// With every list of sizes at 0 bits, each group is as wide as it can be.
#[test]
fn the_widest_groups_of_constants() {
    for n in 1..=12 {
        for limit in 1..=12 {
            let planned = same_plan(n, &vec![-1; 1 << n], limit).expect("a grouping fits");
            let mut left = n;
            for &group in &planned.sizes {
                assert_eq!(group, left.min(limit));
                left -= group;
            }
            assert_eq!((left, planned.bits), (0, 0));
        }
    }
}

#[test]
fn values_as_far_apart_as_can_be() {
    for case in cases::extreme_halves() {
        check_limits(case.n, &case.table, &mut Random(47));
    }
}

/// Both programs' refusal, of Plan and of Compile, with room and without.
fn refused(n: usize, table: &[i32], limit: usize, refusal: Refusal) {
    assert_eq!(same_plan(n, table, limit), Err(refusal));
    for room in [0, 1_000] {
        assert_eq!(same_compile(n, table, limit, room), Err(refusal));
    }
}

#[test]
fn variables_out_of_range() {
    let wrong = [0, 13, 14, 31, 32, 63, 64, 65, 1 << 32, usize::MAX];
    for n in wrong.into_iter().chain(cases::WRAPPED_3) {
        for values in [0, 1, 2, 7, 8, 9, 4_096, 8_192] {
            for limit in [0, 3, 12, 13] {
                refused(n, &vec![0; values], limit, 1);
            }
        }
    }
}

#[test]
fn wrong_table_lengths() {
    for n in 1..=12 {
        let size = 1 << n;
        for wrong in [0, 1, size - 1, size + 1, 2 * size] {
            for limit in [0, 3, 12, 13] {
                refused(n, &vec![0; wrong], limit, 2);
            }
        }
    }
}

#[test]
fn values_out_of_range() {
    for n in 1..=12 {
        for place in [0, 1, (1 << n) / 2, (1 << n) - 1] {
            for value in [LEAST - 1, GREATEST + 1, i32::MIN, i32::MAX] {
                let table = tables::of(n, |x| if x == place { value } else { 0 });
                for limit in [0, 3, 12, 13] {
                    refused(n, &table, limit, 3);
                }
            }
        }
    }
}

#[test]
fn limits_out_of_range() {
    // Some of them are 4 in their low bits.
    let wrong = [
        0,
        13,
        16,
        31,
        32,
        63,
        64,
        (1 << 8) + 4,
        (1 << 16) + 4,
        (1 << 32) + 4,
        usize::MAX,
    ];
    for limit in wrong {
        refused(4, &FIGURE, limit, 8);
        for n in 1..=12 {
            refused(n, &vec![7; 1 << n], limit, 8);
            refused(n, &tables::all_different(n), limit, 8);
        }
    }
}

#[test]
fn buffers_that_are_too_short() {
    let table = tables::of(8, |x| (x * x) as i32);
    let (compiled, _) = same_compile(8, &table, 12, 65_536).expect("a grouping fits");
    for room in 0..compiled.length {
        assert_eq!(same_compile(8, &table, 12, room), Err(10));
    }
}

/// The paper's image, in as many bytes as it has.
#[test]
fn an_image_byte_by_byte() {
    assert_eq!(same_compile(1, &[5, 8], 1, 31), Err(10));
    let (compiled, image) = same_compile(1, &[5, 8], 1, 32).expect("32 bytes suffice");
    assert_eq!((compiled.length, compiled.bits), (32, 4));
    assert_eq!(image, cases::PAIR_IMAGE);
}

/// Every set of refusals that can hold at once: the first in the paper's order.
#[test]
fn several_refusals_at_once() {
    for case in cases::refused_plans() {
        let (n, table, limit) = (case.n, &case.table, case.limit);
        let first = case.refusals[0];
        let answer = same_compile(n, table, limit, case.room);
        assert_eq!(answer, Err(first), "n {n}: {:?}", case.refusals);
        if first != 10 {
            let answer = same_plan(n, table, limit);
            assert_eq!(answer, Err(first), "n {n}: {:?}", case.refusals);
        }
    }
}
