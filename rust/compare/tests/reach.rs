//! Reach: the cuts arrived at, the least limit that fits, and what is refused;
//! Plan beside it.

use panstrait_compare::{answers, proved};
use panstrait_reference as reference;
use panstrait_reference::{Reached, Refusal};
use panstrait_samples::{cases, signs, tables, Random, FIGURE, GREATEST, LEAST, NORM, ROOT};
use std::array;

/// Both programs' answers.
fn same_reach(n: usize, table: &[i32], limit: usize) -> Result<Reached, Refusal> {
    let answer = answers::reach(n, table, limit);
    assert!(
        answer == reference::reach(n, table, limit),
        "n {n}, limit {limit}: {answer:?} for {table:?}"
    );
    answer
}

/// Both programs' answers within every limit. Through C, Plan answers 9 exactly
/// below the least one, and only there the bottom cut is not listed.
fn check_limits(n: usize, table: &[i32]) {
    for limit in 1..=12 {
        let reached = same_reach(n, table, limit).expect("a sound call");
        let refusal = answers::plan(n, table, limit).err();
        let expected = Some(9).filter(|_| limit < reached.least);
        assert_eq!(refusal, expected, "n {n}, limit {limit}: {table:?}");
        assert_eq!(reached.cuts.contains(&n), refusal.is_none(), "{table:?}");
    }
}

#[test]
fn reaches_worked_out_by_hand() {
    for case in cases::reaches() {
        let reached = same_reach(case.n, &case.table, case.limit);
        let (cuts, least) = (case.cuts, case.least);
        assert_eq!(reached, Ok(Reached { cuts, least }), "{}", case.name);
    }
}

/// Through C, Plan has a grouping within the least limit and none within the one
/// below it, which for limit 0 is another refusal.
#[test]
fn plan_at_the_least_limit() {
    for case in cases::reaches() {
        let (n, table) = (case.n, &case.table);
        let least = answers::reach(n, table, case.limit).map(|reached| reached.least);
        let least = least.expect("a sound call");
        assert!(answers::plan(n, table, least).is_ok(), "{}", case.name);
        let refusal = if least == 1 { 8 } else { 9 };
        let below = answers::plan(n, table, least - 1);
        assert_eq!(below.err(), Some(refusal), "{}", case.name);
    }
}

/// All 13 places of the array, whatever was there before.
#[test]
fn what_was_there_changes_nothing() {
    let counting = array::from_fn(|place| place);
    for held in [[0; 13], [1; 13], [12; 13], [usize::MAX; 13], counting] {
        for case in cases::reaches() {
            let (mut cuts, mut count, mut least) = (held, held[0], held[12]);
            let (n, table, limit) = (case.n, &case.table, case.limit);
            let number = proved::reach(n, table, limit, &mut cuts, &mut count, &mut least);
            let listed = case.cuts.len();
            let mut expected = [0; 13];
            expected[..listed].copy_from_slice(&case.cuts);
            assert_eq!((number, cuts), (0, expected), "{}", case.name);
            assert_eq!((count, least), (listed, case.least), "{}", case.name);
        }
    }
}

/// A refusal leaves whatever was there.
#[test]
fn what_a_refusal_leaves() {
    let counting = array::from_fn(|place| place);
    for held in [[0; 13], [1; 13], [usize::MAX; 13], counting] {
        for case in cases::refused_plans() {
            let first = case.refusals[0];
            if first < 9 {
                let (mut cuts, mut count, mut least) = (held, held[1], held[12]);
                let (n, table, limit) = (case.n, &case.table, case.limit);
                let number = proved::reach(n, table, limit, &mut cuts, &mut count, &mut least);
                assert_eq!((number, cuts), (first, held), "{:?}", case.refusals);
                assert_eq!((count, least), (held[1], held[12]), "{:?}", case.refusals);
            }
        }
    }
}

#[test]
fn worked_tables() {
    check_limits(4, &FIGURE);
    check_limits(4, &NORM);
    check_limits(3, &ROOT);
    check_limits(3, &cases::STRIPES);
    for case in cases::extreme_halves() {
        check_limits(case.n, &case.table);
    }
    for case in cases::chosen_plans() {
        check_limits(case.n, &case.table);
    }
}

#[test]
fn structured_tables() {
    for n in 1..=12 {
        for table in tables::structured(n) {
            check_limits(n, &table);
        }
    }
}

#[test]
fn tables_that_are_hard_to_tell_apart() {
    for n in 1..=12 {
        for table in tables::adversarial(n) {
            check_limits(n, &table);
        }
    }
}

/// Rising tables, falling ones and those with weights of both signs.
#[test]
fn tables_by_signs() {
    for n in 1..=12 {
        for table in signs::all(n) {
            check_limits(n, &table);
        }
    }
}

#[test]
fn random_tables() {
    let mut random = Random(141);
    for n in 1..=12 {
        for _ in 0..[200, 60, 10][n / 5] {
            check_limits(n, &tables::random(n, &mut random));
            check_limits(n, &tables::wandering(n, &mut random));
        }
    }
}

/// Counts that grow, fall and grow again.
#[test]
fn tables_of_any_class_counts() {
    for (counts, ..) in cases::COUNTED {
        check_limits(counts.len() - 1, &tables::of_class_counts(counts));
    }
    let mut random = Random(142);
    for n in 1..=12 {
        for _ in 0..[200, 60, 20][n / 5] {
            let counts = tables::class_counts(n, &mut random);
            check_limits(n, &tables::of_class_counts(&counts));
        }
    }
}

/// The least and the greatest value alone.
#[test]
fn values_as_far_apart_as_can_be() {
    let mut random = Random(143);
    for n in 1..=12 {
        for _ in 0..6 {
            check_limits(n, &tables::of(n, |_| [LEAST, GREATEST][random.below(2)]));
        }
        check_limits(n, &tables::of(n, |x| if x == 0 { GREATEST } else { LEAST }));
    }
}

#[test]
fn all_small_tables() {
    for code in 0..4_usize.pow(4) {
        check_limits(2, &tables::of(2, |x| (code >> (2 * x) & 3) as i32));
    }
    for code in 0..1_usize << 8 {
        check_limits(3, &tables::of(3, |x| (code >> x & 1) as i32));
    }
}

/// Both programs' refusal.
fn refused(n: usize, table: &[i32], limit: usize, refusal: Refusal) {
    let answer = same_reach(n, table, limit);
    assert_eq!(answer, Err(refusal), "n {n}, limit {limit}");
}

#[test]
fn refusals_worked_out_by_hand() {
    refused(13, &[0; 8_192], 0, 1);
    refused(13, &[GREATEST + 1; 3], 0, 1);
    refused(1, &[0, GREATEST + 1], 0, 3);
    refused(2, &[0; 3], 13, 2);
    refused(4, &FIGURE, 13, 8);
}

/// Limits of any size, within and out of range.
const LIMITS: [usize; 6] = [0, 1, 3, 12, 13, usize::MAX];

#[test]
fn variables_out_of_range() {
    let wrong = [0, 13, 14, 31, 32, 63, 64, 65, 1 << 32, usize::MAX];
    for n in wrong.into_iter().chain(cases::WRAPPED_3) {
        for values in [0, 1, 2, 7, 8, 9, 4_096, 8_192] {
            for limit in LIMITS {
                refused(n, &vec![0; values], limit, 1);
                refused(n, &vec![GREATEST + 1; values], limit, 1);
            }
        }
    }
}

#[test]
fn wrong_table_lengths() {
    for n in 1..=12 {
        let size = 1 << n;
        for wrong in [0, 1, size / 2, size - 1, size + 1, 2 * size] {
            for limit in LIMITS {
                refused(n, &vec![0; wrong], limit, 2);
                refused(n, &vec![LEAST - 1; wrong], limit, 2);
            }
        }
    }
}

#[test]
fn values_out_of_range() {
    for n in 1..=12 {
        for place in [0, 1, (1 << n) / 2, (1 << n) - 1] {
            for value in [LEAST - 1, GREATEST + 1, i32::MIN, i32::MAX] {
                let table = tables::of(n, |x| if x == place { value } else { 0 });
                for limit in LIMITS {
                    refused(n, &table, limit, 3);
                }
            }
        }
    }
}

#[test]
fn limits_out_of_range() {
    // Some of them are 4 in their low bits.
    let low_bits = [8, 16, 32].map(|bits| (1 << bits) + 4);
    let wrong = [0, 13, 16, 31, 32, 63, 64, usize::MAX];
    for limit in wrong.into_iter().chain(low_bits) {
        refused(4, &FIGURE, limit, 8);
        for n in 1..=12 {
            refused(n, &vec![7; 1 << n], limit, 8);
            refused(n, &tables::all_different(n), limit, 8);
        }
    }
}

/// Every set of Plan's refusals that can hold at once: the first in the paper's
/// order, and no refusal where 9 stands alone.
#[test]
fn several_refusals_at_once() {
    for case in cases::refused_plans() {
        let answer = same_reach(case.n, &case.table, case.limit);
        let expected = Some(case.refusals[0]).filter(|&first| first < 9);
        assert_eq!(answer.err(), expected, "n {}: {:?}", case.n, case.refusals);
    }
}
