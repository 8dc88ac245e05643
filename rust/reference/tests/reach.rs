//! Reach: the cuts that fitting cells arrive at, the least limit that fits, and
//! every refusal in its order.

use panstrait_reference::*;
use panstrait_samples::*;

/// The cuts and the least limit.
fn reached(n: usize, table: &[i32], limit: usize) -> (Vec<usize>, usize) {
    let answer = reach(n, table, limit).expect("a sound call");
    (answer.cuts, answer.least)
}

/// The class count of every cut.
fn counts(n: usize, table: &[i32]) -> Vec<usize> {
    let count = |cut| 1 + classes(n, table, cut).into_iter().max().expect("a block");
    (0..=n).map(count).collect()
}

/// Some tables over n variables, of any class counts too.
fn some_tables(n: usize, random: &mut Random) -> Vec<Vec<i32>> {
    let mut some = vec![tables::all_different(n)];
    some.extend((0..3).map(|_| tables::random(n, random)));
    some.extend((0..3).map(|_| tables::wandering(n, random)));
    some.extend((0..6).map(|_| tables::of_class_counts(&tables::class_counts(n, random))));
    some
}

/// Each of many tables, fewer of the larger ones.
fn for_each_table(seed: u64, mut check: impl FnMut(usize, &[i32])) {
    let mut random = Random(seed);
    for n in 1..=12 {
        let mut all = some_tables(n, &mut random);
        if n <= 9 {
            all.extend(tables::all(n, &mut random, 10));
        }
        all.iter().for_each(|table| check(n, table));
    }
}

#[test]
fn reaches_worked_out_by_hand() {
    for case in cases::reaches() {
        let answer = reached(case.n, &case.table, case.limit);
        assert_eq!(answer, (case.cuts, case.least), "{}", case.name);
    }
}

/// The worked tables have the class counts that their answers follow from.
#[test]
fn tables_of_given_class_counts() {
    for (expected, ..) in cases::COUNTED {
        let table = tables::of_class_counts(expected);
        assert_eq!(counts(expected.len() - 1, &table), expected);
    }
    let squares = tables::of(4, |x| (x * x) as i32);
    assert_eq!(counts(4, &squares), [1, 2, 4, 8, 1]);
    assert_eq!(counts(3, &cases::STRIPES), [1, 1, 2, 1]);
    let mut random = Random(131);
    for n in 1..=12 {
        for _ in 0..20 {
            let expected = tables::class_counts(n, &mut random);
            assert_eq!(counts(n, &tables::of_class_counts(&expected)), expected);
        }
    }
}

/// Limit 1 does not fit the figure, and limit 2 does.
#[test]
fn the_figure_where_plan_answers_9() {
    assert_eq!(plan(4, &FIGURE, 1), Err(9));
    assert_eq!(reached(4, &FIGURE, 1), (vec![0, 1], 2));
    assert!(plan(4, &FIGURE, 2).is_ok());
    assert_eq!(reached(4, &FIGURE, 2), (vec![0, 1, 2, 3, 4], 2));
}

#[test]
fn refusals_worked_out_by_hand() {
    assert_eq!(reach(13, &[GREATEST + 1; 3], 0), Err(1));
    assert_eq!(reach(1, &[0, GREATEST + 1], 0), Err(3));
    assert_eq!(reach(2, &[0; 3], 13), Err(2));
    assert_eq!(reach(4, &FIGURE, 13), Err(8));
}

#[test]
fn variables_out_of_range() {
    let wrong = [0, 13, 14, 31, 32, 63, 64, 65, 1 << 32, usize::MAX];
    for n in wrong.into_iter().chain(cases::WRAPPED_3) {
        for values in [0, 1, 2, 7, 8, 9, 4_096, 8_192] {
            for limit in [0, 3, 12, 13] {
                assert_eq!(reach(n, &vec![0; values], limit), Err(1), "n {n}");
            }
        }
    }
}

#[test]
fn wrong_table_lengths() {
    for n in 1..=12 {
        let size = 1 << n;
        for wrong in [0, 1, size / 2, size - 1, size + 1, 2 * size] {
            for limit in [0, 1, 12, 13] {
                let short_or_long = vec![0; wrong];
                assert_eq!(reach(n, &short_or_long, limit), Err(2), "n {n}: {wrong}");
            }
        }
    }
}

/// At every place of small tables, at some of large ones.
#[test]
fn values_out_of_range() {
    for n in 1..=12 {
        for place in (0..1 << n).step_by(1 << (n / 2)).chain([(1 << n) - 1]) {
            for value in [LEAST - 1, GREATEST + 1, i32::MIN, i32::MAX] {
                let table = tables::of(n, |x| if x == place { value } else { 0 });
                for limit in [0, 3, 12, 13] {
                    assert_eq!(reach(n, &table, limit), Err(3), "{value} at {place}");
                }
            }
        }
    }
}

#[test]
fn limits_out_of_range() {
    // Some of them are 4 in their low bits.
    let low_bits = [8, 16, 32].map(|bits| (1 << bits) + 4);
    for limit in [0, 13, 16, 64, usize::MAX].into_iter().chain(low_bits) {
        assert_eq!(reach(4, &FIGURE, limit), Err(8));
        for n in 1..=12 {
            assert_eq!(reach(n, &vec![7; 1 << n], limit), Err(8));
            assert_eq!(reach(n, &tables::all_different(n), limit), Err(8));
        }
    }
}

/// Every set of Plan's refusals that can hold at once: the first in the paper's
/// order, and no refusal where 9 stands alone.
#[test]
fn several_refusals_at_once() {
    let mut stopped = 0;
    for case in cases::refused_plans() {
        let answer = reach(case.n, &case.table, case.limit);
        let expected = Some(case.refusals[0]).filter(|&first| first < 9);
        assert_eq!(answer.err(), expected, "n {}: {:?}", case.n, case.refusals);
        stopped += usize::from(case.refusals == [9]);
    }
    assert!(stopped > 0);
}

/// Reach and Plan refuse the same calls with the same number, but for 9.
#[test]
fn refusals_beside_plan() {
    for_each_table(132, |n, table| {
        let mut values = table.to_vec();
        values[table.len() / 3] = GREATEST + 1;
        for table in [table, &table[1..], &values, &values[1..]] {
            for limit in [0, 13] {
                for n in [n, 0, 13] {
                    let (plan, reach) = (plan(n, table, limit), reach(n, table, limit));
                    assert_eq!(reach.err(), plan.err(), "n {n}, limit {limit}");
                }
            }
        }
    });
}

/// Plan answers 9 exactly where the limit is below the least one, and a grouping
/// exactly where the bottom cut is arrived at.
#[test]
fn the_answers_beside_plan() {
    let mut refused = 0;
    for_each_table(133, |n, table| {
        for limit in 1..=12 {
            let (cuts, least) = reached(n, table, limit);
            let refusal = plan(n, table, limit).err();
            assert_eq!(refusal, Some(9).filter(|_| limit < least));
            assert_eq!(cuts.contains(&n), refusal.is_none());
            refused += usize::from(refusal.is_some());
        }
    });
    assert!(refused > 1_000);
}

/// From 1 to n, and the same for every limit.
#[test]
fn the_least_limit() {
    for_each_table(134, |n, table| {
        let (_, least) = reached(n, table, 12);
        assert!((1..=n).contains(&least), "n {n}: {least}");
        for limit in 1..12 {
            assert_eq!(reached(n, table, limit).1, least, "limit {limit}");
        }
    });
}

/// Cut 0 stands first, each next cut is one more, and a greater limit lists no
/// fewer.
#[test]
fn the_cuts_rise_without_a_gap() {
    for_each_table(135, |n, table| {
        let mut before = 0;
        for limit in 1..=12 {
            let (cuts, _) = reached(n, table, limit);
            assert!(cuts.iter().copied().eq(0..cuts.len()), "{cuts:?}");
            assert!((2..=n + 1).contains(&cuts.len()) && before <= cuts.len());
            before = cuts.len();
        }
    });
}

/// The last cut is the first inner one whose rail leaves no bit of the limit.
#[test]
fn the_cut_that_stopped_it() {
    for_each_table(136, |n, table| {
        let rails: Vec<usize> = counts(n, table).into_iter().map(rail_width).collect();
        for limit in 1..=12 {
            let (cuts, _) = reached(n, table, limit);
            let stop = (1..n).find(|&cut| rails[cut] >= limit);
            assert_eq!(cuts.last(), Some(&stop.unwrap_or(n)), "{rails:?}");
        }
    });
}

/// By steps from cut to cut, and from the last cut upwards.
fn check_in_another_way(n: usize, table: &[i32]) {
    let cascade = Cascade::new(n, table);
    let least = cascade.least_limit();
    for limit in 1..=12 {
        let expected = (cascade.reached(limit), least);
        assert_eq!(reached(n, table, limit), expected, "limit {limit}");
    }
}

#[test]
fn both_answers_in_another_way() {
    for_each_table(137, check_in_another_way);
    for n in 10..=12 {
        for table in tables::all(n, &mut Random(139), 4) {
            check_in_another_way(n, &table);
        }
    }
    check_in_another_way(12, &tables::many_classes());
    check_in_another_way(12, &tables::long_image());
}

/// All tables of four small values, and of eight bits.
#[test]
fn all_small_tables() {
    let fours = (0..4_usize.pow(4)).map(|code| tables::of(2, |x| (code >> (2 * x) & 3) as i32));
    let bits = (0..1_usize << 8).map(|code| tables::of(3, |x| (code >> x & 1) as i32));
    for table in fours.chain(bits) {
        check_in_another_way(table.len().trailing_zeros() as usize, &table);
    }
}

/// All values are moved as far down and as far up as can be.
#[test]
fn another_offset_changes_nothing() {
    for_each_table(138, |n, table| {
        let (_, least, greatest, _) = oracle::numbers(table);
        for by in [LEAST - least, GREATEST - greatest] {
            let moved: Vec<i32> = table.iter().map(|value| value + by).collect();
            for limit in [1, 3, 12] {
                assert_eq!(reached(n, &moved, limit), reached(n, table, limit));
            }
        }
    });
}
