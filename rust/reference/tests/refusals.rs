//! Every refusal of every operation, their order, and untouched buffers.

use panstrait_reference::*;
use panstrait_samples::*;

/// Numbers out of range, some of them 4 in their low bits.
const HUGE: [usize; 6] = [
    13,
    64,
    (1 << 8) + 4,
    (1 << 16) + 4,
    (1 << 32) + 4,
    usize::MAX,
];

/// Build's refusal, with a node buffer that must stay as it was.
fn build_refusal(n: usize, table: &[i32], buffer: usize) -> Refusal {
    let mut nodes = vec![NUMBER; buffer];
    let refusal = build(n, table, &mut nodes).expect_err("a refusal");
    assert!(nodes.iter().all(|&v| v == NUMBER));
    refusal
}

/// Compile's refusal, with an image buffer that must stay as it was.
fn compile_refusal(n: usize, table: &[i32], limit: usize, buffer: usize) -> Refusal {
    let mut image = vec![BYTE; buffer];
    let refusal = compile(n, table, limit, &mut image).expect_err("a refusal");
    assert!(image.iter().all(|&b| b == BYTE));
    refusal
}

fn plan_refusal(n: usize, table: &[i32], limit: usize) -> Refusal {
    plan(n, table, limit).expect_err("a refusal")
}

#[test]
fn n_that_is_in_range_in_its_low_bits() {
    for n in cases::WRAPPED_3 {
        for length in [8, 0, 1, 7, 9, 16, 4_096] {
            let table = vec![0; length];
            assert_eq!(build_refusal(n, &table, node_numbers(3)), 1);
            assert_eq!(build_refusal(n, &table, 40_000), 1);
            for limit in [3, 12] {
                assert_eq!(plan_refusal(n, &table, limit), 1);
                assert_eq!(compile_refusal(n, &table, limit, 1_000), 1);
            }
        }
        for records in [&[][..], &[2, 0, 0, 1, 0, 1]] {
            for x in [0, 7, 8] {
                assert_eq!(walk(n, 0, records, x), Err(1));
                assert_eq!(report(n, 0, records, 0, x), Err(1));
            }
        }
    }
}

#[test]
fn build_each() {
    for n in [0].into_iter().chain(HUGE) {
        assert_eq!(build_refusal(n, &FIGURE, 90), 1);
    }
    for length in [0, 1, 15, 17, 32] {
        assert_eq!(build_refusal(4, &vec![0; length], 90), 2);
    }
    for value in [LEAST - 1, GREATEST + 1, i32::MIN, i32::MAX] {
        for place in [0, 7, 15] {
            let mut table = FIGURE;
            table[place] = value;
            assert_eq!(build_refusal(4, &table, 90), 3);
        }
    }
    for buffer in [0, 30, 60, 89] {
        assert_eq!(build_refusal(4, &FIGURE, buffer), 4);
    }
    assert!(build(4, &FIGURE, &mut [NUMBER; 90]).is_ok());
    // The buffer is due whole even where the diagram has no record.
    assert_eq!(build_refusal(4, &[7; 16], 89), 4);
    assert_eq!(build_refusal(1, &[7; 2], 5), 4);
    assert!(build(1, &[7; 2], &mut [NUMBER; 6]).is_ok());
}

#[test]
fn node_buffers_one_number_short() {
    for n in 1..=12 {
        let table = tables::all_different(n);
        let most = 6 * ((1 << n) - 1);
        assert_eq!(build_refusal(n, &table, most - 1), 4);
        assert!(build(n, &table, &mut vec![NUMBER; most]).is_ok());
    }
}

#[test]
fn build_order() {
    assert_eq!(build_refusal(0, &[i32::MAX; 3], 0), 1);
    assert_eq!(build_refusal(13, &[i32::MAX; 3], 0), 1);
    assert_eq!(build_refusal(2, &[i32::MAX; 3], 0), 2);
    assert_eq!(build_refusal(2, &[i32::MAX; 4], 0), 3);
    assert_eq!(build_refusal(2, &[0; 4], 0), 4);
}

#[test]
fn plan_each() {
    for n in [0].into_iter().chain(HUGE) {
        assert_eq!(plan_refusal(n, &FIGURE, 4), 1);
    }
    assert_eq!(plan_refusal(4, &FIGURE[..15], 4), 2);
    assert_eq!(plan_refusal(1, &[0, GREATEST + 1], 4), 3);
    assert_eq!(plan_refusal(1, &[LEAST - 1, 0], 4), 3);
    for limit in [0].into_iter().chain(HUGE) {
        assert_eq!(plan_refusal(4, &FIGURE, limit), 8);
    }
    assert_eq!(plan_refusal(4, &FIGURE, 1), 9);
}

#[test]
fn compile_each() {
    for n in [0].into_iter().chain(HUGE) {
        assert_eq!(compile_refusal(n, &FIGURE, 4, 200), 1);
    }
    assert_eq!(compile_refusal(4, &FIGURE[..15], 4, 200), 2);
    assert_eq!(compile_refusal(1, &[0, GREATEST + 1], 4, 200), 3);
    for limit in [0].into_iter().chain(HUGE) {
        assert_eq!(compile_refusal(4, &FIGURE, limit, 200), 8);
    }
    assert_eq!(compile_refusal(4, &FIGURE, 1, 200), 9);
    let length = figure_draft().bytes().len();
    for buffer in 0..length {
        assert_eq!(compile_refusal(4, &FIGURE, 4, buffer), 10);
    }
    let mut image = vec![BYTE; length];
    assert_eq!(compile(4, &FIGURE, 4, &mut image).unwrap().length, length);
}

#[test]
fn plan_and_compile_order() {
    for case in cases::refused_plans() {
        let (n, table, limit) = (case.n, &case.table, case.limit);
        let first = case.refusals[0];
        let refusal = compile_refusal(n, table, limit, case.room);
        assert_eq!(refusal, first, "n {n}: {:?}", case.refusals);
        if first != 10 {
            let refusal = plan_refusal(n, table, limit);
            assert_eq!(refusal, first, "n {n}: {:?}", case.refusals);
        }
    }
}

#[test]
fn run_and_expand_after_a_sound_image() {
    let image = figure_draft().bytes();
    for x in [16, 17, 1 << 8, 1 << 16, 1 << 32, usize::MAX] {
        assert_eq!(run(&image, x), Err(7));
    }
    for length in [0, 1, 15, 17, 32] {
        let mut table = vec![NUMBER; length];
        assert_eq!(expand(&image, &mut table), Err(2));
        assert!(table.iter().all(|&v| v == NUMBER));
    }
    let mut table = [NUMBER; 16];
    assert_eq!(expand(&image, &mut table), Ok(()));
    assert_eq!(table, FIGURE);
}

#[test]
fn image_refusals_come_before_x_and_table_length() {
    let image = figure_draft().bytes();
    let mut after = image.clone();
    after.push(0x45);
    let mut other = image.clone();
    other[0] = 0x57;
    let mut total = image.clone();
    total[image.len() - 1] += 1;
    let cases: [(&[u8], Refusal); 4] =
        [(&image[..20], 11), (&other, 12), (&total, 13), (&after, 14)];
    for (damaged, refusal) in cases {
        assert_eq!(run(damaged, 0), Err(refusal));
        assert_eq!(run(damaged, usize::MAX), Err(refusal));
        for length in [3, 16] {
            let mut table = vec![NUMBER; length];
            assert_eq!(expand(damaged, &mut table), Err(refusal));
            assert!(table.iter().all(|&v| v == NUMBER));
        }
    }
}

/// Every set of refusals that can hold at once: the first in the paper's order.
#[test]
fn walk_and_report_order() {
    for call in cases::list_calls() {
        let (name, variables) = (&call.name, call.variables());
        let walk_refusal = |x| walk(call.n, call.offset, &call.records, x).err();
        let report_refusal = |a, b| report(call.n, call.offset, &call.records, a, b).err();
        for x in cases::wrong_inputs(variables) {
            let expected = call.refusal.or(Some(7));
            assert_eq!(walk_refusal(x), expected, "{name}, X {x}");
        }
        for (a, b) in cases::wrong_parts(variables) {
            let expected = call.refusal.or(Some(15));
            assert_eq!(report_refusal(a, b), expected, "{name}, X {a} to {b}");
        }
        let last = (1 << variables) - 1;
        for x in [0, last] {
            assert_eq!(walk_refusal(x), call.refusal, "{name}, X {x}");
            assert_eq!(report_refusal(x, last), call.refusal, "{name}, X from {x}");
        }
    }
}

#[test]
fn walk_and_report_order_by_hand() {
    let bad = [0, 0, 0];
    let report = |n, offset, records: &[i32]| report(n, offset, records, 1, 0);
    for n in [0, 13, usize::MAX] {
        assert_eq!(walk(n, i32::MAX, &bad, usize::MAX), Err(1));
        assert_eq!(report(n, i32::MAX, &bad), Err(1));
    }
    assert_eq!(walk(2, i32::MAX, &bad, usize::MAX), Err(5));
    assert_eq!(report(2, i32::MAX, &bad), Err(5));
    assert_eq!(walk(2, 0, &bad, usize::MAX), Err(6));
    assert_eq!(report(2, 0, &bad), Err(6));
    assert_eq!(walk(2, 0, &[], usize::MAX), Err(7));
    assert_eq!(walk(2, 0, &[], 4), Err(7));
    assert_eq!(report(2, 0, &[]), Err(15));
}

#[test]
fn offsets() {
    for offset in [LEAST - 1, GREATEST + 1] {
        assert_eq!(walk(2, offset, &[], 0), Err(5));
        assert_eq!(report(2, offset, &[], 0, 3), Err(5));
    }
    for offset in [LEAST, GREATEST] {
        assert_eq!(walk(2, offset, &[], 3), Ok(offset));
        let reported = report(2, offset, &[], 0, 3).unwrap();
        assert_eq!(reported.sum, 4 * i64::from(offset));
    }
}
