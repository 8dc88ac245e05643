//! Rail widths and weight widths.

use panstrait_compare::proved;
use panstrait_reference as reference;
use panstrait_samples::{cases, oracle, Random};

/// Numbers around every power of two up to 2^32.
fn around_powers() -> impl Iterator<Item = i64> {
    (0..=32).flat_map(|k| [-1, 0, 1].map(|step| (1_i64 << k) + step))
}

#[test]
fn rail_widths_of_small_counts() {
    for count in 0..=5_000 {
        assert_eq!(
            proved::rail_width(count),
            reference::rail_width(count as usize),
            "{count}"
        );
    }
}

#[test]
fn rail_widths_around_powers_of_two() {
    for count in around_powers().filter_map(|c| u32::try_from(c).ok()) {
        assert_eq!(
            proved::rail_width(count),
            reference::rail_width(count as usize),
            "{count}"
        );
    }
    assert_eq!(proved::rail_width(u32::MAX), 32);
}

#[test]
fn rail_widths_of_random_counts() {
    let mut random = Random(1);
    for _ in 0..100_000 {
        let count = (random.number() >> (32 + random.below(32))) as u32;
        assert_eq!(
            proved::rail_width(count),
            reference::rail_width(count as usize),
            "{count}"
        );
    }
}

fn same_weight_width(one: i32, other: i32) {
    assert_eq!(
        proved::weight_width(one, other),
        reference::weight_width(&[one, other]),
        "{one} {other}"
    );
}

/// Every border of both rules by itself, beside 0, and beside another weight.
#[test]
fn weight_widths_worked_out_by_hand() {
    for case in cases::weight_widths() {
        let pairs = match case.weights[..] {
            [] => vec![(0, 0)],
            [weight] => vec![(weight, weight), (weight, 0), (0, weight)],
            [one, other] => vec![(one, other), (other, one)],
            _ => continue,
        };
        for (one, other) in pairs {
            let width = proved::weight_width(one, other);
            assert_eq!(width, case.width, "{one} {other}");
        }
    }
}

#[test]
fn weight_widths_of_all_pairs_of_borders() {
    let mut borders: Vec<i32> = around_powers()
        .flat_map(|b| [b, -b])
        .filter_map(|b| i32::try_from(b).ok())
        .collect();
    borders.extend([0, i32::MIN, i32::MAX]);
    for &one in &borders {
        for &other in &borders {
            same_weight_width(one, other);
            let width = oracle::width([one, other]);
            assert_eq!(proved::weight_width(one, other), width, "{one} {other}");
        }
    }
}

#[test]
fn weight_widths_of_small_pairs() {
    for one in -300..=300 {
        for other in -300..=300 {
            same_weight_width(one, other);
        }
    }
}

#[test]
fn weight_widths_of_random_pairs() {
    let mut random = Random(2);
    for _ in 0..300_000 {
        let mut weight = || random.number() as i32 >> random.below(32);
        same_weight_width(weight(), weight());
    }
}
