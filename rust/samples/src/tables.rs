//! Families of tables, structured and pseudo-random with fixed seeds.

use crate::{oracle, GREATEST, LEAST};
use std::f64::consts::PI;

/// A small generator of pseudo-random numbers (splitmix64).
pub struct Random(pub u64);

impl Random {
    pub fn number(&mut self) -> u64 {
        self.0 = self.0.wrapping_add(0x9E37_79B9_7F4A_7C15);
        let mut z = self.0;
        z = (z ^ (z >> 30)).wrapping_mul(0xBF58_476D_1CE4_E5B9);
        z = (z ^ (z >> 27)).wrapping_mul(0x94D0_49BB_1331_11EB);
        z ^ (z >> 31)
    }

    pub fn below(&mut self, bound: usize) -> usize {
        (self.number() % bound as u64) as usize
    }

    /// A number from `least` to `greatest`.
    pub fn between(&mut self, least: i32, greatest: i32) -> i32 {
        least + self.below((greatest - least) as usize + 1) as i32
    }
}

/// A table of f(X) for every X below 2^n.
pub fn of(n: usize, f: impl FnMut(usize) -> i32) -> Vec<i32> {
    (0..1 << n).map(f).collect()
}

/// The sum of the weights w(j) over the bits x(j) that are 1.
pub fn weighted_sum(offset: i32, weights: &[i32]) -> Vec<i32> {
    let bit = |x: usize, j: usize| (x >> j & 1) as i32;
    of(weights.len(), |x| {
        weights
            .iter()
            .enumerate()
            .map(|(j, w)| w * bit(x, j))
            .sum::<i32>()
            + offset
    })
}

/// Tables with a known shape, for every n from 1 to 12.
pub fn structured(n: usize) -> Vec<Vec<i32>> {
    let angle = |x: usize| 2.0 * PI * x as f64 / f64::from(1 << n);
    let ascending: Vec<i32> = (0..n as i32).map(|j| j + 1).collect();
    let signed: Vec<i32> = (0..n as i32)
        .map(|j| (j * 37 - 150) * (1 - 2 * (j % 2)))
        .collect();
    vec![
        of(n, |_| 0),
        of(n, |_| LEAST),
        of(n, |_| GREATEST),
        of(n, |x| x as i32),
        of(n, |x| -7 * x as i32 + 12_345),
        of(n, |x| (x * x / 2) as i32 - 4_000_000),
        of(n, |x| (x as f64).sqrt() as i32),
        of(n, |x| (1_000.0 * (x as f64).sqrt()).round() as i32),
        of(n, |x| (127.0 * angle(x).sin()).round() as i32),
        of(n, |x| (8_388_607.0 * angle(x).sin()).round() as i32),
        of(n, |x| if x % 2 == 0 { LEAST } else { GREATEST }),
        of(n, |x| i32::from(x == (1 << n) - 1)),
        of(n, |x| x.count_ones() as i32 % 2),
        of(n, |x| (x % 5) as i32),
        of(n, |x| ((x >> (n / 2)) * (x & ((1 << (n / 2)) - 1))) as i32),
        weighted_sum(3, &ascending),
        weighted_sum(-9, &signed),
    ]
}

/// Pseudo-random tables, some with planted equal blocks.
pub fn random(n: usize, random: &mut Random) -> Vec<i32> {
    match random.below(6) {
        0 => of(n, |_| random.between(LEAST, GREATEST)),
        1 => of(n, |_| random.between(-2, 1)),
        2 => of(n, |_| random.between(0, 1)),
        3 => rising(n, random),
        _ => planted(n, random),
    }
}

/// A table that rises by small steps, with a few jumps.
fn rising(n: usize, random: &mut Random) -> Vec<i32> {
    let most = random.between(0, 3);
    let mut value = random.between(-100, 100);
    of(n, |_| {
        let jump = random.below(40) == 0;
        value += if jump {
            random.between(-50, 50)
        } else {
            random.between(0, most)
        };
        value
    })
}

/// A table built upwards: at each height blocks come from a small pool.
fn planted(n: usize, random: &mut Random) -> Vec<i32> {
    let mut pool: Vec<Vec<i32>> = vec![vec![0]];
    for _ in 0..n {
        let blocks = 1 + random.below(4);
        pool = (0..blocks).map(|_| joined(&pool, random)).collect();
    }
    let shift = random.between(-1_000, 1_000);
    pool[0].iter().map(|v| v + shift).collect()
}

/// Two blocks of the pool side by side, the upper one shifted, often by 0.
fn joined(pool: &[Vec<i32>], random: &mut Random) -> Vec<i32> {
    let mut block = pool[random.below(pool.len())].clone();
    let upper = pool[random.below(pool.len())].clone();
    let shift = match random.below(3) {
        0 => 0,
        1 => random.between(-4, 4),
        _ => random.between(-90_000, 90_000),
    };
    block.extend(upper.iter().map(|v| v + shift));
    block
}

/// Tables whose blocks are hard to tell apart, for every n.
pub fn adversarial(n: usize) -> Vec<Vec<i32>> {
    let mut all = vec![
        all_different(n),
        // Blocks repeat with period 3, so that no half equals the other.
        of(n, |x| (x % 3) as i32),
        // One value differs, the first or the middle one.
        of(n, |x| i32::from(x == 0)),
        of(n, |x| i32::from(x == (1 << n) / 2)),
        // Halves equal up to a shift at one height alone.
        of(n, |x| {
            if x >> (n - 1) == 1 {
                GREATEST - (x & 7) as i32
            } else {
                LEAST + (x & 7) as i32
            }
        }),
    ];
    all.extend((0..=n).map(|height| last_value_differs(n, height)));
    all
}

/// No two blocks of one height above 0 have equal differences, and each has a
/// record.
pub fn all_different(n: usize) -> Vec<i32> {
    of(n, |x| (x * (x + 1) / 2) as i32)
}

/// The blocks of one height agree up to their last value, which is another in
/// each.
pub fn last_value_differs(n: usize, height: usize) -> Vec<i32> {
    by_last_value(n, height, |block| block as i32 + 1)
}

/// The blocks of one height are 0 up to their last value.
fn by_last_value(n: usize, height: usize, last_value: impl Fn(usize) -> i32) -> Vec<i32> {
    let last = (1 << height) - 1;
    of(n, |x| {
        if x & last == last {
            last_value(x >> height)
        } else {
            0
        }
    })
}

/// A table whose blocks of a height from 1 up have these classes, and agree up
/// to their last value.
pub fn of_classes(height: usize, classes: &[usize]) -> Vec<i32> {
    let n = height + classes.len().trailing_zeros() as usize;
    by_last_value(n, height, |block| classes[block] as i32)
}

/// Every row of classes that so many blocks can have.
pub fn class_rows(blocks: usize) -> Vec<Vec<usize>> {
    let longer = |row: Vec<usize>| {
        let known = row.iter().max().map_or(0, |most| most + 1);
        (0..=known).map(move |class| [&row[..], &[class]].concat())
    };
    (0..blocks).fold(vec![Vec::new()], |rows, _| {
        rows.into_iter().flat_map(longer).collect()
    })
}

/// A table with these class counts at its cuts: 1 at the first and the last, none
/// more than twice the one before. Each class k of a cut adds weight k, and its
/// halves are of the classes 2k and 2k + 1 of the next, modulo the count there.
pub fn of_class_counts(counts: &[usize]) -> Vec<i32> {
    let n = counts.len() - 1;
    of(n, |x| {
        let (mut class, mut value) = (0, 0);
        for cut in 0..n {
            let bit = x >> (n - cut - 1) & 1;
            value += bit * class;
            class = (2 * class + bit) % counts[cut + 1];
        }
        value as i32
    })
}

/// Class counts that a table over n variables can have, of any growth and fall.
pub fn class_counts(n: usize, random: &mut Random) -> Vec<usize> {
    let mut counts = vec![1];
    for cut in 1..n {
        let most = 2 * counts[cut - 1];
        counts.push(match random.below(4) {
            0 => 1 + random.below(most),
            1 => most / 2,
            _ => most,
        });
    }
    counts.push(1);
    counts
}

/// A table whose blocks of some height are of the class of the block before, of
/// a new class or of any known one, each more or less often.
pub fn wandering(n: usize, random: &mut Random) -> Vec<i32> {
    let height = 1 + random.below(n);
    let [same, new, any] = [20, 4, 8].map(|most| 1 + random.below(most));
    let (mut class, mut known) = (0, 1);
    let mut classes = vec![class];
    classes.resize_with(1 << (n - height), || {
        let chance = random.below(same + new + any);
        if chance < new {
            class = known;
            known += 1;
        } else if chance < new + any {
            class = random.below(known);
        }
        class
    });
    of_classes(height, &classes)
}

/// A table whose blocks of some height are of few classes, in rows of them that
/// recur: a cell often ends there, many classes are equally common, and others
/// are commonest in the rows.
pub fn contested(n: usize, random: &mut Random) -> Vec<i32> {
    let height = 1 + random.below(n.min(3));
    let group = random.below(n - height + 1);
    let count = 2 + random.below(5);
    let row: Vec<Vec<i32>> = (0..1 + random.below(3))
        .map(|_| of(group, |_| 1_000 * random.below(count) as i32))
        .collect();
    let rows = 1 << (n - height - group);
    let classes: Vec<i32> = (0..rows)
        .flat_map(|_| row[random.below(row.len())].clone())
        .collect();
    by_last_value(n, height, |block| classes[block])
}

/// The table with each block of a cut moved by a number of its own, within the
/// values' range.
pub fn moved_blocks(n: usize, table: &[i32], cut: usize, random: &mut Random) -> Vec<i32> {
    let mut moved = table.to_vec();
    for block in moved.chunks_mut(1 << (n - cut)) {
        let (_, least, greatest, _) = oracle::numbers(block);
        let by = random.between(LEAST - least, GREATEST - greatest);
        block.iter_mut().for_each(|value| *value += by);
    }
    moved
}

/// Of the blocks of one height, at least four, half are each of a new class,
/// and in the rest the last two classes alternate: at every block the search
/// tries all known classes.
pub fn alternating_last_classes(n: usize, height: usize) -> Vec<i32> {
    let half = 1 << (n - height - 1);
    let class = |block: usize| block.min(half - 2 + block % 2);
    let classes: Vec<usize> = (0..2 * half).map(class).collect();
    of_classes(height, &classes)
}

/// A table over 12 variables whose grouping of least cost is 5, 4, 3, with 300
/// classes at cut 9, taken in turn.
pub fn many_classes() -> Vec<i32> {
    of_far_blocks(|block| block % 300)
}

/// The like of it: the blocks from 300 on are of the last class.
pub fn last_class_commonest() -> Vec<i32> {
    of_far_blocks(|block| block.min(299))
}

/// The like of it: the blocks from 300 on are of the last two classes, as many of
/// each.
pub fn last_two_classes_commonest() -> Vec<i32> {
    of_far_blocks(|block| block.min(298 + block % 2))
}

/// Blocks of eight values, far apart, whose differences are the class in
/// four-valued digits, -2 to 1.
fn of_far_blocks(class: impl Fn(usize) -> usize) -> Vec<i32> {
    of(12, |x| {
        let (block, place) = (x >> 3, x & 7);
        let digit = match place {
            1..=5 => (class(block) >> (2 * (place - 1)) & 3) as i32 - 2,
            _ => 0,
        };
        16_000 * block as i32 - 4_000_000 + digit
    })
}

/// A table over 12 variables whose grouping of least cost is 10, 2, with 1,024
/// classes between: blocks of four, far apart in no order, whose differences
/// are the block's number in digits of four bits, -8 to 7.
pub fn long_image() -> Vec<i32> {
    of(12, |x| {
        let (block, place) = (x >> 2, x & 3);
        let digit = match place {
            0 => 0,
            _ => (block >> (4 * (place - 1)) & 15) as i32 - 8,
        };
        (block * 7_919_117 % 16_000_001) as i32 - 8_000_000 + digit
    })
}

/// Structured, adversarial and pseudo-random tables over n variables.
pub fn all(n: usize, random: &mut Random, count: usize) -> Vec<Vec<i32>> {
    let mut all = structured(n);
    all.extend(adversarial(n));
    all.extend((0..count).map(|_| self::random(n, random)));
    all
}
