//! Calls of Plan and Compile: with chosen cells worked out by hand, and refused
//! for several reasons.

use crate::cases::{EQUAL_USES, TIE};
use crate::{oracle, tables, Cascade, FIGURE, GREATEST, LEAST, RECORD};

/// Group, incoming count, outgoing count, weight width and bits of a cell, and
/// the commonest class where it ends with its use count.
pub type ChosenCell = [usize; 7];

/// A table and a limit with the chosen cells.
pub struct ChosenPlan {
    pub n: usize,
    pub table: Vec<i32>,
    pub limit: usize,
    pub cells: Vec<ChosenCell>,
}

impl ChosenPlan {
    pub fn sizes(&self) -> Vec<usize> {
        self.cells.iter().map(|cell| cell[0]).collect()
    }

    pub fn bits(&self) -> usize {
        self.cells.iter().map(|cell| cell[4]).sum()
    }

    /// The bytes of the image: a word has 7, as a cell's own command has.
    pub fn length(&self) -> usize {
        let cell = |cell: &ChosenCell| 7 * (1 + (cell[1] << cell[0]));
        6 + self.cells.iter().map(cell).sum::<usize>() + 5
    }

    pub fn image(&self) -> Vec<u8> {
        let cascade = Cascade::new(self.n, &self.table);
        cascade.draft(&self.sizes()).bytes()
    }

    pub fn nodes(&self) -> usize {
        oracle::records(self.n, &self.table).len() / RECORD + 1
    }
}

fn chosen(table: &[i32], limit: usize, cells: &[ChosenCell]) -> ChosenPlan {
    ChosenPlan {
        n: table.len().trailing_zeros() as usize,
        table: table.to_vec(),
        limit,
        cells: cells.to_vec(),
    }
}

pub fn chosen_plans() -> Vec<ChosenPlan> {
    let mut plans = checked_values();
    plans.extend(plans_by_signs());
    plans.extend(plans_with_ties());
    plans.extend(plans_of_sums());
    plans.extend(plans_by_uses());
    plans.extend(plans_of_12_variables());
    plans.extend(plans_of_many_classes());
    plans.push(long_image());
    plans
}

/// The paper's checked values, and pairs beside them.
fn checked_values() -> Vec<ChosenPlan> {
    let figure = [
        [2, 1, 2, 3, 16, 0, 2],
        [1, 2, 2, 1, 8, 0, 6],
        [1, 2, 1, 1, 4, 0, 16],
    ];
    let mut plans = vec![chosen(&FIGURE, 4, &figure), chosen(&FIGURE, 2, &figure)];
    let pairs = [
        ([5, 8], 2, 4),
        ([3, 2], 1, 2),
        ([2, 3], 1, 2),
        ([4, 2], 2, 4),
        ([LEAST, GREATEST], 24, 48),
        ([GREATEST, LEAST], 25, 50),
        ([0, 3], 2, 4),
        ([0, 4], 3, 6),
        ([4, 0], 3, 6),
        ([5, 0], 4, 8),
        ([7, 7], 0, 0),
    ];
    plans.extend(
        pairs.map(|(table, width, bits)| chosen(&table, 1, &[[1, 1, 1, width, bits, 0, 2]])),
    );
    plans.push(chosen(&[7; 4], 2, &[[2, 1, 1, 0, 0, 0, 4]]));
    plans
}

/// Cells with a negative weight beside cells without.
fn plans_by_signs() -> Vec<ChosenPlan> {
    vec![
        chosen(
            &[0, 4, -1, 3],
            2,
            &[[1, 1, 1, 1, 2, 0, 2], [1, 1, 1, 3, 6, 0, 4]],
        ),
        chosen(
            &[0, 4, 1, 5],
            2,
            &[[1, 1, 1, 1, 2, 0, 2], [1, 1, 1, 3, 6, 0, 4]],
        ),
        // One negative weight makes the cell signed, so that 4 takes 4 bits. Two
        // cells cost 2 * (1 + 1) + 4 * 3, which is as much.
        chosen(&[0, 4, -1, 1], 2, &[[2, 1, 1, 4, 16, 0, 4]]),
        // The lower cell is signed for one of its classes, and 4 is a weight of
        // the other. One cell costs 4 * 10.
        chosen(
            &[0, 4, 1_000, 999],
            2,
            &[[1, 1, 2, 10, 22, 0, 1], [1, 2, 1, 4, 16, 0, 4]],
        ),
        // One cell costs 8 * 3. With a bit for a sign in the lower of two cells
        // these would cost 4 + 8 * 3.
        chosen(
            &[1, 3, 2, 1, 0, 3, 2, 2],
            3,
            &[[1, 1, 2, 1, 4, 0, 1], [2, 2, 1, 2, 16, 0, 8]],
        ),
    ]
}

/// Of equal costs the widest first group is chosen.
fn plans_with_ties() -> Vec<ChosenPlan> {
    // The groupings 1, 2, 1 and 1, 1, 1, 1 cost 36 as well.
    let three_ways = [0, 0, 0, 0, -2, -2, -2, -1, -3, -3, -3, -3, -5, -4, -5, -5];
    vec![
        chosen(
            &TIE,
            4,
            &[
                [2, 1, 3, 4, 24, 0, 2],
                [1, 3, 2, 0, 8, 0, 6],
                [1, 2, 1, 2, 8, 0, 16],
            ],
        ),
        chosen(
            &three_ways,
            4,
            &[
                [2, 1, 3, 4, 24, 0, 2],
                [1, 3, 2, 0, 8, 0, 6],
                [1, 2, 1, 1, 4, 0, 16],
            ],
        ),
        // One cell costs 4 * 3, two cost 2 * (1 + 1) + 4 * 2.
        chosen(&[0, 1, -1, -3], 2, &[[2, 1, 1, 3, 12, 0, 4]]),
    ]
}

/// One class at every cut, and one variable a cell.
fn plans_of_sums() -> Vec<ChosenPlan> {
    let sum = tables::weighted_sum(0, &[1, 2, 3, 4, 5]);
    let cell = |(width, uses)| [1, 1, 1, width, 2 * width, 0, uses];
    let cells = [(3, 2), (3, 4), (2, 8), (2, 16), (1, 32)].map(cell);
    let fall = tables::weighted_sum(0, &[-1, -2, -3, -4, -5]);
    let fall_cells = [(4, 2), (3, 4), (3, 8), (2, 16), (1, 32)].map(cell);
    vec![
        chosen(&sum, 1, &cells),
        chosen(&sum, 12, &cells),
        chosen(&fall, 1, &fall_cells),
        chosen(&fall, 12, &fall_cells),
    ]
}

/// Commonest classes other than 0 at a chosen cut.
fn plans_by_uses() -> Vec<ChosenPlan> {
    let by_classes = |classes: [usize; 8]| tables::of_classes(1, &classes);
    let (flat, steep) = ([LEAST; 2], [LEAST, GREATEST]);
    vec![
        // At cut 3 classes 1 and 2 have three blocks each.
        chosen(
            &EQUAL_USES,
            3,
            &[
                [1, 1, 2, 1, 4, 0, 1],
                [2, 2, 4, 2, 32, 1, 3],
                [1, 4, 1, 3, 24, 0, 16],
            ],
        ),
        // So have classes 2 and 3, the last one.
        chosen(
            &by_classes([0, 1, 2, 2, 2, 3, 3, 3]),
            3,
            &[[3, 1, 4, 0, 16, 2, 3], [1, 4, 1, 2, 16, 0, 16]],
        ),
        // The last class alone has three.
        chosen(
            &by_classes([0, 0, 1, 1, 2, 3, 3, 3]),
            3,
            &[[3, 1, 4, 0, 16, 3, 3], [1, 4, 1, 2, 16, 0, 16]],
        ),
        // The middle cell has two words of each class.
        chosen(
            &by_classes([0, 0, 1, 1, 1, 1, 1, 1]),
            2,
            &[
                [2, 1, 2, 0, 4, 1, 3],
                [1, 2, 2, 0, 4, 1, 6],
                [1, 2, 1, 1, 4, 0, 16],
            ],
        ),
        // It has three words of class 0, and one of class 1.
        chosen(
            &by_classes([0, 0, 0, 1, 0, 1, 0, 1]),
            2,
            &[
                [2, 1, 2, 0, 4, 1, 3],
                [1, 2, 2, 0, 4, 0, 5],
                [1, 2, 1, 1, 4, 0, 16],
            ],
        ),
        chosen(
            &[flat, steep, steep, steep].concat(),
            2,
            &[[2, 1, 2, 0, 4, 1, 3], [1, 2, 1, 24, 96, 0, 8]],
        ),
    ]
}

/// One cell, twelve, and eleven with class 1 in three blocks of four.
fn plans_of_12_variables() -> Vec<ChosenPlan> {
    let single_cell = [[12, 1, 1, 0, 0, 0, 4_096]];
    let identity = (1..=12).map(|cut| [1, 1, 1, 13 - cut, 2 * (13 - cut), 0, 1 << cut]);
    let mut three_of_four = vec![[2, 1, 2, 0, 4, 1, 3]];
    three_of_four.extend((1..=9).map(|group| [1, 2, 2, 0, 4, 1, 3 << group]));
    three_of_four.push([1, 2, 1, 1, 4, 0, 4_096]);
    let odd_after_a_quarter = tables::of(12, |x| i32::from(x >= 1_024 && x % 2 == 1));
    vec![
        chosen(&[0; 4_096], 12, &single_cell),
        chosen(&[LEAST; 4_096], 12, &single_cell),
        chosen(&[GREATEST; 4_096], 12, &single_cell),
        chosen(
            &tables::of(12, |x| x as i32),
            1,
            &identity.collect::<Vec<ChosenCell>>(),
        ),
        chosen(&odd_after_a_quarter, 2, &three_of_four),
    ]
}

/// More than 256 classes at a chosen cut; the lowest cell alone has negative
/// weights. By uses the first class, the last and the last but one stand out.
fn plans_of_many_classes() -> Vec<ChosenPlan> {
    let cells = |count, upper: [usize; 2], lower: [usize; 2]| {
        [
            [5, 1, count, 23, 32 * (5 + 23), upper[0], upper[1]],
            [4, count, 300, 18, 512 * (9 + 18), lower[0], lower[1]],
            [3, 300, 1, 2, 4_096 * 2, 0, 4_096],
        ]
    };
    let last = tables::last_class_commonest();
    let last_two = tables::last_two_classes_commonest();
    vec![
        chosen(&tables::many_classes(), 12, &cells(32, [0, 1], [0, 2])),
        chosen(&last, 12, &cells(20, [19, 13], [299, 213])),
        chosen(&last_two, 12, &cells(20, [19, 13], [298, 107])),
    ]
}

/// As long an image as a chosen grouping is known to have.
fn long_image() -> ChosenPlan {
    let cells = [
        [10, 1, 1_024, 24, 1_024 * (10 + 24), 0, 1],
        [2, 1_024, 1, 4, 4_096 * 4, 0, 4_096],
    ];
    chosen(&tables::long_image(), 12, &cells)
}

/// A call of Plan or Compile that several refusals hold for, in the paper's
/// order.
pub struct RefusedPlan {
    pub refusals: Vec<u8>,
    pub n: usize,
    pub table: Vec<i32>,
    pub limit: usize,
    /// The bytes of the image buffer.
    pub room: usize,
}

/// Every set of refusals of Compile that can hold at once. Those of Plan are
/// the sets without 10.
pub fn refused_plans() -> Vec<RefusedPlan> {
    let numbers = [1, 2, 3, 8, 9, 10];
    let set = |bits: usize| -> Vec<u8> {
        let chosen = (0..numbers.len()).filter(|place| bits >> place & 1 == 1);
        chosen.map(|place| numbers[place]).collect()
    };
    let sets: Vec<Vec<u8>> = (1..1 << numbers.len()).map(set).collect();
    // Without variables there is a grouping, the empty one; one variable keeps
    // to every limit from 1.
    let without_9 = |n: usize| n < 2;
    let variables = |set: &[u8]| match set.contains(&1) {
        true => vec![0, 13],
        false => vec![1, 2, 3, 7, 12],
    };
    let calls = |set: &Vec<u8>| -> Vec<RefusedPlan> {
        let possible = |&n: &usize| !(without_9(n) && set.contains(&9));
        let variables = variables(set).into_iter().filter(possible);
        variables.map(|n| refused_plan(set, n)).collect()
    };
    sets.iter().flat_map(calls).collect()
}

/// The call for a set of refusals with so many variables.
fn refused_plan(refusals: &[u8], n: usize) -> RefusedPlan {
    let holds = |number: u8| refusals.contains(&number);
    let length = (1 << n) + usize::from(holds(2));
    // Two classes at every inner cut: no grouping keeps to limit 1.
    let mut table: Vec<i32> = (0..length).map(|x| i32::from(x == 1)).collect();
    if holds(3) {
        table[length - 1] = GREATEST + 1;
    }
    let limit = match (holds(8), holds(9)) {
        (false, false) => 12,
        (false, true) => 1,
        (true, false) => 13,
        (true, true) => 0,
    };
    RefusedPlan {
        refusals: refusals.into(),
        n,
        table,
        limit,
        room: if holds(10) { 0 } else { 65_536 },
    }
}
