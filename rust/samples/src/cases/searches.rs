//! Tables with the class of each block of a cut, the number of classes that the
//! search for it tries and the uses of its class, worked out by hand.

use crate::cases::EQUAL_USES;
use crate::{tables, FIGURE};

/// A table over n variables, a cut, and there each block's class, how many
/// classes the search for it tries and how many blocks up to it have the class;
/// then how many blocks have each class.
pub struct Search {
    pub name: &'static str,
    pub n: usize,
    pub table: Vec<i32>,
    pub cut: usize,
    pub blocks: Vec<Block>,
    pub use_counts: Vec<usize>,
}

/// Class, tried and uses of a block.
pub type Block = (usize, usize, usize);

impl Search {
    pub fn classes(&self) -> Vec<usize> {
        self.blocks.iter().map(|&(class, ..)| class).collect()
    }

    pub fn tried(&self) -> Vec<usize> {
        self.blocks.iter().map(|&(_, tried, _)| tried).collect()
    }

    pub fn uses(&self) -> Vec<usize> {
        self.blocks.iter().map(|&(.., uses)| uses).collect()
    }
}

pub fn searches() -> Vec<Search> {
    let mut searches = worked_searches();
    searches.extend(searches_of_few_blocks());
    searches.extend(searches_by_cuts());
    searches.extend(searches_by_classes());
    searches
}

fn search(
    name: &'static str,
    table: &[i32],
    cut: usize,
    blocks: &[Block],
    use_counts: &[usize],
) -> Search {
    Search {
        name,
        n: table.len().trailing_zeros() as usize,
        table: table.to_vec(),
        cut,
        blocks: blocks.to_vec(),
        use_counts: use_counts.to_vec(),
    }
}

fn worked_searches() -> Vec<Search> {
    let pairs = [0, 1, 0, 2, 0, 1, 0, 1, 0, 3, 0, 2, 0, 3, 0, 1];
    let pair_blocks = [
        (0, 0, 1),
        (1, 1, 1),
        (0, 2, 2),
        (0, 1, 3),
        (2, 2, 1),
        (1, 3, 2),
        (2, 3, 2),
        (0, 2, 4),
    ];
    let figure_blocks = [
        (0, 0, 1),
        (0, 1, 2),
        (0, 1, 3),
        (1, 1, 1),
        (0, 2, 4),
        (1, 2, 2),
        (0, 2, 5),
        (0, 1, 6),
    ];
    let equal_blocks = [
        (0, 0, 1),
        (1, 1, 1),
        (1, 1, 2),
        (2, 2, 1),
        (1, 3, 3),
        (3, 3, 1),
        (2, 4, 2),
        (2, 1, 3),
    ];
    let squares = [0, 1, 4, 9, 16, 25, 36, 49];
    let square_blocks = [(0, 0, 1), (1, 1, 1), (2, 2, 1), (3, 3, 1)];
    let figure = |cut, blocks, uses| search("the figure", &FIGURE, cut, blocks, uses);
    let equal = |cut, blocks, uses| search("equal uses", &EQUAL_USES, cut, blocks, uses);
    vec![
        search("pairs", &pairs, 3, &pair_blocks, &[4, 2, 2]),
        figure(0, &[(0, 0, 1)], &[1]),
        figure(1, &[(0, 0, 1), (1, 1, 1)], &[1, 1]),
        figure(2, &[(0, 0, 1), (1, 1, 1), (1, 1, 2), (0, 2, 2)], &[2, 2]),
        figure(3, &figure_blocks, &[6, 2]),
        figure(4, &one_class(16), &[16]),
        equal(1, &[(0, 0, 1), (1, 1, 1)], &[1, 1]),
        equal(3, &equal_blocks, &[1, 3, 3, 1]),
        equal(4, &one_class(16), &[16]),
        search("one value", &[7; 4], 2, &one_class(4), &[4]),
        search("squares", &squares, 2, &square_blocks, &[1; 4]),
    ]
}

/// So many blocks of one class.
fn one_class(blocks: usize) -> Vec<Block> {
    (0..blocks).map(|j| (0, j.min(1), j + 1)).collect()
}

fn searches_of_few_blocks() -> Vec<Search> {
    let two_classes = [(0, 0, 1), (1, 1, 1)];
    vec![
        search("no variable", &[7], 0, &one_class(1), &[1]),
        search("one variable", &[5, 8], 0, &one_class(1), &[1]),
        search("one variable", &[5, 8], 1, &one_class(2), &[2]),
        search("one class", &[5, 8, 1, 4], 1, &one_class(2), &[2]),
        search("two classes", &[5, 8, 4, 1], 1, &two_classes, &[1, 1]),
    ]
}

/// Each cut begins anew: the cut before ends with a class that the first block
/// must not try, and its uses are not counted on.
fn searches_by_cuts() -> Vec<Search> {
    let table = [0, 0, 0, 0, 0, 1, 0, 1];
    let at = |cut, blocks, uses| search("a cut after class 1", &table, cut, blocks, uses);
    vec![
        at(0, &[(0, 0, 1)], &[1]),
        at(1, &[(0, 0, 1), (1, 1, 1)], &[1, 1]),
        at(2, &[(0, 0, 1), (0, 1, 2), (1, 1, 1), (1, 1, 2)], &[2, 2]),
        at(3, &one_class(8), &[8]),
    ]
}

/// Blocks of two values with given classes. Each name says what a search that
/// answers otherwise may have missed.
fn searches_by_classes() -> Vec<Search> {
    vec![
        by_classes(
            "the latest is not tried again on the way to a known class",
            [0, 1, 2, 1, 2, 0, 2, 1],
            [0, 1, 2, 3, 3, 2, 3, 3],
            [1, 1, 1, 2, 2, 2, 3, 3],
            &[2, 3, 3],
        ),
        by_classes(
            "the latest is not tried again on the way to a new class",
            [0, 1, 0, 2, 1, 3, 0, 4],
            [0, 1, 2, 2, 3, 3, 2, 4],
            [1, 1, 2, 1, 2, 1, 3, 1],
            &[3, 2, 1, 1, 1],
        ),
        by_classes(
            "the found class counts",
            [0, 0, 1, 0, 0, 1, 1, 1],
            [0, 1, 1, 2, 1, 2, 1, 1],
            [1, 2, 1, 3, 4, 2, 3, 4],
            &[4, 4],
        ),
        by_classes(
            "class 0 comes right after the latest",
            [0, 1, 0, 2, 0, 3, 0, 0],
            [0, 1, 2, 2, 2, 3, 2, 1],
            [1, 1, 2, 1, 3, 1, 4, 5],
            &[5, 1, 1, 1],
        ),
        by_classes(
            "a new class itself does not count as tried",
            [0, 1, 2, 3, 4, 5, 6, 7],
            [0, 1, 2, 3, 4, 5, 6, 7],
            [1; 8],
            &[1; 8],
        ),
        by_classes(
            "the latest is not the newest",
            [0, 1, 2, 0, 0, 1, 1, 1],
            [0, 1, 2, 2, 1, 2, 1, 1],
            [1, 1, 1, 2, 3, 2, 3, 4],
            &[3, 4, 1],
        ),
        by_classes(
            "the latest is of the block just before",
            [0, 1, 0, 1, 1, 0, 0, 1],
            [0, 1, 2, 2, 1, 2, 1, 2],
            [1, 1, 2, 2, 3, 3, 4, 4],
            &[4, 4],
        ),
        by_classes(
            "the others come from class 0 up",
            [0, 1, 2, 3, 0, 3, 1, 2],
            [0, 1, 2, 3, 2, 4, 3, 3],
            [1, 1, 1, 1, 2, 2, 2, 2],
            &[2, 2, 2, 2],
        ),
        by_classes(
            "runs of one class",
            [0, 0, 1, 1, 1, 2, 2, 1],
            [0, 1, 1, 1, 1, 2, 1, 3],
            [1, 2, 1, 2, 3, 1, 2, 4],
            &[2, 4, 2],
        ),
        by_classes(
            "a use far back counts",
            [0, 1, 1, 1, 1, 1, 1, 0],
            [0, 1, 1, 1, 1, 1, 1, 2],
            [1, 1, 2, 3, 4, 5, 6, 2],
            &[2, 6],
        ),
        by_classes(
            "the last class has the most uses",
            [0, 1, 2, 2, 2, 1, 2, 2],
            [0, 1, 2, 1, 1, 3, 3, 1],
            [1, 1, 1, 2, 3, 2, 4, 5],
            &[1, 2, 5],
        ),
    ]
}

fn by_classes(
    name: &'static str,
    classes: [usize; 8],
    tried: [usize; 8],
    uses: [usize; 8],
    use_counts: &[usize],
) -> Search {
    let block = |j: usize| (classes[j], tried[j], uses[j]);
    let blocks: Vec<Block> = (0..8).map(block).collect();
    search(
        name,
        &tables::of_classes(1, &classes),
        3,
        &blocks,
        use_counts,
    )
}
