//! Cuts, cells and the choice among all groupings.

use crate::ranges;
use crate::refusal::{require, Refusal, LIMIT, NO_GROUPING};
use crate::table;
use crate::widths::{cell_bits, rail_width, weight_width};
use std::cmp::Reverse;

/// A cell: its group, both class counts, its weight width and memory bits, and
/// of the classes at the cut where it ends the commonest one, with how many
/// blocks of that cut have it.
#[derive(Debug, Clone, PartialEq, Eq)]
pub struct Cell {
    pub group: usize,
    pub incoming: usize,
    pub outgoing: usize,
    pub width: usize,
    pub bits: usize,
    pub commonest: usize,
    pub uses: usize,
}

/// What Plan answers: the chosen grouping, its cells from the top down, and its
/// cost.
#[derive(Debug, Clone, PartialEq, Eq)]
pub struct Planned {
    pub sizes: Vec<usize>,
    pub cells: Vec<Cell>,
    pub bits: usize,
}

/// A word of a cell: the outgoing class and the weight added on the way.
pub(crate) struct Word {
    pub(crate) class: usize,
    pub(crate) weight: i32,
}

/// A table with the classes at all its cuts.
pub(crate) struct Cuts<'a> {
    n: usize,
    table: &'a [i32],
    classes: Vec<Vec<usize>>,
}

impl<'a> Cuts<'a> {
    /// The cuts of a table, where it and the limit pass Plan's checks.
    pub(crate) fn checked(n: usize, table: &'a [i32], limit: usize) -> Result<Self, Refusal> {
        table::check(n, table)?;
        require(ranges::address_width(limit), LIMIT)?;
        let classes = (0..=n).map(|cut| table::classes(n, table, cut)).collect();
        Ok(Cuts { n, table, classes })
    }

    /// The first block of every class at a cut, by class.
    fn first_blocks(&self, cut: usize) -> Vec<usize> {
        let mut first = Vec::new();
        for (block, &class) in self.classes[cut].iter().enumerate() {
            if class == first.len() {
                first.push(block);
            }
        }
        first
    }

    /// The words of a cell, by incoming class and then group value.
    pub(crate) fn words(&self, cut: usize, group: usize) -> Vec<Word> {
        let height = self.n - cut - group;
        let mut words = Vec::new();
        for block in self.first_blocks(cut) {
            let first = block << group;
            for sub_block in first..first + (1 << group) {
                words.push(Word {
                    class: self.classes[cut + group][sub_block],
                    weight: self.table[sub_block << height] - self.table[first << height],
                });
            }
        }
        words
    }

    /// The rail width of every cut.
    pub(crate) fn rail_widths(&self) -> Vec<usize> {
        let rail = |cut| rail_width(self.first_blocks(cut).len());
        (0..=self.n).map(rail).collect()
    }

    /// The class that most blocks of a cut have, the smallest number on a tie,
    /// and how many blocks have it.
    fn commonest(&self, cut: usize) -> (usize, usize) {
        let use_counts = table::counts_by_class(&self.classes[cut]);
        let used = use_counts.into_iter().enumerate();
        used.min_by_key(|&(class, uses)| (Reverse(uses), class))
            .expect("every cut has a class")
    }

    /// A cell, with the commonest class where it ends.
    fn cell(&self, cut: usize, group: usize, (commonest, uses): (usize, usize)) -> Cell {
        let weights: Vec<i32> = self.words(cut, group).iter().map(|w| w.weight).collect();
        let incoming = self.first_blocks(cut).len();
        let outgoing = self.first_blocks(cut + group).len();
        let width = weight_width(&weights);
        Cell {
            group,
            incoming,
            outgoing,
            width,
            bits: cell_bits(incoming, group, outgoing, width),
            commonest,
            uses,
        }
    }

    /// For every cut, the cells that begin there by group; none beyond the limit.
    fn fitting_cells(&self, limit: usize) -> Vec<Vec<Option<Cell>>> {
        let rails = self.rail_widths();
        let commonest: Vec<_> = (0..=self.n).map(|cut| self.commonest(cut)).collect();
        let below = |cut: usize| {
            let fitting = |group| fits(rails[cut], group, limit);
            let cell = |group| self.cell(cut, group, commonest[cut + group]);
            (1..=self.n - cut)
                .map(|group| fitting(group).then(|| cell(group)))
                .collect()
        };
        (0..self.n).map(below).collect()
    }
}

/// Does a cell at a cut of this rail width keep to the address limit?
pub(crate) fn fits(rail: usize, group: usize, limit: usize) -> bool {
    rail + group <= limit
}

/// Plan: the least costly grouping within the address limit.
pub fn plan(n: usize, table: &[i32], limit: usize) -> Result<Planned, Refusal> {
    Ok(plan_with_cuts(n, table, limit)?.1)
}

/// Plan, with the cuts its cells' words are read from.
pub(crate) fn plan_with_cuts(
    n: usize,
    table: &[i32],
    limit: usize,
) -> Result<(Cuts<'_>, Planned), Refusal> {
    let cuts = Cuts::checked(n, table, limit)?;
    let planned = choose(&cuts, limit).ok_or(NO_GROUPING)?;
    Ok((cuts, planned))
}

/// Tries every grouping; among equal costs the first wider group decides.
fn choose(cuts: &Cuts, limit: usize) -> Option<Planned> {
    let known = cuts.fitting_cells(limit);
    groupings(cuts.n)
        .filter_map(|sizes| planned(sizes, &known))
        .min_by(|one, other| {
            let wider_first = || other.sizes.cmp(&one.sizes);
            one.bits.cmp(&other.bits).then_with(wider_first)
        })
}

/// A grouping with its cells and its cost, if each cell fits.
fn planned(sizes: Vec<usize>, known: &[Vec<Option<Cell>>]) -> Option<Planned> {
    let mut cut = 0;
    let mut cells = Vec::new();
    for &group in &sizes {
        cells.push(known[cut][group - 1].clone()?);
        cut += group;
    }
    let bits = cells.iter().map(|cell| cell.bits).sum();
    Some(Planned { sizes, cells, bits })
}

/// All 2^(n-1) groupings, one for each choice among the n-1 inner cuts.
pub(crate) fn groupings(n: usize) -> impl Iterator<Item = Vec<usize>> {
    (0..1_usize << (n - 1)).map(move |chosen| grouping(n, chosen))
}

/// The grouping whose inner cuts are the set bits of `chosen`.
fn grouping(n: usize, chosen: usize) -> Vec<usize> {
    let mut sizes = Vec::new();
    let mut size = 1;
    for inner_cut in 0..n - 1 {
        if chosen >> inner_cut & 1 == 1 {
            sizes.push(size);
            size = 0;
        }
        size += 1;
    }
    sizes.push(size);
    sizes
}
