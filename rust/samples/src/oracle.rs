//! The definitions once more, in other ways: by maps of whole differences, by
//! keys of low, high and weight, and by a dynamic programme over the cuts.

use crate::lists::{with_bounds, Branch};
use crate::pairs::Pair;
use crate::{Draft, DraftCell};
use std::cmp::Ordering;
use std::collections::{BTreeSet, HashMap};

/// The class of every block at a cut, by a map of differences.
pub fn classes(n: usize, table: &[i32], cut: usize) -> Vec<usize> {
    let mut known: HashMap<Vec<i32>, usize> = HashMap::new();
    let blocks = table.chunks(1 << (n - cut));
    blocks
        .map(|block| {
            let differences = block.iter().map(|v| v - block[0]).collect();
            let next = known.len();
            *known.entry(differences).or_insert(next)
        })
        .collect()
}

/// How many classes the search at each block of a cut tries, by the classes of
/// the blocks alone: one that is not the latest stands in the order from 0 up,
/// one place later if the latest was taken from behind it.
pub fn tried(classes: &[usize]) -> Vec<usize> {
    let mut known = 0;
    let at = |(block, &class): (usize, &usize)| {
        if class == known {
            known += 1;
            return class;
        }
        match class.cmp(&classes[block - 1]) {
            Ordering::Less => class + 2,
            Ordering::Equal => 1,
            Ordering::Greater => class + 1,
        }
    };
    classes.iter().enumerate().map(at).collect()
}

/// How many blocks of a cut, up to and including each one, have its class, by
/// a map of the classes met so far.
pub fn uses(classes: &[usize]) -> Vec<usize> {
    let mut met: HashMap<usize, usize> = HashMap::new();
    let meet = |&class: &usize| {
        let uses = met.entry(class).or_insert(0);
        *uses += 1;
        *uses
    };
    classes.iter().map(meet).collect()
}

/// How many blocks of a cut have each class, by the sorted classes.
pub fn use_counts(classes: &[usize]) -> Vec<usize> {
    let mut sorted = classes.to_vec();
    sorted.sort_unstable();
    let below = |class: usize| sorted.partition_point(|&other| other < class);
    let uses = |class: usize| below(class + 1) - below(class);
    (0..).map(uses).take_while(|&uses| uses > 0).collect()
}

/// The commonest class of a cut and its use count: from the last class down,
/// each that is no less common takes the place of the one before.
pub fn commonest(classes: &[usize]) -> (usize, usize) {
    let from_the_last = use_counts(classes).into_iter().enumerate().rev();
    from_the_last.fold(
        (0, 0),
        |best, (class, uses)| {
            if uses < best.1 {
                best
            } else {
                (class, uses)
            }
        },
    )
}

/// The records, sharing by equal low, high and weight within a height.
pub fn records(n: usize, table: &[i32]) -> Vec<i32> {
    with_bounds(&branches(n, table))
}

fn branches(n: usize, table: &[i32]) -> Vec<Branch> {
    let mut records = Vec::new();
    let mut below = vec![0; 1 << n];
    for variable in 0..n {
        let mut known: HashMap<(i32, i32, i32), i32> = HashMap::new();
        let mut nodes = Vec::new();
        for block in 0..1 << (n - variable - 1) {
            let (low, high) = (below[2 * block], below[2 * block + 1]);
            let first = block << (variable + 1);
            let weight = table[first + (1 << variable)] - table[first];
            if low == high && weight == 0 {
                nodes.push(low);
                continue;
            }
            let node = *known.entry((low, high, weight)).or_insert_with(|| {
                records.push([variable as i32, low, high, weight]);
                records.len() as i32
            });
            nodes.push(node);
        }
        below = nodes;
    }
    records
}

/// The count of X, the least value, the greatest value and the sum.
pub type Numbers = (usize, i32, i32, i64);

/// What Report should answer where these are the values at the X of a part.
pub fn numbers(values: &[i32]) -> Numbers {
    let mut sorted = values.to_vec();
    sorted.sort_unstable();
    let sum = sorted.iter().map(|&value| i64::from(value)).sum();
    (sorted.len(), sorted[0], sorted[sorted.len() - 1], sum)
}

/// What the pair run should answer for an m from 1 to 6, by what Run answers:
/// another n counts where the first command is whole, and 17 stands for 7.
pub fn pair_run<T>(
    m: usize,
    image: &[u8],
    (x, y): Pair,
    run: impl Fn(&[u8], usize) -> Result<T, u8>,
) -> Result<T, u8> {
    let opened = image.len() >= 6 && image[0] == 0x56;
    if opened && usize::from(image[1]) != 2 * m {
        return Err(13);
    }
    let within = (x | y) >> m == 0;
    let z = if within { x << m | y } else { usize::MAX };
    run(image, z).map_err(|refusal| if refusal == 7 { 17 } else { refusal })
}

/// The bits that tell a number of classes apart.
pub fn rail(count: usize) -> usize {
    count.next_power_of_two().trailing_zeros() as usize
}

/// The weight width of a cell: the bits of its longest weight, and one for the
/// sign where some weight is negative.
pub fn width(weights: impl IntoIterator<Item = i32>) -> usize {
    let (least, greatest) = ends(weights);
    bits(least).max(bits(greatest)) + usize::from(least < 0)
}

/// The weight width of a cell in an older image: the sign has a bit wherever
/// some weight is not 0.
pub fn older_width(weights: impl IntoIterator<Item = i32>) -> usize {
    let (least, greatest) = ends(weights);
    bits(least).max(bits(greatest)) + usize::from(least < greatest)
}

/// The least and the greatest of the weights and 0.
fn ends(weights: impl IntoIterator<Item = i32>) -> (i32, i32) {
    let join = |(least, greatest): (i32, i32), w: i32| (least.min(w), greatest.max(w));
    weights.into_iter().fold((0, 0), join)
}

/// The bits of a weight beside its sign; of a negative one, its complement's.
fn bits(weight: i32) -> usize {
    32 - (weight ^ (weight >> 31)).leading_zeros() as usize
}

/// A table's cuts, for costs and images.
pub struct Cascade<'a> {
    n: usize,
    table: &'a [i32],
    classes: Vec<Vec<usize>>,
}

impl<'a> Cascade<'a> {
    pub fn new(n: usize, table: &'a [i32]) -> Self {
        let classes = (0..=n).map(|cut| classes(n, table, cut)).collect();
        Cascade { n, table, classes }
    }

    fn count(&self, cut: usize) -> usize {
        self.classes[cut].iter().max().map_or(0, |most| most + 1)
    }

    fn address_width(&self, cut: usize, group: usize) -> usize {
        rail(self.count(cut)) + group
    }

    /// The weight width, over the weights of every block and not one a class.
    fn weight_width(&self, cut: usize, group: usize) -> usize {
        let height = self.n - cut;
        let step = 1 << (height - group);
        let first = |x: usize| x >> height << height;
        let sub_blocks = (0..1 << self.n).step_by(step);
        width(sub_blocks.map(|x| self.table[x] - self.table[first(x)]))
    }

    pub fn cost(&self, cut: usize, group: usize) -> usize {
        let word = rail(self.count(cut + group)) + self.weight_width(cut, group);
        (1 << self.address_width(cut, group)) * word
    }

    /// The commonest class where each cell of a grouping ends, with its use count.
    pub fn commonest(&self, sizes: &[usize]) -> Vec<(usize, usize)> {
        let mut cut = 0;
        let at_the_end = |&group: &usize| {
            cut += group;
            commonest(&self.classes[cut])
        };
        sizes.iter().map(at_the_end).collect()
    }

    /// The costs of all cells, by cut and then group less 1.
    pub fn costs(&self) -> Vec<Vec<usize>> {
        let from = |cut| (1..=self.n - cut).map(|g| self.cost(cut, g)).collect();
        (0..self.n).map(from).collect()
    }

    /// Least cost and sizes within a limit, from the last cut upwards. The
    /// widest group is tried first, and the first of equals is the least.
    pub fn chosen(&self, costs: &[Vec<usize>], limit: usize) -> Option<(usize, Vec<usize>)> {
        let mut best = vec![None; self.n + 1];
        best[self.n] = Some((0, Vec::new()));
        for cut in (0..self.n).rev() {
            let fits = |&group: &usize| self.address_width(cut, group) <= limit;
            let with_rest = |group: usize| {
                let (rest, sizes) = best[cut + group].as_ref()?;
                let bits = rest + costs[cut][group - 1];
                Some((bits, [&[group], &sizes[..]].concat()))
            };
            let widest_first = (1..=self.n - cut).rev().filter(fits);
            best[cut] = widest_first
                .filter_map(with_rest)
                .min_by_key(|(bits, _)| *bits);
        }
        best.swap_remove(0)
    }

    /// The cuts that fitting cells arrive at within a limit, from each to those
    /// below it.
    pub fn reached(&self, limit: usize) -> Vec<usize> {
        let mut cuts = BTreeSet::from([0]);
        for cut in 0..self.n {
            if cuts.contains(&cut) {
                let fits = |&group: &usize| self.address_width(cut, group) <= limit;
                let groups = (1..=self.n - cut).filter(fits);
                cuts.extend(groups.map(|group| cut + group));
            }
        }
        cuts.into_iter().collect()
    }

    /// The least limit that fits, from the last cut upwards: a cell and what is
    /// below it need the greater of what each needs.
    pub fn least_limit(&self) -> usize {
        let mut least = vec![0; self.n + 1];
        for cut in (0..self.n).rev() {
            let with_rest = |group| self.address_width(cut, group).max(least[cut + group]);
            let limits = (1..=self.n - cut).map(with_rest);
            least[cut] = limits.min().expect("a variable is left");
        }
        least[0]
    }

    /// The image of a grouping.
    pub fn draft(&self, sizes: &[usize]) -> Draft {
        let mut cut = 0;
        let mut bits = 0;
        let mut cells = Vec::new();
        for &group in sizes {
            cells.push(self.draft_cell(cut, group));
            bits += self.cost(cut, group) as u32;
            cut += group;
        }
        Draft {
            n: self.n as u8,
            offset: self.table[0],
            cells,
            bits,
        }
    }

    fn draft_cell(&self, cut: usize, group: usize) -> DraftCell {
        let height = self.n - cut;
        let mut words = vec![(0, 0); self.count(cut) << group];
        // Blocks of one class write equal words, so the last may prevail.
        for (sub_block, &class) in self.classes[cut + group].iter().enumerate() {
            let block = sub_block >> group;
            let value = sub_block & ((1 << group) - 1);
            let weight = self.table[sub_block << (height - group)] - self.table[block << height];
            let place = (self.classes[cut][block] << group) + value;
            words[place] = (class as u16, weight);
        }
        DraftCell {
            group: group as u8,
            incoming: self.count(cut) as u16,
            outgoing: self.count(cut + group) as u16,
            width: self.weight_width(cut, group) as u8,
            words,
        }
    }
}
