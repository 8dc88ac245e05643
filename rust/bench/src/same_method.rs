//! The proved library's methods, written by hand in Rust: the same searches
//! and the same comparisons, as a Rust programmer would put them.

use panstrait_samples::RECORD;
use std::ops::Range;

/// The classes of all cuts, laid out cut after cut, how many classes each block's
/// search tried, and how many blocks use a class.
#[allow(clippy::too_many_arguments)]
pub fn class_cuts(
    n: usize,
    table: &[i32],
    classes: &mut [usize],
    firsts: &mut [usize],
    counts: &mut [usize],
    tried: &mut [usize],
    uses: &mut [usize],
    use_counts: &mut [usize],
) {
    for (h, count) in counts.iter_mut().enumerate() {
        let blocks = cut_places(h);
        *count = class_cut(
            table,
            1 << (n - h),
            &mut classes[blocks.clone()],
            &mut firsts[blocks.clone()],
            &mut tried[blocks.clone()],
            &mut uses[blocks.clone()],
            &mut use_counts[blocks],
        );
    }
}

/// The places of the blocks of a cut in the rows of all cuts.
pub fn cut_places(h: usize) -> Range<usize> {
    (1 << h) - 1..(2 << h) - 1
}

/// The classes of one cut: each block is searched among the first blocks of the
/// known classes.
fn class_cut(
    table: &[i32],
    size: usize,
    classes: &mut [usize],
    firsts: &mut [usize],
    tried: &mut [usize],
    uses: &mut [usize],
    use_counts: &mut [usize],
) -> usize {
    let block = |j: usize| &table[j * size..(j + 1) * size];
    let (mut count, mut latest) = (0, 0);
    for (j, (class, tried)) in classes.iter_mut().zip(tried).enumerate() {
        let values = block(j);
        let same = |first: usize| same_differences(block(first), values);
        let last = last_difference(values);
        let other = |first: usize| last_difference(block(first)) == last && same(first);
        (latest, *tried) = find_class(&firsts[..count], latest, same, other);
        *class = latest;
        (firsts[j], use_counts[j]) = (0, 0);
        if latest == count {
            firsts[count] = j;
            count += 1;
        }
        use_counts[latest] += 1;
        uses[j] = use_counts[latest];
    }
    count
}

/// The class whose first block is the same, or the next new one, and how many
/// were tried: the latest class first, then the others from class 0 up.
fn find_class(
    firsts: &[usize],
    latest: usize,
    same: impl Fn(usize) -> bool,
    other: impl Fn(usize) -> bool,
) -> (usize, usize) {
    if firsts.is_empty() {
        return (0, 0);
    }
    if same(firsts[latest]) {
        return (latest, 1);
    }
    let mut tried = 1;
    for (class, &first) in firsts.iter().enumerate() {
        if class != latest {
            tried += 1;
            if other(first) {
                return (class, tried);
            }
        }
    }
    (firsts.len(), tried)
}

/// The classes of all cuts by the former order, always from class 0 up.
pub fn class_cuts_from_0(
    n: usize,
    table: &[i32],
    classes: &mut [usize],
    firsts: &mut [usize],
    counts: &mut [usize],
) {
    for (h, count) in counts.iter_mut().enumerate() {
        let blocks = cut_places(h);
        *count = class_cut_from_0(
            table,
            1 << (n - h),
            &mut classes[blocks.clone()],
            &mut firsts[blocks],
        );
    }
}

/// The classes of one cut: a linear search over the first blocks of the known.
fn class_cut_from_0(
    table: &[i32],
    size: usize,
    classes: &mut [usize],
    firsts: &mut [usize],
) -> usize {
    let block = |j: usize| &table[j * size..(j + 1) * size];
    let mut count = 0;
    for (j, class) in classes.iter_mut().enumerate() {
        let values = block(j);
        let same = |&first: &usize| same_differences(block(first), values);
        *class = firsts[..count].iter().position(same).unwrap_or(count);
        firsts[j] = 0;
        if *class == count {
            firsts[count] = j;
            count += 1;
        }
    }
    count
}

/// A block's last value less its first.
fn last_difference(values: &[i32]) -> i64 {
    i64::from(values[values.len() - 1]) - i64::from(values[0])
}

/// Differences are compared one by one, up to the first that differs.
fn same_differences(left: &[i32], right: &[i32]) -> bool {
    let (from_left, from_right) = (i64::from(left[0]), i64::from(right[0]));
    left.len() == right.len()
        && left
            .iter()
            .zip(right)
            .all(|(&y, &z)| i64::from(y) - from_left == i64::from(z) - from_right)
}

/// The value of a checked image at X: one word of each cell is read in place.
pub fn evaluate(image: &[u8], x: usize) -> i32 {
    let two = |at: usize| usize::from(image[at]) << 8 | usize::from(image[at + 1]);
    let four = |at: usize| two(at) << 16 | two(at + 2);
    let mut value = four(2) as i32;
    let mut left = usize::from(image[1]);
    let (mut at, mut class) = (6, 0);
    while left > 0 {
        let group = usize::from(image[at + 1]);
        left -= group;
        let group_value = x >> left & ((1 << group) - 1);
        let word = at + 7 + 7 * ((class << group) + group_value);
        at += 7 + 7 * (two(at + 2) << group);
        class = two(word + 1);
        value += four(word + 3) as i32;
    }
    value
}

/// The values of an accepted image at every X, from the top cell down.
pub fn expand(image: &[u8], table: &mut [i32]) {
    let two = |at: usize| usize::from(image[at]) << 8 | usize::from(image[at + 1]);
    let four = |at: usize| two(at) << 16 | two(at + 2);
    let mut classes = [0u16; 4_096];
    let mut left = usize::from(image[1]);
    let (mut at, mut blocks) = (6, 1);
    table[0] = four(2) as i32;
    while left > 0 {
        let group = usize::from(image[at + 1]);
        left -= group;
        blocks <<= group;
        for y in (0..blocks).rev() {
            let (class, value) = (classes[y >> group], table[y >> group]);
            let word = at + 7 + 7 * ((usize::from(class) << group) + (y & ((1 << group) - 1)));
            classes[y] = two(word + 1) as u16;
            table[y] = value + four(word + 3) as i32;
        }
        at += 7 + 7 * (two(at + 2) << group);
    }
}

fn check(table: &[i32]) {
    let range = -8_388_608..=8_388_607;
    assert!(table.iter().all(|value| range.contains(value)));
}

/// The classes of all cuts of a table, in rows for the largest one.
struct Cuts {
    classes: [usize; 8_191],
    firsts: [usize; 8_191],
    counts: [usize; 13],
    tried: [usize; 8_191],
    uses: [usize; 8_191],
    use_counts: [usize; 8_191],
}

impl Cuts {
    const EMPTY: Cuts = Cuts {
        classes: [0; 8_191],
        firsts: [0; 8_191],
        counts: [0; 13],
        tried: [0; 8_191],
        uses: [0; 8_191],
        use_counts: [0; 8_191],
    };

    fn fill(&mut self, n: usize, table: &[i32]) {
        let places = (2 << n) - 1;
        class_cuts(
            n,
            table,
            &mut self.classes[..places],
            &mut self.firsts[..places],
            &mut self.counts[..=n],
            &mut self.tried[..places],
            &mut self.uses[..places],
            &mut self.use_counts[..places],
        );
    }

    /// The classes of the blocks of a cut.
    fn classes(&self, h: usize) -> &[usize] {
        &self.classes[cut_places(h)]
    }

    /// The first blocks of the classes of a cut.
    fn firsts(&self, h: usize) -> &[usize] {
        &self.firsts[(1 << h) - 1..][..self.counts[h]]
    }

    /// The commonest class of a cut, the smallest number on a tie, and its use
    /// count.
    fn commonest(&self, h: usize) -> (usize, usize) {
        let mut commonest = (0, 0);
        for (class, &uses) in self.use_counts[cut_places(h)].iter().enumerate() {
            if uses > commonest.1 {
                commonest = (class, uses);
            }
        }
        commonest
    }
}

/// Build for a table that passes its checks: the node count, and the records
/// in the first numbers of the buffer.
pub fn build(n: usize, table: &[i32], nodes: &mut [i32]) -> usize {
    check(table);
    let mut cuts = Cuts::EMPTY;
    cuts.fill(n, table);
    let mut row = [0; 8_191];
    let mut made = 0;
    for h in (0..n).rev() {
        let (here, below) = ((1 << h) - 1, (2 << h) - 1);
        let half = 1 << (n - h - 1);
        let halves = cuts.classes(h + 1);
        for (class, &first) in cuts.firsts(h).iter().enumerate() {
            let (low, high) = (halves[2 * first], halves[2 * first + 1]);
            let weight = table[(2 * first + 1) * half] - table[2 * first * half];
            row[here + class] = row[below + low];
            if low != high || weight != 0 {
                let (low, high) = (row[below + low], row[below + high]);
                let (least, greatest) = bounds(nodes, low, high, weight);
                let variable = (n - h - 1) as i32;
                let record = [variable, low as i32, high as i32, weight, least, greatest];
                nodes[RECORD * made..RECORD * (made + 1)].copy_from_slice(&record);
                made += 1;
                row[here + class] = made;
            }
        }
    }
    made + 1
}

/// The least and the greatest value of a node's function, from those that its
/// children's records have.
fn bounds(nodes: &[i32], low: usize, high: usize, weight: i32) -> (i32, i32) {
    let of = |node: usize| match node {
        0 => (0, 0),
        _ => (nodes[RECORD * node - 2], nodes[RECORD * node - 1]),
    };
    let (low, high) = (of(low), of(high));
    (low.0.min(weight + high.0), low.1.max(weight + high.1))
}

#[derive(Clone, Copy, Default)]
pub struct Cell {
    pub group: usize,
    pub incoming: usize,
    pub outgoing: usize,
    pub width: usize,
    pub bits: usize,
    pub commonest: usize,
    pub uses: usize,
}

/// Plan's answer: the cells from the top down, and their bits.
#[derive(Clone, Copy, Default)]
pub struct Plan {
    pub cells: [Cell; 12],
    pub count: usize,
    pub bits: usize,
}

/// The least cost from a cut on, and the cell to take there.
#[derive(Clone, Copy)]
struct Choice {
    cost: usize,
    cell: Cell,
}

fn rail_width(count: usize) -> usize {
    (usize::BITS - (count - 1).leading_zeros()) as usize
}

/// The weight width, from the least and the greatest of a cell's weights and 0:
/// a bit for the sign only where the least is negative.
fn weight_width(least: i32, greatest: i32) -> usize {
    let bits = |number: i32| (i32::BITS - number.leading_zeros()) as usize;
    match least {
        0 => bits(greatest),
        _ => 1 + bits((!least).max(greatest)),
    }
}

/// The weights of a cell, by incoming class and then group value.
fn weights<'a>(
    n: usize,
    h: usize,
    group: usize,
    table: &'a [i32],
    cuts: &'a Cuts,
) -> impl Iterator<Item = i32> + 'a {
    let (size, part) = (1 << (n - h), 1 << (n - h - group));
    cuts.firsts(h).iter().flat_map(move |&first| {
        let block = &table[first * size..(first + 1) * size];
        block
            .iter()
            .step_by(part)
            .map(move |value| value - block[0])
    })
}

/// A cell with its price, from its least and its greatest weight, and without its
/// commonest class, which no choice looks at.
fn cell(n: usize, h: usize, group: usize, table: &[i32], cuts: &Cuts) -> Cell {
    let bounds = |(least, greatest): (i32, i32), w: i32| (least.min(w), greatest.max(w));
    let (least, greatest) = weights(n, h, group, table, cuts).fold((0, 0), bounds);
    let (incoming, outgoing) = (cuts.counts[h], cuts.counts[h + group]);
    let width = weight_width(least, greatest);
    Cell {
        group,
        incoming,
        outgoing,
        width,
        bits: (rail_width(outgoing) + width) << (rail_width(incoming) + group),
        ..Cell::default()
    }
}

/// The choice at a cut, from the widest cell that fits down.
fn choose(
    n: usize,
    h: usize,
    limit: usize,
    table: &[i32],
    cuts: &Cuts,
    choices: &[Option<Choice>; 13],
) -> Option<Choice> {
    let widest = (n - h).min(limit.saturating_sub(rail_width(cuts.counts[h])));
    let mut best: Option<Choice> = None;
    for group in (1..=widest).rev() {
        let cell = cell(n, h, group, table, cuts);
        if let Some(below) = choices[h + group] {
            let cost = cell.bits + below.cost;
            if best.map_or(true, |best| cost < best.cost) {
                best = Some(Choice { cost, cell });
            }
        }
    }
    best
}

/// Plan from the classes of all cuts: the choices from the bottom cut up, then
/// their cells from the top down.
fn plan_cuts(n: usize, table: &[i32], limit: usize, cuts: &Cuts) -> Option<Plan> {
    let mut choices = [None; 13];
    choices[n] = Some(Choice {
        cost: 0,
        cell: Cell::default(),
    });
    for h in (0..n).rev() {
        choices[h] = choose(n, h, limit, table, cuts, &choices);
    }
    let mut plan = Plan {
        bits: choices[0]?.cost,
        ..Plan::default()
    };
    let mut h = 0;
    while h < n {
        let cell = &mut plan.cells[plan.count];
        *cell = choices[h]?.cell;
        h += cell.group;
        (cell.commonest, cell.uses) = cuts.commonest(h);
        plan.count += 1;
    }
    Some(plan)
}

/// Plan for a table that passes its checks.
pub fn plan(n: usize, table: &[i32], limit: usize) -> Option<Plan> {
    check(table);
    let mut cuts = Cuts::EMPTY;
    cuts.fill(n, table);
    plan_cuts(n, table, limit, &cuts)
}

/// What Compile answers beside the image and Plan's answer.
#[derive(Clone, Copy, Default)]
pub struct Compiled {
    pub plan: Plan,
    pub length: usize,
    pub nodes: usize,
}

/// Compile for a table that passes its checks and has a grouping, with room
/// for its image.
pub fn compile(n: usize, table: &[i32], limit: usize, image: &mut [u8]) -> Option<Compiled> {
    check(table);
    let mut cuts = Cuts::EMPTY;
    cuts.fill(n, table);
    let plan = plan_cuts(n, table, limit, &cuts)?;
    let length = image_length(&plan);
    let image = image.get_mut(..length)?;
    write_image(n, table, &cuts, &plan, image);
    Some(Compiled {
        plan,
        length,
        nodes: node_count(n, table, &cuts),
    })
}

fn image_length(plan: &Plan) -> usize {
    let cells = plan.cells[..plan.count].iter();
    let words = cells.map(|cell| 1 + (cell.incoming << cell.group));
    6 + 7 * words.sum::<usize>() + 5
}

fn write_image(n: usize, table: &[i32], cuts: &Cuts, plan: &Plan, image: &mut [u8]) {
    image[..2].copy_from_slice(&[0x56, n as u8]);
    image[2..6].copy_from_slice(&table[0].to_be_bytes());
    let (mut at, mut h) = (6, 0);
    for cell in &plan.cells[..plan.count] {
        at += write_cell(n, h, cell, table, cuts, &mut image[at..]);
        h += cell.group;
    }
    image[at] = 0x45;
    image[at + 1..].copy_from_slice(&(plan.bits as u32).to_be_bytes());
}

/// A cell's command and words; answers their bytes.
fn write_cell(
    n: usize,
    h: usize,
    cell: &Cell,
    table: &[i32],
    cuts: &Cuts,
    tail: &mut [u8],
) -> usize {
    tail[..2].copy_from_slice(&[0x43, cell.group as u8]);
    tail[2..4].copy_from_slice(&(cell.incoming as u16).to_be_bytes());
    tail[4..6].copy_from_slice(&(cell.outgoing as u16).to_be_bytes());
    tail[6] = cell.width as u8;
    let classes = cuts.classes(h + cell.group);
    let sub_blocks = |&first: &usize| &classes[first << cell.group..(first + 1) << cell.group];
    let classes = cuts.firsts(h).iter().flat_map(sub_blocks);
    let words = classes.zip(weights(n, h, cell.group, table, cuts));
    for (place, (&class, weight)) in tail[7..].chunks_exact_mut(7).zip(words) {
        place[0] = 0x57;
        place[1..3].copy_from_slice(&(class as u16).to_be_bytes());
        place[3..].copy_from_slice(&weight.to_be_bytes());
    }
    7 * (1 + (cell.incoming << cell.group))
}

/// The terminal, and each class of each cut whose halves differ.
fn node_count(n: usize, table: &[i32], cuts: &Cuts) -> usize {
    let branches = |h: usize, first: usize| {
        let half = 1 << (n - h - 1);
        let (lower, upper) = table[2 * first * half..(2 * first + 2) * half].split_at(half);
        lower != upper
    };
    let of_cut = |h: usize| {
        let firsts = cuts.firsts(h).iter();
        firsts.filter(|&&first| branches(h, first)).count()
    };
    1 + (0..n).map(of_cut).sum::<usize>()
}
