//! Plan and Compile, beside the same method in Rust, Compile beside Build and
//! Plan, and Reach beside Plan.

use crate::same_method::{self, Plan};
use crate::tables::{self, Named, N};
use crate::timing::{self, black_box};
use panstrait_compare::{answers, proved};
use panstrait_samples::node_numbers;

/// The limits that a grouping is looked for within.
const LIMITS: [usize; 3] = [4, 8, 12];

/// What the proved functions are lent. Nothing is cleared between runs.
struct Rows {
    sizes: [usize; 12],
    cells: [usize; 84],
    count: usize,
    bits: usize,
    length: usize,
    nodes: usize,
    cuts: [usize; N + 1],
    least: usize,
    image: Vec<u8>,
}

impl Rows {
    fn new() -> Rows {
        Rows {
            sizes: [0; 12],
            cells: [0; 84],
            count: 0,
            bits: 0,
            length: 0,
            nodes: 0,
            cuts: [0; N + 1],
            least: 0,
            image: vec![0; 65_536],
        }
    }

    fn plan(&mut self, table: &[i32], limit: usize) {
        let number = proved::plan(
            N,
            table,
            limit,
            &mut self.sizes,
            &mut self.cells,
            &mut self.count,
            &mut self.bits,
        );
        assert_eq!(number, 0);
    }

    fn reach(&mut self, table: &[i32], limit: usize) {
        let number = proved::reach(
            N,
            table,
            limit,
            &mut self.cuts,
            &mut self.count,
            &mut self.least,
        );
        assert_eq!(number, 0);
    }

    fn compile(&mut self, table: &[i32], limit: usize) {
        let number = proved::compile(
            N,
            table,
            limit,
            &mut self.image,
            &mut self.cells,
            &mut self.length,
            &mut self.nodes,
            &mut self.count,
            &mut self.bits,
        );
        assert_eq!(number, 0);
    }

    fn has(&self, plan: &Plan) -> bool {
        let cell = |cell: &same_method::Cell| {
            let same_method::Cell {
                group,
                incoming,
                outgoing,
                width,
                bits,
                commonest,
                uses,
            } = *cell;
            [group, incoming, outgoing, width, bits, commonest, uses]
        };
        let cells: Vec<usize> = plan.cells.iter().flat_map(cell).collect();
        self.cells[..] == cells && (self.count, self.bits) == (plan.count, plan.bits)
    }
}

fn plan(what: &str, table: &[i32], limit: usize) {
    let mut ours = Rows::new();
    let mut theirs = Plan::default();
    timing::line(
        &format!("plan, {what}"),
        "same method",
        || ours.plan(black_box(table), limit),
        || theirs = same_method::plan(N, black_box(table), limit).expect("a grouping fits"),
    );
    assert!(ours.has(&theirs));
    let sizes = theirs.cells.map(|cell| cell.group);
    assert!(ours.sizes == sizes);
}

/// Measured where a grouping fits: every cut is listed.
fn reach(what: &str, table: &[i32], limit: usize) {
    let mut ours = Rows::new();
    let mut other = Rows::new();
    timing::line(
        &format!("reach, {what}"),
        "plan",
        || ours.reach(black_box(table), limit),
        || other.plan(black_box(table), limit),
    );
    assert!(ours.count == N + 1 && ours.cuts.into_iter().eq(0..=N));
    assert!(ours.least <= limit);
}

fn compile(what: &str, table: &[i32], limit: usize) {
    let what = format!("compile, {what}");
    let mut ours = Rows::new();
    let mut image = vec![0; ours.image.len()];
    let mut theirs = same_method::Compiled::default();
    timing::line(
        &what,
        "same method",
        || ours.compile(black_box(table), limit),
        || {
            let compiled = same_method::compile(N, black_box(table), limit, &mut image);
            theirs = compiled.expect("a grouping fits");
        },
    );
    assert!(ours.has(&theirs.plan) && ours.image == image);
    assert!((ours.length, ours.nodes) == (theirs.length, theirs.nodes));
    let mut other = Rows::new();
    let mut nodes = vec![0; node_numbers(N)];
    timing::line(
        &what,
        "build and plan",
        || ours.compile(black_box(table), limit),
        || {
            let _ = black_box(answers::build(N, black_box(table), &mut nodes));
            other.plan(black_box(table), limit);
        },
    );
}

fn one(Named { name, table }: &Named) {
    for limit in LIMITS {
        if answers::plan(N, table, limit).is_ok() {
            let what = format!("{name}, limit {limit}");
            plan(&what, table, limit);
            reach(&what, table, limit);
            compile(&what, table, limit);
        }
    }
}

pub fn measure() {
    tables::worst().iter().for_each(one);
    tables::many_words().iter().for_each(one);
    tables::typical().iter().for_each(one);
}
