//! The classes of all cuts, beside the same method in Rust by the order of the
//! library's search and by the former order, and how many classes both try.

use crate::same_method::{self, cut_places};
use crate::tables::{self, Named, N};
use crate::timing::{self, black_box};
use panstrait_compare::proved;

/// The rows are not cleared between runs: each run writes them whole.
struct Rows {
    classes: Vec<usize>,
    firsts: Vec<usize>,
    counts: Vec<usize>,
    tried: Vec<usize>,
    uses: Vec<usize>,
    use_counts: Vec<usize>,
}

impl Rows {
    fn new() -> Rows {
        Rows {
            classes: vec![0; (2 << N) - 1],
            firsts: vec![0; (2 << N) - 1],
            counts: vec![0; N + 1],
            tried: vec![0; (2 << N) - 1],
            uses: vec![0; (2 << N) - 1],
            use_counts: vec![0; (2 << N) - 1],
        }
    }

    fn proved(&mut self, table: &[i32]) {
        assert!(proved::classes(
            N,
            table,
            &mut self.classes,
            &mut self.firsts,
            &mut self.counts,
            &mut self.tried,
            &mut self.uses,
            &mut self.use_counts,
        ));
    }

    fn same_method(&mut self, table: &[i32]) {
        same_method::class_cuts(
            N,
            table,
            &mut self.classes,
            &mut self.firsts,
            &mut self.counts,
            &mut self.tried,
            &mut self.uses,
            &mut self.use_counts,
        );
    }

    fn former_order(&mut self, table: &[i32]) {
        same_method::class_cuts_from_0(
            N,
            table,
            &mut self.classes,
            &mut self.firsts,
            &mut self.counts,
        );
    }

    fn same_classes(&self, other: &Rows) -> bool {
        (&self.classes, &self.firsts, &self.counts)
            == (&other.classes, &other.firsts, &other.counts)
    }

    fn same_searches(&self, other: &Rows) -> bool {
        (&self.tried, &self.uses, &self.use_counts)
            == (&other.tried, &other.uses, &other.use_counts)
    }

    /// How many classes the former order tries at all cuts.
    fn tried_from_0(&self) -> usize {
        let of_cut = |h| tried_from_0(&self.classes[cut_places(h)]);
        (0..=N).map(of_cut).sum()
    }
}

/// How many it tries at a cut: a known class and all those below it, or, where
/// the class is new, all that are known.
fn tried_from_0(classes: &[usize]) -> usize {
    let mut known = 0;
    let tried = |&class: &usize| {
        let new = class == known;
        known += usize::from(new);
        class + usize::from(!new)
    };
    classes.iter().map(tried).sum()
}

fn one(Named { name, table }: &Named) {
    let what = format!("classes, {name}");
    let (mut ours, mut theirs, mut former) = (Rows::new(), Rows::new(), Rows::new());
    timing::line(
        &what,
        "same method",
        || ours.proved(black_box(table)),
        || theirs.same_method(black_box(table)),
    );
    timing::line(
        &what,
        "former order",
        || ours.proved(black_box(table)),
        || former.former_order(black_box(table)),
    );
    assert!(ours.same_classes(&theirs) && ours.same_searches(&theirs));
    assert!(ours.same_classes(&former));
    let tried = ours.tried.iter().sum::<usize>();
    let former = former.tried_from_0();
    println!(
        "{what:<60} tried  {tried:>9}      {:<24} {former:>9}      ratio {:>5.2}",
        "former order",
        tried as f64 / former as f64
    );
}

pub fn measure() {
    tables::worst().iter().for_each(one);
    tables::typical().iter().for_each(one);
}
