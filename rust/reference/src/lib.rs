//! Edge-valued diagrams and LUT cascades for integer tables.
//!
//! The second program: a plain implementation of the paper's operations and
//! its listing program, written for comparison with another one. It follows
//! the definitions directly (blocks are compared difference by difference,
//! every grouping is tried, a node's function is evaluated at every X) and
//! makes no effort to be fast.
//!
//! The layers, lowest first: `refusal`, `ranges` and `widths`; `reader`, which
//! knows images and no tables, above it `pairs` (images of functions of two
//! variables), and `lists`, which knows record lists and no tables; `sums`,
//! which makes tables of weights; `table` (blocks, classes, the search for them
//! and their uses, the node bound); `diagram`; `grouping`; `reach`; `compiler`;
//! `listing`.

mod compiler;
mod diagram;
mod grouping;
mod listing;
mod lists;
mod pairs;
mod ranges;
mod reach;
mod reader;
mod refusal;
mod sums;
mod table;
mod widths;

pub use compiler::{compile, Compiled};
pub use diagram::{build, Built};
pub use grouping::{plan, Cell, Planned};
pub use listing::listing;
pub use lists::{report, walk, Reported};
pub use pairs::pair_run;
pub use reach::{reach, Reached};
pub use reader::{expand, expand_older, run, run_older, Ran};
pub use refusal::Refusal;
pub use sums::{remainder, sum};
pub use table::{classes, node_bound, tried, use_counts, uses};
pub use widths::{rail_width, weight_width};
