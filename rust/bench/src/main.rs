//! The proved library's speed beside programs in Rust, on the same arguments
//! in one process. A line for each measurement: what was measured, both times,
//! and their ratio; for the class search also one with how many classes it tries
//! in all, how many by the former order, and their ratio. `bash panstrait library`
//! at the root of the repository comes first, then `cargo run --release --offline`
//! here.

mod classes;
mod diagrams;
mod evaluation;
mod plans;
mod same_method;
mod sums;
mod tables;
mod timing;

fn main() {
    classes::measure();
    diagrams::measure();
    plans::measure();
    evaluation::measure();
    sums::measure();
}
