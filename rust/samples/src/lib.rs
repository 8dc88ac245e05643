//! What the tests and the benchmarks are tried on: tables, record lists, weight
//! lists, images by hand, and the paper's definitions once more, in other ways
//! than the second program's.

pub mod cases;
pub mod drafts;
pub mod lists;
pub mod oracle;
pub mod pairs;
pub mod signs;
pub mod tables;
pub mod weights;

pub use drafts::{figure_draft, Draft, DraftCell};
pub use oracle::Cascade;
pub use tables::Random;

pub const LEAST: i32 = -8_388_608;
pub const GREATEST: i32 = 8_388_607;
pub const MOST_WEIGHT: i32 = 16_777_215;

/// Document 000, figure 1.
pub const FIGURE: [i32; 16] = [0, 0, 0, 0, 1, 1, 2, 3, 4, 4, 5, 6, 7, 7, 7, 7];

/// Document 002, table 1(c), over Z = 4X + Y.
pub const NORM: [i32; 16] = [0, 1, 2, 3, 1, 1, 2, 3, 2, 2, 3, 4, 3, 3, 4, 4];

/// Document 001, table 2(c), as far as it is printed.
pub const ROOT: [i32; 8] = [0, 8, 11, 14, 16, 18, 20, 21];

/// What buffers are filled with before a call.
pub const NUMBER: i32 = 0x5EED_1234;
pub const BYTE: u8 = 0xC7;

/// The numbers of a record: variable, low, high, weight, least, greatest.
pub const RECORD: usize = 6;

/// The numbers a node buffer for n variables needs.
pub fn node_numbers(n: usize) -> usize {
    RECORD * ((1 << n) - 1)
}
