//! The C interface of `include/panstrait.h`. None of its functions requires
//! anything of its arguments, so every wrapper is safe: it lends the slices it
//! was lent.

mod c {
    extern "C" {
        pub fn panstrait_rail_width(count: u32) -> usize;
        pub fn panstrait_weight_width(least: i32, greatest: i32) -> usize;
        pub fn panstrait_classes(
            n: usize,
            table: *const i32,
            table_len: usize,
            classes: *mut usize,
            classes_len: usize,
            firsts: *mut usize,
            firsts_len: usize,
            counts: *mut usize,
            counts_len: usize,
            tried: *mut usize,
            tried_len: usize,
            uses: *mut usize,
            uses_len: usize,
            use_counts: *mut usize,
            use_counts_len: usize,
        ) -> bool;
        pub fn panstrait_build(
            n: usize,
            table: *const i32,
            table_len: usize,
            nodes: *mut i32,
            nodes_len: usize,
            count: *mut usize,
            offset: *mut i32,
        ) -> u8;
        pub fn panstrait_walk(
            n: usize,
            offset: i32,
            records: *const i32,
            records_len: usize,
            x: usize,
            value: *mut i32,
        ) -> u8;
        pub fn panstrait_report(
            n: usize,
            offset: i32,
            records: *const i32,
            records_len: usize,
            a: usize,
            b: usize,
            count: *mut usize,
            least: *mut i32,
            greatest: *mut i32,
            sum: *mut i64,
        ) -> u8;
        pub fn panstrait_run(
            image: *const u8,
            image_len: usize,
            x: usize,
            value: *mut i32,
            words: *mut usize,
        ) -> u8;
        pub fn panstrait_pair_run(
            m: usize,
            image: *const u8,
            image_len: usize,
            x: usize,
            y: usize,
            value: *mut i32,
            words: *mut usize,
        ) -> u8;
        pub fn panstrait_expand(
            image: *const u8,
            image_len: usize,
            table: *mut i32,
            table_len: usize,
        ) -> u8;
        pub fn panstrait_plan(
            n: usize,
            table: *const i32,
            table_len: usize,
            limit: usize,
            sizes: *mut [usize; 12],
            cells: *mut [usize; 84],
            count: *mut usize,
            bits: *mut usize,
        ) -> u8;
        pub fn panstrait_reach(
            n: usize,
            table: *const i32,
            table_len: usize,
            limit: usize,
            cuts: *mut [usize; 13],
            count: *mut usize,
            least: *mut usize,
        ) -> u8;
        pub fn panstrait_compile(
            n: usize,
            table: *const i32,
            table_len: usize,
            limit: usize,
            image: *mut u8,
            image_len: usize,
            cells: *mut [usize; 84],
            length: *mut usize,
            nodes: *mut usize,
            count: *mut usize,
            bits: *mut usize,
        ) -> u8;
        pub fn panstrait_sum(
            n: usize,
            weights: *const i32,
            weights_len: usize,
            table: *mut i32,
            table_len: usize,
        ) -> u8;
        pub fn panstrait_remainder(
            n: usize,
            weights: *const i32,
            weights_len: usize,
            q: usize,
            table: *mut i32,
            table_len: usize,
        ) -> u8;
    }
}

pub fn rail_width(count: u32) -> usize {
    unsafe { c::panstrait_rail_width(count) }
}

pub fn weight_width(least: i32, greatest: i32) -> usize {
    unsafe { c::panstrait_weight_width(least, greatest) }
}

/// The classes of all cuts, into the six rows; false where a size is wrong.
#[allow(clippy::too_many_arguments)]
pub fn classes(
    n: usize,
    table: &[i32],
    classes: &mut [usize],
    firsts: &mut [usize],
    counts: &mut [usize],
    tried: &mut [usize],
    uses: &mut [usize],
    use_counts: &mut [usize],
) -> bool {
    unsafe {
        c::panstrait_classes(
            n,
            table.as_ptr(),
            table.len(),
            classes.as_mut_ptr(),
            classes.len(),
            firsts.as_mut_ptr(),
            firsts.len(),
            counts.as_mut_ptr(),
            counts.len(),
            tried.as_mut_ptr(),
            tried.len(),
            uses.as_mut_ptr(),
            uses.len(),
            use_counts.as_mut_ptr(),
            use_counts.len(),
        )
    }
}

/// Build: 0 with node count, offset and records, or the refusal's number.
pub fn build(
    n: usize,
    table: &[i32],
    nodes: &mut [i32],
    count: &mut usize,
    offset: &mut i32,
) -> u8 {
    unsafe {
        c::panstrait_build(
            n,
            table.as_ptr(),
            table.len(),
            nodes.as_mut_ptr(),
            nodes.len(),
            count,
            offset,
        )
    }
}

/// Walk: 0 with the value at X, or the refusal's number.
pub fn walk(n: usize, offset: i32, records: &[i32], x: usize, value: &mut i32) -> u8 {
    unsafe { c::panstrait_walk(n, offset, records.as_ptr(), records.len(), x, value) }
}

/// Report: 0 with the count of X from a to b and the least, the greatest and the
/// sum of their values, or the refusal's number.
#[allow(clippy::too_many_arguments)]
pub fn report(
    n: usize,
    offset: i32,
    records: &[i32],
    a: usize,
    b: usize,
    count: &mut usize,
    least: &mut i32,
    greatest: &mut i32,
    sum: &mut i64,
) -> u8 {
    unsafe {
        c::panstrait_report(
            n,
            offset,
            records.as_ptr(),
            records.len(),
            a,
            b,
            count,
            least,
            greatest,
            sum,
        )
    }
}

/// Run: 0 with the value at X and the words read, or the refusal's number.
pub fn run(image: &[u8], x: usize, value: &mut i32, words: &mut usize) -> u8 {
    unsafe { c::panstrait_run(image.as_ptr(), image.len(), x, value, words) }
}

/// Pair run: 0 with the value at X and Y and the words read, or the refusal's
/// number.
pub fn pair_run(
    m: usize,
    image: &[u8],
    x: usize,
    y: usize,
    value: &mut i32,
    words: &mut usize,
) -> u8 {
    unsafe { c::panstrait_pair_run(m, image.as_ptr(), image.len(), x, y, value, words) }
}

/// Expand: 0 with the table, or the refusal's number.
pub fn expand(image: &[u8], table: &mut [i32]) -> u8 {
    unsafe { c::panstrait_expand(image.as_ptr(), image.len(), table.as_mut_ptr(), table.len()) }
}

/// Plan: 0 with sizes, cells, their count and the bits, or the refusal's
/// number.
pub fn plan(
    n: usize,
    table: &[i32],
    limit: usize,
    sizes: &mut [usize; 12],
    cells: &mut [usize; 84],
    count: &mut usize,
    bits: &mut usize,
) -> u8 {
    unsafe {
        c::panstrait_plan(
            n,
            table.as_ptr(),
            table.len(),
            limit,
            sizes,
            cells,
            count,
            bits,
        )
    }
}

/// Reach: 0 with the cuts arrived at, their count and the least limit that fits,
/// or the refusal's number.
pub fn reach(
    n: usize,
    table: &[i32],
    limit: usize,
    cuts: &mut [usize; 13],
    count: &mut usize,
    least: &mut usize,
) -> u8 {
    unsafe { c::panstrait_reach(n, table.as_ptr(), table.len(), limit, cuts, count, least) }
}

/// Compile: 0 with the image, cells, length, node count, cell count and bits,
/// or the refusal's number.
#[allow(clippy::too_many_arguments)]
pub fn compile(
    n: usize,
    table: &[i32],
    limit: usize,
    image: &mut [u8],
    cells: &mut [usize; 84],
    length: &mut usize,
    nodes: &mut usize,
    count: &mut usize,
    bits: &mut usize,
) -> u8 {
    unsafe {
        c::panstrait_compile(
            n,
            table.as_ptr(),
            table.len(),
            limit,
            image.as_mut_ptr(),
            image.len(),
            cells,
            length,
            nodes,
            count,
            bits,
        )
    }
}

/// Sum: 0 with the table, or the refusal's number.
pub fn sum(n: usize, weights: &[i32], table: &mut [i32]) -> u8 {
    unsafe {
        c::panstrait_sum(
            n,
            weights.as_ptr(),
            weights.len(),
            table.as_mut_ptr(),
            table.len(),
        )
    }
}

/// Remainder: 0 with the table, or the refusal's number.
pub fn remainder(n: usize, weights: &[i32], q: usize, table: &mut [i32]) -> u8 {
    unsafe {
        c::panstrait_remainder(
            n,
            weights.as_ptr(),
            weights.len(),
            q,
            table.as_mut_ptr(),
            table.len(),
        )
    }
}
