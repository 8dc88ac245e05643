//! The ranges the paper sets for sizes, values and weights.

/// The most variables, and also the widest address.
const MOST: usize = 12;

/// The most variables of a table that the listing program lists.
const MOST_LISTED: usize = 11;

/// The most bits of each variable, where a table has two.
const MOST_OF_EACH: usize = 6;

/// The most bits of a remainder.
const MOST_REMAINDER_BITS: usize = 11;

/// The numbers of a record in a buffer.
pub(crate) const RECORD_NUMBERS: usize = 6;

/// Is n a number of variables the paper admits?
pub(crate) fn size(n: usize) -> bool {
    (1..=MOST).contains(&n)
}

/// Is n a number of variables the listing program admits?
pub(crate) fn listed_size(n: usize) -> bool {
    (1..=MOST_LISTED).contains(&n)
}

/// Is m a number of bits that the paper admits for each of two variables?
pub(crate) fn pair_size(m: usize) -> bool {
    (1..=MOST_OF_EACH).contains(&m)
}

/// Is q a number of bits that the paper admits for a remainder?
pub(crate) fn remainder_bits(q: usize) -> bool {
    (1..=MOST_REMAINDER_BITS).contains(&q)
}

/// Is this an address width, or a limit on one, that the paper admits?
pub(crate) fn address_width(width: usize) -> bool {
    (1..=MOST).contains(&width)
}

/// Is this a value a table may hold, and so also an offset, and a weight of a
/// sum?
pub(crate) fn value(value: impl Into<i64>) -> bool {
    (-8_388_608..=8_388_607).contains(&value.into())
}

/// Is this a weight that two table values can differ by?
pub(crate) fn weight(weight: i32) -> bool {
    (-16_777_215..=16_777_215).contains(&weight)
}

/// The numbers in a buffer that holds the largest diagram of n variables.
pub(crate) fn most_record_numbers(n: usize) -> usize {
    RECORD_NUMBERS * ((1 << n) - 1)
}
