//! The numbers by which the operations turn their arguments away.

/// The paper's number for a reason to refuse.
pub type Refusal = u8;

/// n is outside 1..12, or 1..11 for the listing program.
pub(crate) const SIZE: Refusal = 1;
/// A table's length is not 2^n, or a weight list's not n.
pub(crate) const TABLE_LENGTH: Refusal = 2;
/// A table or a weight list holds a value out of range.
pub(crate) const TABLE_VALUE: Refusal = 3;
/// The node buffer could not hold the largest diagram of n variables.
pub(crate) const NODE_BUFFER: Refusal = 4;
/// An offset lies outside the range of table values.
pub(crate) const OFFSET: Refusal = 5;
/// A record list is not well formed, or says an untrue least or greatest value.
pub(crate) const RECORDS: Refusal = 6;
/// X is not below 2^n.
pub(crate) const INPUT: Refusal = 7;
/// The address limit is outside 1..12.
pub(crate) const LIMIT: Refusal = 8;
/// No grouping fits the address limit.
pub(crate) const NO_GROUPING: Refusal = 9;
/// The image buffer is shorter than the image.
pub(crate) const IMAGE_BUFFER: Refusal = 10;
/// An image ends where a command byte or an operand is due.
pub(crate) const CUT_OFF: Refusal = 11;
/// A command byte is not the one due there.
pub(crate) const COMMAND: Refusal = 12;
/// An operand breaks a rule.
pub(crate) const OPERAND: Refusal = 13;
/// Bytes follow the last command.
pub(crate) const BYTES_AFTER: Refusal = 14;
/// A part of the domain begins above its end or ends outside the domain.
pub(crate) const PART: Refusal = 15;
/// m is outside 1..6.
pub(crate) const PAIR_SIZE: Refusal = 16;
/// X or Y is not below 2^m.
pub(crate) const PAIR_INPUT: Refusal = 17;
/// Some sum of weights is out of the values' range.
pub(crate) const SUM: Refusal = 18;
/// q is outside 1..11.
pub(crate) const REMAINDER_BITS: Refusal = 19;

/// Goes on if the condition holds, else refuses.
pub(crate) fn require(condition: bool, refusal: Refusal) -> Result<(), Refusal> {
    if condition {
        Ok(())
    } else {
        Err(refusal)
    }
}
