//! Functions of two variables: X and Y, of m bits each, are the upper and the
//! lower bits of the Z that an image with n = 2m is run at.

use crate::ranges;
use crate::reader::{Image, Ran};
use crate::refusal::{require, Refusal, PAIR_INPUT, PAIR_SIZE};

/// Pair run: what Run answers at Z = 2^m·X + Y.
pub fn pair_run(m: usize, image: &[u8], x: usize, y: usize) -> Result<Ran, Refusal> {
    require(ranges::pair_size(m), PAIR_SIZE)?;
    let image = Image::read_for(2 * m, image)?;
    require(x < 1 << m && y < 1 << m, PAIR_INPUT)?;
    image.run((x << m) + y)
}
