//! Unsigned LEB128 numbers.

use crate::mixed;
use gimli_base::{Reader, Result};

/// The sum of the numbers, up to the first that is refused.
#[inline(never)]
pub fn sum<R: Reader>(mut input: R) -> u64 {
    let mut sum = 0u64;
    for _ in 0..u64::MAX {
        match input.read_uleb128() {
            Ok(value) => sum = sum.wrapping_add(value),
            Err(_) => break,
        }
    }
    sum
}

fn two<R: Reader>(input: &mut R) -> Result<u64> {
    let one = input.read_uleb128()?;
    let other = input.read_uleb128()?;
    Ok(mixed(one, other))
}

/// A checksum of the numbers in twos, up to the first two that are refused.
#[inline(never)]
pub fn checksum_in_twos<R: Reader>(mut input: R) -> u64 {
    let mut sum = 0u64;
    for _ in 0..u64::MAX {
        match two(&mut input) {
            Ok(value) => sum = mixed(sum, value),
            Err(_) => break,
        }
    }
    sum
}
