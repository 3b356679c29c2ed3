//! Words of a fixed number of bytes.

use crate::mixed;
use gimli_base::{Reader, Result};

/// The sum of the words of 2 bytes.
#[inline(never)]
pub fn sum_of_2<R: Reader>(mut input: R) -> u64 {
    let mut sum = 0u64;
    for _ in 0..u64::MAX {
        match input.read_u16() {
            Ok(value) => sum = sum.wrapping_add(u64::from(value)),
            Err(_) => break,
        }
    }
    sum
}

/// The sum of the words of 4 bytes.
#[inline(never)]
pub fn sum_of_4<R: Reader>(mut input: R) -> u64 {
    let mut sum = 0u64;
    for _ in 0..u64::MAX {
        match input.read_u32() {
            Ok(value) => sum = sum.wrapping_add(u64::from(value)),
            Err(_) => break,
        }
    }
    sum
}

/// The sum of the words of 8 bytes.
#[inline(never)]
pub fn sum_of_8<R: Reader>(mut input: R) -> u64 {
    let mut sum = 0u64;
    for _ in 0..u64::MAX {
        match input.read_u64() {
            Ok(value) => sum = sum.wrapping_add(value),
            Err(_) => break,
        }
    }
    sum
}

fn record<R: Reader>(input: &mut R) -> Result<u64> {
    let two = input.read_u16()?;
    let four = input.read_u32()?;
    let eight = input.read_u64()?;
    Ok(mixed(mixed(u64::from(two), u64::from(four)), eight))
}

/// The sum of the records, each a word of 2, of 4 and of 8 bytes.
#[inline(never)]
pub fn sum_of_records<R: Reader>(mut input: R) -> u64 {
    let mut sum = 0u64;
    for _ in 0..u64::MAX {
        match record(&mut input) {
            Ok(value) => sum = sum.wrapping_add(value),
            Err(_) => break,
        }
    }
    sum
}
