//! The check of sibling references.

use crate::mixed;
use crate::units::refused;
use gimli_base::{DebugAbbrev, Reader, ReaderOffset, Result};
use gimli_headers::{DebugInfo, first_false_sibling};
use gimli_units::UnitHeader;
use std::alloc::Global;

// A checksum with the offset of a unit's first false reference folded into it, and 0 where there is none.
fn with_unit<R: Reader>(
    alloc: Global,
    sum: u64,
    unit: &UnitHeader<R>,
    debug_abbrev: &DebugAbbrev<R>,
) -> Result<u64> {
    let table = unit.abbreviations(alloc, debug_abbrev)?;
    let offset = match first_false_sibling(alloc, unit, &table)? {
        Some(offset) => offset.0.into_u64(),
        None => 0,
    };
    Ok(mixed(sum, offset))
}

/// A checksum of the first false reference of each unit of `.debug_info`; a refusal's number is folded in.
#[inline(never)]
pub fn checksum<R: Reader>(alloc: Global, info: R, abbrev: R) -> u64 {
    let debug_info = DebugInfo::from(info);
    let debug_abbrev = DebugAbbrev::from(abbrev);
    let mut units = debug_info.units();
    let mut sum = 0u64;
    for _ in 0..u64::MAX {
        match units.next() {
            Ok(Some(unit)) => {
                sum = match with_unit(alloc, sum, &unit, &debug_abbrev) {
                    Ok(all) => all,
                    Err(error) => refused(sum, error),
                };
            }
            Ok(None) => break,
            Err(error) => sum = refused(sum, error),
        }
    }
    sum
}
