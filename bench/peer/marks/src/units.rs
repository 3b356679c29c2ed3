//! Entries of units, and their attributes.
//!
//! The first entry of a unit is read or passed by one call, and the others by another, so that each read has two
//! callers.

use crate::mixed;
use gimli_base::{DebugAbbrev, Error, Reader, ReaderOffset, Result};
use gimli_headers::DebugInfo;
use gimli_units::{Attribute, AttributeValue, DebuggingInformationEntry, EntriesRaw, UnitHeader};
use std::alloc::Global;

/// What is done with each entry.
#[derive(Clone, Copy, Debug, PartialEq, Eq)]
pub enum Work {
    /// It is read as a whole, into one that is used again.
    Entry,
    /// Its code is read, and then its attributes into a list that is used again.
    Attributes,
    /// Its code is read, and its attributes are passed.
    Pass,
}

/// A checksum with the number of a refusal folded into it.
pub fn refused(sum: u64, error: Error) -> u64 {
    mixed(sum, u64::from(error.number()))
}

// The number of a value as its form shows it: a length where it has bytes of its own.
fn number_of<R: Reader>(value: &AttributeValue<R>) -> u64 {
    match value {
        AttributeValue::Addr(address) => *address,
        AttributeValue::Block(bytes) => bytes.len().into_u64(),
        AttributeValue::Data1(number) => u64::from(*number),
        AttributeValue::Data2(number) => u64::from(*number),
        AttributeValue::Data4(number) => u64::from(*number),
        AttributeValue::Data8(number) => *number,
        AttributeValue::Data16(_) => 16,
        AttributeValue::Sdata(number) => number.unsigned_abs(),
        AttributeValue::Udata(number) => *number,
        AttributeValue::Exprloc(expression) => expression.0.len().into_u64(),
        AttributeValue::Flag(flag) => u64::from(*flag),
        AttributeValue::SecOffset(offset) => offset.into_u64(),
        AttributeValue::DebugAddrIndex(index) => index.0.into_u64(),
        AttributeValue::UnitRef(offset) => offset.0.into_u64(),
        AttributeValue::DebugInfoRef(offset) => offset.0.into_u64(),
        AttributeValue::DebugLocListsIndex(index) => index.0.into_u64(),
        AttributeValue::DebugRngListsIndex(index) => index.0.into_u64(),
        AttributeValue::DebugTypesRef(signature) => signature.0,
        AttributeValue::DebugStrRef(offset) => offset.0.into_u64(),
        AttributeValue::DebugStrOffsetsIndex(index) => index.0.into_u64(),
        AttributeValue::DebugLineStrRef(offset) => offset.0.into_u64(),
        AttributeValue::String(text) => text.len().into_u64(),
        _ => 0,
    }
}

/// A checksum with the names and the values of attributes folded into it.
#[inline(never)]
pub fn with_values<R: Reader>(sum: u64, attributes: &[Attribute<R>]) -> u64 {
    let mut all = sum;
    for attribute in attributes {
        let number = number_of(&attribute.raw_value());
        all = mixed(mixed(all, u64::from(attribute.name().0)), number);
    }
    all
}

fn with_entry<R: Reader>(sum: u64, entry: &DebuggingInformationEntry<R, Global>) -> u64 {
    let offset = entry.offset().0.into_u64();
    let depth = entry.depth().unsigned_abs() as u64;
    let place = mixed(mixed(sum, offset), depth);
    let tag = u64::from(entry.tag().0);
    mixed(mixed(place, tag), entry.attrs().len() as u64)
}

// The next entry, read as a whole.
#[inline(always)]
fn next_entry<R: Reader>(
    sum: u64,
    entries: &mut EntriesRaw<'_, R, Global>,
    entry: &mut DebuggingInformationEntry<R, Global>,
) -> Result<u64> {
    let _some = entries.read_entry(entry)?;
    Ok(with_entry(sum, entry))
}

#[inline(never)]
fn with_entries<R: Reader>(alloc: Global, sum: u64, mut entries: EntriesRaw<'_, R, Global>) -> u64 {
    let mut entry = DebuggingInformationEntry::null(alloc);
    let mut all = match next_entry(sum, &mut entries, &mut entry) {
        Ok(first) => first,
        Err(error) => return refused(sum, error),
    };
    for _ in 0..u64::MAX {
        if entries.is_empty() {
            break;
        }
        match next_entry(all, &mut entries, &mut entry) {
            Ok(next) => all = next,
            Err(error) => return refused(all, error),
        }
    }
    all
}

// The next entry, its attributes read into a list.
#[inline(always)]
fn next_attributes<R: Reader>(
    sum: u64,
    entries: &mut EntriesRaw<'_, R, Global>,
    attributes: &mut Vec<Attribute<R>, Global>,
) -> Result<u64> {
    match entries.read_abbreviation()? {
        Some(declared) => {
            entries.read_attributes(declared.attributes(), attributes)?;
            Ok(with_values(sum, attributes))
        }
        None => Ok(mixed(sum, 0)),
    }
}

#[inline(never)]
fn with_attributes<R: Reader>(
    alloc: Global,
    sum: u64,
    mut entries: EntriesRaw<'_, R, Global>,
) -> u64 {
    let mut attributes = Vec::new(alloc);
    let mut all = match next_attributes(sum, &mut entries, &mut attributes) {
        Ok(first) => first,
        Err(error) => return refused(sum, error),
    };
    for _ in 0..u64::MAX {
        if entries.is_empty() {
            break;
        }
        match next_attributes(all, &mut entries, &mut attributes) {
            Ok(next) => all = next,
            Err(error) => return refused(all, error),
        }
    }
    all
}

// The next entry, its attributes passed.
#[inline(always)]
fn next_passed<R: Reader>(sum: u64, entries: &mut EntriesRaw<'_, R, Global>) -> Result<u64> {
    if let Some(declared) = entries.read_abbreviation()? {
        entries.skip_attributes(declared.attributes())?;
    }
    Ok(mixed(sum, entries.next_offset().0.into_u64()))
}

#[inline(never)]
fn with_passed<R: Reader>(sum: u64, mut entries: EntriesRaw<'_, R, Global>) -> u64 {
    let mut all = match next_passed(sum, &mut entries) {
        Ok(first) => first,
        Err(error) => return refused(sum, error),
    };
    for _ in 0..u64::MAX {
        if entries.is_empty() {
            break;
        }
        match next_passed(all, &mut entries) {
            Ok(next) => all = next,
            Err(error) => return refused(all, error),
        }
    }
    all
}

fn with_unit<R: Reader>(
    alloc: Global,
    work: Work,
    sum: u64,
    unit: &UnitHeader<R>,
    debug_abbrev: &DebugAbbrev<R>,
) -> u64 {
    let table = match unit.abbreviations(alloc, debug_abbrev) {
        Ok(table) => table,
        Err(error) => return refused(sum, error),
    };
    // a unit without a byte of entries
    let Ok(entries) = unit.entries_raw(&table, None) else {
        return sum;
    };
    match work {
        Work::Entry => with_entries(alloc, sum, entries),
        Work::Attributes => with_attributes(alloc, sum, entries),
        Work::Pass => with_passed(sum, entries),
    }
}

/// A checksum of the entries of all units of `.debug_info`; a refusal's number is folded in, and the rest of its unit
/// left out.
#[inline(never)]
pub fn checksum<R: Reader>(alloc: Global, work: Work, info: R, abbrev: R) -> u64 {
    let debug_info = DebugInfo::from(info);
    let debug_abbrev = DebugAbbrev::from(abbrev);
    let mut units = debug_info.units();
    let mut sum = 0u64;
    for _ in 0..u64::MAX {
        match units.next() {
            Ok(Some(unit)) => sum = with_unit(alloc, work, sum, &unit, &debug_abbrev),
            Ok(None) => break,
            Err(error) => sum = refused(sum, error),
        }
    }
    sum
}
