//! Tables of abbreviations.

use crate::mixed;
use gimli_base::{
    Abbreviation, Abbreviations, AttributeSpecification, DebugAbbrev, DebugAbbrevOffset,
    EndianSlice, LittleEndian, Reader, ReaderOffset, Result,
};
use std::alloc::{Allocator, Global};

fn with_specification(sum: u64, specification: &AttributeSpecification) -> u64 {
    let name = u64::from(specification.name().0);
    let form = u64::from(specification.form().0);
    let named = mixed(mixed(sum, name), form);
    match specification.implicit_const_value() {
        Some(number) => mixed(mixed(named, number.unsigned_abs()), u64::from(number < 0)),
        None => named,
    }
}

fn with_declaration<A: Allocator>(sum: u64, declared: &Abbreviation<A>) -> u64 {
    let head = mixed(mixed(sum, declared.code()), u64::from(declared.tag().0));
    let mut all = mixed(head, u64::from(declared.has_children()));
    for specification in declared.attributes() {
        all = with_specification(all, specification);
    }
    all
}

#[inline(never)]
fn with_table<A: Allocator>(sum: u64, table: &Abbreviations<A>) -> u64 {
    let mut all = sum;
    for code in 1..u64::MAX {
        match table.get(code) {
            Some(declared) => all = with_declaration(all, declared),
            None => break,
        }
    }
    all
}

#[inline(never)]
fn with_first<A: Allocator>(sum: u64, table: &Abbreviations<A>) -> u64 {
    match table.get(1) {
        Some(declared) => mixed(mixed(sum, declared.code()), u64::from(declared.tag().0)),
        None => mixed(sum, 0),
    }
}

fn whole<R: Reader>(
    alloc: Global,
    section: &DebugAbbrev<R>,
    mut offsets: EndianSlice<'_, LittleEndian>,
) -> Result<u64> {
    let mut sum = 0u64;
    for _ in 0..u64::MAX {
        if offsets.is_empty() {
            break;
        }
        let offset = R::Offset::from_u64(offsets.read_u64()?)?;
        let table = section.abbreviations(alloc, DebugAbbrevOffset(offset))?;
        sum = with_table(sum, &table);
    }
    Ok(sum)
}

fn first<R: Reader>(
    alloc: Global,
    section: &DebugAbbrev<R>,
    mut offsets: EndianSlice<'_, LittleEndian>,
) -> Result<u64> {
    let mut sum = 0u64;
    for _ in 0..u64::MAX {
        if offsets.is_empty() {
            break;
        }
        let offset = R::Offset::from_u64(offsets.read_u64()?)?;
        let table = section.abbreviations(alloc, DebugAbbrevOffset(offset))?;
        sum = with_first(sum, &table);
    }
    Ok(sum)
}

/// A checksum of all that the tables at the offsets declare, by the codes 1, 2, ..; where a table is refused, 0.
#[inline(never)]
pub fn checksum<R: Reader>(alloc: Global, input: R, offsets: EndianSlice<'_, LittleEndian>) -> u64 {
    whole(alloc, &DebugAbbrev::from(input), offsets).unwrap_or(0)
}

/// A checksum of the first declaration of each table at the offsets; where a table is refused, 0.
#[inline(never)]
pub fn checksum_of_first<R: Reader>(
    alloc: Global,
    input: R,
    offsets: EndianSlice<'_, LittleEndian>,
) -> u64 {
    first(alloc, &DebugAbbrev::from(input), offsets).unwrap_or(0)
}
