//! Lists of ranges, lists of locations, and ranges of addresses.
//!
//! The first item of a list is read by one call, and the others by another, so that each read has two callers.

use crate::mixed;
use crate::units::refused;
use gimli_base::{
    DebugAddr, DebugAddrBase, Encoding, EndianSlice, Format, LittleEndian, LocationListsOffset,
    RangeListsOffset, Reader, ReaderOffset, Result,
};
use gimli_lists::{
    ArangeEntryIter, ArangeHeader, DebugAranges, DebugLoc, DebugLocLists, DebugRanges,
    DebugRngLists, LocListIter, LocationLists, RangeLists, RngListIter,
};

/// Which lists are read.
#[derive(Clone, Copy, Debug, PartialEq, Eq)]
pub enum Kind {
    /// Ranges.
    Ranges,
    /// Locations.
    Locations,
}

// The lists of both kinds, and the addresses that they name.
#[derive(Drop)]
struct Sections<R> {
    ranges: RangeLists<R>,
    locations: LocationLists<R>,
    addresses: DebugAddr<R>,
}

#[inline(always)]
fn next_range<R: Reader>(sum: u64, ranges: &mut RngListIter<R>) -> Result<Option<u64>> {
    match ranges.next()? {
        Some(range) => Ok(Some(mixed(mixed(sum, range.begin), range.end))),
        None => Ok(None),
    }
}

#[inline(never)]
fn with_ranges<R: Reader>(sum: u64, ranges: &mut RngListIter<R>) -> u64 {
    let mut all = match next_range(sum, ranges) {
        Ok(Some(first)) => first,
        Ok(None) => return sum,
        Err(error) => return refused(sum, error),
    };
    for _ in 0..u64::MAX {
        match next_range(all, ranges) {
            Ok(Some(next)) => all = next,
            Ok(None) => break,
            Err(error) => return refused(all, error),
        }
    }
    all
}

#[inline(always)]
fn next_location<R: Reader>(sum: u64, locations: &mut LocListIter<R>) -> Result<Option<u64>> {
    match locations.next()? {
        Some(entry) => {
            let range = mixed(mixed(sum, entry.range.begin), entry.range.end);
            Ok(Some(mixed(range, entry.expr.0.len().into_u64())))
        }
        None => Ok(None),
    }
}

#[inline(never)]
fn with_locations<R: Reader>(sum: u64, locations: &mut LocListIter<R>) -> u64 {
    let mut all = match next_location(sum, locations) {
        Ok(Some(first)) => first,
        Ok(None) => return sum,
        Err(error) => return refused(sum, error),
    };
    for _ in 0..u64::MAX {
        match next_location(all, locations) {
            Ok(Some(next)) => all = next,
            Ok(None) => break,
            Err(error) => return refused(all, error),
        }
    }
    all
}

// The next list: its offset, its version, the base address of its unit and that of the unit's table of addresses, each a
// word of 8 bytes.
fn with_list<R: Reader>(
    sum: u64,
    kind: Kind,
    sections: &Sections<R>,
    named: &mut EndianSlice<'_, LittleEndian>,
) -> Result<u64> {
    let offset = R::Offset::from_u64(named.read_u64()?)?;
    let version = if named.read_u64()? < 5 { 4 } else { 5 };
    let base = named.read_u64()?;
    let table = DebugAddrBase(R::Offset::from_u64(named.read_u64()?)?);
    let encoding = Encoding {
        address_size: 8,
        format: Format::Dwarf32,
        version,
    };
    let addresses = &sections.addresses;
    match kind {
        Kind::Ranges => {
            let offset = RangeListsOffset(offset);
            let mut ranges = sections
                .ranges
                .ranges(offset, encoding, base, addresses, table)?;
            Ok(with_ranges(sum, &mut ranges))
        }
        Kind::Locations => {
            let offset = LocationListsOffset(offset);
            let mut locations = sections
                .locations
                .locations(offset, encoding, base, addresses, table)?;
            Ok(with_locations(sum, &mut locations))
        }
    }
}

fn whole<R: Reader>(
    kind: Kind,
    section: R,
    mut second: R,
    mut named: EndianSlice<'_, LittleEndian>,
) -> Result<u64> {
    let count = named.read_u64()?;
    second.skip(R::Offset::from_u64(named.read_u64()?)?)?;
    let sections = Sections {
        ranges: RangeLists::new(
            DebugRanges::from(section.copy()),
            DebugRngLists::from(section.copy()),
        ),
        locations: LocationLists::new(DebugLoc::from(section.copy()), DebugLocLists::from(section)),
        addresses: DebugAddr::from(second),
    };
    let mut sum = 0u64;
    for _ in 0..count {
        sum = with_list(sum, kind, &sections, &mut named)?;
    }
    Ok(sum)
}

/// A checksum of the items of the lists in a section that are named in `named`, whose bytes `second` reads too: how many
/// they are, where the section of addresses begins there, and then the lists; where they are not there, 0.
#[inline(never)]
pub fn checksum<R: Reader>(
    kind: Kind,
    section: R,
    second: R,
    named: EndianSlice<'_, LittleEndian>,
) -> u64 {
    whole(kind, section, second, named).unwrap_or(0)
}

#[inline(always)]
fn next_arange<R: Reader>(sum: u64, entries: &mut ArangeEntryIter<R>) -> Result<Option<u64>> {
    match entries.next()? {
        Some(entry) => Ok(Some(mixed(mixed(sum, entry.address()), entry.length()))),
        None => Ok(None),
    }
}

#[inline(never)]
fn with_set<R: Reader>(sum: u64, header: &ArangeHeader<R>) -> u64 {
    let sum = mixed(sum, header.debug_info_offset().0.into_u64());
    let mut entries = header.entries();
    let mut all = match next_arange(sum, &mut entries) {
        Ok(Some(first)) => first,
        Ok(None) => return sum,
        Err(error) => return refused(sum, error),
    };
    for _ in 0..u64::MAX {
        match next_arange(all, &mut entries) {
            Ok(Some(next)) => all = next,
            Ok(None) => break,
            Err(error) => return refused(all, error),
        }
    }
    all
}

/// A checksum of the ranges of addresses of all sets of `.debug_aranges`; a refusal's number is folded in, and the rest
/// of its set left out.
#[inline(never)]
pub fn checksum_of_addresses<R: Reader>(section: R) -> u64 {
    let aranges = DebugAranges::from(section);
    let mut headers = aranges.headers();
    let mut sum = 0u64;
    for _ in 0..u64::MAX {
        match headers.next() {
            Ok(Some(header)) => sum = with_set(sum, &header),
            Ok(None) => break,
            Err(error) => sum = refused(sum, error),
        }
    }
    sum
}
