// Lists of ranges and of locations and ranges of addresses, by the peer; and the lists that the entries of a corpus name.
use crate::peer::mixed;
use crate::values::refused;
use gimli::*;

// Which lists are read, as in the crate gimli_marks.
#[derive(Clone, Copy, PartialEq)]
pub enum Kind {
    Ranges,
    Locations,
}

struct Sections<R: Reader> {
    ranges: RangeLists<R>,
    locations: LocationLists<R>,
    addresses: DebugAddr<R>,
}

// The lists of both kinds in a section, and the addresses.
fn sections<R: Reader>([old, new]: [R; 2], addresses: R) -> Sections<R> {
    Sections {
        ranges: RangeLists::new(
            DebugRanges::from(old.clone()),
            DebugRngLists::from(new.clone()),
        ),
        locations: LocationLists::new(DebugLoc::from(old), DebugLocLists::from(new)),
        addresses: DebugAddr::from(addresses),
    }
}

// The peer gives ranges without a byte, which the library leaves out.
#[inline(always)]
fn next_range<R: Reader>(sum: u64, ranges: &mut RngListIter<R>) -> Result<Option<u64>> {
    match ranges.next()? {
        Some(range) if range.begin < range.end => {
            Ok(Some(mixed(mixed(sum, range.begin), range.end)))
        }
        Some(_) => Ok(Some(sum)),
        None => Ok(None),
    }
}

#[inline(never)]
fn with_ranges<R: Reader>(sum: u64, ranges: &mut RngListIter<R>) -> u64 {
    let mut all = match next_range(sum, ranges) {
        Ok(Some(first)) => first,
        Ok(None) => return sum,
        Err(error) => return refused(sum, error),
    };
    loop {
        match next_range(all, ranges) {
            Ok(Some(next)) => all = next,
            Ok(None) => return all,
            Err(error) => return refused(all, error),
        }
    }
}

// Locations over a range without a byte are left out, too.
#[inline(always)]
fn next_location<R: Reader>(sum: u64, locations: &mut LocListIter<R>) -> Result<Option<u64>> {
    match locations.next()? {
        Some(entry) if entry.range.begin < entry.range.end => {
            let range = mixed(mixed(sum, entry.range.begin), entry.range.end);
            Ok(Some(mixed(range, entry.data.0.len().into_u64())))
        }
        Some(_) => Ok(Some(sum)),
        None => Ok(None),
    }
}

#[inline(never)]
fn with_locations<R: Reader>(sum: u64, locations: &mut LocListIter<R>) -> u64 {
    let mut all = match next_location(sum, locations) {
        Ok(Some(first)) => first,
        Ok(None) => return sum,
        Err(error) => return refused(sum, error),
    };
    loop {
        match next_location(all, locations) {
            Ok(Some(next)) => all = next,
            Ok(None) => return all,
            Err(error) => return refused(all, error),
        }
    }
}

fn with_list<R: Reader>(
    sum: u64,
    kind: Kind,
    sections: &Sections<R>,
    named: &mut EndianSlice<'_, LittleEndian>,
) -> Result<u64> {
    let offset = R::Offset::from_u64(named.read_u64()?)?;
    let version = if named.read_u64()? < 5 { 4 } else { 5 };
    let base = named.read_u64()?;
    let table = DebugAddrBase(R::Offset::from_u64(named.read_u64()?)?);
    let encoding = Encoding {
        address_size: 8,
        format: Format::Dwarf32,
        version,
    };
    let addresses = &sections.addresses;
    match kind {
        Kind::Ranges => {
            let offset = RangeListsOffset(offset);
            let lists = &sections.ranges;
            let mut ranges = lists.ranges(offset, encoding, base, addresses, table)?;
            Ok(with_ranges(sum, &mut ranges))
        }
        Kind::Locations => {
            let offset = LocationListsOffset(offset);
            let lists = &sections.locations;
            let mut locations = lists.locations(offset, encoding, base, addresses, table)?;
            Ok(with_locations(sum, &mut locations))
        }
    }
}

fn whole<R: Reader>(
    kind: Kind,
    section: R,
    mut second: R,
    mut named: EndianSlice<'_, LittleEndian>,
) -> Result<u64> {
    let count = named.read_u64()?;
    second.skip(R::Offset::from_u64(named.read_u64()?)?)?;
    let sections = sections([section.clone(), section], second);
    let mut sum = 0u64;
    for _ in 0..count {
        sum = with_list(sum, kind, &sections, &mut named)?;
    }
    Ok(sum)
}

#[inline(never)]
pub fn checksum<R: Reader>(
    kind: Kind,
    section: R,
    second: R,
    named: EndianSlice<'_, LittleEndian>,
) -> u64 {
    whole(kind, section, second, named).unwrap_or(0)
}

#[inline(always)]
fn next_arange<R: Reader>(sum: u64, entries: &mut ArangeEntryIter<R>) -> Result<Option<u64>> {
    match entries.next()? {
        Some(entry) => Ok(Some(mixed(mixed(sum, entry.address()), entry.length()))),
        None => Ok(None),
    }
}

#[inline(never)]
fn with_set<R: Reader>(sum: u64, header: &ArangeHeader<R>) -> u64 {
    let sum = mixed(sum, header.debug_info_offset().0.into_u64());
    let mut entries = header.entries();
    let mut all = match next_arange(sum, &mut entries) {
        Ok(Some(first)) => first,
        Ok(None) => return sum,
        Err(error) => return refused(sum, error),
    };
    loop {
        match next_arange(all, &mut entries) {
            Ok(Some(next)) => all = next,
            Ok(None) => return all,
            Err(error) => return refused(all, error),
        }
    }
}

#[inline(never)]
pub fn checksum_of_addresses<R: Reader>(section: R) -> u64 {
    let aranges = DebugAranges::from(section);
    let mut headers = aranges.headers();
    let mut sum = 0u64;
    loop {
        match headers.next() {
            Ok(Some(header)) => sum = with_set(sum, &header),
            Ok(None) => return sum,
            Err(error) => sum = refused(sum, error),
        }
    }
}

type Bytes<'a> = EndianSlice<'a, LittleEndian>;

// A list that is named: its offset, the version and the base address of its unit, and the unit's table of addresses.
type Named = [u64; 4];

// The base of a unit's table of lists of a kind.
fn base_of_lists(kind: Kind, root: &DebuggingInformationEntry<Bytes>) -> Result<usize> {
    Ok(match kind {
        Kind::Ranges => match root.attr_value(DW_AT_rnglists_base)? {
            Some(AttributeValue::DebugRngListsBase(base)) => base.0,
            _ => 0,
        },
        Kind::Locations => match root.attr_value(DW_AT_loclists_base)? {
            Some(AttributeValue::DebugLocListsBase(base)) => base.0,
            _ => 0,
        },
    })
}

// The offset of the list of a kind that a value names.
fn offset_of_list(
    kind: Kind,
    value: AttributeValue<Bytes>,
    encoding: Encoding,
    base: usize,
    sections: &Sections<Bytes>,
) -> Result<Option<usize>> {
    Ok(match (kind, value) {
        (Kind::Ranges, AttributeValue::RangeListsRef(offset)) => Some(offset.0),
        (Kind::Ranges, AttributeValue::DebugRngListsIndex(index)) => {
            let base = DebugRngListsBase(base);
            Some(sections.ranges.get_offset(encoding, base, index)?.0)
        }
        (Kind::Locations, AttributeValue::LocationListsRef(offset)) => Some(offset.0),
        (Kind::Locations, AttributeValue::DebugLocListsIndex(index)) => {
            let base = DebugLocListsBase(base);
            Some(sections.locations.get_offset(encoding, base, index)?.0)
        }
        _ => None,
    })
}

fn lists_of_unit(
    kind: Kind,
    unit: &UnitHeader<Bytes>,
    debug_abbrev: &DebugAbbrev<Bytes>,
    sections: &Sections<Bytes>,
) -> Result<Vec<Named>> {
    let table = unit.abbreviations(debug_abbrev)?;
    let encoding = unit.encoding();
    assert_eq!(encoding.address_size, 8);
    let mut cursor = unit.entries(&table);
    let (_, root) = cursor.next_dfs()?.expect("a root");
    let addr_base = match root.attr_value(DW_AT_addr_base)? {
        Some(AttributeValue::DebugAddrBase(base)) => base,
        _ => DebugAddrBase(0),
    };
    let lists_base = base_of_lists(kind, root)?;
    let base = match root.attr_value(DW_AT_low_pc)? {
        Some(AttributeValue::Addr(address)) => address,
        Some(AttributeValue::DebugAddrIndex(index)) => {
            let addresses = &sections.addresses;
            addresses.get_address(encoding.address_size, addr_base, index)?
        }
        _ => 0,
    };
    let version = u64::from(encoding.version);
    let mut named = vec![];
    let mut cursor = unit.entries(&table);
    while let Some((_, entry)) = cursor.next_dfs()? {
        let mut attributes = entry.attrs();
        while let Some(attribute) = attributes.next()? {
            let value = attribute.value();
            if let Some(offset) = offset_of_list(kind, value, encoding, lists_base, sections)? {
                named.push([offset as u64, version, base, addr_base.0 as u64]);
            }
        }
    }
    Ok(named)
}

// The two sections of lists of a kind one after the other, and what names the lists: their number, where the section of
// addresses begins in it, and each list, in words of 8 bytes; then the section of addresses. Each list is named several
// times, so that a round is not too short.
pub fn named(
    kind: Kind,
    [info, abbrev]: [&[u8]; 2],
    [old, new, addr]: [&[u8]; 3],
) -> (Vec<u8>, Vec<u8>) {
    let reader = |bytes| EndianSlice::new(bytes, LittleEndian);
    let debug_info = DebugInfo::new(info, LittleEndian);
    let debug_abbrev = DebugAbbrev::new(abbrev, LittleEndian);
    let sections = sections([reader(old), reader(new)], reader(addr));
    let mut all = vec![];
    let mut units = debug_info.units();
    while let Some(unit) = units.next().expect("a unit") {
        all.extend(lists_of_unit(kind, &unit, &debug_abbrev, &sections).expect("entries"));
    }
    for list in &mut all {
        if list[1] >= 5 {
            list[0] += old.len() as u64;
        }
    }
    let again = 1 + (1 << 15) / all.len().max(1);
    let count = all.len() * again;
    let mut words = vec![count as u64, 16 + 32 * count as u64];
    for _ in 0..again {
        words.extend(all.iter().flatten());
    }
    let words = words.iter().flat_map(|word| word.to_le_bytes());
    ([old, new].concat(), words.chain(addr.iter().copied()).collect())
}
