// The entries of units, and their attributes, by the peer.
use crate::peer::mixed;
use crate::values::{number_of, over_units, refused};
use gimli::*;

// What is done with each entry, as in the crate gimli_marks.
#[derive(Clone, Copy)]
pub enum Work {
    Entry,
    Attributes,
    Pass,
    // It is read as a whole, and nothing is made of it: the peer has no check of references.
    Alone,
}

// An entry that is used again: the peer has none of its own.
struct Entry<R: Reader> {
    tag: DwTag,
    has_children: bool,
    attributes: Vec<Attribute<R>>,
    offset: UnitOffset<R::Offset>,
    depth: isize,
}

impl<R: Reader> Entry<R> {
    fn null() -> Self {
        Entry {
            tag: DwTag(0),
            has_children: false,
            attributes: vec![],
            offset: UnitOffset(R::Offset::from_u8(0)),
            depth: 0,
        }
    }
}

#[inline(never)]
fn with_values<R: Reader>(sum: u64, attributes: &[Attribute<R>]) -> u64 {
    let mut all = sum;
    for attribute in attributes {
        let number = number_of(&attribute.raw_value());
        all = mixed(mixed(all, u64::from(attribute.name().0)), number);
    }
    all
}

fn with_entry<R: Reader>(sum: u64, entry: &Entry<R>) -> u64 {
    let offset = entry.offset.0.into_u64();
    let depth = entry.depth.unsigned_abs() as u64;
    let place = mixed(mixed(sum, offset), depth);
    let tag = u64::from(entry.tag.0);
    mixed(mixed(place, tag), entry.attributes.len() as u64)
}

// As a user of the peer writes it.
fn read_attributes<R: Reader>(
    entries: &mut EntriesRaw<'_, '_, R>,
    specifications: &[AttributeSpecification],
    attributes: &mut Vec<Attribute<R>>,
) -> Result<()> {
    attributes.clear();
    for specification in specifications {
        attributes.push(entries.read_attribute(*specification)?);
    }
    Ok(())
}

fn read_entry<R: Reader>(
    entries: &mut EntriesRaw<'_, '_, R>,
    entry: &mut Entry<R>,
) -> Result<bool> {
    entry.tag = DwTag(0);
    entry.has_children = false;
    entry.attributes.clear();
    entry.depth = entries.next_depth();
    entry.offset = entries.next_offset();
    let Some(declared) = entries.read_abbreviation()? else {
        return Ok(false);
    };
    read_attributes(entries, declared.attributes(), &mut entry.attributes)?;
    entry.tag = declared.tag();
    entry.has_children = declared.has_children();
    Ok(true)
}

#[inline(always)]
fn next_entry<R: Reader>(
    sum: u64,
    entries: &mut EntriesRaw<'_, '_, R>,
    entry: &mut Entry<R>,
) -> Result<u64> {
    read_entry(entries, entry)?;
    Ok(with_entry(sum, entry))
}

#[inline(never)]
fn with_entries<R: Reader>(sum: u64, mut entries: EntriesRaw<'_, '_, R>) -> u64 {
    let mut entry = Entry::null();
    let mut all = match next_entry(sum, &mut entries, &mut entry) {
        Ok(first) => first,
        Err(error) => return refused(sum, error),
    };
    while !entries.is_empty() {
        match next_entry(all, &mut entries, &mut entry) {
            Ok(next) => all = next,
            Err(error) => return refused(all, error),
        }
    }
    all
}

// The sum of a unit without a false reference.
#[inline(never)]
fn alone<R: Reader>(sum: u64, mut entries: EntriesRaw<'_, '_, R>) -> u64 {
    let mut entry = Entry::null();
    while !entries.is_empty() {
        if let Err(error) = read_entry(&mut entries, &mut entry) {
            return refused(sum, error);
        }
        std::hint::black_box(&entry);
    }
    mixed(sum, 0)
}

#[inline(always)]
fn next_attributes<R: Reader>(
    sum: u64,
    entries: &mut EntriesRaw<'_, '_, R>,
    attributes: &mut Vec<Attribute<R>>,
) -> Result<u64> {
    match entries.read_abbreviation()? {
        Some(declared) => {
            read_attributes(entries, declared.attributes(), attributes)?;
            Ok(with_values(sum, attributes))
        }
        None => Ok(mixed(sum, 0)),
    }
}

#[inline(never)]
fn with_attributes<R: Reader>(sum: u64, mut entries: EntriesRaw<'_, '_, R>) -> u64 {
    let mut attributes = vec![];
    let mut all = match next_attributes(sum, &mut entries, &mut attributes) {
        Ok(first) => first,
        Err(error) => return refused(sum, error),
    };
    while !entries.is_empty() {
        match next_attributes(all, &mut entries, &mut attributes) {
            Ok(next) => all = next,
            Err(error) => return refused(all, error),
        }
    }
    all
}

#[inline(always)]
fn next_passed<R: Reader>(sum: u64, entries: &mut EntriesRaw<'_, '_, R>) -> Result<u64> {
    if let Some(declared) = entries.read_abbreviation()? {
        entries.skip_attributes(declared.attributes())?;
    }
    Ok(mixed(sum, entries.next_offset().0.into_u64()))
}

#[inline(never)]
fn with_passed<R: Reader>(sum: u64, mut entries: EntriesRaw<'_, '_, R>) -> u64 {
    let mut all = match next_passed(sum, &mut entries) {
        Ok(first) => first,
        Err(error) => return refused(sum, error),
    };
    while !entries.is_empty() {
        match next_passed(all, &mut entries) {
            Ok(next) => all = next,
            Err(error) => return refused(all, error),
        }
    }
    all
}

fn with_unit<R: Reader>(
    work: Work,
    sum: u64,
    unit: &UnitHeader<R>,
    debug_abbrev: &DebugAbbrev<R>,
) -> u64 {
    let table = match unit.abbreviations(debug_abbrev) {
        Ok(table) => table,
        Err(error) => return refused(sum, error),
    };
    let Ok(entries) = unit.entries_raw(&table, None) else {
        return sum;
    };
    // the library refuses to read a unit without a byte of entries
    if entries.is_empty() && !matches!(work, Work::Alone) {
        return sum;
    }
    match work {
        Work::Entry => with_entries(sum, entries),
        Work::Attributes => with_attributes(sum, entries),
        Work::Pass => with_passed(sum, entries),
        Work::Alone => alone(sum, entries),
    }
}

#[inline(never)]
pub fn checksum<R: Reader>(work: Work, info: R, abbrev: R) -> u64 {
    over_units(info, abbrev, |sum, unit, debug_abbrev| {
        with_unit(work, sum, unit, debug_abbrev)
    })
}
