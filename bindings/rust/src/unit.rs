//! A unit that is read once, and the calls over it.

use crate::entries::{Entries, Entry, OwnedEntry, Rows};
use crate::{Abbreviations, Attribute, Bases, Error, Location, Place, Range, Refused, Row};
use crate::{AttributeValue, SectionId, Sections, UnitHeader, push};
use crate::{
    DW_AT_GNU_dwo_id, DW_AT_abstract_origin, DW_AT_high_pc, DW_AT_low_pc, DW_AT_ranges,
    DW_AT_specification,
};
use alloc::vec::Vec;
use core::fmt;

type Result<T> = core::result::Result<T, Refused>;

/// A unit with what its entries and their values are read by: its sections, its header, its bases
/// and its abbreviations, which are read once. [`Sections::unit`] and others give it.
///
/// Each refusal names the section and the offset in it ([`Refused`]).
pub struct Unit<'a> {
    sections: Sections<'a>,
    header: UnitHeader,
    bases: Bases,
    abbreviations: Option<Abbreviations>,
    missing_skeleton: Option<u64>,
}

/// What a unit of a split file has of its skeleton unit.
#[derive(Clone, Copy)]
pub(crate) enum Skeleton<'s> {
    Bases(&'s Bases),
    /// There is none; the id that it would have, if it was looked for.
    Missing(Option<u64>),
}

impl fmt::Debug for Unit<'_> {
    fn fmt(&self, f: &mut fmt::Formatter<'_>) -> fmt::Result {
        f.debug_struct("Unit")
            .field("header", &self.header)
            .finish_non_exhaustive()
    }
}

// How many steps `find_recursively` takes at most.
const MOST_STEPS: usize = 16;

// How many entries are read at a time from a place on.
const SOME: usize = 256;

impl<'a> Unit<'a> {
    // Reads a unit; where it is one of a split file, by its skeleton.
    pub(crate) fn read(
        sections: &Sections<'a>,
        header: &UnitHeader,
        skeleton: Option<Skeleton<'_>>,
    ) -> Result<Self> {
        let is_dwo = skeleton.is_some();
        let (skeleton, missing_skeleton) = match skeleton {
            Some(Skeleton::Bases(bases)) => (Some(bases), None),
            Some(Skeleton::Missing(id)) => (None, id),
            None => (None, None),
        };
        let mut unit = Unit {
            sections: *sections,
            header: *header,
            bases: Bases {
                is_dwo,
                ..Bases::default()
            },
            abbreviations: None,
            missing_skeleton,
        };
        unit.check_header()?;
        unit.abbreviations = unit.read_abbreviations()?;
        match sections.read_bases(header, is_dwo, skeleton) {
            Ok(bases) => unit.bases = bases,
            Err(error) => return Err(unit.bases_refused(error, skeleton.is_some())),
        }
        Ok(unit)
    }

    // The sections have to have this unit at its offset.
    fn check_header(&self) -> Result<()> {
        let error = match self
            .sections
            .unit_at(self.header.types, self.header.offset())
        {
            Ok(Some(header)) if header == self.header => return Ok(()),
            Ok(Some(_)) => Error::OtherUnit,
            Ok(None) => Error::UnexpectedEof,
            Err(error) => error,
        };
        Err(self.header_refused(self.refused(error)))
    }

    fn read_abbreviations(&self) -> Result<Option<Abbreviations>> {
        let abbreviations = self.sections.abbreviations(&self.header);
        abbreviations.map_err(|error| {
            let refused = self.refused(error);
            match error {
                Error::OutOfMemory => refused,
                _ => refused.at(SectionId::DebugAbbrev, self.header.debug_abbrev_offset()),
            }
        })
    }

    /// The header.
    #[inline]
    pub fn header(&self) -> &UnitHeader {
        &self.header
    }

    /// What its values count from.
    #[inline]
    pub fn bases(&self) -> &Bases {
        &self.bases
    }

    /// The sections by which it is read: of a split unit `.debug_addr` and `.debug_ranges` are those
    /// of the program.
    #[inline]
    pub fn sections(&self) -> &Sections<'a> {
        &self.sections
    }

    /// The abbreviations; none where their codes are not 1, 2, .. in this order: then each call
    /// reads them itself.
    #[inline]
    pub fn abbreviations(&self) -> Option<&Abbreviations> {
        self.abbreviations.as_ref()
    }

    /// The id of its skeleton unit, where that was looked for and is not there.
    pub(crate) fn missing_skeleton(&self) -> Option<u64> {
        self.missing_skeleton
    }

    /// The id by which a skeleton unit and its split unit are found: that of the header, or before
    /// version 5 `DW_AT_GNU_dwo_id`.
    pub fn dwo_id(&self) -> Result<Option<u64>> {
        if self.header.version() >= 5 {
            return Ok(self.header.dwo_id());
        }
        let root = self.root()?;
        let id = root.attr(DW_AT_GNU_dwo_id);
        Ok(id.and_then(|id| id.number()))
    }

    /// The rows.
    pub fn rows(&self) -> UnitRows<'_, 'a> {
        self.rows_by(self.sections.rows(&self.header))
    }

    /// The rows from a place on.
    pub fn rows_from(&self, place: Place) -> UnitRows<'_, 'a> {
        self.rows_by(self.sections.rows_from(&self.header, place, SOME))
    }

    fn rows_by<'u>(&'u self, rows: Rows<'u>) -> UnitRows<'u, 'a> {
        let rows = rows.by(self.abbreviations());
        UnitRows { unit: self, rows }
    }

    /// The entries with their attributes.
    pub fn entries(&self) -> UnitEntries<'_, 'a> {
        self.entries_by(self.sections.entries(&self.header))
    }

    /// The entries from a place on.
    pub fn entries_from(&self, place: Place) -> UnitEntries<'_, 'a> {
        self.entries_by(
            self.sections
                .entries_from(&self.header, place, SOME, 4 * SOME),
        )
    }

    fn entries_by<'u>(&'u self, entries: Entries<'a, 'static>) -> UnitEntries<'u, 'a> {
        let entries = entries.by(self.abbreviations());
        UnitEntries {
            unit: self,
            entries,
        }
    }

    /// The entry at an offset of the unit, as that of [`AttributeValue::UnitRef`]. A null, and the
    /// end of the unit, are refused ([`Error::NoEntryAtGivenOffset`]).
    pub fn entry_at(&self, offset: u64) -> Result<OwnedEntry<'a>> {
        let place = Place { offset, depth: 0 };
        let entries = self.sections.entries_from(&self.header, place, 1, 16);
        match entries.by(self.abbreviations()).into_entry() {
            (Ok(Some(entry)), _) if entry.tag() != 0 => Ok(entry),
            (Ok(_), _) => Err(self.no_entry_refused(offset)),
            (Err(error), entries) => Err(self.located(entries.refused(error))),
        }
    }

    fn no_entry_refused(&self, offset: u64) -> Refused {
        let refused = self.refused(Error::NoEntryAtGivenOffset);
        let entry = Some(offset);
        Refused { entry, ..refused }.at(self.header.section(), self.section_offset(offset))
    }

    /// The first entry.
    pub fn root(&self) -> Result<OwnedEntry<'a>> {
        self.entry_at(self.header.header_size())
    }

    /// The offset in its section of what stands at an offset of the unit.
    #[inline]
    pub fn section_offset(&self, offset: u64) -> u64 {
        self.header.offset().wrapping_add(offset)
    }

    /// The first attribute of a name of an entry, or else of the entries of the unit that it stands
    /// for by `DW_AT_abstract_origin` or `DW_AT_specification`, one after the other. 16 of these are
    /// read at most, and none of another unit: None also where the attribute is beyond them.
    ///
    /// The refusal of an entry names the one that refers to it, and the attribute that does.
    pub fn find_recursively(
        &self,
        entry: &Entry<'a, '_>,
        name: impl Into<u16>,
    ) -> Result<Option<Attribute<'a>>> {
        let name = name.into();
        let (mut found, mut next) = (entry.attr(name), self.origin(entry));
        for _ in 0..MOST_STEPS {
            let (None, Some((reference, offset))) = (found, next) else {
                break;
            };
            let entry = self.entry_at(offset);
            let entry = entry.map_err(|refused| refused.of_attribute(&reference))?;
            (found, next) = (entry.attr(name), self.origin(&entry.entry()));
        }
        Ok(found)
    }

    // The attribute by which an entry stands for another one of the unit, and the offset of that.
    fn origin(&self, entry: &Entry<'a, '_>) -> Option<(Attribute<'a>, u64)> {
        let origin = entry.attr(DW_AT_abstract_origin);
        let origin = origin.or(entry.attr(DW_AT_specification))?;
        match origin.raw_value() {
            AttributeValue::UnitRef(offset) => Some((origin, offset)),
            AttributeValue::DebugInfoRef(offset) => Some((origin, self.own_offset(offset)?)),
            _ => None,
        }
    }

    // The offset in the unit of what stands at an offset of `.debug_info`, if it is the unit's.
    fn own_offset(&self, offset: u64) -> Option<u64> {
        let offset = offset.checked_sub(self.header.offset())?;
        let is_own = offset < self.header.length_including_self();
        (is_own && !self.header.is_in_debug_types()).then_some(offset)
    }

    /// The bytes of the text that an attribute is, without the zero that ends them.
    pub fn text(&self, attribute: &Attribute<'a>) -> Result<&'a [u8]> {
        let text = self.sections.text(&self.header, attribute, &self.bases);
        text.map_err(|error| self.text_refused(attribute, error))
    }

    /// The address that an attribute is.
    pub fn address(&self, attribute: &Attribute<'_>) -> Result<u64> {
        let address = self.sections.address(&self.header, attribute, &self.bases);
        address.map_err(|error| self.address_refused(attribute, error))
    }

    /// The ranges of the list that an attribute names. Left out are ranges that do not begin below
    /// their end, and those that stand for none. So a list whose ranges are all empty answers as an
    /// empty list does.
    ///
    /// A refusal is all that is answered; [`Sections::attr_ranges`] has the ranges before it too.
    pub fn ranges(&self, attribute: &Attribute<'_>) -> Result<Vec<Range>> {
        let found = self
            .sections
            .found_ranges(&self.header, attribute, &self.bases);
        self.whole_list(attribute, found, false)
    }

    /// The locations of the list that an attribute names. Left out are those whose ranges `ranges`
    /// leaves out. So a list whose ranges are all empty answers as an empty list does.
    pub fn locations(&self, attribute: &Attribute<'_>) -> Result<Vec<Location>> {
        let found = self
            .sections
            .found_locations(&self.header, attribute, &self.bases);
        self.whole_list(attribute, found, true)
    }

    /// The bytes of a location's expression.
    #[inline]
    pub fn expression(&self, location: &Location) -> &'a [u8] {
        self.sections.expression(&self.header, location)
    }

    /// The ranges of an entry. Where it has a list by `DW_AT_ranges`, they are those of the list, and
    /// other attributes are not read. Else the one range is that from `DW_AT_low_pc` up to
    /// `DW_AT_high_pc`, also where it is empty; it is empty at `DW_AT_low_pc` alone. An entry
    /// without `DW_AT_low_pc` has no ranges: the answer is empty.
    ///
    /// The one range is left out where it ends below its beginning, or beyond the addresses of the
    /// unit's size, as that of a discarded function to which the linker gave the highest address.
    pub fn die_ranges(&self, entry: &Entry<'a, '_>) -> Result<Vec<Range>> {
        let listed = entry.attr(DW_AT_ranges).map(|list| self.ranges(&list));
        match listed {
            Some(Err(refused)) if refused.error == Error::NoList => {}
            Some(ranges) => return ranges,
            None => {}
        }
        let mut ranges = Vec::new();
        if let Some(range) = self.pc_range(entry)? {
            push(&mut ranges, range).map_err(|error| self.refused(error))?;
        }
        Ok(ranges)
    }

    // The range from `DW_AT_low_pc` on, if it has an end.
    fn pc_range(&self, entry: &Entry<'a, '_>) -> Result<Option<Range>> {
        let Some(low) = entry.attr(DW_AT_low_pc) else {
            return Ok(None);
        };
        let begin = self.address(&low)?;
        let high = entry.attr(DW_AT_high_pc);
        let end = high.map_or(Ok(Some(begin)), |high| self.end_at(&high, begin))?;
        let end = end.filter(|end| begin <= *end);
        Ok(end.map(|end| Range { begin, end }))
    }

    // The end of a range from its beginning on: an address, or the number of its bytes. None where
    // these are more than there are addresses.
    fn end_at(&self, high: &Attribute<'_>, begin: u64) -> Result<Option<u64>> {
        let Some(size) = high.udata_value() else {
            return self.address(high).map(Some);
        };
        let bits = 8 * u32::from(self.header.address_size().clamp(1, 8));
        let last = u64::MAX >> (64 - bits);
        let end = begin.checked_add(size);
        Ok(end.filter(|end| end.saturating_sub(1) <= last))
    }
}

/// The rows of a unit, up to the first that is refused, which is the last item.
pub struct UnitRows<'u, 'a> {
    unit: &'u Unit<'a>,
    rows: Rows<'u>,
}

impl UnitRows<'_, '_> {
    /// The place of the next item: [`Unit::rows_from`] goes on with it there.
    #[inline]
    pub fn place(&self) -> Place {
        self.rows.place()
    }
}

impl Iterator for UnitRows<'_, '_> {
    type Item = Result<Row>;

    #[inline]
    fn next(&mut self) -> Option<Self::Item> {
        let row = self.rows.next()?;
        Some(row.map_err(|error| self.unit.located(self.rows.refused(error))))
    }
}

impl core::iter::FusedIterator for UnitRows<'_, '_> {}

impl fmt::Debug for UnitRows<'_, '_> {
    fn fmt(&self, f: &mut fmt::Formatter<'_>) -> fmt::Result {
        self.rows.fmt(f)
    }
}

/// The entries of a unit with their attributes, up to the first that is refused.
pub struct UnitEntries<'u, 'a> {
    unit: &'u Unit<'a>,
    entries: Entries<'a, 'u>,
}

impl<'a> UnitEntries<'_, 'a> {
    /// The place of the next entry: [`Unit::entries_from`] goes on with it there.
    #[inline]
    pub fn place(&self) -> Place {
        self.entries.place()
    }

    /// The next entry, a null too; none at the end, and after a refusal.
    #[inline]
    pub fn next_entry(&mut self) -> Result<Option<Entry<'a, '_>>> {
        match self.entries.is_ready() {
            Ok(true) => Ok(Some(self.entries.take_entry())),
            Ok(false) => Ok(None),
            Err(error) => Err(self.unit.located(self.entries.refused(error))),
        }
    }
}

impl fmt::Debug for UnitEntries<'_, '_> {
    fn fmt(&self, f: &mut fmt::Formatter<'_>) -> fmt::Result {
        self.entries.fmt(f)
    }
}
