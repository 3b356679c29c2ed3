//! The sections of a file, and the calls over them that need no bases.

use crate::{Abbreviations, END, Entries, Error, MORE, Place, Result, Row, Rows};
use crate::{UnitHeader, Units, sys};
use core::fmt;

/// A byte order.
#[derive(Clone, Copy, Debug, Default, PartialEq, Eq, Hash)]
pub enum Endian {
    /// The lowest byte comes first.
    #[default]
    Little,
    /// The highest byte comes first.
    Big,
}

/// The sections of a file; those that no call needs may be empty. A file without `.debug_info` has
/// no units, which is no refusal.
///
/// They are those of a linked program, decompressed. The sections of a relocatable object (`.o`)
/// have to be relocated first: their offsets and addresses have no meaning before that. The crate
/// `object` does not relocate them by itself.
///
/// Those of a split file (`.dwo`) have the names of [`SectionId::dwo_name`], and its units are read
/// by [`Sections::split_units`], with the sections of the program.
#[derive(Clone, Copy, Default)]
pub struct Sections<'a> {
    /// `.debug_info`: the units.
    pub debug_info: &'a [u8],
    /// `.debug_types`: type units of version 4.
    pub debug_types: &'a [u8],
    /// `.debug_abbrev`: how the entries of units are laid out.
    pub debug_abbrev: &'a [u8],
    /// `.debug_addr`: the addresses that values and lists name by an index.
    pub debug_addr: &'a [u8],
    /// `.debug_aranges`: the addresses of each unit.
    pub debug_aranges: &'a [u8],
    /// `.debug_ranges`: the range lists of units up to version 4.
    pub debug_ranges: &'a [u8],
    /// `.debug_rnglists`: those of version 5.
    pub debug_rnglists: &'a [u8],
    /// `.debug_loc`: the location lists of units up to version 4.
    pub debug_loc: &'a [u8],
    /// `.debug_loclists`: those of version 5.
    pub debug_loclists: &'a [u8],
    /// `.debug_str`: texts.
    pub debug_str: &'a [u8],
    /// `.debug_line_str`: texts that line programs share.
    pub debug_line_str: &'a [u8],
    /// `.debug_str_offsets`: the texts that values name by an index.
    pub debug_str_offsets: &'a [u8],
    /// `.debug_str` of the supplementary file, as `dwz` makes one.
    pub debug_str_sup: &'a [u8],
    /// The byte order of all of them.
    pub endian: Endian,
}

/// The name of a section, as gimli has them.
#[derive(Clone, Copy, Debug, PartialEq, Eq, Hash)]
#[non_exhaustive]
pub enum SectionId {
    /// `.debug_info`
    DebugInfo,
    /// `.debug_types`
    DebugTypes,
    /// `.debug_abbrev`
    DebugAbbrev,
    /// `.debug_addr`
    DebugAddr,
    /// `.debug_aranges`
    DebugAranges,
    /// `.debug_ranges`
    DebugRanges,
    /// `.debug_rnglists`
    DebugRngLists,
    /// `.debug_loc`
    DebugLoc,
    /// `.debug_loclists`
    DebugLocLists,
    /// `.debug_str`
    DebugStr,
    /// `.debug_line_str`
    DebugLineStr,
    /// `.debug_str_offsets`
    DebugStrOffsets,
    /// `.debug_str` of the supplementary file
    DebugStrSup,
}

impl SectionId {
    /// All sections, but for that of the supplementary file.
    pub const ALL: [SectionId; 12] = {
        use SectionId::*;
        [
            DebugInfo,
            DebugTypes,
            DebugAbbrev,
            DebugAddr,
            DebugAranges,
            DebugRanges,
            DebugRngLists,
            DebugLoc,
            DebugLocLists,
            DebugStr,
            DebugLineStr,
            DebugStrOffsets,
        ]
    };

    /// The name of the section in its file.
    pub fn name(self) -> &'static str {
        use SectionId::*;
        match self {
            DebugInfo => ".debug_info",
            DebugTypes => ".debug_types",
            DebugAbbrev => ".debug_abbrev",
            DebugAddr => ".debug_addr",
            DebugAranges => ".debug_aranges",
            DebugRanges => ".debug_ranges",
            DebugRngLists => ".debug_rnglists",
            DebugLoc => ".debug_loc",
            DebugLocLists => ".debug_loclists",
            DebugStr | DebugStrSup => ".debug_str",
            DebugLineStr => ".debug_line_str",
            DebugStrOffsets => ".debug_str_offsets",
        }
    }

    /// The name of the section in a split file, which has no other.
    pub fn dwo_name(self) -> Option<&'static str> {
        use SectionId::*;
        match self {
            DebugInfo => Some(".debug_info.dwo"),
            DebugTypes => Some(".debug_types.dwo"),
            DebugAbbrev => Some(".debug_abbrev.dwo"),
            DebugRngLists => Some(".debug_rnglists.dwo"),
            DebugLoc => Some(".debug_loc.dwo"),
            DebugLocLists => Some(".debug_loclists.dwo"),
            DebugStr => Some(".debug_str.dwo"),
            DebugStrOffsets => Some(".debug_str_offsets.dwo"),
            DebugAddr | DebugAranges | DebugRanges | DebugLineStr | DebugStrSup => None,
        }
    }
}

// The lengths of those that are not empty.
impl fmt::Debug for Sections<'_> {
    fn fmt(&self, f: &mut fmt::Formatter<'_>) -> fmt::Result {
        let mut text = f.debug_struct("Sections");
        for id in SectionId::ALL {
            let section = self.section(id);
            if !section.is_empty() {
                text.field(&id.name()[1..], &section.len());
            }
        }
        if !self.debug_str_sup.is_empty() {
            text.field("debug_str_sup", &self.debug_str_sup.len());
        }
        text.field("endian", &self.endian).finish()
    }
}

impl<'a> Sections<'a> {
    /// The sections that a function has, which is asked for each of [`SectionId::ALL`]. That of the
    /// supplementary file is empty.
    ///
    /// ```
    /// use gimli_proved::{Endian, Sections};
    /// use std::collections::HashMap;
    ///
    /// // Of a split file the names are those of `dwo_name`.
    /// fn sections<'a>(file: &'a HashMap<&str, Vec<u8>>) -> Sections<'a> {
    ///     let bytes = |name| file.get(name).map_or(&[][..], |bytes| bytes);
    ///     Sections::load(Endian::Little, |id| bytes(id.name()))
    /// }
    /// ```
    pub fn load(endian: Endian, mut section: impl FnMut(SectionId) -> &'a [u8]) -> Self {
        Sections {
            debug_info: section(SectionId::DebugInfo),
            debug_types: section(SectionId::DebugTypes),
            debug_abbrev: section(SectionId::DebugAbbrev),
            debug_addr: section(SectionId::DebugAddr),
            debug_aranges: section(SectionId::DebugAranges),
            debug_ranges: section(SectionId::DebugRanges),
            debug_rnglists: section(SectionId::DebugRngLists),
            debug_loc: section(SectionId::DebugLoc),
            debug_loclists: section(SectionId::DebugLocLists),
            debug_str: section(SectionId::DebugStr),
            debug_line_str: section(SectionId::DebugLineStr),
            debug_str_offsets: section(SectionId::DebugStrOffsets),
            debug_str_sup: &[],
            endian,
        }
    }

    /// The bytes of a section.
    pub fn section(&self, id: SectionId) -> &'a [u8] {
        match id {
            SectionId::DebugInfo => self.debug_info,
            SectionId::DebugTypes => self.debug_types,
            SectionId::DebugAbbrev => self.debug_abbrev,
            SectionId::DebugAddr => self.debug_addr,
            SectionId::DebugAranges => self.debug_aranges,
            SectionId::DebugRanges => self.debug_ranges,
            SectionId::DebugRngLists => self.debug_rnglists,
            SectionId::DebugLoc => self.debug_loc,
            SectionId::DebugLocLists => self.debug_loclists,
            SectionId::DebugStr => self.debug_str,
            SectionId::DebugLineStr => self.debug_line_str,
            SectionId::DebugStrOffsets => self.debug_str_offsets,
            SectionId::DebugStrSup => self.debug_str_sup,
        }
    }

    pub(crate) fn raw(&self, types: bool) -> sys::Sections<'a> {
        sys::Sections::new(self, types)
    }

    /// The headers of the units of `.debug_info`, one after the other, up to the first that is
    /// refused; none where that section is empty. [`Sections::all_units`] has the units themselves,
    /// and [`Sections::type_units`] the headers of `.debug_types`.
    pub fn units(&self) -> Units<'a> {
        Units::starting(self, false, 0)
    }

    /// The headers of the units of `.debug_types`. [`Sections::all_type_units`] has the units
    /// themselves.
    pub fn type_units(&self) -> Units<'a> {
        Units::starting(self, true, 0)
    }

    /// The header of the unit at an offset of `.debug_info`, or of `.debug_types`; none at the
    /// section's end. [`Sections::unit`] has the unit itself.
    pub fn unit_at(&self, types: bool, offset: u64) -> Result<Option<UnitHeader>> {
        let mut unit = sys::Unit::default();
        match sys::unit(&self.raw(types), offset, &mut unit) {
            MORE => Ok(Some(UnitHeader { unit, types })),
            END => Ok(None),
            status => Err(Error::of_status(status)),
        }
    }

    /// The header of the unit of `.debug_info` that holds an offset, its header included, as that of
    /// a reference by `DW_FORM_ref_addr`; none where the offset lies after the last unit. A header
    /// before the offset may be refused. [`Sections::unit_holding`] has the unit itself.
    pub fn header_holding(&self, offset: u64) -> Result<Option<UnitHeader>> {
        let mut unit = sys::Unit::default();
        match sys::unit_holding(&self.raw(false), offset, &mut unit) {
            MORE => Ok(Some(UnitHeader { unit, types: false })),
            END => Ok(None),
            status => Err(Error::of_status(status)),
        }
    }

    /// The abbreviations of a unit, read once: for who reads a unit's entries one by one, or a unit
    /// more than once, by [`Rows::by`] and [`Entries::by`]. None where the codes of the declarations,
    /// up to the first that is refused, are not 1, 2, .. in this order, as where one stands twice:
    /// then the iterators read them themselves.
    ///
    /// Refusals are those that the iterators answer too: of the offset of the abbreviations, of one
    /// of the declarations, and of memory ([`Error::OutOfMemory`]).
    ///
    /// ```
    /// use gimli_proved::{Place, Result, Sections, UnitHeader};
    ///
    /// // The tags of the entries at some offsets of a unit.
    /// fn tags(sections: &Sections, unit: &UnitHeader, offsets: &[u64]) -> Result<Vec<u16>> {
    ///     let abbreviations = sections.abbreviations(unit)?;
    ///     let mut tags = Vec::new();
    ///     for &offset in offsets {
    ///         let place = Place { offset, depth: 0 };
    ///         let mut entries = sections.entries_from(unit, place, 1, 16).by(&abbreviations);
    ///         tags.extend(entries.next_entry()?.map(|entry| entry.tag()));
    ///     }
    ///     Ok(tags)
    /// }
    /// ```
    pub fn abbreviations(&self, unit: &UnitHeader) -> Result<Option<Abbreviations>> {
        Abbreviations::read(&self.raw(unit.types), unit.debug_abbrev_offset())
    }

    /// The rows of a unit.
    pub fn rows(&self, unit: &UnitHeader) -> Rows<'a> {
        self.rows_from(unit, unit.root(), 16384)
    }

    /// The rows of a unit from a place on, read so many at a time: fewer where the unit's bytes
    /// can't have so many, and 1 at least.
    pub fn rows_from(&self, unit: &UnitHeader, place: Place, room: usize) -> Rows<'a> {
        Rows::new(self, unit, place, room)
    }

    /// The entries of a unit with their attributes.
    pub fn entries(&self, unit: &UnitHeader) -> Entries<'a, 'static> {
        Entries::of_unit(self, unit)
    }

    /// The entries of a unit from a place on, read so many at a time (as in `rows_from`), with so
    /// many attributes at a time or more. Where there is no memory for so many attributes,
    /// `next_entry` is refused it.
    pub fn entries_from(
        &self,
        unit: &UnitHeader,
        place: Place,
        room: usize,
        space: usize,
    ) -> Entries<'a, 'static> {
        Entries::new(self, unit, place, room, space)
    }

    /// The next sibling of the row at a place, if there is one. With `follows` references are
    /// followed: the answer is the same where `first_false_sibling` finds none in the unit; where
    /// it finds one, it need not be a row of the unit, and stands after the place: a loop that goes
    /// on from each answer ends, whatever the bytes.
    pub fn next_sibling(
        &self,
        unit: &UnitHeader,
        place: Place,
        follows: bool,
    ) -> Result<Option<Row>> {
        let mut row = Row::default();
        match sys::sibling(
            &self.raw(unit.types),
            unit.unit.offset,
            &place,
            follows,
            &mut row,
        ) {
            MORE => Ok(Some(row)),
            END => Ok(None),
            status => Err(Error::of_status(status)),
        }
    }

    /// The offset of the first row of a unit whose sibling reference is false.
    pub fn first_false_sibling(&self, unit: &UnitHeader) -> Result<Option<u64>> {
        let mut offset = 0;
        match sys::first_false(&self.raw(unit.types), unit.unit.offset, &mut offset) {
            MORE => Ok(Some(offset)),
            END => Ok(None),
            status => Err(Error::of_status(status)),
        }
    }

    /// Where the unit of an address begins in `.debug_info`, by `.debug_aranges` alone: that of the
    /// first set with a range that holds the address. None means that no set has one, and not that
    /// no unit has the address: many compilers write no sets, as clang by default, or sets for some
    /// of the units. [`Sections::units_of_address`] asks those units too.
    pub fn unit_of_address(&self, address: u64) -> Result<Option<u64>> {
        let mut offset = 0;
        match sys::unit_of_address(&self.raw(false), address, &mut offset) {
            MORE => Ok(Some(offset)),
            END => Ok(None),
            status => Err(Error::of_status(status)),
        }
    }
}
