//! Headers of units.

use crate::{
    DW_UT_skeleton, DW_UT_split_compile, DwUt, Error, Place, Refused, Result, SectionId, Sections,
    sys,
};
use core::fmt;

/// The header of a unit.
#[derive(Clone, Copy, PartialEq, Eq)]
pub struct UnitHeader {
    pub(crate) unit: sys::Unit,
    pub(crate) types: bool,
}

impl fmt::Debug for UnitHeader {
    fn fmt(&self, f: &mut fmt::Formatter<'_>) -> fmt::Result {
        f.debug_struct("UnitHeader")
            .field("offset", &format_args!("{:#x}", self.offset()))
            .field("length", &self.length_including_self())
            .field("version", &self.version())
            .field("kind", &format_args!("{}", self.ut_name()))
            .field("address_size", &self.address_size())
            .field("offset_size", &self.offset_size())
            .finish_non_exhaustive()
    }
}

impl UnitHeader {
    /// Where the unit begins in its section.
    #[inline]
    pub fn offset(&self) -> u64 {
        self.unit.offset
    }

    /// The number of its bytes: the next unit begins after them.
    #[inline]
    pub fn length_including_self(&self) -> u64 {
        self.unit.length
    }

    /// The offset of the first entry in the unit.
    #[inline]
    pub fn header_size(&self) -> u64 {
        self.unit.header_size
    }

    /// Where its abbreviations are in `.debug_abbrev`.
    #[inline]
    pub fn debug_abbrev_offset(&self) -> u64 {
        self.unit.abbreviations
    }

    /// The version of DWARF.
    #[inline]
    pub fn version(&self) -> u16 {
        self.unit.version
    }

    /// The type of the unit, a `DW_UT` number; 2 of units of `.debug_types`.
    #[inline]
    pub fn kind(&self) -> u8 {
        self.unit.kind
    }

    /// The type of the unit, which prints as `DW_UT_compile` and the like.
    #[inline]
    pub fn ut_name(&self) -> DwUt {
        DwUt(self.unit.kind)
    }

    /// The number of bytes of an address.
    #[inline]
    pub fn address_size(&self) -> u8 {
        self.unit.address_size
    }

    /// The number of bytes of an offset.
    #[inline]
    pub fn offset_size(&self) -> u8 {
        self.unit.offset_size
    }

    /// The signature of a type unit, or the id of a skeleton or split unit; else 0.
    #[inline]
    pub fn id(&self) -> u64 {
        self.unit.id
    }

    /// The id of a skeleton or split unit.
    #[inline]
    pub fn dwo_id(&self) -> Option<u64> {
        let has_id = [DW_UT_skeleton, DW_UT_split_compile].contains(&self.ut_name());
        has_id.then_some(self.unit.id)
    }

    /// Where a type unit's type stands in the unit; else 0.
    #[inline]
    pub fn type_offset(&self) -> u64 {
        self.unit.type_offset
    }

    /// The section in which the unit lies, `.debug_info` or `.debug_types`.
    #[inline]
    pub fn section(&self) -> SectionId {
        section_of(self.types)
    }

    /// Whether the unit lies in `.debug_types`.
    #[inline]
    pub fn is_in_debug_types(&self) -> bool {
        self.types
    }

    /// A refusal of a call over the unit, with the unit: its text names where it begins.
    ///
    /// ```
    /// use gimli_proved::{Refused, Row, Sections, UnitHeader};
    ///
    /// fn sibling(sections: &Sections, unit: &UnitHeader, row: &Row) -> Result<Option<Row>, Refused> {
    ///     let sibling = sections.next_sibling(unit, row.place(), false);
    ///     sibling.map_err(|error| unit.refused(error))
    /// }
    /// ```
    pub fn refused(&self, error: Error) -> Refused {
        Refused {
            unit: Some(self.offset()),
            ..error.into()
        }
    }

    /// The place before its first row.
    #[inline]
    pub fn root(&self) -> Place {
        Place {
            offset: self.unit.header_size,
            depth: 0,
        }
    }
}

fn section_of(types: bool) -> SectionId {
    if types {
        SectionId::DebugTypes
    } else {
        SectionId::DebugInfo
    }
}

/// The units of a section, up to the first that is refused.
#[derive(Clone)]
pub struct Units<'a> {
    sections: Sections<'a>,
    types: bool,
    // of the next unit, or of the one that was refused
    offset: u64,
    is_over: bool,
}

impl<'a> Units<'a> {
    pub(crate) fn starting(sections: &Sections<'a>, types: bool, offset: u64) -> Self {
        Units {
            sections: *sections,
            types,
            offset,
            is_over: false,
        }
    }

    /// The refusal that the last item is, with where the unit begins.
    ///
    /// ```
    /// use gimli_proved::{Refused, Sections};
    ///
    /// fn print_units(sections: &Sections) -> Result<(), Refused> {
    ///     let mut units = sections.units();
    ///     while let Some(unit) = units.next() {
    ///         println!("{:?}", unit.map_err(|error| units.refused(error))?);
    ///     }
    ///     Ok(())
    /// }
    /// ```
    pub fn refused(&self, error: Error) -> Refused {
        let unit = Some(self.offset);
        Refused {
            unit,
            ..error.into()
        }
        .at(section_of(self.types), self.offset)
    }
}

impl fmt::Debug for Units<'_> {
    fn fmt(&self, f: &mut fmt::Formatter<'_>) -> fmt::Result {
        f.debug_struct("Units")
            .field("offset", &format_args!("{:#x}", self.offset))
            .finish_non_exhaustive()
    }
}

impl Iterator for Units<'_> {
    type Item = Result<UnitHeader>;

    fn next(&mut self) -> Option<Self::Item> {
        if self.is_over {
            return None;
        }
        let unit = self.sections.unit_at(self.types, self.offset).transpose();
        match &unit {
            Some(Ok(unit)) => self.offset += unit.length_including_self(),
            _ => self.is_over = true,
        }
        unit
    }
}
