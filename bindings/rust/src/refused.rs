//! Refusals with where they stand.

use crate::{Attribute, DwAt, Error, Place, SectionId, Sections, UnitHeader};
use crate::{DW_AT_GNU_ranges_base, DW_AT_addr_base, DW_AT_low_pc};
use core::fmt;

/// A refusal and where it stands, as far as that is known: the calls of [`crate::Unit`] answer it,
/// and `refused` of a header and of an iterator makes it of an [`Error`]. Its text has the unit, the
/// entry or the attribute, the reason, and then the section and the offset in it.
///
/// ```
/// use gimli_proved::Sections;
///
/// let refused = Sections::default().unit(0x40).unwrap_err();
/// let reason = "The input ends before what should stand there.";
/// assert_eq!(refused.to_string(), format!("the unit at 0x40: {reason} (.debug_info at 0x40)"));
/// ```
#[derive(Clone, Copy, Debug, PartialEq, Eq, Hash)]
pub struct Refused {
    /// Why.
    pub error: Error,
    /// The section in which reading stopped.
    pub section: Option<SectionId>,
    /// Where what was refused begins in this section: a header, a table, an entry, a list or a
    /// text.
    pub offset: Option<u64>,
    /// Where the unit begins in its section.
    pub unit: Option<u64>,
    /// Where the entry stands in the unit that was refused, or whose attribute was.
    pub entry: Option<u64>,
    /// The attribute whose value was refused, or what it refers to.
    pub attribute: Option<DwAt>,
    /// The attribute of the base that the value counts from and the unit does not have.
    pub base: Option<DwAt>,
    /// Whether the unit is one of a split file.
    pub is_dwo: bool,
    /// The id of a split unit whose skeleton unit [`Sections::split_units`] did not find. The text
    /// has it beside a base that the skeleton would give.
    pub missing_skeleton: Option<u64>,
}

impl From<Error> for Refused {
    fn from(error: Error) -> Self {
        Refused {
            error,
            section: None,
            offset: None,
            unit: None,
            entry: None,
            attribute: None,
            base: None,
            is_dwo: false,
            missing_skeleton: None,
        }
    }
}

impl From<Refused> for Error {
    fn from(refused: Refused) -> Self {
        refused.error
    }
}

impl core::error::Error for Refused {}

impl fmt::Display for Refused {
    fn fmt(&self, f: &mut fmt::Formatter<'_>) -> fmt::Result {
        self.write_subject(f)?;
        self.error.fmt(f)?;
        self.write_place(f)
    }
}

impl Refused {
    pub(crate) fn at(self, section: SectionId, offset: u64) -> Self {
        Refused {
            section: Some(section),
            offset: Some(offset),
            ..self
        }
    }

    pub(crate) fn of_attribute(self, attribute: &Attribute<'_>) -> Self {
        Refused {
            entry: Some(attribute.entry),
            attribute: Some(attribute.at_name()),
            ..self
        }
    }

    pub(crate) fn without(self, section: SectionId, base: DwAt) -> Self {
        Refused {
            section: Some(section),
            offset: None,
            base: Some(base),
            ..self
        }
    }

    // What was refused, from the attribute to the unit.
    fn write_subject(&self, f: &mut fmt::Formatter<'_>) -> fmt::Result {
        let mut of = "";
        if let Some(attribute) = self.attribute {
            write!(f, "{attribute}")?;
            of = " of ";
        }
        for (what, offset) in [("entry", self.entry), ("unit", self.unit)] {
            if let Some(offset) = offset {
                write!(f, "{of}the {what} at {offset:#x}")?;
                of = " of ";
            }
        }
        f.write_str(if of.is_empty() { "" } else { ": " })
    }

    // The section and the offset in it, and the base that is missing.
    fn write_place(&self, f: &mut fmt::Formatter<'_>) -> fmt::Result {
        let Some(section) = self.section else {
            return Ok(());
        };
        let of_dwo = section.dwo_name().filter(|_| self.is_dwo);
        write!(f, " ({}", of_dwo.unwrap_or(section.name()))?;
        if section == SectionId::DebugStrSup {
            f.write_str(" of the supplementary file")?;
        }
        if let Some(offset) = self.offset {
            write!(f, " at {offset:#x}")?;
        }
        if let Some(base) = self.base {
            write!(f, ", no {base}")?;
        }
        let skeleton = self.missing_skeleton;
        if let Some(id) = skeleton.filter(|_| self.base.is_some_and(is_of_skeleton)) {
            write!(f, ": no skeleton unit has the id {id:#x}")?;
        }
        f.write_str(")")
    }
}

// Whether a split unit has this base of its skeleton unit.
fn is_of_skeleton(base: DwAt) -> bool {
    [DW_AT_low_pc, DW_AT_addr_base, DW_AT_GNU_ranges_base].contains(&base)
}

impl Sections<'_> {
    /// The refusal of reading on at a place of a unit, where it is not of a row: of the unit, of
    /// the place, or else of the abbreviations.
    pub(crate) fn not_of_row(&self, unit: &UnitHeader, place: Place, error: Error) -> Refused {
        let refused = unit.refused(error);
        let section = unit.section();
        if matches!(error, Error::OutOfMemory | Error::TooDeep) {
            return refused;
        }
        match self.unit_at(unit.types, unit.offset()) {
            Ok(Some(_)) if error == Error::OffsetOutOfBounds => {
                refused.at(section, unit.offset().wrapping_add(place.offset))
            }
            Ok(Some(header)) => refused.at(SectionId::DebugAbbrev, header.debug_abbrev_offset()),
            _ => refused.at(section, unit.offset()),
        }
    }
}
