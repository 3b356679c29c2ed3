//! The units of sections, each read once.

use crate::{DW_AT_GNU_dwo_id, DW_UT_skeleton, Error, Refused, SectionId, Sections, Unit};
use crate::{UnitHeader, Units, unit::Skeleton};
use core::fmt;

type Result<T> = core::result::Result<T, Refused>;

impl<'a> Sections<'a> {
    /// The unit at an offset of `.debug_info`, with its bases and its abbreviations.
    /// [`Sections::type_unit`] reads one of `.debug_types`.
    pub fn unit(&self, offset: u64) -> Result<Unit<'a>> {
        self.unit_in(false, offset)
    }

    /// The unit at an offset of `.debug_types`.
    pub fn type_unit(&self, offset: u64) -> Result<Unit<'a>> {
        self.unit_in(true, offset)
    }

    fn unit_in(&self, types: bool, offset: u64) -> Result<Unit<'a>> {
        let refused = |error| Units::starting(self, types, offset).refused(error);
        let header = self.unit_at(types, offset).map_err(refused)?;
        self.unit_of(&header.ok_or_else(|| refused(Error::UnexpectedEof))?)
    }

    /// The unit of a header. That of other sections is refused ([`Error::OtherUnit`]), where these
    /// have another at its offset.
    pub fn unit_of(&self, header: &UnitHeader) -> Result<Unit<'a>> {
        Unit::read(self, header, None)
    }

    /// The unit of `.debug_info` that holds an offset, as that of a reference by `DW_FORM_ref_addr`
    /// ([`AttributeValue::DebugInfoRef`](crate::AttributeValue::DebugInfoRef)). An offset after the
    /// last unit is refused ([`Error::OffsetOutOfBounds`]), and so is a header before it.
    ///
    /// ```
    /// use gimli_proved::{AttributeValue, OwnedEntry, Refused, Attribute, Unit};
    ///
    /// // The entry that an attribute refers to, and its unit if it is another one.
    /// fn entry<'a>(
    ///     unit: &Unit<'a>,
    ///     attribute: &Attribute<'a>,
    /// ) -> Result<Option<(Option<Unit<'a>>, OwnedEntry<'a>)>, Refused> {
    ///     Ok(match attribute.raw_value() {
    ///         AttributeValue::UnitRef(offset) => Some((None, unit.entry_at(offset)?)),
    ///         AttributeValue::DebugInfoRef(offset) => {
    ///             let other = unit.sections().unit_holding(offset)?;
    ///             let entry = other.entry_at(offset - other.header().offset())?;
    ///             Some((Some(other), entry))
    ///         }
    ///         _ => None,
    ///     })
    /// }
    /// ```
    pub fn unit_holding(&self, offset: u64) -> Result<Unit<'a>> {
        let header = self.header_holding(offset);
        match header.map_err(|error| self.first_refused_header(error))? {
            Some(header) => self.unit_of(&header),
            None => {
                let refused = Refused::from(Error::OffsetOutOfBounds);
                Err(refused.at(SectionId::DebugInfo, offset))
            }
        }
    }

    // The refusal of the first header that is refused.
    #[cold]
    fn first_refused_header(&self, error: Error) -> Refused {
        let mut headers = self.units();
        match headers.find_map(|header| header.err()) {
            Some(error) => headers.refused(error),
            None => error.into(),
        }
    }

    /// All units of `.debug_info`, one after the other; none where that section is empty. Units of
    /// `.debug_types` are those of [`Sections::all_type_units`], and units of a split file those of
    /// [`Sections::split_units`].
    pub fn all_units(&self) -> AllUnits<'a> {
        AllUnits::new(self, false, None)
    }

    /// All units of `.debug_types`, one after the other.
    pub fn all_type_units(&self) -> AllUnits<'a> {
        AllUnits::new(self, true, None)
    }

    /// The unit of a header of a split file, whose sections these are, with its skeleton unit in
    /// the program, if that is at hand: then `low_pc`, the table of addresses and what range lists
    /// count from are the skeleton's, and `.debug_addr` and `.debug_ranges` are the program's.
    pub fn split_unit(&self, header: &UnitHeader, skeleton: Option<&Unit<'a>>) -> Result<Unit<'a>> {
        match skeleton {
            None => Unit::read(self, header, Some(Skeleton::Missing(None))),
            Some(skeleton) => {
                let sections = self.of_program(skeleton.sections());
                let skeleton = Skeleton::Bases(skeleton.bases());
                Unit::read(&sections, header, Some(skeleton))
            }
        }
    }

    /// All units of `.debug_info` of a split file, whose sections these are, each with the skeleton
    /// unit of the program that has its id, if one has. A header that is refused in the program is
    /// a refusal here too.
    ///
    /// Of the program `.debug_info` and `.debug_abbrev` are read, for the skeleton units, and with
    /// the split units `.debug_addr` and, before version 5, `.debug_ranges`. Without a skeleton the
    /// refusal of a base that it would give names the id ([`Refused::missing_skeleton`]).
    ///
    /// A split file of version 4 does not say that it is one: what reads it as a program
    /// ([`Sections::all_units`] and [`Sections::unit`]) gives wrong lists.
    ///
    /// ```
    /// use gimli_proved::{Refused, Sections};
    ///
    /// fn print_units(dwo: &Sections, program: &Sections) -> Result<(), Refused> {
    ///     for unit in dwo.split_units(program) {
    ///         println!("{:?}", unit?.bases());
    ///     }
    ///     Ok(())
    /// }
    /// ```
    pub fn split_units(&self, program: &Sections<'a>) -> AllUnits<'a> {
        AllUnits::new(self, false, Some(*program))
    }

    /// The skeleton unit of `.debug_info` that has an id; before version 5 the unit whose
    /// `DW_AT_GNU_dwo_id` it is.
    pub fn skeleton(&self, dwo_id: u64) -> Result<Option<Unit<'a>>> {
        let mut headers = self.units();
        while let Some(header) = headers.next() {
            let header = header.map_err(|error| headers.refused(error))?;
            let may_be = header.version() < 5 || header.ut_name() == DW_UT_skeleton;
            if may_be && self.dwo_id(&header)? == Some(dwo_id) {
                return self.unit_of(&header).map(Some);
            }
        }
        Ok(None)
    }

    // The id of a skeleton or split unit.
    fn dwo_id(&self, header: &UnitHeader) -> Result<Option<u64>> {
        if header.version() >= 5 {
            return Ok(header.dwo_id());
        }
        let mut entries = self.entries_from(header, header.root(), 1, 16);
        match entries.next_entry() {
            Ok(root) => Ok(root.and_then(|root| root.attr(DW_AT_GNU_dwo_id)?.number())),
            Err(error) => Err(entries.refused(error)),
        }
    }

    // These of a split file, with those of its program.
    fn of_program(&self, program: &Sections<'a>) -> Sections<'a> {
        Sections {
            debug_addr: program.debug_addr,
            debug_ranges: program.debug_ranges,
            debug_str_sup: program.debug_str_sup,
            ..*self
        }
    }
}

/// All units of a section. The refusal of a header is the last item; after that of a unit's
/// abbreviations or root the next unit comes.
#[derive(Clone)]
pub struct AllUnits<'a> {
    sections: Sections<'a>,
    headers: Units<'a>,
    // of a split file
    program: Option<Sections<'a>>,
}

impl<'a> AllUnits<'a> {
    fn new(sections: &Sections<'a>, types: bool, program: Option<Sections<'a>>) -> Self {
        AllUnits {
            sections: program.map_or(*sections, |program| sections.of_program(&program)),
            headers: Units::starting(sections, types, 0),
            program,
        }
    }

    // The unit of the next header, with its skeleton if it has one.
    fn next_unit(&mut self, header: crate::Result<UnitHeader>) -> Result<Unit<'a>> {
        let is_dwo = self.program.is_some();
        let of_file = |refused| Refused { is_dwo, ..refused };
        let header = header.map_err(|error| of_file(self.headers.refused(error)))?;
        let Some(program) = &self.program else {
            return self.sections.unit_of(&header);
        };
        let id = self.sections.dwo_id(&header).map_err(of_file)?;
        match id.map_or(Ok(None), |id| program.skeleton(id))? {
            Some(skeleton) => self.sections.split_unit(&header, Some(&skeleton)),
            None => Unit::read(&self.sections, &header, Some(Skeleton::Missing(id))),
        }
    }
}

impl<'a> Iterator for AllUnits<'a> {
    type Item = Result<Unit<'a>>;

    fn next(&mut self) -> Option<Self::Item> {
        let header = self.headers.next()?;
        Some(self.next_unit(header))
    }
}

impl core::iter::FusedIterator for AllUnits<'_> {}

impl fmt::Debug for AllUnits<'_> {
    fn fmt(&self, f: &mut fmt::Formatter<'_>) -> fmt::Result {
        self.headers.fmt(f)
    }
}
