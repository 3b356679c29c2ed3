//! The units that hold an address.

use crate::input::{take, take_number};
use crate::{Bases, DW_AT_high_pc, DW_AT_low_pc, DW_AT_ranges, END, Endian, Error, MORE};
use crate::{Refused, SectionId, Sections, Unit, UnitHeader, push, sys};
use alloc::vec::Vec;

type Result<T> = core::result::Result<T, Refused>;

impl Sections<'_> {
    /// Where all units of `.debug_info` begin that hold an address, in order, as
    /// [`Unit::holds_address`] says of each. So a program without `.debug_aranges`, as clang makes
    /// it by default, has its units too.
    ///
    /// Each call reads the bases of each unit, and for each unit all sets. What is refused of a unit
    /// is a refusal of the call. Of units that are kept [`Unit::holds_address`] reads no bases.
    pub fn units_of_address(&self, address: u64) -> Result<Vec<u64>> {
        let (mut headers, mut found) = (self.units(), Vec::new());
        while let Some(header) = headers.next() {
            let header = header.map_err(|error| headers.refused(error))?;
            if self.header_holds(&header, address)? {
                push(&mut found, header.offset())?;
            }
        }
        Ok(found)
    }

    // Whether the unit of a header holds an address. The unit itself is read where that is refused:
    // it knows the place of its refusals.
    fn header_holds(&self, header: &UnitHeader, address: u64) -> Result<bool> {
        let bases = self.bases(header);
        match bases.and_then(|bases| self.unit_holds(header, &bases, address)) {
            Ok(holds) => Ok(holds),
            Err(Error::OutOfMemory) => Err(header.refused(Error::OutOfMemory)),
            Err(_) => self.unit_of(header)?.holds_address(address),
        }
    }

    fn unit_holds(&self, unit: &UnitHeader, bases: &Bases, address: u64) -> crate::Result<bool> {
        match sys::unit_holds(&self.raw(false), unit.offset(), &bases.into(), address) {
            MORE => Ok(true),
            END => Ok(false),
            status => Err(Error::of_status(status)),
        }
    }

    // The refusal of the first set whose header is refused.
    fn set_refused(&self) -> Option<Refused> {
        let error = self.read_sets(self.debug_aranges).err()?;
        let mut left = self.debug_aranges;
        while let Ok((set, rest)) = split_set(left, self.endian) {
            if self.read_sets(set).is_err() {
                break;
            }
            left = rest;
        }
        let offset = self.debug_aranges.len() - left.len();
        Some(Refused::from(error).at(SectionId::DebugAranges, offset as u64))
    }

    // Reads the headers of all of these sets: none holds the highest address, as the end of a range
    // has to fit an address too.
    fn read_sets(&self, debug_aranges: &[u8]) -> crate::Result<()> {
        let sets = Sections {
            debug_aranges,
            ..*self
        };
        sets.unit_of_address(u64::MAX).map(|_| ())
    }
}

// The first set, by its length alone, and what follows it.
fn split_set(section: &[u8], endian: Endian) -> crate::Result<(&[u8], &[u8])> {
    let mut rest = section;
    let length = match take_number(&mut rest, 4, endian)? {
        0xffff_ffff => take_number(&mut rest, 8, endian)?,
        length => length,
    };
    take(&mut rest, length)?;
    Ok(section.split_at(section.len() - rest.len()))
}

impl Unit<'_> {
    /// Whether the unit holds an address. Where sets of `.debug_aranges` are the unit's, they say so
    /// alone: that section need not have each unit. Any other unit holds the addresses of its root:
    /// those of the list of its `DW_AT_ranges`, or else those from `DW_AT_low_pc` up to
    /// `DW_AT_high_pc`. A unit of `.debug_types` holds none.
    ///
    /// What is malformed is a refusal where nothing before it holds the address.
    pub fn holds_address(&self, address: u64) -> Result<bool> {
        if self.header().is_in_debug_types() {
            return Ok(false);
        }
        let (sections, header) = (self.sections(), self.header());
        let holds = sections.unit_holds(header, self.bases(), address);
        holds.map_err(|error| self.holds_refused(error))
    }

    // The refusal of a set, or else of what the root says.
    #[cold]
    fn holds_refused(&self, error: Error) -> Refused {
        if error == Error::OutOfMemory {
            return self.refused(error);
        }
        let refused = self.sections().set_refused();
        let refused = refused.or_else(|| self.read_root().err());
        Refused {
            error,
            ..refused.unwrap_or_else(|| self.refused(error))
        }
    }

    // Reads the list of the root, or else its addresses.
    fn read_root(&self) -> Result<()> {
        let root = self.root()?;
        let list = root.attr(DW_AT_ranges).map(|list| self.ranges(&list));
        match list {
            Some(Err(refused)) if refused.error == Error::NoList => {}
            Some(ranges) => return ranges.map(|_| ()),
            None => {}
        }
        for name in [DW_AT_low_pc, DW_AT_high_pc] {
            match root.attr(name).map(|value| self.address(&value)) {
                Some(Err(refused)) if refused.error != Error::NoAddress => return Err(refused),
                _ => {}
            }
        }
        Ok(())
    }
}
