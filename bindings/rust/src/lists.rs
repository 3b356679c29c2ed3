//! Lists of ranges and of locations.

use crate::{Attribute, Bases, END, Error, MORE, ROW_REFUSED, Result, Sections, UnitHeader};
use crate::{reserve, sys};
use alloc::vec::Vec;

/// A range of addresses.
#[repr(C)]
#[derive(Clone, Copy, Debug, Default, PartialEq, Eq)]
pub struct Range {
    /// The first address.
    pub begin: u64,
    /// The address after the last.
    pub end: u64,
}

/// A range of addresses, and where the expression that holds there lies in the section of the list.
#[repr(C)]
#[derive(Clone, Copy, Debug, Default, PartialEq, Eq)]
pub struct Location {
    /// The first address.
    pub begin: u64,
    /// The address after the last.
    pub end: u64,
    /// Where the expression lies.
    pub place: u64,
    /// The number of its bytes.
    pub length: u64,
}

impl<'a> Sections<'a> {
    /// The ranges of the list that an attribute of a unit's entry names: all of them, or the
    /// refusal that stands after those before it. `attr_ranges` has those too.
    ///
    /// Left out are ranges that do not begin below their end, and those whose beginning or base is
    /// one of the two highest addresses of the unit's size, which stand for none. So a list whose
    /// ranges are all empty answers as an empty list does.
    pub fn ranges(
        &self,
        unit: &UnitHeader,
        attribute: &Attribute<'_>,
        bases: &Bases,
    ) -> Result<Vec<Range>> {
        self.found_ranges(unit, attribute, bases)?.whole()
    }

    /// The same one by one, and then the refusal if there is one; none where the value names no
    /// list. A list whose ranges are all empty is there, and has no item. Refused memory comes at
    /// once, and so do a base that is missing and refusals of the size of addresses, of the list's
    /// index or of its offset.
    pub fn attr_ranges(
        &self,
        unit: &UnitHeader,
        attribute: &Attribute<'_>,
        bases: &Bases,
    ) -> Result<Option<impl Iterator<Item = Result<Range>> + use<>>> {
        one_by_one(self.found_ranges(unit, attribute, bases))
    }

    /// The locations of the list that an attribute of a unit's entry names: all of them, or the
    /// refusal that stands after those before it. `attr_locations` has those too.
    ///
    /// Left out are those whose ranges `ranges` leaves out. So a list whose ranges are all empty
    /// answers as an empty list does.
    pub fn locations(
        &self,
        unit: &UnitHeader,
        attribute: &Attribute<'_>,
        bases: &Bases,
    ) -> Result<Vec<Location>> {
        self.found_locations(unit, attribute, bases)?.whole()
    }

    /// The same one by one, as `attr_ranges` has ranges.
    pub fn attr_locations(
        &self,
        unit: &UnitHeader,
        attribute: &Attribute<'_>,
        bases: &Bases,
    ) -> Result<Option<impl Iterator<Item = Result<Location>> + use<>>> {
        one_by_one(self.found_locations(unit, attribute, bases))
    }

    pub(crate) fn found_ranges(
        &self,
        unit: &UnitHeader,
        attribute: &Attribute<'_>,
        bases: &Bases,
    ) -> Result<Found<Range>> {
        let raw = self.raw(unit.types);
        let bases = bases.into();
        found(|into, count| sys::ranges(&raw, &unit.unit, &attribute.attr, &bases, into, count))
    }

    pub(crate) fn found_locations(
        &self,
        unit: &UnitHeader,
        attribute: &Attribute<'_>,
        bases: &Bases,
    ) -> Result<Found<Location>> {
        let raw = self.raw(unit.types);
        let bases = bases.into();
        found(|into, count| sys::locations(&raw, &unit.unit, &attribute.attr, &bases, into, count))
    }

    /// The bytes of a location's expression.
    #[inline]
    pub fn expression(&self, unit: &UnitHeader, location: &Location) -> &'a [u8] {
        let section = if unit.unit.version >= 5 {
            self.debug_loclists
        } else {
            self.debug_loc
        };
        let start = location.place as usize;
        section
            .get(start..start.saturating_add(location.length as usize))
            .unwrap_or_default()
    }
}

// The items of a list, and the refusal of what stands after them.
pub(crate) struct Found<T> {
    pub(crate) items: Vec<T>,
    pub(crate) refusal: Option<Error>,
}

impl<T> Found<T> {
    fn whole(self) -> Result<Vec<T>> {
        self.refusal.map_or(Ok(self.items), Err)
    }
}

// All that a call finds, with as much room as it says that it wants.
fn found<T: Clone + Default>(
    mut call: impl FnMut(&mut [T], &mut usize) -> u32,
) -> Result<Found<T>> {
    let mut items = Vec::new();
    let mut count = 16;
    loop {
        let more = count - items.len();
        reserve(&mut items, more)?;
        items.resize(count, T::default());
        let refusal = match call(&mut items, &mut count) {
            MORE => continue,
            END => None,
            status if status < ROW_REFUSED => return Err(Error::of_status(status)),
            status => Some(Error::of_status(status)),
        };
        items.truncate(count);
        return Ok(Found { items, refusal });
    }
}

// Each item and then the refusal; none where the value names no list.
fn one_by_one<T>(found: Result<Found<T>>) -> Result<Option<impl Iterator<Item = Result<T>>>> {
    match found {
        Ok(Found { items, refusal }) => {
            let items = items.into_iter().map(Ok);
            Ok(Some(items.chain(refusal.map(Err))))
        }
        Err(Error::NoList) => Ok(None),
        Err(error) => Err(error),
    }
}
