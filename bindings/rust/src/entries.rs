//! Rows, and entries with their attributes.

use crate::{Abbreviations, Attribute, DwTag, Place, Refused, Row, Sections, UnitHeader};
use crate::{END, Error, MORE, ROW_REFUSED, Result, reserve, sys};
use alloc::vec::Vec;
use core::fmt;

// The rows that a unit can still have from a place on, as each takes a byte; no more than `room`,
// and 1 at least.
fn room_for(unit: &UnitHeader, place: Place, room: usize) -> usize {
    let left = unit.length_including_self().saturating_sub(place.offset);
    room.min(usize::try_from(left).unwrap_or(usize::MAX)).max(1)
}

// Where a call gives so many rows, it costs little to read the table of abbreviations in each.
const MANY: usize = 4096;

// Where an iterator over a unit stands.
struct Reading<'a, 'abbrev> {
    sections: Sections<'a>,
    unit: UnitHeader,
    // after the rows of the buffer
    place: Place,
    // how many rows a call may give
    room: usize,
    // the index of the next row in the buffer
    at: usize,
    // of the last call
    status: u32,
    row_refused: bool,
    // handed over
    by: Option<&'abbrev Abbreviations>,
    // else from the second call on, which would read that of the unit again
    table: Option<Abbreviations>,
    // how many calls there were: 0, 1 or more
    calls: u8,
}

impl<'a> Reading<'a, '_> {
    fn new(sections: &Sections<'a>, unit: &UnitHeader, place: Place, room: usize) -> Self {
        Reading {
            sections: *sections,
            unit: *unit,
            place,
            room: room_for(unit, place, room),
            at: 0,
            status: MORE,
            row_refused: false,
            by: None,
            table: None,
            calls: 0,
        }
    }

    // Whether there is something to read after the buffer. A refusal is answered once, and is the end.
    fn goes_on(&mut self) -> Result<bool> {
        match self.status {
            MORE => Ok(true),
            END => Ok(false),
            status => {
                self.row_refused = status >= ROW_REFUSED;
                self.status = END;
                Err(Error::of_status(status))
            }
        }
    }

    // Empties the buffer and sees to its room; where memory for it is refused, that is the end.
    fn start<T>(&mut self, rows: &mut Vec<T>) -> Result<()> {
        self.at = 0;
        self.status = END;
        self.row_refused = false;
        let given = rows.len();
        rows.clear();
        reserve(rows, self.room)?;
        if self.calls == 1 && given < MANY && self.by.is_none() {
            // (the unit may be one of other sections; what is refused here the next call refuses)
            let unit = self.sections.unit_at(self.unit.types, self.unit.offset());
            if let Ok(Some(unit)) = unit {
                self.table = self.sections.abbreviations(&unit).unwrap_or(None);
            }
        }
        self.calls = 2.min(self.calls + 1);
        Ok(())
    }

    // Where the last refusal stands, that of the row at the place if it is one of a row.
    #[cold]
    fn refused(&self, error: Error, place: Place) -> Refused {
        if !self.row_refused {
            return self.sections.not_of_row(&self.unit, place, error);
        }
        let entry = Some(place.offset);
        let refused = Refused {
            entry,
            ..self.unit.refused(error)
        };
        refused.at(
            self.unit.section(),
            self.unit.offset().wrapping_add(place.offset),
        )
    }

    fn debug(&self, name: &str, place: Place, f: &mut fmt::Formatter<'_>) -> fmt::Result {
        f.debug_struct(name)
            .field("unit", &self.unit.offset())
            .field("place", &place)
            .field("room", &self.room)
            .finish_non_exhaustive()
    }
}

/// The rows of a unit, up to the first that is refused.
///
/// A refusal is the last item. After one of memory ([`Error::OutOfMemory`]) `rows_from` goes on at
/// the place, where there is memory then.
pub struct Rows<'a> {
    reading: Reading<'a, 'a>,
    rows: Vec<Row>,
}

impl<'a> Rows<'a> {
    pub(crate) fn new(
        sections: &Sections<'a>,
        unit: &UnitHeader,
        place: Place,
        room: usize,
    ) -> Self {
        Rows {
            reading: Reading::new(sections, unit, place, room),
            rows: Vec::new(),
        }
    }

    /// The same by abbreviations that are read already ([`Sections::abbreviations`]), so that no
    /// call reads them again; where there are none, calls read those of the unit.
    ///
    /// They may be those of another unit: the rows are those that their declarations give, and an
    /// entry whose code they do not declare is refused ([`Error::InvalidAbbreviationCode`]).
    #[must_use]
    pub fn by(mut self, abbreviations: impl Into<Option<&'a Abbreviations>>) -> Self {
        self.reading.by = abbreviations.into();
        self
    }

    /// The place of the next item: `rows_from` goes on with it there. At the end it is the place
    /// after the last row; after a refusal that of what was refused, or where it was not of a row
    /// (`is_row_refused`), the one at which reading was to go on.
    #[inline]
    pub fn place(&self) -> Place {
        self.rows
            .get(self.reading.at)
            .map_or(self.reading.place, Row::place)
    }

    /// Whether the last item is the refusal of a row, that at the place. Other refusals are of the
    /// unit, of its abbreviations, of the place, or of memory for the buffer.
    #[inline]
    pub fn is_row_refused(&self) -> bool {
        self.reading.row_refused
    }

    /// The refusal that the last item is, with the unit, and with the row if it is of one.
    ///
    /// ```
    /// use gimli_proved::{Refused, Sections, UnitHeader};
    ///
    /// fn print_tags(sections: &Sections, unit: &UnitHeader) -> Result<(), Refused> {
    ///     let mut rows = sections.rows(unit);
    ///     while let Some(row) = rows.next() {
    ///         println!("{}", row.map_err(|error| rows.refused(error))?.tag_name());
    ///     }
    ///     Ok(())
    /// }
    /// ```
    pub fn refused(&self, error: Error) -> Refused {
        self.reading.refused(error, self.place())
    }

    // Reads on where the buffer has no more rows; false at the end.
    fn fill(&mut self) -> Result<bool> {
        while self.reading.at == self.rows.len() {
            if !self.reading.goes_on()? {
                return Ok(false);
            }
            self.reading.start(&mut self.rows)?;
            let reading = &mut self.reading;
            reading.status = sys::rows(
                &reading.sections.raw(reading.unit.types),
                reading.unit.offset(),
                reading.by.or(reading.table.as_ref()),
                &mut reading.place,
                &mut self.rows,
            );
        }
        Ok(true)
    }
}

impl fmt::Debug for Rows<'_> {
    fn fmt(&self, f: &mut fmt::Formatter<'_>) -> fmt::Result {
        self.reading.debug("Rows", self.place(), f)
    }
}

impl Iterator for Rows<'_> {
    type Item = Result<Row>;

    #[inline]
    fn next(&mut self) -> Option<Self::Item> {
        if self.reading.at == self.rows.len() {
            match self.fill() {
                Ok(true) => {}
                Ok(false) => return None,
                Err(error) => return Some(Err(error)),
            }
        }
        let row = self.rows[self.reading.at];
        self.reading.at += 1;
        Some(Ok(row))
    }
}

impl core::iter::FusedIterator for Rows<'_> {}

/// The entries of a unit with their attributes, up to the first that is refused.
///
/// After a refusal comes the end. After one of memory ([`Error::OutOfMemory`]) `entries_from` goes
/// on at the place, where there is memory then.
///
/// `'abbrev` is that of abbreviations that are handed over ([`Entries::by`]); attributes are those
/// of the sections alone, and outlive them.
pub struct Entries<'a, 'abbrev> {
    reading: Reading<'a, 'abbrev>,
    units: &'a [u8],
    rows: Vec<sys::Entry>,
    attrs: Vec<sys::Attr>,
    space: usize,
    filled: sys::Filled,
}

impl<'a, 'abbrev> Entries<'a, 'abbrev> {
    pub(crate) fn new(
        sections: &Sections<'a>,
        unit: &UnitHeader,
        place: Place,
        room: usize,
        space: usize,
    ) -> Self {
        Entries {
            reading: Reading::new(sections, unit, place, room),
            units: sections.section(unit.section()),
            rows: Vec::new(),
            attrs: Vec::new(),
            space,
            filled: sys::Filled::default(),
        }
    }

    /// All entries of a unit, so many at a time as it can have, and four attributes for each.
    pub(crate) fn of_unit(sections: &Sections<'a>, unit: &UnitHeader) -> Self {
        let room = room_for(unit, unit.root(), 8192);
        Entries::new(sections, unit, unit.root(), room, 4 * room)
    }

    /// The same by abbreviations that are read already, as [`Rows::by`] has rows.
    #[must_use]
    pub fn by(mut self, abbreviations: impl Into<Option<&'abbrev Abbreviations>>) -> Self {
        self.reading.by = abbreviations.into();
        self
    }

    /// The place of the next entry: `entries_from` goes on with it there. At the end it is the
    /// place after the last entry; after a refusal that of what was refused, or where it was not of
    /// an entry (`is_row_refused`), the one at which reading was to go on.
    #[inline]
    pub fn place(&self) -> Place {
        self.rows
            .get(self.reading.at)
            .map_or(self.reading.place, sys::Entry::place)
    }

    /// Whether the last answer is the refusal of an entry, that at the place. Other refusals are of
    /// the unit, of its abbreviations, of the place, or of memory for the buffers.
    #[inline]
    pub fn is_row_refused(&self) -> bool {
        self.reading.row_refused
    }

    /// The refusal that the last answer is, with the unit, and with the entry if it is of one.
    pub fn refused(&self, error: Error) -> Refused {
        self.reading.refused(error, self.place())
    }

    /// The next entry, a null too; none at the end, and after a refusal.
    #[inline]
    pub fn next_entry(&mut self) -> Result<Option<Entry<'a, '_>>> {
        if !self.is_ready()? {
            return Ok(None);
        }
        Ok(Some(self.take_entry()))
    }

    /// Whether the buffer has a next entry, which is read where it has none; false at the end.
    #[inline]
    pub(crate) fn is_ready(&mut self) -> Result<bool> {
        Ok(self.reading.at < self.rows.len() || self.fill()?)
    }

    /// The next entry of the buffer, which has one.
    #[inline]
    pub(crate) fn take_entry(&mut self) -> Entry<'a, '_> {
        let row = &self.rows[self.reading.at];
        self.reading.at += 1;
        Entry {
            row,
            attrs: &self.attrs[row.first..row.first + row.attributes],
            units: self.units,
        }
    }

    /// The next entry alone, a null too, with the buffer; none at the end.
    pub(crate) fn into_entry(mut self) -> (Result<Option<OwnedEntry<'a>>>, Self) {
        let entry = self.is_ready().map(|is_ready| {
            is_ready.then(|| OwnedEntry {
                row: self.rows[self.reading.at],
                attrs: core::mem::take(&mut self.attrs),
                units: self.units,
            })
        });
        (entry, self)
    }

    // Reads on where the buffer has no more entries; false at the end.
    fn fill(&mut self) -> Result<bool> {
        while self.reading.at == self.rows.len() {
            if !self.reading.goes_on()? {
                return Ok(false);
            }
            self.reading.start(&mut self.rows)?;
            self.attrs.clear();
            reserve(&mut self.attrs, self.space.max(self.filled.wanted))?;
            let reading = &mut self.reading;
            reading.status = sys::entries(
                &reading.sections.raw(reading.unit.types),
                reading.unit.offset(),
                reading.by.or(reading.table.as_ref()),
                &mut reading.place,
                &mut self.rows,
                &mut self.attrs,
                &mut self.filled,
            );
        }
        Ok(true)
    }
}

impl fmt::Debug for Entries<'_, '_> {
    fn fmt(&self, f: &mut fmt::Formatter<'_>) -> fmt::Result {
        self.reading.debug("Entries", self.place(), f)
    }
}

/// An entry that is read by its offset, and keeps its attributes itself.
pub struct OwnedEntry<'a> {
    row: sys::Entry,
    attrs: Vec<sys::Attr>,
    units: &'a [u8],
}

impl<'a> OwnedEntry<'a> {
    /// The same as an entry of an iterator.
    #[inline]
    pub fn entry(&self) -> Entry<'a, '_> {
        Entry {
            row: &self.row,
            attrs: &self.attrs[self.row.first..self.row.first + self.row.attributes],
            units: self.units,
        }
    }

    /// Where it stands in the unit.
    #[inline]
    pub fn offset(&self) -> u64 {
        self.row.offset
    }

    /// Its tag, a `DW_TAG` number.
    #[inline]
    pub fn tag(&self) -> u16 {
        self.row.tag
    }

    /// Its tag, which prints as `DW_TAG_subprogram` and the like.
    #[inline]
    pub fn tag_name(&self) -> DwTag {
        DwTag(self.row.tag)
    }

    /// Whether children follow it.
    #[inline]
    pub fn has_children(&self) -> bool {
        self.row.has_children != 0
    }

    /// Its attributes, in order.
    #[inline]
    pub fn attrs(&self) -> impl ExactSizeIterator<Item = Attribute<'a>> {
        self.entry().attrs()
    }

    /// The first attribute of a name, as `entry.attr(DW_AT_name)`.
    #[inline]
    pub fn attr(&self, name: impl Into<u16>) -> Option<Attribute<'a>> {
        self.entry().attr(name)
    }
}

impl fmt::Debug for OwnedEntry<'_> {
    fn fmt(&self, f: &mut fmt::Formatter<'_>) -> fmt::Result {
        self.entry().fmt(f)
    }
}

/// An entry with its attributes, or the null that closes a list of children.
#[derive(Clone, Copy)]
pub struct Entry<'a, 'b> {
    row: &'b sys::Entry,
    attrs: &'b [sys::Attr],
    units: &'a [u8],
}

// It has the number of attributes.
impl fmt::Debug for Entry<'_, '_> {
    fn fmt(&self, f: &mut fmt::Formatter<'_>) -> fmt::Result {
        f.debug_struct("Entry")
            .field("offset", &format_args!("{:#x}", self.offset()))
            .field("depth", &self.depth())
            .field("tag", &format_args!("{}", self.tag_name()))
            .field("has_children", &self.has_children())
            .field("attrs", &self.attrs.len())
            .finish()
    }
}

impl<'a, 'b> Entry<'a, 'b> {
    /// Where it stands in the unit.
    #[inline]
    pub fn offset(&self) -> u64 {
        self.row.offset
    }

    /// How deep it stands.
    #[inline]
    pub fn depth(&self) -> isize {
        self.row.depth
    }

    /// The place at which it stands.
    #[inline]
    pub fn place(&self) -> Place {
        self.row.place()
    }

    /// Its tag, a `DW_TAG` number; 0 of a null.
    #[inline]
    pub fn tag(&self) -> u16 {
        self.row.tag
    }

    /// Its tag, which prints as `DW_TAG_subprogram` and the like.
    #[inline]
    pub fn tag_name(&self) -> DwTag {
        DwTag(self.row.tag)
    }

    /// Whether it is a null.
    #[inline]
    pub fn is_null(&self) -> bool {
        self.row.tag == 0
    }

    /// Whether children follow it.
    #[inline]
    pub fn has_children(&self) -> bool {
        self.row.has_children != 0
    }

    /// Its attributes, in order.
    #[inline]
    pub fn attrs(&self) -> impl ExactSizeIterator<Item = Attribute<'a>> + use<'a, 'b> {
        let (entry, units) = (self.row.offset, self.units);
        self.attrs
            .iter()
            .map(move |&attr| Attribute { attr, entry, units })
    }

    /// The first attribute of a name, as `entry.attr(DW_AT_name)`, or of a number, as
    /// `entry.attr(0x03_u16)`.
    #[inline]
    pub fn attr(&self, name: impl Into<u16>) -> Option<Attribute<'a>> {
        let name = name.into();
        self.attrs().find(|a| a.name() == name)
    }
}
