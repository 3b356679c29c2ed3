//! The declarations of the library, and the only code of this crate that is `unsafe`.
//!
//! Each call is allowed for all numbers and all slices. What the header says that a caller owes is
//! guaranteed by references and slices, as far as it is of memory: pointers are valid for the
//! lengths beside them, aligned and never null, a length is below 2^63, what is written to overlaps
//! nothing else, and no byte that is read changes meanwhile. The rest (the processor, the allocator
//! of C, no call from a signal handler or in the forked child of a process with threads) is left to
//! who builds the program, as the crate's text says.

use crate::{END, Error, Location, MORE, Place, Range, Result, Row, UNORDERED, reserve};
use alloc::vec::Vec;
use core::{fmt, ptr};

/// Bytes of a section, as a pointer and a length.
#[repr(C)]
#[derive(Clone, Copy)]
struct Bytes {
    bytes: *const u8,
    length: usize,
}

impl From<&[u8]> for Bytes {
    fn from(bytes: &[u8]) -> Self {
        Bytes {
            bytes: bytes.as_ptr(),
            length: bytes.len(),
        }
    }
}

/// The sections; the slices that they were made of live as long as `'a`.
#[repr(C)]
#[derive(Clone, Copy)]
pub(crate) struct Sections<'a> {
    units: Bytes,
    abbrev: Bytes,
    addresses: Bytes,
    aranges: Bytes,
    ranges: Bytes,
    rnglists: Bytes,
    loc: Bytes,
    loclists: Bytes,
    str: Bytes,
    line_str: Bytes,
    str_offsets: Bytes,
    sup_str: Bytes,
    big: u8,
    types: u8,
    slices: core::marker::PhantomData<&'a [u8]>,
}

impl<'a> Sections<'a> {
    pub(crate) fn new(sections: &crate::Sections<'a>, types: bool) -> Self {
        Sections {
            units: if types {
                sections.debug_types
            } else {
                sections.debug_info
            }
            .into(),
            abbrev: sections.debug_abbrev.into(),
            addresses: sections.debug_addr.into(),
            aranges: sections.debug_aranges.into(),
            ranges: sections.debug_ranges.into(),
            rnglists: sections.debug_rnglists.into(),
            loc: sections.debug_loc.into(),
            loclists: sections.debug_loclists.into(),
            str: sections.debug_str.into(),
            line_str: sections.debug_line_str.into(),
            str_offsets: sections.debug_str_offsets.into(),
            sup_str: sections.debug_str_sup.into(),
            big: (sections.endian == crate::Endian::Big).into(),
            types: types.into(),
            slices: core::marker::PhantomData,
        }
    }
}

#[repr(C)]
#[derive(Clone, Copy, Debug, Default, PartialEq, Eq)]
pub(crate) struct Unit {
    pub(crate) offset: u64,
    pub(crate) length: u64,
    pub(crate) header_size: u64,
    pub(crate) abbreviations: u64,
    pub(crate) id: u64,
    pub(crate) type_offset: u64,
    pub(crate) version: u16,
    pub(crate) kind: u8,
    pub(crate) address_size: u8,
    pub(crate) offset_size: u8,
}

#[repr(C)]
#[derive(Clone, Copy, Debug, Default)]
pub(crate) struct Entry {
    pub(crate) offset: u64,
    pub(crate) depth: isize,
    pub(crate) first: usize,
    pub(crate) attributes: usize,
    pub(crate) tag: u16,
    pub(crate) has_children: u8,
}

impl Entry {
    #[inline]
    pub(crate) fn place(&self) -> Place {
        Place {
            offset: self.offset,
            depth: self.depth,
        }
    }
}

#[repr(C)]
#[derive(Clone, Copy, Debug, Default)]
pub(crate) struct Attr {
    pub(crate) number: u64,
    pub(crate) more: u64,
    pub(crate) name: u16,
    pub(crate) form: u16,
    pub(crate) kind: u32,
}

#[repr(C)]
#[derive(Clone, Copy, Debug, Default)]
pub(crate) struct Bases {
    pub(crate) address: u64,
    pub(crate) addresses: u64,
    pub(crate) rnglists: u64,
    pub(crate) loclists: u64,
    pub(crate) str_offsets: u64,
    pub(crate) gnu_ranges: u64,
    pub(crate) dwo: u8,
    pub(crate) no_address: u8,
    pub(crate) no_addresses: u8,
    pub(crate) no_rnglists: u8,
    pub(crate) no_loclists: u8,
    pub(crate) no_str_offsets: u8,
    pub(crate) no_gnu_ranges: u8,
}

/// Where the bytes of a text lie.
#[repr(C)]
#[derive(Clone, Copy, Debug, Default)]
pub(crate) struct Text {
    pub(crate) place: u64,
    pub(crate) length: u64,
    pub(crate) section: u32,
}

/// The numbers of the sections in which a text may lie that is not one of the unit's.
pub(crate) const STR: u32 = 8;
pub(crate) const LINE_STR: u32 = 9;
pub(crate) const SUP_STR: u32 = 11;

#[repr(C)]
#[derive(Clone, Copy, Debug, Default)]
pub(crate) struct Filled {
    pub(crate) rows: usize,
    pub(crate) attributes: usize,
    pub(crate) wanted: usize,
}

#[repr(C)]
#[derive(Clone, Copy, Debug, Default)]
struct Declaration {
    code: u64,
    first: usize,
    attributes: usize,
    tag: u16,
    has_children: u8,
}

#[repr(C)]
#[derive(Clone, Copy, Debug, Default)]
struct Step {
    values: u16,
    bytes: u8,
    addresses: u8,
    offsets: u8,
    ref_addrs: u8,
    has_ref8: u8,
}

#[repr(C)]
#[derive(Clone, Copy, Debug, Default)]
struct Specification {
    constant: i64,
    name: u16,
    form: u16,
    step: Step,
}

/// A table, as two pointers and lengths.
#[repr(C)]
struct Table {
    declarations: *const Declaration,
    declared: usize,
    specifications: *const Specification,
    specified: usize,
}

#[repr(C)]
#[derive(Clone, Copy, Debug, Default)]
struct Counted {
    declarations: usize,
    specifications: usize,
}

/// The abbreviations of a unit, as [`Sections::abbreviations`](crate::Sections::abbreviations) reads
/// them once for [`Rows::by`](crate::Rows::by) and [`Entries::by`](crate::Entries::by).
pub struct Abbreviations {
    declarations: Vec<Declaration>,
    specifications: Vec<Specification>,
}

impl Abbreviations {
    /// The table at an offset; none where its codes are not in order.
    pub(crate) fn read(sections: &Sections<'_>, offset: u64) -> Result<Option<Abbreviations>> {
        let mut table = Abbreviations {
            declarations: Vec::new(),
            specifications: Vec::new(),
        };
        let (mut status, counted) = table.fill(sections, offset);
        if status == MORE {
            reserve(&mut table.declarations, counted.declarations)?;
            reserve(&mut table.specifications, counted.specifications)?;
            status = table.fill(sections, offset).0;
        }
        match status {
            END => Ok(Some(table)),
            UNORDERED => Ok(None),
            status => Err(Error::of_status(status)),
        }
    }

    fn fill(&mut self, sections: &Sections<'_>, offset: u64) -> (u32, Counted) {
        let mut counted = Counted::default();
        let (room, space) = (self.declarations.capacity(), self.specifications.capacity());
        // SAFETY: the module's text. Buffers need not be set before; where the status is END, as many
        // declarations and specifications as are counted are written.
        unsafe {
            let (to, and) = (
                self.declarations.as_mut_ptr(),
                self.specifications.as_mut_ptr(),
            );
            let status = raw::gimli_table(sections, offset, to, room, and, space, &mut counted);
            if status == END {
                self.declarations.set_len(counted.declarations);
                self.specifications.set_len(counted.specifications);
            }
            (status, counted)
        }
    }

    fn raw(&self) -> Table {
        Table {
            declarations: self.declarations.as_ptr(),
            declared: self.declarations.len(),
            specifications: self.specifications.as_ptr(),
            specified: self.specifications.len(),
        }
    }
}

impl fmt::Debug for Abbreviations {
    fn fmt(&self, f: &mut fmt::Formatter<'_>) -> fmt::Result {
        f.debug_struct("Abbreviations")
            .field("declarations", &self.declarations.len())
            .finish_non_exhaustive()
    }
}

// The sizes that the header says too.
const _: () = {
    assert!(size_of::<Declaration>() == 32 && size_of::<Specification>() == 24);
    assert!(size_of::<Table>() == 32 && size_of::<Counted>() == 16);
    assert!(size_of::<Bytes>() == 16 && size_of::<Sections<'_>>() == 200);
    assert!(size_of::<Unit>() == 56 && size_of::<Place>() == 16 && size_of::<Row>() == 24);
    assert!(size_of::<Entry>() == 40 && size_of::<Attr>() == 24 && size_of::<Filled>() == 24);
    assert!(size_of::<Bases>() == 56 && size_of::<Text>() == 24);
    assert!(size_of::<Range>() == 16 && size_of::<Location>() == 32);
};

mod raw {
    use super::{Attr, Bases, Counted, Declaration, Entry, Filled, Sections, Specification, Table};
    use super::{Text, Unit};
    use crate::{Location, Place, Range, Row};

    #[rustfmt::skip]
    unsafe extern "C" {
        pub(super) fn gimli_unit(s: &Sections<'_>, offset: u64, unit: &mut Unit) -> u32;
        pub(super) fn gimli_unit_holding(s: &Sections<'_>, offset: u64, unit: &mut Unit) -> u32;
        pub(super) fn gimli_unit_bases(s: &Sections<'_>, unit: u64, dwo: u8, skeleton: *const Bases, skeletons: usize, bases: &mut Bases) -> u32;
        pub(super) fn gimli_unit_holds(s: &Sections<'_>, unit: u64, bases: &Bases, address: u64) -> u32;
        pub(super) fn gimli_rows(s: &Sections<'_>, unit: u64, place: &mut Place, rows: *mut Row, room: usize, count: &mut usize) -> u32;
        pub(super) fn gimli_entries(s: &Sections<'_>, unit: u64, place: &mut Place, rows: *mut Entry, room: usize, attrs: *mut Attr, space: usize, filled: &mut Filled) -> u32;
        pub(super) fn gimli_table(s: &Sections<'_>, offset: u64, declarations: *mut Declaration, room: usize, specifications: *mut Specification, space: usize, counted: &mut Counted) -> u32;
        pub(super) fn gimli_rows_by(s: &Sections<'_>, unit: u64, table: &Table, place: &mut Place, rows: *mut Row, room: usize, count: &mut usize) -> u32;
        pub(super) fn gimli_entries_by(s: &Sections<'_>, unit: u64, table: &Table, place: &mut Place, rows: *mut Entry, room: usize, attrs: *mut Attr, space: usize, filled: &mut Filled) -> u32;
        pub(super) fn gimli_sibling(s: &Sections<'_>, unit: u64, place: &Place, follows: u8, row: &mut Row) -> u32;
        pub(super) fn gimli_first_false(s: &Sections<'_>, unit: u64, offset: &mut u64) -> u32;
        pub(super) fn gimli_unit_of_address(s: &Sections<'_>, address: u64, offset: &mut u64) -> u32;
        pub(super) fn gimli_attr_string(s: &Sections<'_>, unit: &Unit, attribute: &Attr, bases: &Bases, string: &mut Text) -> u32;
        pub(super) fn gimli_attr_address(s: &Sections<'_>, unit: &Unit, attribute: &Attr, bases: &Bases, address: &mut u64) -> u32;
        pub(super) fn gimli_ranges(s: &Sections<'_>, unit: &Unit, attribute: &Attr, bases: &Bases, into: *mut Range, room: usize, count: &mut usize) -> u32;
        pub(super) fn gimli_locations(s: &Sections<'_>, unit: &Unit, attribute: &Attr, bases: &Bases, into: *mut Location, room: usize, count: &mut usize) -> u32;
    }
}

pub(crate) fn unit(sections: &Sections<'_>, offset: u64, unit: &mut Unit) -> u32 {
    // SAFETY: the module's text.
    unsafe { raw::gimli_unit(sections, offset, unit) }
}

pub(crate) fn unit_holding(sections: &Sections<'_>, offset: u64, unit: &mut Unit) -> u32 {
    // SAFETY: the module's text.
    unsafe { raw::gimli_unit_holding(sections, offset, unit) }
}

pub(crate) fn unit_bases(
    sections: &Sections<'_>,
    unit: u64,
    is_dwo: bool,
    skeleton: Option<&Bases>,
    bases: &mut Bases,
) -> u32 {
    // (also where there is none the address is aligned and not null)
    let none = ptr::NonNull::<Bases>::dangling().as_ptr().cast_const();
    let from = skeleton.map_or(none, ptr::from_ref);
    let skeletons = skeleton.is_some().into();
    // SAFETY: the module's text. The skeleton is one, or none.
    unsafe { raw::gimli_unit_bases(sections, unit, is_dwo.into(), from, skeletons, bases) }
}

pub(crate) fn unit_holds(sections: &Sections<'_>, unit: u64, bases: &Bases, address: u64) -> u32 {
    // SAFETY: the module's text.
    unsafe { raw::gimli_unit_holds(sections, unit, bases, address) }
}

/// Fills a buffer as far as its capacity, by a table where there is one.
pub(crate) fn rows(
    sections: &Sections<'_>,
    unit: u64,
    table: Option<&Abbreviations>,
    place: &mut Place,
    rows: &mut Vec<Row>,
) -> u32 {
    rows.clear();
    let mut count = 0;
    let (to, room) = (rows.as_mut_ptr(), rows.capacity());
    // SAFETY: the module's text. A buffer need not be set before, and the first `count` rows are
    // written by the call.
    unsafe {
        let status = match table.map(Abbreviations::raw) {
            Some(table) => raw::gimli_rows_by(sections, unit, &table, place, to, room, &mut count),
            None => raw::gimli_rows(sections, unit, place, to, room, &mut count),
        };
        rows.set_len(count);
        status
    }
}

/// Fills both buffers as far as their capacity, by a table where there is one.
pub(crate) fn entries(
    sections: &Sections<'_>,
    unit: u64,
    table: Option<&Abbreviations>,
    place: &mut Place,
    rows: &mut Vec<Entry>,
    attrs: &mut Vec<Attr>,
    filled: &mut Filled,
) -> u32 {
    rows.clear();
    attrs.clear();
    let (room, space) = (rows.capacity(), attrs.capacity());
    // SAFETY: the module's text. Buffers need not be set before, and as many rows and attributes as
    // `filled` says are written.
    unsafe {
        let (to, and) = (rows.as_mut_ptr(), attrs.as_mut_ptr());
        let s = sections;
        let status = match table.map(Abbreviations::raw) {
            Some(t) => raw::gimli_entries_by(s, unit, &t, place, to, room, and, space, filled),
            None => raw::gimli_entries(s, unit, place, to, room, and, space, filled),
        };
        rows.set_len(filled.rows);
        attrs.set_len(filled.attributes);
        status
    }
}

pub(crate) fn sibling(
    sections: &Sections<'_>,
    unit: u64,
    place: &Place,
    follows: bool,
    row: &mut Row,
) -> u32 {
    // SAFETY: the module's text.
    unsafe { raw::gimli_sibling(sections, unit, place, follows.into(), row) }
}

pub(crate) fn first_false(sections: &Sections<'_>, unit: u64, offset: &mut u64) -> u32 {
    // SAFETY: the module's text.
    unsafe { raw::gimli_first_false(sections, unit, offset) }
}

pub(crate) fn unit_of_address(sections: &Sections<'_>, address: u64, offset: &mut u64) -> u32 {
    // SAFETY: the module's text.
    unsafe { raw::gimli_unit_of_address(sections, address, offset) }
}

pub(crate) fn string(
    sections: &Sections<'_>,
    unit: &Unit,
    attribute: &Attr,
    bases: &Bases,
    string: &mut Text,
) -> u32 {
    // SAFETY: the module's text.
    unsafe { raw::gimli_attr_string(sections, unit, attribute, bases, string) }
}

pub(crate) fn address(
    sections: &Sections<'_>,
    unit: &Unit,
    attribute: &Attr,
    bases: &Bases,
    address: &mut u64,
) -> u32 {
    // SAFETY: the module's text.
    unsafe { raw::gimli_attr_address(sections, unit, attribute, bases, address) }
}

pub(crate) fn ranges(
    sections: &Sections<'_>,
    unit: &Unit,
    attribute: &Attr,
    bases: &Bases,
    into: &mut [Range],
    count: &mut usize,
) -> u32 {
    // SAFETY: the module's text.
    unsafe {
        raw::gimli_ranges(
            sections,
            unit,
            attribute,
            bases,
            into.as_mut_ptr(),
            into.len(),
            count,
        )
    }
}

pub(crate) fn locations(
    sections: &Sections<'_>,
    unit: &Unit,
    attribute: &Attr,
    bases: &Bases,
    into: &mut [Location],
    count: &mut usize,
) -> u32 {
    // SAFETY: the module's text.
    unsafe {
        raw::gimli_locations(
            sections,
            unit,
            attribute,
            bases,
            into.as_mut_ptr(),
            into.len(),
            count,
        )
    }
}
