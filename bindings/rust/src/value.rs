//! Attributes and their values.

use crate::sys::Attr;
use crate::{
    DW_AT_data_member_location, DW_AT_frame_base, DW_AT_location, DW_AT_return_addr, DW_AT_segment,
    DW_AT_static_link, DW_AT_string_length, DW_AT_use_location, DW_AT_vtable_elem_location, DwAt,
    DwForm,
};
use core::fmt;

/// The value of an attribute, as it is read. Slices are those of the unit's section.
#[derive(Clone, Copy, Debug, PartialEq, Eq)]
#[non_exhaustive]
pub enum AttributeValue<'a> {
    /// An address.
    Addr(u64),
    /// The bytes of a block.
    Block(&'a [u8]),
    /// A constant of one byte, with or without a sign.
    Data1(u8),
    /// One of two bytes.
    Data2(u16),
    /// One of four bytes.
    Data4(u32),
    /// One of eight bytes.
    Data8(u64),
    /// One of sixteen bytes.
    Data16(u128),
    /// A constant with a sign.
    Sdata(i64),
    /// A constant without a sign.
    Udata(u64),
    /// The bytes of an expression.
    Exprloc(&'a [u8]),
    /// A flag.
    Flag(bool),
    /// An offset in the section that the attribute's name says.
    SecOffset(u64),
    /// An index of the unit's table in `.debug_addr`.
    DebugAddrIndex(u64),
    /// The address at an index, and what is added to it.
    DebugAddrIndexOffset(u64, u32),
    /// An offset in the unit.
    UnitRef(u64),
    /// An offset in `.debug_info`.
    DebugInfoRef(u64),
    /// An offset in `.debug_info` of the supplementary file.
    DebugInfoRefSup(u64),
    /// An index of the unit's table in `.debug_loclists`.
    DebugLocListsIndex(u64),
    /// An index of the unit's table in `.debug_rnglists`.
    DebugRngListsIndex(u64),
    /// The signature of a type unit.
    DebugTypesRef(u64),
    /// An offset in `.debug_str`.
    DebugStrRef(u64),
    /// An offset in `.debug_str` of the supplementary file.
    DebugStrRefSup(u64),
    /// An index of the unit's table in `.debug_str_offsets`.
    DebugStrOffsetsIndex(u64),
    /// An offset in `.debug_line_str`.
    DebugLineStrRef(u64),
    /// A text, without the zero that ends it.
    String(&'a [u8]),
    /// A number of another kind.
    Other(u8, u64),
}

/// An attribute of an entry.
#[derive(Clone, Copy)]
pub struct Attribute<'a> {
    pub(crate) attr: Attr,
    // where its entry stands in the unit
    pub(crate) entry: u64,
    pub(crate) units: &'a [u8],
}

// The names that may have a list of locations (DWARF 5, 7.5.5).
const LOCATIONS: [DwAt; 9] = [
    DW_AT_location,
    DW_AT_string_length,
    DW_AT_return_addr,
    DW_AT_data_member_location,
    DW_AT_frame_base,
    DW_AT_segment,
    DW_AT_static_link,
    DW_AT_use_location,
    DW_AT_vtable_elem_location,
];

// How many bytes of a text are shown.
const SHOWN: usize = 40;

// Of a block and of an expression it has the number of bytes, of a text the beginning.
impl fmt::Debug for Attribute<'_> {
    fn fmt(&self, f: &mut fmt::Formatter<'_>) -> fmt::Result {
        use AttributeValue::*;
        let (name, form) = (self.at_name(), self.form_name());
        write!(f, "Attribute {{ name: {name}, form: {form}, value: ")?;
        match self.raw_value() {
            Block(bytes) => write!(f, "Block({} bytes)", bytes.len())?,
            Exprloc(bytes) => write!(f, "Exprloc({} bytes)", bytes.len())?,
            String(text) => {
                let shown = text.get(..SHOWN).unwrap_or(text);
                let more = if shown.len() < text.len() { ".." } else { "" };
                write!(f, "String(\"{}\"{more})", shown.escape_ascii())?
            }
            value => write!(f, "{value:?}")?,
        }
        f.write_str(" }")
    }
}

impl<'a> Attribute<'a> {
    /// The name, a `DW_AT` number.
    #[inline]
    pub fn name(&self) -> u16 {
        self.attr.name
    }

    /// The name, which prints as `DW_AT_name` and the like.
    #[inline]
    pub fn at_name(&self) -> DwAt {
        DwAt(self.attr.name)
    }

    /// The form of the declaration, a `DW_FORM` number.
    #[inline]
    pub fn form(&self) -> u16 {
        self.attr.form
    }

    /// The form, which prints as `DW_FORM_strp` and the like.
    #[inline]
    pub fn form_name(&self) -> DwForm {
        DwForm(self.attr.form)
    }

    /// The value, as it is read.
    // (always, so that this match and the caller's become one)
    #[inline(always)]
    pub fn raw_value(&self) -> AttributeValue<'a> {
        use AttributeValue::*;
        let a = &self.attr;
        match a.kind {
            1 => Addr(a.number),
            2 => Block(self.bytes()),
            3 => Data1(a.number as u8),
            4 => Data2(a.number as u16),
            5 => Data4(a.number as u32),
            6 => Data8(a.number),
            7 => Data16(u128::from(a.more) << 64 | u128::from(a.number)),
            8 => Sdata(a.number as i64),
            9 => Udata(a.number),
            10 => Exprloc(self.bytes()),
            11 => Flag(a.number != 0),
            12 => SecOffset(a.number),
            14 => DebugAddrIndex(a.number),
            15 => UnitRef(a.number),
            16 => DebugInfoRef(a.number),
            17 => DebugInfoRefSup(a.number),
            21 => DebugLocListsIndex(a.number),
            26 => DebugRngListsIndex(a.number),
            27 => DebugTypesRef(a.number),
            28 => DebugStrRef(a.number),
            29 => DebugStrRefSup(a.number),
            31 => DebugStrOffsetsIndex(a.number),
            32 => DebugLineStrRef(a.number),
            33 => String(self.bytes()),
            48 => DebugAddrIndexOffset(a.number, a.more as u32),
            kind => Other(kind as u8, a.number),
        }
    }

    /// The value as a constant without a sign, where it is one: of one to eight bytes, or one that
    /// is not below 0. As in gimli, no address, offset, index or flag is one; `number` has those.
    #[inline]
    pub fn udata_value(&self) -> Option<u64> {
        use AttributeValue::*;
        match self.raw_value() {
            Data1(number) => Some(number.into()),
            Data2(number) => Some(number.into()),
            Data4(number) => Some(number.into()),
            Data8(number) | Udata(number) => Some(number),
            Sdata(number) => u64::try_from(number).ok(),
            _ => None,
        }
    }

    /// The number of the value, where it is a single one without a sign: an address, a constant of
    /// up to eight bytes that is not below 0, an offset, an index, a signature or a flag.
    #[inline]
    pub fn number(&self) -> Option<u64> {
        match self.attr.kind {
            2 | 7 | 10 | 33 | 48 => None,
            8 => u64::try_from(self.attr.number as i64).ok(),
            _ => Some(self.attr.number),
        }
    }

    /// Whether the value names a list of locations, which `locations` of a unit gives: an offset or
    /// an index, of a name that may have a list of them.
    #[inline]
    pub fn is_location_list(&self) -> bool {
        use AttributeValue::{DebugLocListsIndex, SecOffset};
        let names_list = matches!(self.raw_value(), SecOffset(_) | DebugLocListsIndex(_));
        names_list && LOCATIONS.contains(&self.at_name())
    }

    #[inline]
    fn bytes(&self) -> &'a [u8] {
        let start = self.attr.number as usize;
        let end = start.saturating_add(self.attr.more as usize);
        self.units.get(start..end).unwrap_or_default()
    }
}
