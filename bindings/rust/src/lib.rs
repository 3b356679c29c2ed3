//! Safe Rust over the proved DWARF reader: units, rows, entries with attributes, siblings, texts,
//! addresses, ranges and locations.
//!
//! What each call of the library gives is proved on the other side, for all bytes; this crate is
//! not, and adds iterators over buffers, units that are read once, the units that hold an address,
//! and where a refusal stands. Names are gimli's where they fit.
//!
//! The library wants a processor with x86-64-v2, and `malloc`, `realloc` and `free` of one allocator;
//! and no call from a signal handler, or in the forked child of a process with threads.
//!
//! Nothing aborts or panics where memory is refused: the answer is [`Error::OutOfMemory`], and the
//! call may be made again.
//!
//! A [`Unit`] knows what its values count from. A refusal names the section and the offset.
//!
//! ```
//! use gimli_proved::{DW_AT_name, DW_TAG_subprogram, Refused, Sections};
//!
//! // The names of all functions, and where they begin.
//! fn functions(sections: &Sections) -> Result<Vec<(String, u64)>, Refused> {
//!     let mut functions = Vec::new();
//!     for unit in sections.all_units() {
//!         let unit = unit?;
//!         let mut entries = unit.entries();
//!         while let Some(entry) = entries.next_entry()? {
//!             if entry.tag_name() != DW_TAG_subprogram {
//!                 continue;
//!             }
//!             let name = unit.find_recursively(&entry, DW_AT_name)?;
//!             for range in unit.die_ranges(&entry)? {
//!                 let text = name.map_or(Ok(&b"?"[..]), |name| unit.text(&name))?;
//!                 functions.push((String::from_utf8_lossy(text).into_owned(), range.begin));
//!             }
//!         }
//!     }
//!     Ok(functions)
//! }
//! assert!(functions(&Sections::default()).unwrap().is_empty());
//! ```
#![no_std]
#![deny(unsafe_code)]
#![warn(missing_docs)]

extern crate alloc;

mod bases;
pub mod constants;
mod entries;
mod error;
mod header;
mod holds;
mod input;
mod list_addresses;
mod lists;
mod names;
mod refused;
mod sections;
#[allow(unsafe_code)]
mod sys;
mod unit;
mod unit_refused;
mod units;
mod value;
mod values;

pub use bases::Bases;
pub use constants::*;
pub use entries::{Entries, Entry, OwnedEntry, Rows};
pub use error::Error;
pub use header::{UnitHeader, Units};
pub use lists::{Location, Range};
pub use names::UnknownName;
pub use refused::Refused;
pub use sections::{Endian, SectionId, Sections};
pub use sys::Abbreviations;
pub use unit::{Unit, UnitEntries, UnitRows};
pub use units::AllUnits;
pub use value::{Attribute, AttributeValue};

use alloc::vec::Vec;

/// The result of a call that may be refused.
pub type Result<T> = core::result::Result<T, Error>;

pub(crate) const MORE: u32 = 0;
pub(crate) const END: u32 = 1;
pub(crate) const UNORDERED: u32 = 4;
pub(crate) const ROW_REFUSED: u32 = 512;

/// A place in a unit, between two rows.
#[repr(C)]
#[derive(Clone, Copy, Debug, PartialEq, Eq)]
pub struct Place {
    /// The offset in the unit.
    pub offset: u64,
    /// The depth of the row that is read there.
    pub depth: isize,
}

/// An entry, or the null that closes a list of children: its tag is 0.
#[repr(C)]
#[derive(Clone, Copy, Debug, Default, PartialEq, Eq)]
pub struct Row {
    /// Where it stands in the unit.
    pub offset: u64,
    /// How deep it stands.
    pub depth: isize,
    /// Its tag, a `DW_TAG` number.
    pub tag: u16,
    has_children: u8,
}

impl Row {
    /// Whether children follow it.
    #[inline]
    pub fn has_children(&self) -> bool {
        self.has_children != 0
    }

    /// Its tag, which prints as `DW_TAG_subprogram` and the like.
    #[inline]
    pub fn tag_name(&self) -> DwTag {
        DwTag(self.tag)
    }

    /// Whether it is a null.
    #[inline]
    pub fn is_null(&self) -> bool {
        self.tag == 0
    }

    /// The place at which it stands.
    #[inline]
    pub fn place(&self) -> Place {
        Place {
            offset: self.offset,
            depth: self.depth,
        }
    }
}

// Makes room for so many more.
fn reserve<T>(buffer: &mut Vec<T>, more: usize) -> Result<()> {
    let reserved = buffer.try_reserve_exact(more);
    reserved.map_err(|_| Error::OutOfMemory)
}

// Adds one more at the end.
fn push<T>(buffer: &mut Vec<T>, item: T) -> Result<()> {
    buffer.try_reserve(1).map_err(|_| Error::OutOfMemory)?;
    buffer.push(item);
    Ok(())
}
