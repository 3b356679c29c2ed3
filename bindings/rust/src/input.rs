//! Numbers of sections, by which the places of refusals are found.

use crate::{Endian, Error, Result};

/// So many bytes from the front on.
pub(crate) fn take<'a>(bytes: &mut &'a [u8], count: u64) -> Result<&'a [u8]> {
    let count = usize::try_from(count).map_err(|_| Error::UnexpectedEof)?;
    let (taken, rest) = bytes.split_at_checked(count).ok_or(Error::UnexpectedEof)?;
    *bytes = rest;
    Ok(taken)
}

/// The number of so many bytes, up to eight.
pub(crate) fn take_number(bytes: &mut &[u8], size: u8, endian: Endian) -> Result<u64> {
    let taken = take(bytes, size.into())?;
    let add = |all: u64, byte: &u8| all << 8 | u64::from(*byte);
    Ok(match endian {
        Endian::Little => taken.iter().rev().fold(0, add),
        Endian::Big => taken.iter().fold(0, add),
    })
}

/// An unsigned LEB128 number of 64 bits; what does not fit them is cut off.
pub(crate) fn take_uleb128(bytes: &mut &[u8]) -> Result<u64> {
    let (mut number, mut shift) = (0, 0);
    loop {
        let byte = take(bytes, 1)?[0];
        number |= u64::from(byte & 0x7f).checked_shl(shift).unwrap_or(0);
        shift += 7;
        if byte & 0x80 == 0 {
            return Ok(number);
        }
    }
}

/// The number of so many bytes at an offset of a section.
pub(crate) fn number_at(section: &[u8], offset: u64, size: u8, endian: Endian) -> Option<u64> {
    let mut from = section.get(usize::try_from(offset).ok()?..)?;
    take_number(&mut from, size, endian).ok()
}

/// Where a table has what stands at an index, if that is an offset.
pub(crate) fn place_at(table: u64, index: u64, size: u8) -> Option<u64> {
    table.checked_add(index.checked_mul(size.into())?)
}
