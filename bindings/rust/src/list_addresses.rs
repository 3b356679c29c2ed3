//! The address that a list names by an index that has none, for the texts of refusals.

use crate::input::{number_at, place_at, take, take_number, take_uleb128};
use crate::{Error, Result, SectionId, Unit};

// What an entry of a list has after its kind.
#[derive(Clone, Copy)]
enum Operand {
    // an index of `.debug_addr`
    Index,
    Address,
    Uleb128,
    // a number of four bytes
    Fixed,
    // an expression after its length, a LEB128 number
    Expression,
    // one after its length of two bytes
    OldExpression,
}

use Operand::{Address, Expression, Fixed, Index, OldExpression, Uleb128};

// By the kinds from 1 on (DWARF 5, 7.25 and 7.7.3).
const RANGES: [&[Operand]; 7] = [
    &[Index],
    &[Index, Index],
    &[Index, Uleb128],
    &[Uleb128, Uleb128],
    &[Address],
    &[Address, Address],
    &[Address, Uleb128],
];

const LOCATIONS: [&[Operand]; 8] = [
    &[Index],
    &[Index, Index, Expression],
    &[Index, Uleb128, Expression],
    &[Uleb128, Uleb128, Expression],
    &[Expression],
    &[Address],
    &[Address, Address, Expression],
    &[Address, Uleb128, Expression],
];

// Those of split files before version 5.
const OLD_LOCATIONS: [&[Operand]; 3] = [
    &[Index],
    &[Index, Index, OldExpression],
    &[Index, Fixed, OldExpression],
];

impl Unit<'_> {
    /// The first index in a list that has no address in `.debug_addr`; none where the list stops
    /// before any, or its entries have no index.
    pub(crate) fn index_without_address(&self, section: SectionId, list: u64) -> Option<u64> {
        let kinds: &[&[Operand]] = match section {
            SectionId::DebugRngLists => &RANGES,
            SectionId::DebugLocLists => &LOCATIONS,
            SectionId::DebugLoc if self.bases().is_dwo => &OLD_LOCATIONS,
            _ => return None,
        };
        let mut left = self
            .sections()
            .section(section)
            .get(usize::try_from(list).ok()?..)?;
        loop {
            let kind = usize::from(take(&mut left, 1).ok()?[0]);
            for operand in *kinds.get(kind.checked_sub(1)?)? {
                let index = self.pass(*operand, &mut left).ok()?;
                if index.is_some_and(|index| !self.has_address(index)) {
                    return index;
                }
            }
        }
    }

    // Passes an operand; the index, if it is one.
    fn pass(&self, operand: Operand, left: &mut &[u8]) -> Result<Option<u64>> {
        let endian = self.sections().endian;
        let size = match operand {
            Index => return take_uleb128(left).map(Some),
            Uleb128 => return take_uleb128(left).map(|_| None),
            Address => self.header().address_size().into(),
            Fixed => 4,
            Expression => take_uleb128(left)?,
            OldExpression => take_number(left, 2, endian)?,
        };
        take(left, size).map(|_| None)
    }

    fn has_address(&self, index: u64) -> bool {
        let size = self.header().address_size();
        let base = self.bases().addr_base;
        let place = base.and_then(|base| place_at(base, index, size));
        let addresses = self.sections();
        place.is_some_and(|place| {
            number_at(addresses.debug_addr, place, size, addresses.endian).is_some()
        })
    }
}

/// Whether a refusal of a list may be that of an index without an address.
pub(crate) fn may_lack_address(error: Error) -> bool {
    matches!(error, Error::UnexpectedEof | Error::UnsupportedOffset)
}
