//! Where the refusals of a unit's bases and values stand.

use crate::input::{number_at, place_at};
use crate::list_addresses::may_lack_address;
use crate::lists::Found;
use crate::{Attribute, AttributeValue, DwAt, Entry, Error, Refused, Result, SectionId, Unit};
use crate::{
    DW_AT_GNU_addr_base, DW_AT_GNU_ranges_base, DW_AT_addr_base, DW_AT_loclists_base, DW_AT_low_pc,
    DW_AT_rnglists_base, DW_AT_str_offsets_base,
};
use alloc::vec::Vec;

type Listed<T> = core::result::Result<Vec<T>, Refused>;

impl Unit<'_> {
    /// A refusal, with the unit.
    pub(crate) fn refused(&self, error: Error) -> Refused {
        self.located(self.header().refused(error))
    }

    /// The same of one that has the unit.
    #[cold]
    pub(crate) fn located(&self, refused: Refused) -> Refused {
        Refused {
            is_dwo: self.bases().is_dwo,
            missing_skeleton: self.missing_skeleton(),
            ..refused
        }
    }

    fn value_refused(&self, attribute: &Attribute<'_>, error: Error) -> Refused {
        self.refused(error).of_attribute(attribute)
    }

    /// The same of the header, as where addresses have a size that none has.
    pub(crate) fn header_refused(&self, refused: Refused) -> Refused {
        refused.at(self.header().section(), self.header().offset())
    }

    // Where a table has what stands at an index, and the offset that stands there.
    fn at_index(&self, table: (SectionId, u64), index: u64) -> (u64, Option<u64>) {
        let size = self.header().offset_size();
        let section = self.sections().section(table.0);
        let Some(place) = place_at(table.1, index, size) else {
            return (table.1, None);
        };
        let offset = number_at(section, place, size, self.sections().endian);
        (place, offset)
    }

    /// The refusal of a text: where it begins, or where the index leads that has none.
    #[cold]
    pub(crate) fn text_refused(&self, attribute: &Attribute<'_>, error: Error) -> Refused {
        let refused = self.value_refused(attribute, error);
        match attribute.raw_value() {
            AttributeValue::DebugStrRef(offset) => refused.at(SectionId::DebugStr, offset),
            AttributeValue::DebugLineStrRef(offset) => refused.at(SectionId::DebugLineStr, offset),
            AttributeValue::DebugStrRefSup(offset) => refused.at(SectionId::DebugStrSup, offset),
            AttributeValue::DebugStrOffsetsIndex(index) => {
                let section = SectionId::DebugStrOffsets;
                let Some(base) = self.bases().str_offsets_base else {
                    return refused.without(section, DW_AT_str_offsets_base);
                };
                match self.at_index((section, base), index) {
                    (_, Some(offset)) => refused.at(SectionId::DebugStr, offset),
                    (place, None) => refused.at(section, place),
                }
            }
            _ => refused,
        }
    }

    /// The refusal of an address.
    #[cold]
    pub(crate) fn address_refused(&self, attribute: &Attribute<'_>, error: Error) -> Refused {
        self.address_refused_by(attribute, error, self.bases().addr_base)
    }

    fn address_refused_by(
        &self,
        attribute: &Attribute<'_>,
        error: Error,
        addr_base: Option<u64>,
    ) -> Refused {
        let refused = self.value_refused(attribute, error);
        match attribute.raw_value() {
            AttributeValue::DebugAddrIndex(_) if error == Error::UnsupportedAddressSize => {
                self.header_refused(refused)
            }
            AttributeValue::DebugAddrIndex(index) => self.index_refused(refused, index, addr_base),
            _ => refused,
        }
    }

    // Of an index of `.debug_addr`.
    fn index_refused(&self, refused: Refused, index: u64, addr_base: Option<u64>) -> Refused {
        let section = SectionId::DebugAddr;
        let Some(base) = addr_base else {
            return refused.without(section, DW_AT_addr_base);
        };
        let place = place_at(base, index, self.header().address_size());
        refused.at(section, place.unwrap_or(base))
    }

    /// All items of a list, or its refusal.
    pub(crate) fn whole_list<T>(
        &self,
        attribute: &Attribute<'_>,
        found: Result<Found<T>>,
        of_locations: bool,
    ) -> Listed<T> {
        let (error, is_item) = match found {
            Ok(found) => match found.refusal {
                None => return Ok(found.items),
                Some(error) => (error, true),
            },
            Err(error) => (error, false),
        };
        let refused = self.list_refused(attribute, error, of_locations);
        Err(if is_item {
            self.item_refused(refused)
        } else {
            refused
        })
    }

    // The refusal of a list: where it begins, or where the index leads that has none.
    #[cold]
    fn list_refused(&self, attribute: &Attribute<'_>, error: Error, of_locations: bool) -> Refused {
        let refused = self.value_refused(attribute, error);
        let (section, base, name) = self.lists(of_locations);
        match attribute.raw_value() {
            _ if matches!(error, Error::NoList | Error::OutOfMemory) => refused,
            _ if error == Error::UnsupportedAddressSize => self.header_refused(refused),
            AttributeValue::SecOffset(offset) => match self.list_start(of_locations) {
                None => refused.without(section, DW_AT_GNU_ranges_base),
                Some(start) => self.low_pc_refused(refused.at(section, start.wrapping_add(offset))),
            },
            AttributeValue::DebugRngListsIndex(index)
            | AttributeValue::DebugLocListsIndex(index) => {
                let Some(base) = base else {
                    return refused.without(section, name);
                };
                let refused = match self.at_index((section, base), index) {
                    (_, Some(offset)) => refused.at(section, base.wrapping_add(offset)),
                    (place, None) => refused.at(section, place),
                };
                self.low_pc_refused(refused)
            }
            _ => refused,
        }
    }

    // Of an item of the list that begins there: at an index without an address, if that may be it.
    fn item_refused(&self, refused: Refused) -> Refused {
        let list = refused.section.zip(refused.offset);
        let list = list.filter(|_| may_lack_address(refused.error));
        let index = list.and_then(|(section, list)| self.index_without_address(section, list));
        match index {
            Some(index) => self.index_refused(refused, index, self.bases().addr_base),
            None => refused,
        }
    }

    // The section of lists, where its table of their offsets begins, and the attribute of that.
    fn lists(&self, of_locations: bool) -> (SectionId, Option<u64>, DwAt) {
        use SectionId::{DebugLoc, DebugLocLists, DebugRanges, DebugRngLists};
        let is_new = self.header().version() >= 5;
        let bases = self.bases();
        if of_locations {
            let section = if is_new { DebugLocLists } else { DebugLoc };
            (section, bases.loclists_base, DW_AT_loclists_base)
        } else {
            let section = if is_new { DebugRngLists } else { DebugRanges };
            (section, bases.rnglists_base, DW_AT_rnglists_base)
        }
    }

    // What the offsets of lists count from.
    fn list_start(&self, of_locations: bool) -> Option<u64> {
        let counts = self.bases().is_dwo && self.header().version() < 5 && !of_locations;
        if counts {
            self.bases().gnu_ranges_base
        } else {
            Some(0)
        }
    }

    // Of a base that is missing only `low_pc` is left.
    fn low_pc_refused(&self, refused: Refused) -> Refused {
        match refused.error {
            Error::NoBase => Refused {
                base: Some(DW_AT_low_pc),
                ..refused
            },
            _ => refused,
        }
    }

    /// The refusal of the bases, found by the root.
    #[cold]
    pub(crate) fn bases_refused(&self, error: Error, has_skeleton: bool) -> Refused {
        let refused = self.refused(error);
        if error == Error::OutOfMemory {
            return refused;
        }
        let root = match self.root() {
            Ok(root) => root,
            Err(refused) => return Refused { error, ..refused },
        };
        let root = root.entry();
        if error == Error::BadBase {
            return self.bad_base_refused(refused, &root, has_skeleton);
        }
        let low_pc = root.attr(DW_AT_low_pc);
        low_pc.map_or(refused, |low_pc| {
            self.address_refused_by(&low_pc, error, addr_base(&root))
        })
    }

    // Of the first attribute whose value is none that its base can have.
    fn bad_base_refused(
        &self,
        refused: Refused,
        root: &Entry<'_, '_>,
        has_skeleton: bool,
    ) -> Refused {
        let refused = Refused {
            entry: Some(root.offset()),
            attribute: self.bad_base(root, has_skeleton),
            ..refused
        };
        let place = self.section_offset(root.offset());
        refused.at(self.header().section(), place)
    }

    fn bad_base(&self, root: &Entry<'_, '_>, has_skeleton: bool) -> Option<DwAt> {
        // the first header of a section: a length and four bytes, and another four of lists
        let word = u64::from(self.header().offset_size());
        let (table, lists) = match self.header().version() {
            5.. => (2 * word, 2 * word + 4),
            _ => (0, 0),
        };
        let own = [
            (DW_AT_addr_base, table),
            (DW_AT_GNU_addr_base, 0),
            (DW_AT_low_pc, 0),
            (DW_AT_GNU_ranges_base, 0),
        ];
        let all = [
            (DW_AT_str_offsets_base, table),
            (DW_AT_rnglists_base, lists),
            (DW_AT_loclists_base, lists),
        ];
        let own = own.iter().filter(|_| !has_skeleton);
        let bad = own.chain(&all).find(|(name, least)| {
            let attribute = root.attr(*name);
            attribute.is_some_and(|attribute| is_bad(&attribute, *least))
        });
        bad.map(|(name, _)| *name)
    }
}

// Whether the value of a base is none that it can have.
fn is_bad(base: &Attribute<'_>, least: u64) -> bool {
    let is_low_pc = base.at_name() == DW_AT_low_pc;
    match base.raw_value() {
        AttributeValue::Addr(_) | AttributeValue::DebugAddrIndex(_) => !is_low_pc,
        AttributeValue::SecOffset(offset) => is_low_pc || offset < least,
        _ => true,
    }
}

// The table of addresses that a root names.
fn addr_base(root: &Entry<'_, '_>) -> Option<u64> {
    let base = root.attr(DW_AT_addr_base);
    base.or(root.attr(DW_AT_GNU_addr_base))?.number()
}
