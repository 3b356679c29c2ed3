//! What the values of a unit count from.

use crate::{Error, MORE, Result, Sections, UnitHeader, sys};

/// What the values of a unit count from, as [`Sections::bases`] reads it from its root. None is
/// what nothing gives; a value that counts from it is refused ([`Error::NoBase`]). So is one that
/// counts from a base in the first header of its section, in version 5.
///
/// The default is that of a program's unit whose root has no attribute.
#[derive(Clone, Copy, Debug, PartialEq, Eq)]
pub struct Bases {
    /// `DW_AT_low_pc`: from it lists count, up to an entry that gives another address. 0 where a
    /// program's unit has none, and that of the skeleton of a split unit.
    pub low_pc: Option<u64>,
    /// `DW_AT_addr_base`: where the unit's table begins in `.debug_addr`.
    pub addr_base: Option<u64>,
    /// `DW_AT_str_offsets_base`: where its table begins in `.debug_str_offsets`.
    pub str_offsets_base: Option<u64>,
    /// `DW_AT_rnglists_base`: where its table begins in `.debug_rnglists`.
    pub rnglists_base: Option<u64>,
    /// `DW_AT_loclists_base`: where its table begins in `.debug_loclists`.
    pub loclists_base: Option<u64>,
    /// `DW_AT_GNU_ranges_base`: what `DW_AT_ranges` counts from in a split unit before version 5.
    pub gnu_ranges_base: Option<u64>,
    /// Whether the unit is one of a split file.
    pub is_dwo: bool,
}

impl Default for Bases {
    fn default() -> Self {
        Bases {
            low_pc: Some(0),
            addr_base: None,
            str_offsets_base: None,
            rnglists_base: None,
            loclists_base: None,
            gnu_ranges_base: None,
            is_dwo: false,
        }
    }
}

// A base as a number, and whether there is none.
fn number_of(base: Option<u64>) -> (u64, u8) {
    (base.unwrap_or(0), base.is_none().into())
}

// The same as a base.
fn base_of(number: u64, is_missing: u8) -> Option<u64> {
    (is_missing == 0).then_some(number)
}

impl From<&Bases> for sys::Bases {
    #[inline]
    fn from(bases: &Bases) -> Self {
        let (address, no_address) = number_of(bases.low_pc);
        let (addresses, no_addresses) = number_of(bases.addr_base);
        let (rnglists, no_rnglists) = number_of(bases.rnglists_base);
        let (loclists, no_loclists) = number_of(bases.loclists_base);
        let (str_offsets, no_str_offsets) = number_of(bases.str_offsets_base);
        let (gnu_ranges, no_gnu_ranges) = number_of(bases.gnu_ranges_base);
        sys::Bases {
            address,
            addresses,
            rnglists,
            loclists,
            str_offsets,
            gnu_ranges,
            dwo: bases.is_dwo.into(),
            no_address,
            no_addresses,
            no_rnglists,
            no_loclists,
            no_str_offsets,
            no_gnu_ranges,
        }
    }
}

impl From<&sys::Bases> for Bases {
    fn from(raw: &sys::Bases) -> Self {
        Bases {
            low_pc: base_of(raw.address, raw.no_address),
            addr_base: base_of(raw.addresses, raw.no_addresses),
            str_offsets_base: base_of(raw.str_offsets, raw.no_str_offsets),
            rnglists_base: base_of(raw.rnglists, raw.no_rnglists),
            loclists_base: base_of(raw.loclists, raw.no_loclists),
            gnu_ranges_base: base_of(raw.gnu_ranges, raw.no_gnu_ranges),
            is_dwo: raw.dwo != 0,
        }
    }
}

impl<'a> Sections<'a> {
    /// The bases of a unit, by its root. [`crate::Unit`] has them.
    pub fn bases(&self, unit: &UnitHeader) -> Result<Bases> {
        self.read_bases(unit, false, None)
    }

    /// The same of a unit of a split file: `low_pc`, `addr_base` and `gnu_ranges_base` are those of
    /// its skeleton unit in the program, if that is at hand.
    pub fn dwo_bases(&self, unit: &UnitHeader, skeleton: Option<&Bases>) -> Result<Bases> {
        self.read_bases(unit, true, skeleton)
    }

    pub(crate) fn read_bases(
        &self,
        unit: &UnitHeader,
        is_dwo: bool,
        skeleton: Option<&Bases>,
    ) -> Result<Bases> {
        let mut bases = sys::Bases::default();
        let skeleton = skeleton.map(sys::Bases::from);
        let raw = self.raw(unit.types);
        match sys::unit_bases(&raw, unit.offset(), is_dwo, skeleton.as_ref(), &mut bases) {
            MORE => Ok(Bases::from(&bases)),
            status => Err(Error::of_status(status)),
        }
    }
}
