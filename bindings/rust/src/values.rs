//! Texts and addresses, by the values of attributes.

use crate::sys;
use crate::{Attribute, AttributeValue, Bases, Error, MORE, Result, Sections, UnitHeader};

impl<'a> Sections<'a> {
    /// The bytes of the text that an attribute of a unit's entry is, without the zero that ends
    /// them: in the attribute, in `.debug_str` or `.debug_line_str`, in `.debug_str` by an index of
    /// `.debug_str_offsets`, or in `.debug_str` of the supplementary file. Any other value is
    /// refused ([`Error::NoString`]).
    pub fn text(
        &self,
        unit: &UnitHeader,
        attribute: &Attribute<'a>,
        bases: &Bases,
    ) -> Result<&'a [u8]> {
        if let AttributeValue::String(text) = attribute.raw_value() {
            return Ok(text);
        }
        let mut text = sys::Text::default();
        let raw = self.raw(unit.types);
        match sys::string(&raw, &unit.unit, &attribute.attr, &bases.into(), &mut text) {
            MORE => Ok(self.bytes_of(&text)),
            status => Err(Error::of_status(status)),
        }
    }

    // The bytes of a text that does not lie in the unit.
    fn bytes_of(&self, text: &sys::Text) -> &'a [u8] {
        let section = match text.section {
            sys::STR => self.debug_str,
            sys::LINE_STR => self.debug_line_str,
            sys::SUP_STR => self.debug_str_sup,
            _ => &[],
        };
        let start = text.place as usize;
        section
            .get(start..start.saturating_add(text.length as usize))
            .unwrap_or_default()
    }

    /// The address that an attribute of a unit's entry is, in place or by an index of
    /// `.debug_addr`. Any other value is refused ([`Error::NoAddress`]).
    pub fn address(
        &self,
        unit: &UnitHeader,
        attribute: &Attribute<'_>,
        bases: &Bases,
    ) -> Result<u64> {
        if let AttributeValue::Addr(address) = attribute.raw_value() {
            return Ok(address);
        }
        let mut address = 0;
        let raw = self.raw(unit.types);
        match sys::address(
            &raw,
            &unit.unit,
            &attribute.attr,
            &bases.into(),
            &mut address,
        ) {
            MORE => Ok(address),
            status => Err(Error::of_status(status)),
        }
    }
}
