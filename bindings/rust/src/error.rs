//! Refusals.

use crate::ROW_REFUSED;
use core::fmt;

const TOO_DEEP: u32 = 2;
const NO_LIST: u32 = 3;
const NO_BASE: u32 = 5;
const BAD_BASE: u32 = 6;
const NO_STRING: u32 = 7;
const NO_ADDRESS: u32 = 8;
const REFUSED: u32 = 256;
const LAST: u32 = ROW_REFUSED + 255;

// (of no status, so that no other language has it)
const OTHER_UNIT: &str = "The unit is one of other sections.";

macro_rules! errors {
    ($($number:literal $name:ident $text:literal)*) => {
        /// Why reading stopped, by gimli's names.
        #[derive(Clone, Copy, Debug, PartialEq, Eq, Hash)]
        #[non_exhaustive]
        pub enum Error {
            $(#[doc = $text] $name,)*
            /// The depth of a place is so great that depths after it may be out of range.
            TooDeep,
            /// The value of an attribute names no list.
            NoList,
            /// A value counts from a base that the unit does not have.
            NoBase,
            /// The attribute of a base is there, but its value is none that a base can have.
            BadBase,
            /// The value of an attribute is no text.
            NoString,
            /// The value of an attribute is no address.
            NoAddress,
            /// A unit is one of other sections: these have another at its offset.
            OtherUnit,
            /// The library's status is none that this crate knows.
            UnknownStatus,
        }

        impl Error {
            /// The number by which the library's tools name it; 0 of those that have none, from
            /// `TooDeep` on.
            pub fn number(self) -> u8 {
                match self {
                    $(Error::$name => $number,)*
                    _ => 0,
                }
            }

            // Of a status that is neither MORE nor END.
            pub(crate) fn of_status(status: u32) -> Error {
                match (status, status & 255) {
                    (TOO_DEEP, _) => Error::TooDeep,
                    (NO_LIST, _) => Error::NoList,
                    (NO_BASE, _) => Error::NoBase,
                    (BAD_BASE, _) => Error::BadBase,
                    (NO_STRING, _) => Error::NoString,
                    (NO_ADDRESS, _) => Error::NoAddress,
                    $((REFUSED..=LAST, $number) => Error::$name,)*
                    _ => Error::UnknownStatus,
                }
            }

            fn text(self) -> &'static str {
                match self {
                    $(Error::$name => $text,)*
                    Error::TooDeep => "The depth of the place is too great.",
                    Error::NoList => "The value names no list.",
                    Error::NoBase => "The value counts from a base that the unit does not have.",
                    Error::BadBase => "The attribute of a base has a value that no base can have.",
                    Error::NoString => "The value is no text.",
                    Error::NoAddress => "The value is no address.",
                    Error::UnknownStatus => "The status is unknown.",
                    Error::OtherUnit => OTHER_UNIT,
                }
            }
        }
    };
}

errors! {
    1 UnexpectedEof "The input ends before what should stand there."
    2 BadUnsignedLeb128 "An unsigned LEB128 number needs too many bits."
    3 BadSignedLeb128 "A signed LEB128 number needs too many bits."
    4 UnknownReservedLength "A length field has a reserved value."
    5 UnknownVersion "The version is unknown."
    6 UnknownUnitType "The type of a unit is unknown."
    7 UnsupportedAddressSize "No address has this number of bytes."
    8 UnsupportedSegmentSize "Segment selectors are not supported."
    9 UnsupportedOffset "A number does not fit an offset."
    10 UnsupportedOffsetSize "No offset has this number of bytes."
    11 OffsetOutOfBounds "An offset is out of bounds."
    12 NoEntryAtGivenOffset "No entry stands at the offset."
    13 InvalidAbbreviationCode "The code of an abbreviation is not declared."
    14 UnknownForm "The form of an attribute is unknown."
    15 InvalidImplicitConst "The number of an implicit constant is not declared."
    16 UnknownRangeListsEntry "The kind of an entry of a range list is unknown."
    17 UnknownLocListsEntry "The kind of an entry of a location list is unknown."
    18 AddressOverflow "A sum of addresses does not fit."
    19 AbbreviationTagZero "A declared tag is zero."
    20 InvalidAbbreviationChildren "A declared flag of children is neither 0 nor 1."
    21 AttributeNameZero "A declared name is zero, but not the form."
    22 AttributeFormZero "A declared form is zero, but not the name."
    23 DuplicateAbbreviationCode "A code is declared twice."
    24 OutOfMemory "Memory was refused; the call may be made again."
}

impl fmt::Display for Error {
    fn fmt(&self, f: &mut fmt::Formatter<'_>) -> fmt::Result {
        f.write_str(self.text())
    }
}

impl core::error::Error for Error {}

#[cfg(test)]
mod tests {
    use super::{Error, LAST};

    #[test]
    fn statuses() {
        assert_eq!(Error::of_status(2), Error::TooDeep);
        assert_eq!(Error::of_status(3), Error::NoList);
        let values = [5, 6, 7, 8].map(Error::of_status);
        use Error::{BadBase, NoAddress, NoBase, NoString};
        assert_eq!(values, [NoBase, BadBase, NoString, NoAddress]);
        assert_eq!(Error::of_status(256 + 2), Error::BadUnsignedLeb128);
        assert_eq!(Error::of_status(512 + 2), Error::BadUnsignedLeb128);
        assert_eq!(Error::of_status(256 + 24), Error::OutOfMemory);
        assert_eq!(Error::of_status(512 + 24).number(), 24);
        assert_eq!(Error::UnknownStatus.number(), 0);
        for status in [4, 9, 255, 256, 256 + 25, 512, LAST, LAST + 2, u32::MAX] {
            assert_eq!(Error::of_status(status), Error::UnknownStatus, "{status}");
        }
    }
}
