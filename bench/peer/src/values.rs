// Numbers of refusals and of values of attributes, and sums over units, of the peer.
use crate::peer::mixed;
use gimli::*;

// The number by which the library names a refusal.
pub fn refused(sum: u64, error: Error) -> u64 {
    let number = match error {
        Error::UnexpectedEof(_) => 1,
        Error::BadUnsignedLeb128 => 2,
        Error::BadSignedLeb128 => 3,
        Error::UnknownReservedLength => 4,
        Error::UnknownVersion(_) => 5,
        Error::UnsupportedUnitType => 6,
        Error::UnsupportedAddressSize(_) => 7,
        Error::UnsupportedOffset => 9,
        Error::OffsetOutOfBounds => 11,
        Error::UnknownAbbreviation => 13,
        Error::UnknownForm => 14,
        Error::InvalidImplicitConst => 15,
        Error::AbbreviationTagZero => 19,
        Error::BadHasChildren => 20,
        Error::AttributeFormZero => 22,
        Error::DuplicateAbbreviationCode => 23,
        _ => 0,
    };
    mixed(sum, number)
}

#[allow(dead_code)]
pub fn number_of<R: Reader>(value: &AttributeValue<R>) -> u64 {
    match value {
        AttributeValue::Addr(address) => *address,
        AttributeValue::Block(bytes) => bytes.len().into_u64(),
        AttributeValue::Data1(number) => u64::from(*number),
        AttributeValue::Data2(number) => u64::from(*number),
        AttributeValue::Data4(number) => u64::from(*number),
        AttributeValue::Data8(number) => *number,
        AttributeValue::Sdata(number) => number.unsigned_abs(),
        AttributeValue::Udata(number) => *number,
        AttributeValue::Exprloc(expression) => expression.0.len().into_u64(),
        AttributeValue::Flag(flag) => u64::from(*flag),
        AttributeValue::SecOffset(offset) => offset.into_u64(),
        AttributeValue::DebugAddrIndex(index) => index.0.into_u64(),
        AttributeValue::UnitRef(offset) => offset.0.into_u64(),
        AttributeValue::DebugInfoRef(offset) => offset.0.into_u64(),
        AttributeValue::DebugLocListsIndex(index) => index.0.into_u64(),
        AttributeValue::DebugRngListsIndex(index) => index.0.into_u64(),
        AttributeValue::DebugTypesRef(signature) => signature.0,
        AttributeValue::DebugStrRef(offset) => offset.0.into_u64(),
        AttributeValue::DebugStrOffsetsIndex(index) => index.0.into_u64(),
        AttributeValue::DebugLineStrRef(offset) => offset.0.into_u64(),
        AttributeValue::String(text) => text.len().into_u64(),
        _ => 0,
    }
}

// The checksum over all units of `.debug_info`; a refused header's number is folded in.
#[allow(dead_code)]
pub fn over_units<R: Reader>(
    info: R,
    abbrev: R,
    with_unit: impl Fn(u64, &UnitHeader<R>, &DebugAbbrev<R>) -> u64,
) -> u64 {
    let debug_info = DebugInfo::from(info);
    let debug_abbrev = DebugAbbrev::from(abbrev);
    let mut units = debug_info.units();
    let mut sum = 0u64;
    loop {
        match units.next() {
            Ok(Some(unit)) => sum = with_unit(sum, &unit, &debug_abbrev),
            Ok(None) => return sum,
            Err(error) => sum = refused(sum, error),
        }
    }
}
