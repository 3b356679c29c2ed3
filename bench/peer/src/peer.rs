// The same work by the peer, gimli 0.27.0.
#[cfg(feature = "cursors")]
use crate::cursors::{self, Walk};
#[cfg(any(feature = "lists", feature = "locations"))]
use crate::lists::{self, Kind};
#[cfg(feature = "trees")]
use crate::trees;
#[cfg(feature = "entries")]
use crate::units::{self, Work};
use gimli::*;

mod numbers {
    use super::*;

    #[inline(never)]
    pub fn sum<R: Reader>(mut input: R) -> u64 {
        let mut sum = 0u64;
        while let Ok(value) = input.read_uleb128() {
            sum = sum.wrapping_add(value);
        }
        sum
    }

    fn two<R: Reader>(input: &mut R) -> Result<u64> {
        let one = input.read_uleb128()?;
        let other = input.read_uleb128()?;
        Ok(mixed(one, other))
    }

    #[inline(never)]
    pub fn checksum_in_twos<R: Reader>(mut input: R) -> u64 {
        let mut sum = 0u64;
        while let Ok(value) = two(&mut input) {
            sum = mixed(sum, value);
        }
        sum
    }
}

mod words {
    use super::*;

    #[inline(never)]
    pub fn sum_of_2<R: Reader>(mut input: R) -> u64 {
        let mut sum = 0u64;
        while let Ok(value) = input.read_u16() {
            sum = sum.wrapping_add(u64::from(value));
        }
        sum
    }

    #[inline(never)]
    pub fn sum_of_4<R: Reader>(mut input: R) -> u64 {
        let mut sum = 0u64;
        while let Ok(value) = input.read_u32() {
            sum = sum.wrapping_add(u64::from(value));
        }
        sum
    }

    #[inline(never)]
    pub fn sum_of_8<R: Reader>(mut input: R) -> u64 {
        let mut sum = 0u64;
        while let Ok(value) = input.read_u64() {
            sum = sum.wrapping_add(value);
        }
        sum
    }

    fn record<R: Reader>(input: &mut R) -> Result<u64> {
        let two = input.read_u16()?;
        let four = input.read_u32()?;
        let eight = input.read_u64()?;
        Ok(mixed(mixed(u64::from(two), u64::from(four)), eight))
    }

    #[inline(never)]
    pub fn sum_of_records<R: Reader>(mut input: R) -> u64 {
        let mut sum = 0u64;
        while let Ok(value) = record(&mut input) {
            sum = sum.wrapping_add(value);
        }
        sum
    }
}

mod tables {
    use super::*;

    fn with_specification(sum: u64, specification: &AttributeSpecification) -> u64 {
        let name = u64::from(specification.name().0);
        let form = u64::from(specification.form().0);
        let named = mixed(mixed(sum, name), form);
        match specification.implicit_const_value() {
            Some(number) => mixed(mixed(named, number.unsigned_abs()), u64::from(number < 0)),
            None => named,
        }
    }

    fn with_declaration(sum: u64, declared: &Abbreviation) -> u64 {
        let head = mixed(mixed(sum, declared.code()), u64::from(declared.tag().0));
        let mut all = mixed(head, u64::from(declared.has_children()));
        for specification in declared.attributes() {
            all = with_specification(all, specification);
        }
        all
    }

    #[inline(never)]
    fn with_table(sum: u64, table: &Abbreviations) -> u64 {
        let mut all = sum;
        for code in 1..u64::MAX {
            match table.get(code) {
                Some(declared) => all = with_declaration(all, declared),
                None => break,
            }
        }
        all
    }

    #[inline(never)]
    fn with_first(sum: u64, table: &Abbreviations) -> u64 {
        match table.get(1) {
            Some(declared) => mixed(mixed(sum, declared.code()), u64::from(declared.tag().0)),
            None => mixed(sum, 0),
        }
    }

    fn whole<R: Reader>(
        section: &DebugAbbrev<R>,
        mut offsets: EndianSlice<'_, LittleEndian>,
    ) -> Result<u64> {
        let mut sum = 0u64;
        while !offsets.is_empty() {
            let offset = R::Offset::from_u64(offsets.read_u64()?)?;
            let table = section.abbreviations(DebugAbbrevOffset(offset))?;
            sum = with_table(sum, &table);
        }
        Ok(sum)
    }

    fn first<R: Reader>(
        section: &DebugAbbrev<R>,
        mut offsets: EndianSlice<'_, LittleEndian>,
    ) -> Result<u64> {
        let mut sum = 0u64;
        while !offsets.is_empty() {
            let offset = R::Offset::from_u64(offsets.read_u64()?)?;
            let table = section.abbreviations(DebugAbbrevOffset(offset))?;
            sum = with_first(sum, &table);
        }
        Ok(sum)
    }

    #[inline(never)]
    pub fn checksum<R: Reader>(input: R, offsets: EndianSlice<'_, LittleEndian>) -> u64 {
        whole(&DebugAbbrev::from(input), offsets).unwrap_or(0)
    }

    #[inline(never)]
    pub fn checksum_of_first<R: Reader>(input: R, offsets: EndianSlice<'_, LittleEndian>) -> u64 {
        first(&DebugAbbrev::from(input), offsets).unwrap_or(0)
    }
}

#[cfg(feature = "entries")]
fn entries<E: Endianity>(work: Work, endian: E, first: &[u8], second: &[u8]) -> u64 {
    let info = EndianSlice::new(first, endian);
    units::checksum(work, info, EndianSlice::new(second, endian))
}

#[cfg(feature = "cursors")]
fn walk<E: Endianity>(walk: Walk, endian: E, first: &[u8], second: &[u8]) -> u64 {
    let info = EndianSlice::new(first, endian);
    cursors::checksum(walk, info, EndianSlice::new(second, endian))
}

#[inline(never)]
fn task_of<E: Endianity>(task: u64, endian: E, first: &[u8], second: &[u8]) -> u64 {
    let offsets = EndianSlice::new(second, LittleEndian);
    match task {
        0 => numbers::sum(EndianSlice::new(first, endian)),
        1 => words::sum_of_2(EndianSlice::new(first, endian)),
        2 => words::sum_of_4(EndianSlice::new(first, endian)),
        3 => words::sum_of_8(EndianSlice::new(first, endian)),
        4 => words::sum_of_records(EndianSlice::new(first, endian)),
        5 => tables::checksum(EndianSlice::new(first, endian), offsets),
        6 => tables::checksum_of_first(EndianSlice::new(first, endian), offsets),
        7 => numbers::checksum_in_twos(EndianSlice::new(first, endian)),
        #[cfg(feature = "entries")]
        8 => entries(Work::Entry, endian, first, second),
        #[cfg(feature = "entries")]
        9 => entries(Work::Attributes, endian, first, second),
        #[cfg(feature = "entries")]
        10 => entries(Work::Pass, endian, first, second),
        #[cfg(feature = "entries")]
        19 => entries(Work::Alone, endian, first, second),
        #[cfg(feature = "cursors")]
        11 => walk(Walk::Entries, endian, first, second),
        #[cfg(feature = "cursors")]
        12 => walk(Walk::DepthFirst, endian, first, second),
        #[cfg(feature = "cursors")]
        13 => walk(Walk::Values, endian, first, second),
        #[cfg(feature = "cursors")]
        14 => walk(Walk::Siblings, endian, first, second),
        #[cfg(feature = "lists")]
        15 => {
            let section = EndianSlice::new(first, endian);
            let second = EndianSlice::new(second, endian);
            lists::checksum(Kind::Ranges, section, second, offsets)
        }
        #[cfg(feature = "lists")]
        16 => lists::checksum_of_addresses(EndianSlice::new(first, endian)),
        #[cfg(feature = "locations")]
        17 => {
            let section = EndianSlice::new(first, endian);
            let second = EndianSlice::new(second, endian);
            lists::checksum(Kind::Locations, section, second, offsets)
        }
        #[cfg(feature = "trees")]
        18 => {
            let info = EndianSlice::new(first, endian);
            trees::checksum(info, EndianSlice::new(second, endian))
        }
        _ => 0,
    }
}

// Runs a task in a byte order, both numbered as in the crate gimli_marks. The peer has one reader over slices, so the
// last number is the little order again.
pub fn marks(task: u64, order: u64, first: &[u8], second: &[u8]) -> u64 {
    match order {
        0 => task_of(task, LittleEndian, first, second),
        1 => task_of(task, BigEndian, first, second),
        2 => task_of(task, RunTimeEndian::Little, first, second),
        3 => task_of(task, RunTimeEndian::Big, first, second),
        _ => task_of(task, LittleEndian, first, second),
    }
}

#[inline]
pub fn mixed(sum: u64, value: u64) -> u64 {
    sum.wrapping_mul(31).wrapping_add(value)
}
