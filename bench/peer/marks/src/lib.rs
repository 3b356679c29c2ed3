//! The work of readers, of tables of abbreviations, of entries, of cursors and of lists, as a library to be timed: one call
//! for each task and reader.
#![tactic(auto)]

mod checks;
mod cursors;
mod lists;
mod numbers;
mod tables;
mod trees;
mod units;
mod words;

use cursors::Walk;
use gimli_base::{
    BigEndian, EndianSlice, Endianity, LittleEndian, Reader, RunTimeEndian, WholeSlice,
};
use lists::Kind;
use std::alloc::Global;
use units::Work;

/// What a task makes of the reader `first`, and of `second` or of the offsets in it; of a task that there is not, 0.
///
/// The tasks: 0, the sum of the unsigned LEB128 numbers; 1, 2 and 3, the sum of the words of 2, 4 and 8 bytes; 4, the
/// sum of the records of 2, 4 and 8 bytes; 5, a checksum of the tables of abbreviations at the offsets, each
/// declaration looked up by its code; 6, a checksum of their first declarations alone, so that reading the tables is
/// nearly all of the work; 7, a checksum of the unsigned LEB128 numbers taken in twos; 8, 9 and 10, a checksum of the
/// entries of `.debug_info`, with `.debug_abbrev` in `second`: read as a whole, their attributes read into a list, and
/// their attributes passed; 11 to 14, a checksum of the entries that a cursor comes to, as `Walk` lists its ways; 15, a
/// checksum of the range lists that `second` names; 16, a checksum of the ranges of addresses; 17, of the location lists that
/// `second` names; 18, of the entries of whole trees; 19, of the first false reference of each unit.
#[inline(never)]
fn task_of<R: Reader>(
    alloc: Global,
    task: u64,
    first: R,
    second: R,
    offsets: EndianSlice<'_, LittleEndian>,
) -> u64 {
    match task {
        0 => numbers::sum(first),
        1 => words::sum_of_2(first),
        2 => words::sum_of_4(first),
        3 => words::sum_of_8(first),
        4 => words::sum_of_records(first),
        5 => tables::checksum(alloc, first, offsets),
        6 => tables::checksum_of_first(alloc, first, offsets),
        7 => numbers::checksum_in_twos(first),
        8 => units::checksum(alloc, Work::Entry, first, second),
        9 => units::checksum(alloc, Work::Attributes, first, second),
        10 => units::checksum(alloc, Work::Pass, first, second),
        11 => cursors::checksum(alloc, Walk::Entries, first, second),
        12 => cursors::checksum(alloc, Walk::DepthFirst, first, second),
        13 => cursors::checksum(alloc, Walk::Values, first, second),
        14 => cursors::checksum(alloc, Walk::Siblings, first, second),
        15 => lists::checksum(Kind::Ranges, first, second, offsets),
        16 => lists::checksum_of_addresses(first),
        17 => lists::checksum(Kind::Locations, first, second, offsets),
        18 => cursors::checksum(alloc, Walk::Tree, first, second),
        19 => checks::checksum(alloc, first, second),
        _ => 0,
    }
}

fn in_order<E: Endianity>(alloc: Global, task: u64, endian: E, first: &[u8], second: &[u8]) -> u64 {
    task_of(
        alloc,
        task,
        EndianSlice::new(first, endian),
        EndianSlice::new(second, endian),
        EndianSlice::new(second, LittleEndian),
    )
}

// Of bytes that are too many for the reader, 0.
fn in_whole<E: Endianity>(alloc: Global, task: u64, endian: E, first: &[u8], second: &[u8]) -> u64 {
    let most = u32::MAX as usize;
    if first.len() > most || second.len() > most {
        return 0;
    }
    task_of(
        alloc,
        task,
        WholeSlice::new(first, endian),
        WholeSlice::new(second, endian),
        EndianSlice::new(second, LittleEndian),
    )
}

/// Runs a task (`task_of` lists them) over a reader: 0 is `EndianSlice` of `LittleEndian`, 1 of `BigEndian`, 2 and 3 of
/// the little and the big order of `RunTimeEndian`, and 4 is `WholeSlice` of `LittleEndian`. The offsets in `second` are
/// words of 8 bytes, little endian.
#[unsafe(no_mangle)]
pub extern "C" fn gimli_marks(
    alloc: Global,
    task: u64,
    order: u64,
    first: &[u8],
    second: &[u8],
) -> u64 {
    match order {
        0 => in_order(alloc, task, LittleEndian, first, second),
        1 => in_order(alloc, task, BigEndian, first, second),
        2 => in_order(alloc, task, RunTimeEndian::Little, first, second),
        3 => in_order(alloc, task, RunTimeEndian::Big, first, second),
        _ => in_whole(alloc, task, LittleEndian, first, second),
    }
}

/// A checksum with one more value folded into it.
#[inline]
fn mixed(sum: u64, value: u64) -> u64 {
    sum.wrapping_mul(31).wrapping_add(value)
}
