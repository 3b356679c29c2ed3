//! Cursors over the entries of units, and their trees.
//!
//! The first step of a unit is taken by one call, and the others by another, so that each step has two callers.

use crate::mixed;
use crate::trees::with_tree;
use crate::units::{refused, with_values};
use gimli_base::{DebugAbbrev, Reader, ReaderOffset, Result};
use gimli_headers::DebugInfo;
use gimli_units::{DebuggingInformationEntry, EntriesCursor, UnitHeader};
use std::alloc::Global;

/// How a cursor or a tree goes over a unit.
#[derive(Clone, Copy, Debug, PartialEq, Eq)]
pub enum Walk {
    /// To every entry, nulls too.
    Entries,
    /// To every entry that is no null.
    DepthFirst,
    /// To every entry that is no null, and all its attributes are looked at.
    Values,
    /// To the first child of the root and on to its siblings, 16 times.
    Siblings,
    /// To every node of the tree.
    Tree,
}

/// The checksum with an entry's offset and tag.
pub(crate) fn with_entry<R: Reader>(sum: u64, entry: &DebuggingInformationEntry<R, Global>) -> u64 {
    let place = mixed(sum, entry.offset().0.into_u64());
    mixed(place, u64::from(entry.tag().0))
}

// The next entry or null.
#[inline(always)]
fn next_entry<R: Reader>(
    sum: u64,
    cursor: &mut EntriesCursor<'_, R, Global>,
) -> Result<Option<u64>> {
    if !cursor.next_entry()? {
        return Ok(None);
    }
    match cursor.current() {
        Some(entry) => Ok(Some(with_entry(sum, entry))),
        None => Ok(Some(mixed(sum, 0))),
    }
}

#[inline(never)]
fn with_entries<R: Reader>(sum: u64, mut cursor: EntriesCursor<'_, R, Global>) -> u64 {
    let mut all = match next_entry(sum, &mut cursor) {
        Ok(Some(first)) => first,
        Ok(None) => return sum,
        Err(error) => return refused(sum, error),
    };
    for _ in 0..u64::MAX {
        match next_entry(all, &mut cursor) {
            Ok(Some(next)) => all = next,
            Ok(None) => break,
            Err(error) => return refused(all, error),
        }
    }
    all
}

// The next entry that is no null, with its depth.
#[inline(always)]
fn next_dfs<R: Reader>(sum: u64, cursor: &mut EntriesCursor<'_, R, Global>) -> Result<Option<u64>> {
    match cursor.next_dfs()? {
        Some(entry) => {
            let place = mixed(sum, entry.depth().unsigned_abs() as u64);
            Ok(Some(with_entry(place, entry)))
        }
        None => Ok(None),
    }
}

#[inline(never)]
fn with_depth_first<R: Reader>(sum: u64, mut cursor: EntriesCursor<'_, R, Global>) -> u64 {
    let mut all = match next_dfs(sum, &mut cursor) {
        Ok(Some(first)) => first,
        Ok(None) => return sum,
        Err(error) => return refused(sum, error),
    };
    for _ in 0..u64::MAX {
        match next_dfs(all, &mut cursor) {
            Ok(Some(next)) => all = next,
            Ok(None) => break,
            Err(error) => return refused(all, error),
        }
    }
    all
}

// The next entry that is no null, with its attributes.
#[inline(always)]
fn next_values<R: Reader>(
    sum: u64,
    cursor: &mut EntriesCursor<'_, R, Global>,
) -> Result<Option<u64>> {
    match cursor.next_dfs()? {
        Some(entry) => Ok(Some(with_values(sum, entry.attrs()))),
        None => Ok(None),
    }
}

#[inline(never)]
fn with_all_values<R: Reader>(sum: u64, mut cursor: EntriesCursor<'_, R, Global>) -> u64 {
    let mut all = match next_values(sum, &mut cursor) {
        Ok(Some(first)) => first,
        Ok(None) => return sum,
        Err(error) => return refused(sum, error),
    };
    for _ in 0..u64::MAX {
        match next_values(all, &mut cursor) {
            Ok(Some(next)) => all = next,
            Ok(None) => break,
            Err(error) => return refused(all, error),
        }
    }
    all
}

// The first child of the root.
fn first_child<R: Reader>(
    sum: u64,
    cursor: &mut EntriesCursor<'_, R, Global>,
) -> Result<Option<u64>> {
    if cursor.next_dfs()?.is_none() {
        return Ok(None);
    }
    match cursor.next_dfs()? {
        Some(child) => Ok(Some(with_entry(sum, child))),
        None => Ok(None),
    }
}

#[inline(always)]
fn next_sibling<R: Reader>(
    sum: u64,
    cursor: &mut EntriesCursor<'_, R, Global>,
) -> Result<Option<u64>> {
    match cursor.next_sibling()? {
        Some(sibling) => Ok(Some(with_entry(sum, sibling))),
        None => Ok(None),
    }
}

// The first child of the root, and the sibling after it.
fn first_siblings<R: Reader>(
    sum: u64,
    cursor: &mut EntriesCursor<'_, R, Global>,
) -> Result<Option<u64>> {
    match first_child(sum, cursor)? {
        Some(first) => next_sibling(first, cursor),
        None => Ok(None),
    }
}

#[inline(never)]
fn with_siblings<R: Reader>(sum: u64, mut cursor: EntriesCursor<'_, R, Global>) -> u64 {
    let mut all = match first_siblings(sum, &mut cursor) {
        Ok(Some(first)) => first,
        Ok(None) => return sum,
        Err(error) => return refused(sum, error),
    };
    for _ in 0..u64::MAX {
        match next_sibling(all, &mut cursor) {
            Ok(Some(next)) => all = next,
            Ok(None) => break,
            Err(error) => return refused(all, error),
        }
    }
    all
}

fn with_unit<R: Reader>(
    alloc: Global,
    walk: Walk,
    sum: u64,
    unit: &UnitHeader<R>,
    debug_abbrev: &DebugAbbrev<R>,
) -> u64 {
    let table = match unit.abbreviations(alloc, debug_abbrev) {
        Ok(table) => table,
        Err(error) => return refused(sum, error),
    };
    match walk {
        Walk::Entries => with_entries(sum, unit.entries(alloc, &table)),
        Walk::DepthFirst => with_depth_first(sum, unit.entries(alloc, &table)),
        Walk::Values => with_all_values(sum, unit.entries(alloc, &table)),
        Walk::Siblings => {
            let mut all = sum;
            for _ in 0..16 {
                all = with_siblings(all, unit.entries(alloc, &table));
            }
            all
        }
        Walk::Tree => match unit.entries_tree(alloc, &table, None) {
            Ok(tree) => with_tree(alloc, sum, tree),
            Err(error) => refused(sum, error),
        },
    }
}

/// A checksum of the entries of all units of `.debug_info` that a walk comes to; a refusal's number is folded in, and
/// the rest of its unit left out.
#[inline(never)]
pub fn checksum<R: Reader>(alloc: Global, walk: Walk, info: R, abbrev: R) -> u64 {
    let debug_info = DebugInfo::from(info);
    let debug_abbrev = DebugAbbrev::from(abbrev);
    let mut units = debug_info.units();
    let mut sum = 0u64;
    for _ in 0..u64::MAX {
        match units.next() {
            Ok(Some(unit)) => sum = with_unit(alloc, walk, sum, &unit, &debug_abbrev),
            Ok(None) => break,
            Err(error) => sum = refused(sum, error),
        }
    }
    sum
}
