// Cursors over the entries of units, by the peer.
use crate::peer::mixed;
use crate::values::{number_of, over_units, refused};
use gimli::*;

// How a cursor goes over a unit, as in the crate gimli_marks.
#[derive(Clone, Copy)]
pub enum Walk {
    Entries,
    DepthFirst,
    Values,
    Siblings,
}

fn with_entry<R: Reader>(sum: u64, entry: &DebuggingInformationEntry<'_, '_, R>) -> u64 {
    let place = mixed(sum, entry.offset().0.into_u64());
    mixed(place, u64::from(entry.tag().0))
}

#[inline(always)]
fn next_entry<R: Reader>(sum: u64, cursor: &mut EntriesCursor<'_, '_, R>) -> Result<Option<u64>> {
    if cursor.next_entry()?.is_none() {
        return Ok(None);
    }
    match cursor.current() {
        Some(entry) => Ok(Some(with_entry(sum, entry))),
        None => Ok(Some(mixed(sum, 0))),
    }
}

#[inline(never)]
fn with_entries<R: Reader>(sum: u64, mut cursor: EntriesCursor<'_, '_, R>) -> u64 {
    let mut all = match next_entry(sum, &mut cursor) {
        Ok(Some(first)) => first,
        Ok(None) => return sum,
        Err(error) => return refused(sum, error),
    };
    loop {
        match next_entry(all, &mut cursor) {
            Ok(Some(next)) => all = next,
            Ok(None) => return all,
            Err(error) => return refused(all, error),
        }
    }
}

// The peer tells by how much the depth has changed.
#[inline(always)]
fn next_dfs<R: Reader>(
    sum: u64,
    depth: &mut isize,
    cursor: &mut EntriesCursor<'_, '_, R>,
) -> Result<Option<u64>> {
    match cursor.next_dfs()? {
        Some((delta, entry)) => {
            *depth += delta;
            let place = mixed(sum, depth.unsigned_abs() as u64);
            Ok(Some(with_entry(place, entry)))
        }
        None => Ok(None),
    }
}

#[inline(never)]
fn with_depth_first<R: Reader>(sum: u64, mut cursor: EntriesCursor<'_, '_, R>) -> u64 {
    let mut depth = 0;
    let mut all = match next_dfs(sum, &mut depth, &mut cursor) {
        Ok(Some(first)) => first,
        Ok(None) => return sum,
        Err(error) => return refused(sum, error),
    };
    loop {
        match next_dfs(all, &mut depth, &mut cursor) {
            Ok(Some(next)) => all = next,
            Ok(None) => return all,
            Err(error) => return refused(all, error),
        }
    }
}

#[inline(never)]
fn with_values<R: Reader>(sum: u64, entry: &DebuggingInformationEntry<'_, '_, R>) -> Result<u64> {
    let mut all = sum;
    let mut attributes = entry.attrs();
    while let Some(attribute) = attributes.next()? {
        let number = number_of(&attribute.raw_value());
        all = mixed(mixed(all, u64::from(attribute.name().0)), number);
    }
    Ok(all)
}

#[inline(always)]
fn next_values<R: Reader>(sum: u64, cursor: &mut EntriesCursor<'_, '_, R>) -> Result<Option<u64>> {
    match cursor.next_dfs()? {
        Some((_, entry)) => Ok(Some(with_values(sum, entry)?)),
        None => Ok(None),
    }
}

#[inline(never)]
fn with_all_values<R: Reader>(sum: u64, mut cursor: EntriesCursor<'_, '_, R>) -> u64 {
    let mut all = match next_values(sum, &mut cursor) {
        Ok(Some(first)) => first,
        Ok(None) => return sum,
        Err(error) => return refused(sum, error),
    };
    loop {
        match next_values(all, &mut cursor) {
            Ok(Some(next)) => all = next,
            Ok(None) => return all,
            Err(error) => return refused(all, error),
        }
    }
}

fn first_child<R: Reader>(sum: u64, cursor: &mut EntriesCursor<'_, '_, R>) -> Result<Option<u64>> {
    if cursor.next_dfs()?.is_none() {
        return Ok(None);
    }
    match cursor.next_dfs()? {
        Some((_, entry)) => Ok(Some(with_entry(sum, entry))),
        None => Ok(None),
    }
}

#[inline(always)]
fn next_sibling<R: Reader>(sum: u64, cursor: &mut EntriesCursor<'_, '_, R>) -> Result<Option<u64>> {
    match cursor.next_sibling()? {
        Some(entry) => Ok(Some(with_entry(sum, entry))),
        None => Ok(None),
    }
}

fn first_siblings<R: Reader>(
    sum: u64,
    cursor: &mut EntriesCursor<'_, '_, R>,
) -> Result<Option<u64>> {
    match first_child(sum, cursor)? {
        Some(first) => next_sibling(first, cursor),
        None => Ok(None),
    }
}

#[inline(never)]
fn with_siblings<R: Reader>(sum: u64, mut cursor: EntriesCursor<'_, '_, R>) -> u64 {
    let mut all = match first_siblings(sum, &mut cursor) {
        Ok(Some(first)) => first,
        Ok(None) => return sum,
        Err(error) => return refused(sum, error),
    };
    loop {
        match next_sibling(all, &mut cursor) {
            Ok(Some(next)) => all = next,
            Ok(None) => return all,
            Err(error) => return refused(all, error),
        }
    }
}

fn with_unit<R: Reader>(
    walk: Walk,
    sum: u64,
    unit: &UnitHeader<R>,
    debug_abbrev: &DebugAbbrev<R>,
) -> u64 {
    let table = match unit.abbreviations(debug_abbrev) {
        Ok(table) => table,
        Err(error) => return refused(sum, error),
    };
    match walk {
        Walk::Entries => with_entries(sum, unit.entries(&table)),
        Walk::DepthFirst => with_depth_first(sum, unit.entries(&table)),
        Walk::Values => with_all_values(sum, unit.entries(&table)),
        Walk::Siblings => {
            let mut all = sum;
            for _ in 0..16 {
                all = with_siblings(all, unit.entries(&table));
            }
            all
        }
    }
}

#[inline(never)]
pub fn checksum<R: Reader>(walk: Walk, info: R, abbrev: R) -> u64 {
    over_units(info, abbrev, |sum, unit, debug_abbrev| {
        with_unit(walk, sum, unit, debug_abbrev)
    })
}
