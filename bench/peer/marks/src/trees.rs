//! Trees of the entries of units.
//!
//! The first child of a root is read by one call, and the other nodes by another, so that each step has two callers.

use crate::cursors::with_entry;
use crate::mixed;
use crate::units::refused;
use gimli_base::{Reader, Result};
use gimli_units::{EntriesTree, EntriesTreeWalker};
use std::alloc::Global;

// The checksum with the depth and the entry of the node that a walk stands on, which is entered.
#[inline(always)]
fn with_node<R: Reader>(sum: u64, walker: &mut EntriesTreeWalker<'_, R, Global>) -> Result<u64> {
    let all = match walker.entry() {
        Some(entry) => with_entry(mixed(sum, entry.depth().unsigned_abs() as u64), entry),
        None => sum,
    };
    walker.enter()?;
    Ok(all)
}

// The next node of the innermost list; after its last the walk goes on in the list around it.
#[inline(always)]
fn next_node<R: Reader>(sum: u64, walker: &mut EntriesTreeWalker<'_, R, Global>) -> Result<u64> {
    if walker.next()? {
        with_node(sum, walker)
    } else {
        walker.leave();
        Ok(sum)
    }
}

// The root and its first child.
fn first_nodes<R: Reader>(sum: u64, walker: &mut EntriesTreeWalker<'_, R, Global>) -> Result<u64> {
    walker.root()?;
    let all = with_node(sum, walker)?;
    next_node(all, walker)
}

/// The checksum with all nodes of a tree: the depth, the offset and the tag of each.
#[inline(never)]
pub(crate) fn with_tree<R: Reader>(
    alloc: Global,
    sum: u64,
    tree: EntriesTree<'_, R, Global>,
) -> u64 {
    let mut walker = tree.walk(alloc);
    let mut all = match first_nodes(sum, &mut walker) {
        Ok(first) => first,
        Err(error) => return refused(sum, error),
    };
    for _ in 0..u64::MAX {
        if walker.list_count() == 0 {
            break;
        }
        match next_node(all, &mut walker) {
            Ok(next) => all = next,
            Err(error) => return refused(all, error),
        }
    }
    all
}
