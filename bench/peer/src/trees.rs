// Trees of the entries of units, by the peer.
use crate::peer::mixed;
use crate::values::{over_units, refused};
use gimli::*;

fn with_node<R: Reader>(
    sum: u64,
    depth: u64,
    node: EntriesTreeNode<'_, '_, '_, R>,
) -> Result<u64> {
    let entry = node.entry();
    let place = mixed(mixed(sum, depth), entry.offset().0.into_u64());
    let mut all = mixed(place, u64::from(entry.tag().0));
    let mut children = node.children();
    while let Some(child) = children.next()? {
        all = with_node(all, depth + 1, child)?;
    }
    Ok(all)
}

#[inline(never)]
fn with_tree<R: Reader>(sum: u64, mut tree: EntriesTree<'_, '_, R>) -> u64 {
    let all = tree.root().and_then(|root| with_node(sum, 0, root));
    all.unwrap_or_else(|error| refused(sum, error))
}

fn with_unit<R: Reader>(sum: u64, unit: &UnitHeader<R>, debug_abbrev: &DebugAbbrev<R>) -> u64 {
    let table = match unit.abbreviations(debug_abbrev) {
        Ok(table) => table,
        Err(error) => return refused(sum, error),
    };
    match unit.entries_tree(&table, None) {
        Ok(tree) => with_tree(sum, tree),
        Err(error) => refused(sum, error),
    }
}

#[inline(never)]
pub fn checksum<R: Reader>(info: R, abbrev: R) -> u64 {
    over_units(info, abbrev, with_unit)
}
