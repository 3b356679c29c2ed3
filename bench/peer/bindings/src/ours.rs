// The rows of all units, by bindings/rust.
use crate::peer::mixed;
use gimli_proved::{AttributeValue, Error, Sections};

// The number that the peer's side has for a value too.
fn number_of(value: &AttributeValue<'_>) -> u64 {
    use AttributeValue::*;
    match value {
        Block(bytes) | Exprloc(bytes) | String(bytes) => bytes.len() as u64,
        Data16(_) => 16,
        Data1(number) => u64::from(*number),
        Data2(number) => u64::from(*number),
        Data4(number) => u64::from(*number),
        Sdata(number) => number.unsigned_abs(),
        Flag(flag) => u64::from(*flag),
        Addr(number) | Data8(number) | Udata(number) | SecOffset(number) | DebugAddrIndex(number) | UnitRef(number)
        | DebugInfoRef(number) | DebugLocListsIndex(number) | DebugRngListsIndex(number) | DebugTypesRef(number)
        | DebugStrRef(number) | DebugStrOffsetsIndex(number) | DebugLineStrRef(number) => *number,
        _ => 0,
    }
}

fn row(sum: u64, offset: u64, depth: isize, tag: u16, has_children: bool) -> u64 {
    let place = mixed(mixed(sum, offset), depth as u64);
    mixed(mixed(place, u64::from(tag)), u64::from(has_children))
}

// Refusals are folded in by their numbers.
fn or_refused(sum: &mut u64, result: Result<(), Error>) {
    if let Err(error) = result {
        *sum = mixed(*sum, u64::from(error.number()));
    }
}

fn sections<'a>(info: &'a [u8], abbrev: &'a [u8]) -> Sections<'a> {
    Sections { debug_info: info, debug_abbrev: abbrev, ..Sections::default() }
}

#[inline(never)]
pub fn attributes(info: &[u8], abbrev: &[u8]) -> (u64, u64) {
    let sections = sections(info, abbrev);
    let (mut sum, mut rows) = (0, 0);
    for unit in sections.units() {
        let result = unit.and_then(|unit| {
            let mut entries = sections.entries(&unit);
            while let Some(entry) = entries.next_entry()? {
                sum = row(sum, entry.offset(), entry.depth(), entry.tag(), entry.has_children());
                for attr in entry.attrs() {
                    sum = mixed(mixed(sum, u64::from(attr.name())), number_of(&attr.raw_value()));
                }
                rows += 1;
            }
            Ok(())
        });
        or_refused(&mut sum, result);
    }
    (sum, rows)
}

#[inline(never)]
pub fn rows(info: &[u8], abbrev: &[u8]) -> (u64, u64) {
    let sections = sections(info, abbrev);
    let (mut sum, mut rows) = (0, 0);
    for unit in sections.units() {
        let result = unit.and_then(|unit| {
            for read in sections.rows(&unit) {
                let it = read?;
                sum = row(sum, it.offset, it.depth, it.tag, it.has_children());
                rows += 1;
            }
            Ok(())
        });
        or_refused(&mut sum, result);
    }
    (sum, rows)
}
