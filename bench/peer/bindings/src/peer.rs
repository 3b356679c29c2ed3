// The rows of all units, by gimli 0.27.0's raw reader.
use crate::values::{number_of, refused};
use gimli::*;

#[inline]
pub fn mixed(sum: u64, value: u64) -> u64 {
    sum.wrapping_mul(31).wrapping_add(value)
}

type Slice<'a> = EndianSlice<'a, LittleEndian>;

// What is done with the attributes of an entry: they are folded into the sum, or passed.
trait Work {
    fn with(sum: u64, entries: &mut EntriesRaw<'_, '_, Slice<'_>>, declared: &Abbreviation) -> Result<u64>;
}

struct Fold;
struct Pass;

impl Work for Fold {
    #[inline(always)]
    fn with(mut sum: u64, entries: &mut EntriesRaw<'_, '_, Slice<'_>>, declared: &Abbreviation) -> Result<u64> {
        for specification in declared.attributes() {
            let attribute = entries.read_attribute(*specification)?;
            sum = mixed(mixed(sum, u64::from(attribute.name().0)), number_of(&attribute.raw_value()));
        }
        Ok(sum)
    }
}

impl Work for Pass {
    #[inline(always)]
    fn with(sum: u64, entries: &mut EntriesRaw<'_, '_, Slice<'_>>, declared: &Abbreviation) -> Result<u64> {
        entries.skip_attributes(declared.attributes())?;
        Ok(sum)
    }
}

#[inline(always)]
fn next<W: Work>(sum: u64, entries: &mut EntriesRaw<'_, '_, Slice<'_>>) -> Result<u64> {
    let place = mixed(mixed(sum, entries.next_offset().0 as u64), entries.next_depth() as u64);
    match entries.read_abbreviation()? {
        Some(declared) => {
            let row = mixed(mixed(place, u64::from(declared.tag().0)), u64::from(declared.has_children()));
            W::with(row, entries, declared)
        }
        None => Ok(mixed(mixed(place, 0), 0)),
    }
}

fn unit<W: Work>(sum: &mut u64, rows: &mut u64, header: &UnitHeader<Slice<'_>>, abbrev: &DebugAbbrev<Slice<'_>>) -> Result<()> {
    let table = header.abbreviations(abbrev)?;
    let mut entries = header.entries_raw(&table, None)?;
    while !entries.is_empty() {
        *sum = next::<W>(*sum, &mut entries)?;
        *rows += 1;
    }
    Ok(())
}

fn units<W: Work>(info: &[u8], abbrev: &[u8]) -> (u64, u64) {
    let debug_abbrev = DebugAbbrev::new(abbrev, LittleEndian);
    let mut headers = DebugInfo::new(info, LittleEndian).units();
    let (mut sum, mut rows) = (0, 0);
    loop {
        match headers.next() {
            Ok(Some(header)) => {
                if let Err(error) = unit::<W>(&mut sum, &mut rows, &header, &debug_abbrev) {
                    sum = refused(sum, error);
                }
            }
            Ok(None) => return (sum, rows),
            Err(error) => return (refused(sum, error), rows),
        }
    }
}

#[inline(never)]
pub fn attributes(info: &[u8], abbrev: &[u8]) -> (u64, u64) {
    units::<Fold>(info, abbrev)
}

#[inline(never)]
pub fn rows(info: &[u8], abbrev: &[u8]) -> (u64, u64) {
    units::<Pass>(info, abbrev)
}
