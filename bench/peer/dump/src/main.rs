// peer_dump INFO ABBREV: the lines of `gimli_walk_program dump`, by gimli 0.27.0, through a buffered writer.
use gimli::{DebugAbbrev, DebugInfo, EndianSlice, LittleEndian, UnitHeader, UnitSectionOffset, UnitType};
use std::io::{self, BufWriter, Write};

type Bytes<'a> = EndianSlice<'a, LittleEndian>;

fn type_number(unit: &UnitHeader<Bytes>) -> u8 {
    match unit.type_() {
        UnitType::Compilation => 1,
        UnitType::Type { .. } => 2,
        UnitType::Partial => 3,
        UnitType::Skeleton(_) => 4,
        UnitType::SplitCompilation(_) => 5,
        UnitType::SplitType { .. } => 6,
    }
}

// The rows of a unit: each attribute is read, as our program does. A refusal ends the program: the corpora have none.
fn write_rows(
    unit: &UnitHeader<Bytes>,
    debug_abbrev: &DebugAbbrev<Bytes>,
    out: &mut impl Write,
) -> io::Result<()> {
    let table = unit.abbreviations(debug_abbrev).expect("a table");
    let mut entries = unit.entries_raw(&table, None).expect("entries");
    let mut attributes = Vec::new();
    while !entries.is_empty() {
        let (offset, depth) = (entries.next_offset().0, entries.next_depth());
        let (mut tag, mut children) = (0, 0);
        if let Some(declared) = entries.read_abbreviation().expect("a code") {
            attributes.clear();
            for specification in declared.attributes() {
                attributes.push(entries.read_attribute(*specification).expect("an attribute"));
            }
            (tag, children) = (declared.tag().0, u8::from(declared.has_children()));
        }
        writeln!(out, "{offset:x} {depth} {tag:x} {children}")?;
    }
    writeln!(out, "end")
}

fn main() -> io::Result<()> {
    let paths: Vec<String> = std::env::args().skip(1).collect();
    let (info, abbrev) = (std::fs::read(&paths[0])?, std::fs::read(&paths[1])?);
    let debug_info = DebugInfo::new(&info, LittleEndian);
    let debug_abbrev = DebugAbbrev::new(&abbrev, LittleEndian);
    let mut out = BufWriter::with_capacity(1 << 16, io::stdout().lock());
    let mut units = debug_info.units();
    while let Some(unit) = units.next().expect("a header") {
        if let UnitSectionOffset::DebugInfoOffset(offset) = unit.offset() {
            writeln!(out, "unit {:x} {} {:x}", offset.0, unit.version(), type_number(&unit))?;
        }
        write_rows(&unit, &debug_abbrev, &mut out)?;
    }
    out.flush()
}
