//! `function_at ELF ADDRESS`: prints the unit, the name and the ranges of the function at an
//! address of a linked program: the one whose code is there, and not one that is inlined into it.
//! The exit status is 1 where there is none, and 2 where something is refused.

use gimli_proved::{
    AttributeValue, DW_AT_GNU_dwo_name, DW_AT_MIPS_linkage_name, DW_AT_abstract_origin, DW_AT_dwo_name,
    DW_AT_linkage_name, DW_AT_name, DW_AT_specification, DW_TAG_subprogram, DW_UT_skeleton, DwAt, Entry, Error, Range,
    Refused, Sections, Unit,
};
use std::{io::Write, process::ExitCode};

const MOST_STEPS: usize = 16;

const USAGE: &str = "usage: function_at ELF ADDRESS (functions that are inlined there are passed over)";

/// What the library refuses, with what stands there and where.
struct Stopped(Error, &'static str, u64);

impl From<Refused> for Stopped {
    fn from(refused: Refused) -> Self {
        let unit = refused.unit.unwrap_or(0);
        match refused.entry.filter(|_| refused.attribute.is_none()) {
            Some(entry) => Stopped(refused.error, "the entry at", unit + entry),
            None => Stopped(refused.error, "the unit at", unit),
        }
    }
}

/// The search for the function of an address. Beside it what is met on the way, and said where no
/// function is found: the first skeleton unit that has the address, with the name of its other file,
/// and the first list of ranges that is refused.
struct Search<'a> {
    address: u64,
    out: Vec<u8>,
    skeleton: Option<(u64, &'a [u8])>,
    refused: Option<Stopped>,
}

/// The first attribute of a name, or else of another.
fn find<'a>(entry: &Entry<'a, '_>, names: [DwAt; 2]) -> Option<gimli_proved::Attribute<'a>> {
    entry.attr(names[0]).or(entry.attr(names[1]))
}

impl<'a> Search<'a> {
    fn has_address(&self, ranges: &[Range]) -> bool {
        ranges.iter().any(|range| (range.begin..range.end).contains(&self.address))
    }

    /// The ranges of an entry, without those from 0 on, which the linker leaves of a function that
    /// it discards; none where they are refused.
    fn ranges_of(&mut self, unit: &Unit<'a>, entry: &Entry<'a, '_>) -> Vec<Range> {
        let mut ranges = unit.die_ranges(entry).unwrap_or_else(|refused| {
            let stopped = Stopped(refused.error, "the ranges of the unit at", unit.header().offset());
            self.refused.get_or_insert(stopped);
            vec![]
        });
        ranges.retain(|range| range.begin != 0);
        ranges
    }

    /// The line of the first attribute of a name, or else of another, of an entry or of the entries
    /// that it stands for.
    fn print_text(
        &mut self,
        word: &str,
        unit: &Unit<'a>,
        entry: &Entry<'a, '_>,
        names: [DwAt; 2],
        steps: usize,
    ) -> Result<(), Stopped> {
        if let Some(attr) = find(entry, names) {
            let text = unit.text(&attr).unwrap_or(b"");
            self.out.extend([word.as_bytes(), b" ", text, b"\n"].concat());
            return Ok(());
        }
        let origin = find(entry, [DW_AT_abstract_origin, DW_AT_specification]).map(|origin| origin.raw_value());
        match origin.filter(|_| steps > 1) {
            Some(AttributeValue::UnitRef(offset)) => {
                self.print_text(word, unit, &unit.entry_at(offset)?.entry(), names, steps - 1)
            }
            Some(AttributeValue::DebugInfoRef(offset)) => {
                let unit = unit.sections().unit_holding(offset)?;
                let entry = unit.entry_at(offset - unit.header().offset())?;
                self.print_text(word, &unit, &entry.entry(), names, steps - 1)
            }
            _ => Ok(()),
        }
    }

    /// Whether an entry is the function of the address; then it is printed.
    fn is_function(&mut self, unit: &Unit<'a>, entry: &Entry<'a, '_>) -> Result<bool, Stopped> {
        let ranges = self.ranges_of(unit, entry);
        if !self.has_address(&ranges) {
            return Ok(false);
        }
        self.out.extend(format!("unit {:#x}\n", unit.header().offset()).bytes());
        self.print_text("unit name", unit, &unit.root()?.entry(), [DW_AT_name; 2], MOST_STEPS)?;
        self.print_text("function", unit, entry, [DW_AT_name; 2], MOST_STEPS)?;
        self.print_text("linkage name", unit, entry, [DW_AT_linkage_name, DW_AT_MIPS_linkage_name], MOST_STEPS)?;
        for range in ranges {
            self.out.extend(format!("range {:#x} {:#x}\n", range.begin, range.end).bytes());
        }
        Ok(true)
    }

    /// Keeps in mind that the unit of a root has the address but is a skeleton, whose functions are
    /// in another file.
    fn meet_root(&mut self, unit: &Unit<'a>, root: &Entry<'a, '_>) {
        let name = find(root, [DW_AT_dwo_name, DW_AT_GNU_dwo_name]);
        if self.skeleton.is_some() || (name.is_none() && unit.header().ut_name() != DW_UT_skeleton) {
            return;
        }
        let ranges = self.ranges_of(unit, root);
        if self.has_address(&ranges) {
            let text = name.and_then(|name| unit.text(&name).ok());
            self.skeleton = Some((unit.header().offset(), text.unwrap_or(b"")));
        }
    }

    /// Looks for the function in a unit.
    fn is_in_unit(&mut self, unit: &Unit<'a>) -> Result<bool, Stopped> {
        let mut entries = unit.entries();
        while let Some(entry) = entries.next_entry()? {
            if entry.offset() == unit.header().header_size() {
                self.meet_root(unit, &entry);
            }
            if entry.tag_name() == DW_TAG_subprogram && self.is_function(unit, &entry)? {
                return Ok(true);
            }
        }
        Ok(false)
    }

    /// Looks for the function in the unit that `.debug_aranges` names, or else in all.
    fn is_found(&mut self, dwarf: &Sections<'a>) -> Result<bool, Stopped> {
        if let Ok(Some(offset)) = dwarf.unit_of_address(self.address) {
            return self.is_in_unit(&dwarf.unit(offset)?);
        }
        for unit in dwarf.all_units() {
            if self.is_in_unit(&unit?)? {
                return Ok(true);
            }
        }
        Ok(false)
    }

    /// Looks for the function, and says why none was found. The exit status is 0 where there is
    /// one, and 1 where there is none.
    fn run(&mut self, dwarf: &Sections<'a>) -> Result<u8, Stopped> {
        if self.is_found(dwarf)? {
            return Ok(0);
        }
        if let Some((unit, name)) = self.skeleton {
            let skeleton = format!("skeleton unit {unit:#x}: its functions are in ");
            self.out.extend([skeleton.as_bytes(), name, b"\n"].concat());
        } else if let Some(stopped) = self.refused.take() {
            return Err(stopped);
        } else {
            self.out.extend(format!("no function at {:#x}\n", self.address).bytes());
        }
        Ok(1)
    }
}

/// Prints the answer for an address of a program: the exit status, or a message.
fn answer(file: &str, address: &str) -> Result<u8, String> {
    let address = u64::from_str_radix(address.trim_start_matches("0x"), 16).map_err(|_| USAGE)?;
    let dwarf = elf::open_linked(file).ok_or(format!("function_at: {file} is no linked ELF file"))?;
    let mut search = Search { address, out: vec![], skeleton: None, refused: None };
    let status = search
        .run(&dwarf)
        .map_err(|Stopped(error, what, offset)| format!("error {}: {what} {offset:#x}: {error}", error.number()));
    std::io::stdout().write_all(&search.out).map_err(|error| error.to_string())?;
    status
}

fn main() -> ExitCode {
    let words: Vec<String> = std::env::args().skip(1).collect();
    let status = match &words[..] {
        [file, address] => answer(file, address),
        _ => Err(USAGE.into()),
    };
    status.map_or_else(
        |message| {
            eprintln!("{message}");
            ExitCode::from(2)
        },
        ExitCode::from,
    )
}
