//! `functions FILE [DWO]`: prints the address, the size and the name of each function that has an
//! address.

use gimli_proved::{DW_AT_name, DW_TAG_subprogram};

fn main() -> std::process::ExitCode {
    elf::each_unit(|unit| {
        let mut entries = unit.entries();
        while let Some(entry) = entries.next_entry()? {
            let ranges = if entry.tag_name() == DW_TAG_subprogram { unit.die_ranges(&entry)? } else { vec![] };
            let Some(begin) = ranges.iter().map(|range| range.begin).min() else { continue };
            let size = ranges.iter().fold(0, |sum: u64, it| sum.wrapping_add(it.end.wrapping_sub(it.begin)));
            let name = unit.find_recursively(&entry, DW_AT_name)?.map(|name| unit.text(&name)).transpose()?;
            println!("{begin:#x} {size} {}", String::from_utf8_lossy(name.unwrap_or(b"?")));
        }
        Ok(())
    })
}
