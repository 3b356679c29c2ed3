//! `lists FILE [DWO]`: prints the ranges and the locations of each list that an entry names, after
//! the entry's offset in the section.

fn main() -> std::process::ExitCode {
    elf::each_unit(|unit| {
        let mut entries = unit.entries();
        while let Some(entry) = entries.next_entry()? {
            let at = unit.section_offset(entry.offset());
            for attr in entry.attrs() {
                let ranges = if attr.at_name() == gimli_proved::DW_AT_ranges { unit.ranges(&attr)? } else { vec![] };
                let listed = if attr.is_location_list() { unit.locations(&attr)? } else { vec![] };
                ranges.iter().for_each(|it| println!("ranges {at:#x} {:#x} {:#x}", it.begin, it.end));
                listed.iter().for_each(|it| println!("location {at:#x} {:#x} {:#x} {}", it.begin, it.end, it.length));
            }
        }
        Ok(())
    })
}
