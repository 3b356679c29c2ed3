//! `tags FILE [DWO]`: prints how many entries have each tag.

fn main() -> std::process::ExitCode {
    elf::run(|units| {
        let mut counts = std::collections::BTreeMap::new();
        for unit in units {
            for row in unit?.rows() {
                *counts.entry(row?.tag).or_insert(0) += 1;
            }
        }
        counts.remove(&0);
        counts.iter().for_each(|(tag, count)| println!("{count} {}", gimli_proved::DwTag(*tag)));
        Ok(())
    })
}
