//! Bytes that no compiler writes: nothing panics, and each refusal has a text.

mod common;

use common::{files, values};
use gimli_proved::{AttributeValue, DW_AT_name, Entry, Refused, Sections, Unit};

// Numbers that look random, the same in each run.
struct Numbers(u64);

impl Numbers {
    fn below(&mut self, limit: usize) -> usize {
        self.0 = self
            .0
            .wrapping_mul(6364136223846793005)
            .wrapping_add(1442695040888963407);
        (self.0 >> 33) as usize % limit.max(1)
    }

    // Some bytes are others, or the end is cut.
    fn change(&mut self, bytes: &mut Vec<u8>) {
        for _ in 0..1 + self.below(3) {
            if !bytes.is_empty() {
                let at = self.below(bytes.len());
                bytes[at] = [0, 1, 0x7f, 0x80, 0xff, self.below(256) as u8][self.below(6)];
            }
        }
        if self.below(8) == 0 {
            bytes.truncate(self.below(bytes.len() + 1));
        }
    }
}

// How much was answered, and how much was refused.
#[derive(Default)]
struct Counts {
    answers: usize,
    refusals: usize,
}

impl Counts {
    fn add<T>(&mut self, answer: Result<T, Refused>) -> Option<T> {
        match answer {
            Ok(answer) => {
                self.answers += 1;
                Some(answer)
            }
            Err(refused) => {
                assert!(refused.to_string().len() > 20);
                self.refusals += 1;
                None
            }
        }
    }

    fn read_entry(&mut self, unit: &Unit<'_>, entry: &Entry<'_, '_>) {
        for attr in entry.attrs() {
            self.add(unit.text(&attr));
            self.add(unit.address(&attr));
            self.add(unit.ranges(&attr));
            for location in self.add(unit.locations(&attr)).unwrap_or_default() {
                self.answers += unit.expression(&location).len() & 1;
            }
            if let AttributeValue::DebugInfoRef(offset) = attr.raw_value() {
                self.add(unit.sections().unit_holding(offset));
            }
        }
        self.add(unit.die_ranges(entry));
        self.add(unit.find_recursively(entry, DW_AT_name));
        self.add(unit.entry_at(entry.offset()));
    }

    fn read_unit(&mut self, unit: &Unit<'_>) {
        for row in unit.rows() {
            self.add(row);
        }
        let mut entries = unit.entries();
        while let Some(Some(entry)) = self.add(entries.next_entry()) {
            self.read_entry(unit, &entry);
        }
        self.add(unit.dwo_id());
        self.add(unit.holds_address(0x1010));
    }

    fn read(&mut self, sections: &Sections<'_>) {
        let units = sections.all_units().chain(sections.split_units(sections));
        for unit in units.chain(sections.all_type_units()) {
            if let Some(unit) = self.add(unit) {
                self.read_unit(&unit);
            }
        }
        self.add(sections.units_of_address(0x1010));
        self.add(sections.unit_holding(20));
    }
}

#[test]
fn values_of_changed_files() {
    let (mut numbers, mut counts) = (Numbers(1), Counts::default());
    for _ in 0..4000 {
        let mut file = values::values();
        let (mut info, mut abbrev) = (file.info(), file.abbrev());
        let sections = [
            &mut info,
            &mut abbrev,
            &mut file.addr,
            &mut file.str,
            &mut file.str_offsets,
            &mut file.rnglists,
            &mut file.loclists,
        ];
        for section in sections {
            if numbers.below(2) == 0 {
                numbers.change(section);
            }
        }
        let debug_types = [];
        file.with(|sections| {
            counts.read(&Sections {
                debug_info: &info,
                debug_abbrev: &abbrev,
                debug_types: if numbers.below(2) == 0 {
                    &info
                } else {
                    &debug_types
                },
                debug_aranges: &file.rnglists,
                debug_ranges: &file.rnglists,
                debug_loc: &file.loclists,
                ..*sections
            })
        });
    }
    assert!(counts.answers > 10_000 && counts.refusals > 10_000);
}

#[test]
fn entries_of_changed_files() {
    let (mut numbers, mut counts) = (Numbers(2), Counts::default());
    for file in files().iter().filter(|file| file.info.len() < 3000) {
        for _ in 0..20 {
            let (mut info, mut abbrev) = (file.info.clone(), file.abbrev.clone());
            numbers.change(&mut info);
            numbers.change(&mut abbrev);
            counts.read(&Sections {
                debug_info: &info,
                debug_abbrev: &abbrev,
                debug_addr: &file.info,
                debug_str: &file.info,
                debug_ranges: &file.info,
                debug_loc: &file.abbrev,
                ..file.sections()
            });
        }
    }
    assert!(counts.answers > 10_000 && counts.refusals > 10_000);
}
