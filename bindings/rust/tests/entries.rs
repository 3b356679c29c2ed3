//! Entries with their attributes, of real files and of units made by hand.

mod common;

use common::{files, root, some_entries, some_of, text_of, unit_bytes};
use gimli_proved::{AttributeValue, DW_AT_language, Endian, Sections};

// The entries of all units as text, read with so much room for them and their attributes.
fn entries_text(sections: &Sections<'_>, room: usize, space: usize) -> String {
    let units = sections.units().map(|unit| unit.unwrap());
    units
        .map(|unit| text_of(sections.entries_from(&unit, unit.root(), room, space)))
        .collect()
}

#[test]
fn entries() {
    for file in files() {
        let sections = file.sections();
        let whole = entries_text(&sections, 4096, 65536);
        for (room, space) in [(1, 0), (3, 7), (64, 1)] {
            assert!(
                entries_text(&sections, room, space) == whole,
                "{} {room} {space}",
                file.name
            );
        }
        assert!(!whole.contains("Other("), "{}", file.name);
        let rows: String = whole
            .lines()
            .filter(|l| !l.starts_with(' '))
            .map(|l| format!("{l}\n"))
            .collect();
        let dump: String = file
            .dump
            .lines()
            .filter(|l| !l.starts_with('u') && *l != "end")
            .map(|l| format!("{l}\n"))
            .collect();
        assert!(rows == dump, "{}", file.name);
    }
}

#[test]
fn big_endian_type_unit() {
    // a type unit of version 4: its length, version, abbreviations, address size, signature and
    // type, and one entry
    let types = [
        0, 0, 0, 0x18, 0, 4, 0, 0, 0, 0, 8, 1, 2, 3, 4, 5, 6, 7, 8, 0, 0, 0, 0x17, 1, 0x12, 0x34,
        0, 0,
    ];
    let abbrev = [1, 0x41, 0, 0x13, 5, 0, 0, 0];
    let sections = Sections {
        debug_types: &types,
        debug_abbrev: &abbrev,
        endian: Endian::Big,
        ..Sections::default()
    };
    let unit = sections.type_units().next().unwrap().unwrap();
    assert_eq!(
        (unit.version(), unit.kind(), unit.id(), unit.type_offset()),
        (4, 2, 0x0102030405060708, 0x17)
    );
    let mut entries = sections.entries(&unit);
    let entry = entries.next_entry().unwrap().unwrap();
    assert_eq!(
        (entry.offset(), entry.tag(), entry.depth()),
        (0x17, 0x41, 0)
    );
    assert_eq!(
        entry.attr(DW_AT_language).unwrap().raw_value(),
        AttributeValue::Data2(0x1234)
    );
    assert!(sections.units().next().is_none());
}

#[test]
fn entries_go_on_at_the_place() {
    for file in files() {
        let sections = file.sections();
        let unit = sections.units().next().unwrap().unwrap();
        let all = some_entries(&mut sections.entries(&unit), usize::MAX);
        if all.len() > 2000 {
            continue;
        }
        for (room, space) in [(1, 0), (3, 7), (64, 1), (4096, 65536)] {
            for k in some_of(all.len()) {
                let mut entries = sections.entries_from(&unit, unit.root(), room, space);
                let mut read = some_entries(&mut entries, k);
                let mut rest = sections.entries_from(&unit, entries.place(), room, space);
                read.extend(some_entries(&mut rest, usize::MAX));
                assert!(read == all, "{} {room} {space} {k}", file.name);
            }
        }
    }
}

#[test]
fn numbers() {
    // a unit of version 5 whose entry has an attribute of each form, with its number and its
    // constant
    type Case = (u8, &'static [u8], Option<u64>, Option<u64>);
    let forms: [Case; 15] = [
        (0x0b, &[0xff], Some(255), Some(255)),
        (0x05, &[0xff, 0xff], Some(65535), Some(65535)),
        (0x06, &[1, 0, 0, 0x80], Some(0x80000001), Some(0x80000001)),
        (
            0x07,
            &[1, 0, 0, 0, 0, 0, 0, 1],
            Some(1 << 56 | 1),
            Some(1 << 56 | 1),
        ),
        (0x0d, &[0x3f], Some(63), Some(63)),
        (0x0d, &[0x7f], None, None),
        (0x0f, &[0x7f], Some(127), Some(127)),
        (0x1e, &[1; 16], None, None),
        (0x01, &[2, 0, 0, 0, 0, 0, 0, 0], Some(2), None),
        (0x0c, &[1], Some(1), None),
        (0x13, &[3, 0, 0, 0], Some(3), None),
        (0x17, &[4, 0, 0, 0], Some(4), None),
        (0x23, &[5], Some(5), None),
        (0x08, &[b'a', 0], None, None),
        (0x0a, &[1, 6], None, None),
    ];
    let (mut entry, mut abbrev) = (vec![1], vec![1, 0x11, 0]);
    for (name, (form, bytes, ..)) in (1..).zip(&forms) {
        abbrev.extend([name, *form]);
        entry.extend_from_slice(bytes);
    }
    abbrev.extend([0, 0, 0]);
    let info = unit_bytes(5, &entry);
    let sections = Sections {
        debug_info: &info,
        debug_abbrev: &abbrev,
        ..Sections::default()
    };
    let (_, attrs) = root(&sections);
    assert_eq!(attrs.len(), forms.len());
    for (attr, (form, _, number, constant)) in attrs.iter().zip(forms) {
        assert_eq!(attr.form(), form.into());
        assert_eq!(attr.number(), number, "{form:x}");
        assert_eq!(attr.udata_value(), constant, "{form:x}");
    }
}
