//! Units that are read once.

mod common;

use common::{entry_text, files, some_entries, text_of, unit_bytes};
use gimli_proved::{
    Bases, DW_AT_abstract_origin, DW_AT_high_pc, DW_AT_low_pc, DW_AT_name, DW_AT_ranges,
    DW_AT_specification, DW_FORM_addr, DW_FORM_data8, DwAt, DwForm, Error, Place, Range, Refused,
    Row, SectionId, Sections, Unit, UnitEntries,
};

fn entries_text(mut entries: UnitEntries<'_, '_>) -> String {
    let mut text = String::new();
    while let Some(entry) = entries.next_entry().unwrap() {
        text += &entry_text(&entry);
    }
    text
}

// Beside the calls over headers. The files have no other sections: a unit whose low_pc is an index
// is refused.
#[test]
fn of_real_files() {
    let (mut read, mut refusals) = (0, 0);
    for file in files() {
        let sections = file.sections();
        let headers: Vec<_> = sections.units().map(|header| header.unwrap()).collect();
        let units: Vec<_> = sections.all_units().collect();
        assert_eq!(units.len(), headers.len());
        for (header, unit) in headers.iter().zip(units) {
            let unit = match unit {
                Ok(unit) => unit,
                Err(refused) => {
                    assert_eq!(refused.section, Some(SectionId::DebugAddr), "{refused}");
                    refusals += 1;
                    continue;
                }
            };
            read += 1;
            assert_eq!(unit.header(), header);
            assert!(
                unit.rows()
                    .eq(sections.rows(header).map(|row| Ok(row.unwrap())))
            );
            assert!(entries_text(unit.entries()) == text_of(sections.entries(header)));
            let all = some_entries(&mut sections.entries(header), usize::MAX);
            for (place, names) in all {
                let row = unit.rows_from(place).next().unwrap().unwrap();
                assert_eq!(row.place(), place);
                match unit.entry_at(place.offset) {
                    Ok(entry) => {
                        let own: Vec<u16> = entry.attrs().map(|attr| attr.name()).collect();
                        assert_eq!((entry.offset(), own), (place.offset, names));
                        assert_eq!(
                            (entry.tag(), entry.has_children()),
                            (row.tag, row.has_children())
                        );
                    }
                    Err(refused) => {
                        assert!(row.is_null());
                        assert_eq!(refused.error, Error::NoEntryAtGivenOffset);
                    }
                }
            }
        }
    }
    assert!(read > 20 && refusals > 0, "{read} {refusals}");
}

#[test]
fn holding_an_offset() {
    for file in files() {
        let sections = file.sections();
        for header in sections.units().map(|header| header.unwrap()) {
            let end = header.offset() + header.length_including_self();
            for offset in [
                header.offset(),
                header.offset() + header.header_size(),
                end - 1,
            ] {
                assert_eq!(sections.header_holding(offset), Ok(Some(header)));
                if let Ok(unit) = sections.unit_holding(offset) {
                    assert_eq!(*unit.header(), header);
                }
            }
        }
        let end = sections.debug_info.len() as u64;
        assert_eq!(sections.header_holding(end), Ok(None));
        let text = format!("An offset is out of bounds. (.debug_info at {end:#x})");
        assert_eq!(sections.unit_holding(end).unwrap_err().to_string(), text);
    }
}

// Where the codes are not in order, each call reads them.
#[test]
fn codes_out_of_order() {
    let info = unit_bytes(4, &[1, 2, 1]);
    let sections = Sections {
        debug_info: &info,
        debug_abbrev: &[2, 0x34, 0, 0, 0, 1, 0x11, 0, 0, 0, 0],
        ..Sections::default()
    };
    let unit = sections.unit(0).unwrap();
    assert!(unit.abbreviations().is_none());
    let tags: Vec<u16> = unit.rows().map(|row| row.unwrap().tag).collect();
    assert_eq!(tags, [0x11, 0x34, 0x11]);
    assert_eq!(unit.entry_at(12).unwrap().tag(), 0x34);
    let place = Place {
        offset: 12,
        depth: 1,
    };
    let tags: Vec<u16> = unit
        .rows_from(place)
        .map(|row: Result<Row, _>| row.unwrap().tag)
        .collect();
    assert_eq!(tags, [0x34, 0x11]);
    // a code that stands twice
    let twice = Sections {
        debug_abbrev: &[1, 0x34, 0, 0, 0, 1, 0x11, 0, 0, 0, 0],
        ..sections
    };
    let text = "the unit at 0x0: A code is declared twice. (.debug_abbrev at 0x0)";
    assert_eq!(twice.unit(0).unwrap_err().to_string(), text);
}

// The abbreviations of the units of `ranges_of_entries`: low_pc and high_pc as the number of bytes
// and as an address, low_pc alone, none, and ranges.
const ABBREV: [u8; 49] = [
    1, 0x11, 1, 0, 0, //
    2, 0x2e, 0, 0x11, 1, 0x12, 0x0f, 0, 0, //
    3, 0x2e, 0, 0x11, 1, 0x12, 1, 0, 0, //
    4, 0x2e, 0, 0x11, 1, 0, 0, //
    5, 0x2e, 0, 3, 8, 0, 0, //
    6, 0x2e, 0, 0x55, 0x17, 0x11, 1, 0, 0, 0, //
    0, 0,
];

#[test]
fn ranges_of_entries() {
    let address = |number: u64| number.to_le_bytes();
    let entries = [
        &[1, 2][..],
        &address(0x1000),
        &[0x20, 3],
        &address(0x1000),
        &address(0x1040),
        &[4],
        &address(0x1080),
        &[5, b'f', 0, 6, 0, 0, 0, 0],
        &address(0x1000),
        &[0],
    ];
    let info = unit_bytes(5, &entries.concat());
    let sections = Sections {
        debug_info: &info,
        debug_abbrev: &ABBREV,
        debug_rnglists: &[4, 1, 2, 4, 3, 3, 4, 5, 6, 0],
        ..Sections::default()
    };
    let unit = sections.unit(0).unwrap();
    let mut entries = unit.entries();
    let mut ranges = Vec::new();
    while let Some(entry) = entries.next_entry().unwrap() {
        if !entry.is_null() {
            ranges.push(unit.die_ranges(&entry).unwrap());
        }
    }
    let range = |begin, end| Range { begin, end };
    let wanted = [
        vec![],
        vec![range(0x1000, 0x1020)],
        vec![range(0x1000, 0x1040)],
        vec![range(0x1080, 0x1080)],
        vec![],
        vec![range(1, 2), range(5, 6)],
    ];
    assert_eq!(ranges, wanted);
}

// The ranges of an entry with these attributes, whose unit has addresses of these many bytes.
fn pc_ranges(size: u8, attributes: &[(DwAt, DwForm)], values: &[&[u8]]) -> Vec<Range> {
    let names = attributes
        .iter()
        .map(|(name, form)| [name.0 as u8, form.0 as u8]);
    let names: Vec<u8> = names.flatten().collect();
    let mut info = unit_bytes(4, &[&[1], &values.concat()[..]].concat());
    info[10] = size;
    let abbrev = [&[1, 0x2e, 0][..], &names, &[0, 0, 0]].concat();
    let sections = Sections {
        debug_info: &info,
        debug_abbrev: &abbrev,
        ..Sections::default()
    };
    let unit = sections.unit(0).unwrap();
    unit.die_ranges(&unit.root().unwrap().entry()).unwrap()
}

// A range that is empty or ends with the last address is one, and one that ends below its beginning
// or beyond all addresses is not.
#[test]
fn ranges_by_low_pc_and_high_pc() {
    let by_size = [(DW_AT_low_pc, DW_FORM_addr), (DW_AT_high_pc, DW_FORM_data8)];
    let by_address = [(DW_AT_low_pc, DW_FORM_addr), (DW_AT_high_pc, DW_FORM_addr)];
    let all = u64::MAX;
    for (low, size, is_kept) in [
        (0x1000, 0x20, true),
        (0x1000, 0, true),
        (all, 0, true),
        (all - 0x20, 0x20, true),
        (all, 1, false),
        (all, 0x20, false),
        (0x1000, all, false),
    ] {
        let range = Range {
            begin: low,
            end: low.wrapping_add(size),
        };
        let wanted = if is_kept { vec![range] } else { vec![] };
        let values = [&low.to_le_bytes()[..], &size.to_le_bytes()];
        assert_eq!(pc_ranges(8, &by_size, &values), wanted, "{low:x} {size:x}");
    }
    let low = u64::from(u32::MAX) - 0xf;
    for (size, is_kept) in [(0x10, true), (0x11, false), (all, false)] {
        let range = Range {
            begin: low,
            end: low.wrapping_add(size),
        };
        let wanted = if is_kept { vec![range] } else { vec![] };
        let values = [&low.to_le_bytes()[..4], &size.to_le_bytes()];
        assert_eq!(pc_ranges(4, &by_size, &values), wanted, "{size:x}");
    }
    for (high, is_kept) in [(0x1001u64, true), (0x1000, true), (0xfff, false)] {
        let range = Range {
            begin: 0x1000,
            end: high,
        };
        let wanted = if is_kept { vec![range] } else { vec![] };
        let values = [&0x1000u64.to_le_bytes()[..], &high.to_le_bytes()];
        assert_eq!(pc_ranges(8, &by_address, &values), wanted, "{high:x}");
    }
    let alone = [(DW_AT_high_pc, DW_FORM_addr)];
    assert_eq!(pc_ranges(8, &alone, &[&[1; 8]]), []);
}

// References by offsets of `.debug_info`, of which those into the unit are followed.
#[test]
fn references_by_the_section() {
    let abbrev = [
        1, 0x2e, 0, 3, 8, 0, 0, // a name
        2, 0x2e, 0, 0x31, 0x10, 0, 0, // DW_AT_abstract_origin, an offset of .debug_info
        3, 0x2e, 0, 0x47, 0x11, 0, 0, // DW_AT_specification, one byte
        0,
    ];
    let entries = [
        1, b'f', 0, 2, 0x1c, 0, 0, 0, 2, 12, 0, 0, 0, 3, 99, 2, 21, 0, 0, 0,
    ];
    let second = unit_bytes(5, &entries);
    let first = [12, 0, 0, 0, 5, 0, 1, 8, 0, 0, 0, 0, 1, b'g', 0, 0];
    let info = [&first[..], &second].concat();
    let sections = Sections {
        debug_info: &info,
        debug_abbrev: &abbrev,
        ..Sections::default()
    };
    let unit = sections.unit(16).unwrap();
    let name = |offset: u64| {
        let entry = unit.entry_at(offset).unwrap();
        let name = unit.find_recursively(&entry.entry(), DW_AT_name)?;
        Ok::<_, Refused>(name.map(|name| unit.text(&name).unwrap()))
    };
    assert_eq!(name(15), Ok(Some(&b"f"[..])));
    // in another unit, and in the header of this one
    assert_eq!(name(20), Ok(None));
    let refused = name(27).unwrap_err();
    let what = "DW_AT_abstract_origin of the entry at 0x1b of the unit at 0x10";
    let place = "An offset is out of bounds. (.debug_info at 0x15)";
    assert_eq!(refused.to_string(), format!("{what}: {place}"));
    let refused = name(25).unwrap_err();
    let what = "DW_AT_specification of the entry at 0x19 of the unit at 0x10";
    let place = "An offset is out of bounds. (.debug_info at 0x73)";
    assert_eq!(refused.to_string(), format!("{what}: {place}"));
    assert_eq!(refused.attribute, Some(DW_AT_specification));
}

// An entry with a name, entries that refer to the one after them, and one that refers to itself.
#[test]
fn attributes_of_what_an_entry_stands_for() {
    let abbrev = [
        1, 0x2e, 0, 3, 8, 0, 0, // a name
        2, 0x2e, 0, 0x31, 0x11, 0, 0, // DW_AT_abstract_origin, one byte
        3, 0x2e, 0, 0x47, 0x11, 0, 0, // DW_AT_specification
        4, 0x2e, 0, 0, 0, 0,
    ];
    let mut entries = vec![4, 2, 15];
    for offset in (17..=47).step_by(2) {
        entries.extend([if offset % 4 == 1 { 2 } else { 3 }, offset]);
    }
    entries.extend([1, b'f', 0, 2, 50]);
    let info = unit_bytes(5, &entries);
    let sections = Sections {
        debug_info: &info,
        debug_abbrev: &abbrev,
        ..Sections::default()
    };
    let unit = sections.unit(0).unwrap();
    let name = |offset: u64| {
        let entry = unit.entry_at(offset).unwrap();
        let name = unit.find_recursively(&entry.entry(), DW_AT_name).unwrap();
        name.map(|name| unit.text(&name).unwrap())
    };
    // without a reference, after up to 16 steps, after one more, and in a circle
    assert_eq!(name(12), None);
    assert_eq!(name(45), Some(&b"f"[..]));
    assert_eq!(name(15), Some(&b"f"[..]));
    assert_eq!(name(13), None);
    assert_eq!(name(50), None);
}

fn with_id(kind: u8, id: u8, entries: &[u8]) -> Vec<u8> {
    let header = [5, 0, kind, 8, 0, 0, 0, 0, id, 0, 0, 0, 0, 0, 0, 0];
    let length = (header.len() + entries.len()) as u32;
    [&length.to_le_bytes()[..], &header, entries].concat()
}

fn named(unit: &Unit<'_>) -> Vec<u8> {
    unit.text(&unit.root().unwrap().attr(DW_AT_name).unwrap())
        .unwrap()
        .to_vec()
}

#[test]
fn split_units_of_version_5() {
    let address = 0x1000u64.to_le_bytes();
    let skeleton = |id| with_id(4, id, &[&[1][..], &address, &[8, 0, 0, 0]].concat());
    let program = [unit_bytes(5, &[2]), skeleton(7), skeleton(8)].concat();
    let program = Sections {
        debug_info: &program,
        debug_abbrev: &[1, 0x4a, 0, 0x11, 1, 0x73, 0x17, 0, 0, 2, 0x11, 0, 0, 0, 0],
        debug_addr: &[&[0x0c, 0, 0, 0, 5, 0, 8, 0][..], &address].concat(),
        ..Sections::default()
    };
    // the units 8 and 9, of which the second has no skeleton
    let dwo = [with_id(5, 8, &[1, 0, 0, 0]), with_id(5, 9, &[1, 0, 0, 0])].concat();
    let dwo = Sections {
        debug_info: &dwo,
        debug_abbrev: &[1, 0x11, 0, 3, 0x25, 0x55, 0x23, 0x31, 0x29, 0, 0, 0],
        debug_str: b"a\0b\0",
        debug_str_offsets: &[8, 0, 0, 0, 5, 0, 0, 0, 2, 0, 0, 0],
        debug_rnglists: &[
            0x0d, 0, 0, 0, 5, 0, 8, 0, 1, 0, 0, 0, 4, 0, 0, 0, 4, 1, 2, 0,
        ],
        ..Sections::default()
    };
    let units: Vec<Unit<'_>> = dwo
        .split_units(&program)
        .map(|unit| unit.unwrap())
        .collect();
    let [first, second] = &units[..] else {
        panic!()
    };
    assert_eq!(
        (first.dwo_id(), second.dwo_id()),
        (Ok(Some(8)), Ok(Some(9)))
    );
    assert_eq!(
        (named(first), named(second)),
        (b"b".to_vec(), b"b".to_vec())
    );
    let root = first.root().unwrap();
    let range = Range {
        begin: 0x1001,
        end: 0x1002,
    };
    assert_eq!(
        first.ranges(&root.attr(DW_AT_ranges).unwrap()),
        Ok(vec![range])
    );
    assert_eq!(
        first.address(&root.attr(DW_AT_abstract_origin).unwrap()),
        Ok(0x1000)
    );
    assert_eq!(first.bases().addr_base, Some(8));
    let text = second
        .address(&root.attr(DW_AT_abstract_origin).unwrap())
        .unwrap_err()
        .to_string();
    let place = "(.debug_addr, no DW_AT_addr_base: no skeleton unit has the id 0x9)";
    assert!(text.ends_with(place), "{text}");
    let refused = second.ranges(&root.attr(DW_AT_ranges).unwrap());
    let text = refused.unwrap_err().to_string();
    let place = "at 0x10, no DW_AT_low_pc: no skeleton unit has the id 0x9)";
    assert!(text.ends_with(place), "{text}");
    // the same by hand
    let header = *first.header();
    let skeleton = program.skeleton(8).unwrap().unwrap();
    let unit = dwo.split_unit(&header, Some(&skeleton)).unwrap();
    assert_eq!(unit.bases(), first.bases());
    assert_eq!(
        dwo.dwo_bases(&header, Some(skeleton.bases())),
        Ok(*first.bases())
    );
    assert!(program.skeleton(9).unwrap().is_none());
    assert_eq!(dwo.dwo_bases(&header, None), Ok(*second.bases()));
    // where none was looked for, none is missing
    let unit = dwo.split_unit(&header, None).unwrap();
    let refused = unit.address(&root.attr(DW_AT_abstract_origin).unwrap());
    let refused = refused.unwrap_err();
    assert_eq!(refused.missing_skeleton, None);
    assert!(refused.to_string().ends_with("no DW_AT_addr_base)"));
}

// A split unit whose root counts from a base that its skeleton would have, and one whose name has
// nothing to do with the skeleton.
#[test]
fn a_skeleton_that_is_missing() {
    let no_base = "The value counts from a base that the unit does not have.";
    let skeleton = "no skeleton unit has the id 0x7";
    let split = |abbrev: &[u8]| {
        let info = with_id(5, 7, &[1, 0]);
        let dwo = Sections {
            debug_info: &info,
            debug_abbrev: abbrev,
            ..Sections::default()
        };
        let unit = dwo.split_units(&Sections::default()).next().unwrap()?;
        let text = unit.text(&unit.root()?.attr(DW_AT_name).unwrap());
        text.map(|_| ())
    };
    let refused: Refused = split(&[1, 0x11, 0, 0x11, 0x1b, 0, 0, 0]).unwrap_err();
    let what = "DW_AT_low_pc of the entry at 0x14 of the unit at 0x0";
    let text = format!("{what}: {no_base} (.debug_addr, no DW_AT_addr_base: {skeleton})");
    assert_eq!(refused.to_string(), text);
    assert_eq!(refused.missing_skeleton, Some(7));
    let refused = split(&[1, 0x11, 0, 3, 0x1a, 0, 0, 0]).unwrap_err();
    let what = "DW_AT_name of the entry at 0x14 of the unit at 0x0";
    let eof = "The input ends before what should stand there.";
    let text = format!("{what}: {eof} (.debug_str_offsets.dwo at 0x8)");
    assert_eq!(refused.to_string(), text);
}

#[test]
fn split_units_of_version_4() {
    // DW_AT_GNU_dwo_id, DW_AT_GNU_ranges_base and DW_AT_GNU_addr_base of a skeleton
    let program = unit_bytes(4, &[1, 9, 0, 0, 0, 0, 0, 0, 0, 16, 0, 0, 0, 8, 0, 0, 0]);
    let numbers = |numbers: &[u64]| -> Vec<u8> {
        numbers
            .iter()
            .flat_map(|number| number.to_le_bytes())
            .collect()
    };
    let program = Sections {
        debug_info: &program,
        debug_abbrev: &[
            1, 0x11, 0, 0xb1, 0x42, 7, 0xb2, 0x42, 0x17, 0xb3, 0x42, 0x17, 0, 0, 0,
        ],
        debug_addr: &numbers(&[0, 0x1000]),
        debug_ranges: &numbers(&[0, 0, 0x10, 0x20, 0, 0]),
        ..Sections::default()
    };
    // the id, DW_FORM_GNU_str_index, DW_FORM_GNU_addr_index, and ranges at the offset 0
    let dwo = unit_bytes(4, &[1, 9, 0, 0, 0, 0, 0, 0, 0, 0, 0, 0, 0, 0, 0]);
    let dwo = Sections {
        debug_info: &dwo,
        debug_abbrev: &[
            1, 0x11, 0, 0xb1, 0x42, 7, 3, 0x82, 0x3e, 0x31, 0x81, 0x3e, 0x55, 0x17, 0, 0, 0,
        ],
        debug_str: b"a\0b\0",
        debug_str_offsets: &[2, 0, 0, 0],
        ..Sections::default()
    };
    let unit = dwo.split_units(&program).next().unwrap().unwrap();
    assert_eq!(unit.dwo_id(), Ok(Some(9)));
    assert_eq!(named(&unit), b"b");
    let root = unit.root().unwrap();
    assert_eq!(
        unit.address(&root.attr(DW_AT_abstract_origin).unwrap()),
        Ok(0x1000)
    );
    let range = Range {
        begin: 0x10,
        end: 0x20,
    };
    assert_eq!(unit.die_ranges(&root.entry()), Ok(vec![range]));
    let bases = Bases {
        low_pc: Some(0),
        addr_base: Some(8),
        str_offsets_base: Some(0),
        rnglists_base: None,
        loclists_base: None,
        gnu_ranges_base: Some(16),
        is_dwo: true,
    };
    assert_eq!(*unit.bases(), bases);
}
