//! `Debug` texts.

mod common;

use common::{files, root, unit_bytes};
use gimli_proved::{Endian, Sections};
use std::fmt::Debug;

// The text of what is printed for debugging, which is one short line.
fn short(it: &dyn Debug) -> String {
    let text = format!("{it:?}");
    assert!(text.len() <= 200 && !text.contains('\n'), "{text}");
    text
}

#[test]
fn debug_texts_are_short() {
    let mut longest = 0;
    for file in files() {
        let sections = file.sections();
        short(&sections);
        short(&sections.units());
        for unit in sections.units() {
            let unit = unit.unwrap();
            short(&unit);
            if let Ok(whole) = sections.unit_of(&unit) {
                short(&whole.rows());
                short(&whole.entries());
            }
            short(&sections.abbreviations(&unit).unwrap());
            short(&sections.rows(&unit));
            let mut entries = sections.entries(&unit);
            short(&entries);
            while let Some(entry) = entries.next_entry().unwrap() {
                short(&entry);
                short(&entry.place());
                for attr in entry.attrs() {
                    longest = longest.max(short(&attr).len());
                }
            }
        }
    }
    assert!(longest > 80, "{longest}");
}

#[test]
fn debug_texts() {
    // a unit of version 4: its root with a text, a long text, a block and an expression
    let texts = [b"\x01a\"\xff\0", &[b'x'; 41][..]].concat();
    let info = unit_bytes(4, &[&texts[..], &[0, 2, 6, 7, 1, 8]].concat());
    let abbrev = [
        1, 0x11, 0, 3, 8, 0x25, 8, 0x1c, 0x0a, 2, 0x18, 0x99, 0x40, 0x19, 0, 0, 0,
    ];
    let sections = Sections {
        debug_info: &info,
        debug_abbrev: &abbrev,
        endian: Endian::Little,
        ..Sections::default()
    };
    let (unit, attrs) = root(&sections);
    let texts: Vec<String> = attrs.iter().map(|attr| short(attr)).collect();
    let long = "x".repeat(40);
    let value = |name, form, value| format!("Attribute {{ name: {name}, form: {form}, {value} }}");
    let wanted = [
        value(
            "DW_AT_name",
            "DW_FORM_string",
            "value: String(\"a\\\"\\xff\")",
        ),
        value(
            "DW_AT_producer",
            "DW_FORM_string",
            &format!("value: String(\"{long}\"..)"),
        ),
        value(
            "DW_AT_const_value",
            "DW_FORM_block1",
            "value: Block(2 bytes)",
        ),
        value(
            "DW_AT_location",
            "DW_FORM_exprloc",
            "value: Exprloc(1 bytes)",
        ),
        value(
            "Unknown DwAt: 0x2019",
            "DW_FORM_flag_present",
            "value: Flag(true)",
        ),
    ];
    assert_eq!(texts, wanted);
    assert_eq!(
        short(&sections.unit(0).unwrap().root().unwrap()),
        "Entry { offset: 0xb, depth: 0, tag: DW_TAG_compile_unit, has_children: false, attrs: 5 }"
    );
    assert_eq!(
        short(&sections),
        format!(
            "Sections {{ debug_info: {}, debug_abbrev: 17, endian: Little }}",
            info.len()
        )
    );
    let header = "UnitHeader { offset: 0x0, length: 63, version: 4, kind: DW_UT_compile, ";
    assert!(short(&unit).starts_with(header), "{unit:?}");
}
