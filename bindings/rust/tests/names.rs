//! The names of codes.

use gimli_proved::{constants, *};

#[test]
fn names_and_codes() {
    assert_eq!(DW_TAG_subprogram, DwTag(0x2e));
    assert_eq!(DwTag(0x2e).static_string(), Some("DW_TAG_subprogram"));
    assert_eq!(DwTag::from_name("DW_TAG_subprogram"), Some(DwTag(0x2e)));
    assert_eq!("DW_AT_name".parse(), Ok(DwAt(3)));
    assert_eq!("DW_FORM_strp".parse(), Ok(DW_FORM_strp));
    assert_eq!(constants::DW_LANG_Rust.to_string(), "DW_LANG_Rust");
    assert_eq!("DW_TAG_subprogram".parse::<DwAt>(), Err(UnknownName));
    assert_eq!(DwAt::from_name(""), None);
    assert_eq!(
        UnknownName.to_string(),
        "No code of the kind has this name."
    );
    // a name may be part of a pattern
    assert!(matches!(DwInl(3), constants::DW_INL_declared_inlined));
}

#[test]
fn codes_without_a_name() {
    assert_eq!(DwTag(0x1234).static_string(), None);
    assert_eq!(DwTag(0x1234).to_string(), "Unknown DwTag: 0x1234");
    assert_eq!(DwUt(0).to_string(), "Unknown DwUt: 0x0");
    assert_eq!(
        format!("{:>11}|{:<11}|", DW_AT_name, DW_AT_type),
        " DW_AT_name|DW_AT_type |"
    );
}

// The first of the table is the name of the code.
#[test]
fn two_names_of_a_code() {
    assert_eq!(DW_CC_lo_user, DW_CC_GNU_renesas_sh);
    assert_eq!(DW_CC_GNU_renesas_sh.to_string(), "DW_CC_lo_user");
    assert_eq!("DW_CC_GNU_renesas_sh".parse(), Ok(DwCc(0x40)));
}

#[test]
fn accessors() {
    // a unit of version 4 whose entry has a text
    let info = [10, 0, 0, 0, 4, 0, 0, 0, 0, 0, 8, 1, b'a', 0];
    let sections = Sections {
        debug_info: &info,
        debug_abbrev: &[1, 0x11, 0, 3, 8, 0, 0, 0],
        ..Sections::default()
    };
    let unit = sections.units().next().unwrap().unwrap();
    assert_eq!(unit.ut_name(), DW_UT_compile);
    let row = sections.rows(&unit).next().unwrap().unwrap();
    assert_eq!(row.tag_name(), DW_TAG_compile_unit);
    let mut entries = sections.entries(&unit);
    let entry = entries.next_entry().unwrap().unwrap();
    assert_eq!(entry.tag_name().to_string(), "DW_TAG_compile_unit");
    let attr = entry.attr(DW_AT_name).unwrap();
    assert_eq!(
        (attr.at_name(), attr.form_name()),
        (DW_AT_name, DW_FORM_string)
    );
    // the same by numbers
    for number in [3_u16, DW_AT_name.0] {
        let same = entry.attr(number).map(|attr| attr.raw_value());
        assert_eq!(same, Some(attr.raw_value()));
    }
    assert!(entry.attr(DW_AT_producer).is_none());
}
