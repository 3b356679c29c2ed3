//! Refusals, and what their texts name.

mod common;

use common::unit_bytes;
use common::values::{Values, values};
use gimli_proved::{
    AttributeValue, Bases, DW_AT_comp_dir, DW_AT_location, DW_AT_name, DW_AT_producer,
    DW_AT_ranges, DwAt, Endian, Error, Refused, SectionId, Sections, Unit,
};

const EOF: &str = "The input ends before what should stand there.";
const NO_BASE: &str = "The value counts from a base that the unit does not have.";
const BAD_BASE: &str = "The attribute of a base has a value that no base can have.";
const NO_OFFSET: &str = "A number does not fit an offset.";

#[test]
fn of_rows_and_units() {
    // two units of version 4; the second has a code that is not declared
    let info = [unit_bytes(4, &[2, 2, 2]), unit_bytes(4, &[2, 9])].concat();
    let sections = Sections {
        debug_info: &info,
        debug_abbrev: &[2, 0x34, 0, 0, 0, 0],
        ..Sections::default()
    };
    let header = sections.units().nth(1).unwrap().unwrap();
    let mut rows = sections.rows(&header);
    let mut entries = sections.entries(&header);
    let error = rows.find_map(Result::err).unwrap();
    assert!(entries.next_entry().is_ok());
    assert_eq!(entries.next_entry().err(), Some(error));
    let reason = "The code of an abbreviation is not declared.";
    let refused = rows.refused(error);
    let text = format!("the entry at 0xc of the unit at 0xe: {reason} (.debug_info at 0x1a)");
    assert_eq!(refused.to_string(), text);
    assert_eq!((refused.unit, refused.entry), (Some(0xe), Some(0xc)));
    assert_eq!(refused.section, Some(SectionId::DebugInfo));
    assert_eq!(refused.offset, Some(0x1a));
    assert_eq!(entries.refused(error), refused);
    // the same of a whole unit
    let unit = sections.unit(0xe).unwrap();
    assert_eq!(unit.rows().nth(1), Some(Err(refused)));
    let mut entries = unit.entries();
    assert!(entries.next_entry().is_ok());
    assert_eq!(entries.next_entry().err(), Some(refused));
    assert!(entries.next_entry().unwrap().is_none());
    assert_eq!(unit.entry_at(12).err(), Some(refused));
    // an offset outside of the unit, and its end
    let text = "the unit at 0xe: An offset is out of bounds. (.debug_info at 0x6e)";
    assert_eq!(unit.entry_at(0x60).unwrap_err().to_string(), text);
    let text = "the entry at 0xd of the unit at 0xe: No entry stands at the offset.";
    let refused = unit.entry_at(13).unwrap_err().to_string();
    assert_eq!(refused, format!("{text} (.debug_info at 0x1b)"));
    // of abbreviations that are not there
    let without = Sections {
        debug_abbrev: &[],
        ..sections
    };
    let mut rows = without.rows(&header);
    let error = rows.next().unwrap().unwrap_err();
    let text = format!("the unit at 0xe: {EOF} (.debug_abbrev at 0x0)");
    assert_eq!(rows.refused(error).to_string(), text);
    assert_eq!(without.unit(0xe).unwrap_err().to_string(), text);
}

#[test]
fn of_an_error_alone() {
    let info = unit_bytes(4, &[]);
    let sections = Sections {
        debug_info: &info,
        ..Sections::default()
    };
    let header = sections.units().next().unwrap().unwrap();
    let refused = header.refused(Error::NoList);
    assert_eq!(
        refused.to_string(),
        "the unit at 0x0: The value names no list."
    );
    assert_eq!(Error::from(refused), Error::NoList);
    let refused = Refused::from(Error::NoList);
    assert_eq!(refused.to_string(), "The value names no list.");
    let refused = Refused {
        entry: Some(0xc),
        ..Error::AbbreviationTagZero.into()
    };
    assert_eq!(
        refused.to_string(),
        "the entry at 0xc: A declared tag is zero."
    );
    let refused = Refused {
        section: Some(SectionId::DebugStrSup),
        offset: Some(3),
        ..Error::UnexpectedEof.into()
    };
    let text = format!("{EOF} (.debug_str of the supplementary file at 0x3)");
    assert_eq!(refused.to_string(), text);
}

// The text of the first refusal of the unit of a file and of its values.
fn refusal(file: &Values) -> String {
    file.with(first_refusal)
}

fn first_refusal(sections: &Sections<'_>) -> String {
    let refused = sections.unit(0).and_then(|unit| read_values(&unit));
    refused.unwrap_err().to_string()
}

// All values of the root.
fn read_values(unit: &Unit<'_>) -> Result<(), Refused> {
    let root = unit.root()?;
    for name in [DW_AT_name, DW_AT_producer, DW_AT_comp_dir] {
        root.attr(name).map(|attr| unit.text(&attr)).transpose()?;
    }
    root.attr(DW_AT_ranges)
        .map(|attr| unit.ranges(&attr))
        .transpose()?;
    root.attr(DW_AT_location)
        .map(|attr| unit.locations(&attr))
        .transpose()?;
    Ok(())
}

fn changed(change: impl FnOnce(&mut Values)) -> String {
    let mut file = values();
    change(&mut file);
    refusal(&file)
}

#[test]
fn nothing_is_refused() {
    values().with(|sections| {
        let unit = sections.unit(0).unwrap();
        let attr = |name: DwAt| unit.root().unwrap().attr(name).unwrap();
        let texts = [DW_AT_name, DW_AT_producer, DW_AT_comp_dir].map(|name| unit.text(&attr(name)));
        assert_eq!(texts, [Ok(&b"cd"[..]), Ok(b"ab"), Ok(b"x")]);
        let range = unit.ranges(&attr(DW_AT_ranges)).unwrap()[0];
        assert_eq!((range.begin, range.end), (0x1010, 0x1020));
        let location = unit.locations(&attr(DW_AT_location)).unwrap()[0];
        assert_eq!(
            (location.begin, unit.expression(&location)),
            (0x1010, &[0x9c][..])
        );
        let bases = Bases {
            low_pc: Some(0x1000),
            addr_base: Some(8),
            str_offsets_base: Some(8),
            rnglists_base: Some(12),
            loclists_base: Some(12),
            gnu_ranges_base: None,
            is_dwo: false,
        };
        assert_eq!(*unit.bases(), bases);
        assert_eq!(sections.bases(unit.header()), Ok(bases));
        // values of another kind
        let refused = unit.text(&attr(DW_AT_ranges)).unwrap_err();
        assert_eq!(
            refused.to_string(),
            "DW_AT_ranges of the entry at 0xc of the unit at 0x0: The value is no text."
        );
        let refused = unit.address(&attr(DW_AT_name)).unwrap_err();
        assert_eq!(
            refused.to_string(),
            "DW_AT_name of the entry at 0xc of the unit at 0x0: The value is no address."
        );
        let refused = unit.ranges(&attr(DW_AT_name)).unwrap_err();
        assert_eq!(
            refused.to_string(),
            "DW_AT_name of the entry at 0xc of the unit at 0x0: The value names no list."
        );
        assert_eq!(unit.locations(&attr(DW_AT_name)).unwrap_err(), refused);
    });
}

#[test]
fn a_unit_that_is_not_there() {
    let text = |sections: &Sections<'_>, offset| sections.unit(offset).unwrap_err().to_string();
    values().with(|sections| {
        let wanted = format!("the unit at 0x3b9aca00: {EOF} (.debug_info at 0x3b9aca00)");
        assert_eq!(text(sections, 1_000_000_000), wanted);
        // just after the last
        let end = sections.debug_info.len() as u64;
        let wanted = format!("the unit at {end:#x}: {EOF} (.debug_info at {end:#x})");
        assert_eq!(text(sections, end), wanted);
        let wanted = format!("the unit at 0x0: {EOF} (.debug_info at 0x0)");
        let cut = &sections.debug_info[..end as usize - 1];
        assert_eq!(
            text(
                &Sections {
                    debug_info: cut,
                    ..*sections
                },
                0
            ),
            wanted
        );
        assert_eq!(
            text(
                &Sections {
                    debug_info: &[],
                    ..*sections
                },
                0
            ),
            wanted
        );
        // the wrong byte order
        let wrong = Sections {
            endian: Endian::Big,
            ..*sections
        };
        assert_eq!(text(&wrong, 0), wanted);
        let refused = wrong.all_units().next().unwrap().unwrap_err();
        assert_eq!(refused.to_string(), wanted);
        let mut units = wrong.units();
        let error = units.next().unwrap().unwrap_err();
        assert_eq!(units.refused(error).to_string(), wanted);
        assert!(units.next().is_none());
        // of .debug_types
        let refused = sections.type_unit(0x40).unwrap_err();
        let wanted = format!("the unit at 0x40: {EOF} (.debug_types at 0x40)");
        assert_eq!(refused.to_string(), wanted);
    });
}

#[test]
fn a_reference_after_a_unit_that_is_refused() {
    let first = unit_bytes(4, &[1]);
    let info = [&first[..], &unit_bytes(9, &[1])].concat();
    let sections = Sections {
        debug_info: &info,
        debug_abbrev: &[1, 0x11, 0, 0, 0, 0],
        ..Sections::default()
    };
    assert!(sections.unit_holding(11).is_ok());
    let text = "the unit at 0xc: The version is unknown. (.debug_info at 0xc)";
    for offset in [12, 100] {
        let refused = sections.unit_holding(offset).unwrap_err();
        assert_eq!(refused.to_string(), text);
    }
}

#[test]
fn a_unit_of_another_file() {
    let other = unit_bytes(4, &[1, 1]);
    let header = |info: &[u8]| {
        let sections = Sections {
            debug_info: info,
            ..Sections::default()
        };
        sections.units().last().unwrap().unwrap()
    };
    values().with(|sections| {
        let text = |info| sections.unit_of(&header(info)).unwrap_err().to_string();
        let reason = "The unit is one of other sections.";
        let wanted = format!("the unit at 0x0: {reason} (.debug_info at 0x0)");
        assert_eq!(text(&other[..]), wanted);
        // at an offset where these have none
        let after = [sections.debug_info, &other, &other].concat();
        let at = header(&after).offset();
        let wanted = format!("the unit at {at:#x}: {EOF} (.debug_info at {at:#x})");
        assert_eq!(text(&after[..]), wanted);
    });
}

#[test]
fn sections_that_are_missing() {
    let of = |what: &str, place: &str| {
        format!("{what} of the entry at 0xc of the unit at 0x0: {EOF} ({place})")
    };
    values().with(|sections| {
        let without = Sections {
            debug_abbrev: &[],
            ..*sections
        };
        let text = format!("the unit at 0x0: {EOF} (.debug_abbrev at 0x0)");
        assert_eq!(first_refusal(&without), text);
    });
    let addr = changed(|file| file.addr.clear());
    assert_eq!(addr, of("DW_AT_low_pc", ".debug_addr at 0x8"));
    let str = changed(|file| file.str.clear());
    assert_eq!(str, of("DW_AT_name", ".debug_str at 0x3"));
    let offsets = changed(|file| file.str_offsets.clear());
    assert_eq!(offsets, of("DW_AT_name", ".debug_str_offsets at 0x8"));
    let line = changed(|file| file.line_str.clear());
    assert_eq!(line, of("DW_AT_comp_dir", ".debug_line_str at 0x0"));
    let ranges = changed(|file| file.rnglists.clear());
    assert_eq!(ranges, of("DW_AT_ranges", ".debug_rnglists at 0xc"));
    let locations = changed(|file| file.loclists.clear());
    assert_eq!(locations, of("DW_AT_location", ".debug_loclists at 0xc"));
}

#[test]
fn bases_that_are_missing() {
    // each is taken for another offset
    let without = |index: usize| changed(|file| file.names[index] = 0x10);
    let of =
        |what, place| format!("{what} of the entry at 0xc of the unit at 0x0: {NO_BASE} ({place})");
    let text = of(
        "DW_AT_name",
        ".debug_str_offsets, no DW_AT_str_offsets_base",
    );
    assert_eq!(without(0), text);
    let text = of("DW_AT_low_pc", ".debug_addr, no DW_AT_addr_base");
    assert_eq!(without(1), text);
    let text = of("DW_AT_ranges", ".debug_rnglists, no DW_AT_rnglists_base");
    assert_eq!(without(2), text);
    let text = of("DW_AT_location", ".debug_loclists, no DW_AT_loclists_base");
    assert_eq!(without(3), text);
}

#[test]
fn bases_in_the_header_of_a_section() {
    let of = |base| {
        format!("{base} of the entry at 0xc of the unit at 0x0: {BAD_BASE} (.debug_info at 0xc)")
    };
    for (index, least, base) in [
        (0, 8, "DW_AT_str_offsets_base"),
        (1, 8, "DW_AT_addr_base"),
        (2, 12, "DW_AT_rnglists_base"),
        (3, 12, "DW_AT_loclists_base"),
    ] {
        for number in [0, least - 1] {
            assert_eq!(changed(|file| file.bases[index] = number), of(base));
        }
    }
    // a base that is no offset, and a low_pc that is no address
    let refused = changed(|file| (file.names[0], file.names[4]) = (0x10, 0x72));
    assert_eq!(refused, of("DW_AT_str_offsets_base"));
    let refused = changed(|file| (file.names[4], file.names[8]) = (0x10, 0x11));
    assert_eq!(refused, of("DW_AT_low_pc"));
}

#[test]
fn bases_beyond_their_section() {
    let at = |index: usize, base| changed(|file| file.bases[index] = base);
    let of =
        |what, place| format!("{what} of the entry at 0xc of the unit at 0x0: {EOF} ({place})");
    assert_eq!(
        at(0, 0x100),
        of("DW_AT_name", ".debug_str_offsets at 0x100")
    );
    assert_eq!(at(1, 0x100), of("DW_AT_low_pc", ".debug_addr at 0x100"));
    assert_eq!(at(2, 0x100), of("DW_AT_ranges", ".debug_rnglists at 0x100"));
    assert_eq!(
        at(3, 0x100),
        of("DW_AT_location", ".debug_loclists at 0x100")
    );
    // between two items of the table
    assert_eq!(at(0, 9), of("DW_AT_name", ".debug_str at 0x7000000"));
    let refused = changed(|file| (file.bases[1], file.indices[0]) = (9, vec![1]));
    assert_eq!(refused, of("DW_AT_low_pc", ".debug_addr at 0x11"));
    assert_eq!(
        at(2, 15),
        of("DW_AT_ranges", ".debug_rnglists at 0x2010040f")
    );
}

#[test]
fn texts_without_an_end() {
    let of =
        |what, place| format!("{what} of the entry at 0xc of the unit at 0x0: {EOF} ({place})");
    let str = changed(|file| file.str.truncate(5));
    assert_eq!(str, of("DW_AT_name", ".debug_str at 0x3"));
    let line = changed(|file| file.line_str.truncate(1));
    assert_eq!(line, of("DW_AT_comp_dir", ".debug_line_str at 0x0"));
}

#[test]
fn an_index_beyond_all() {
    let most = [&[0xff; 9][..], &[1]].concat();
    let of = |what, place| {
        format!("{what} of the entry at 0xc of the unit at 0x0: {NO_OFFSET} ({place})")
    };
    let at = |index: usize| changed(|file| file.indices[index] = most.clone());
    assert_eq!(at(0), of("DW_AT_low_pc", ".debug_addr at 0x8"));
    assert_eq!(at(1), of("DW_AT_name", ".debug_str_offsets at 0x8"));
    assert_eq!(at(2), of("DW_AT_ranges", ".debug_rnglists at 0xc"));
    assert_eq!(at(3), of("DW_AT_location", ".debug_loclists at 0xc"));
    // one that fits, after the end
    let of =
        |what, place| format!("{what} of the entry at 0xc of the unit at 0x0: {EOF} ({place})");
    let refused = changed(|file| file.indices[1] = vec![0x7f]);
    assert_eq!(refused, of("DW_AT_name", ".debug_str_offsets at 0x204"));
}

// How many ranges and locations the lists of the root have.
fn sizes_of_lists(sections: &Sections<'_>) -> [Result<usize, String>; 2] {
    let unit = sections.unit(0).unwrap();
    let attr = |name: DwAt| unit.root().unwrap().attr(name).unwrap();
    let ranges = unit.ranges(&attr(DW_AT_ranges)).map(|list| list.len());
    let locations = unit.locations(&attr(DW_AT_location)).map(|list| list.len());
    [ranges, locations].map(|list| list.map_err(|refused| refused.to_string()))
}

// A list whose entry names an address by an index.
#[test]
fn lists_without_an_address() {
    let lists = |change: fn(&mut Values)| {
        let mut file = values();
        // (the index of the root is none of low_pc)
        file.names[4] = 0x31;
        file.rnglists
            .splice(16.., [5, 0, 0, 0, 0, 0, 0, 0, 0, 3, 1, 2, 0]);
        file.loclists.splice(16.., [3, 1, 2, 1, 0x9c, 0]);
        change(&mut file);
        file.with(sizes_of_lists)
    };
    let of = |what, place| {
        Err(format!(
            "{what} of the entry at 0xc of the unit at 0x0: {EOF} ({place})"
        ))
    };
    assert_eq!(lists(|_| {}), [Ok(1), Ok(1)]);
    let at = ".debug_addr at 0x10";
    let wanted = [of("DW_AT_ranges", at), of("DW_AT_location", at)];
    assert_eq!(lists(|file| file.addr.clear()), wanted);
    assert_eq!(lists(|file| file.addr.truncate(23)), wanted);
    let none = ".debug_addr, no DW_AT_addr_base";
    let wanted = [of("DW_AT_ranges", none), of("DW_AT_location", none)];
    assert_eq!(lists(|file| file.names[1] = 0x10), wanted);
    // lists that are cut in an entry
    let ranges = of("DW_AT_ranges", ".debug_rnglists at 0x10");
    let locations = of("DW_AT_location", ".debug_loclists at 0x10");
    for cut in [2, 3] {
        let mut file = values();
        file.names[4] = 0x31;
        file.rnglists.truncate(20 - cut);
        file.loclists.truncate(22 - cut);
        let wanted = [ranges.clone(), locations.clone()];
        assert_eq!(file.with(sizes_of_lists), wanted);
    }
}

#[test]
fn roots_with_little() {
    // no attribute
    let info = unit_bytes(5, &[1]);
    let sections = Sections {
        debug_info: &info,
        debug_abbrev: &[1, 0x11, 0, 0, 0, 0],
        ..Sections::default()
    };
    let unit = sections.unit(0).unwrap();
    assert_eq!(*unit.bases(), Bases::default());
    assert_eq!(read_values(&unit), Ok(()));
    // a null, and no bytes
    let null = unit_bytes(5, &[0]);
    let refused = first_refusal(&Sections {
        debug_info: &null,
        ..sections
    });
    let text = "the entry at 0xc of the unit at 0x0: No entry stands at the offset.";
    assert_eq!(refused, format!("{text} (.debug_info at 0xc)"));
    let nothing = unit_bytes(5, &[]);
    let unit = sections.unit_of(&sections.units().next().unwrap().unwrap());
    assert!(unit.is_ok());
    let refused = Sections {
        debug_info: &nothing,
        ..sections
    }
    .unit(0)
    .unwrap_err();
    assert_eq!(refused.section, Some(SectionId::DebugInfo));
    assert_eq!((refused.offset, refused.unit), (Some(12), Some(0)));
}

#[test]
fn lists_before_version_5() {
    let info = unit_bytes(4, &[1, 0x20, 0, 0, 0, 0x20, 0, 0, 0]);
    let sections = Sections {
        debug_info: &info,
        debug_abbrev: &[1, 0x11, 0, 0x55, 0x17, 2, 0x17, 0, 0, 0],
        ..Sections::default()
    };
    let of =
        |what, place| format!("{what} of the entry at 0xb of the unit at 0x0: {EOF} ({place})");
    let unit = sections.unit(0).unwrap();
    let root = unit.root().unwrap();
    let (ranges, locations) = (
        root.attr(DW_AT_ranges).unwrap(),
        root.attr(DW_AT_location).unwrap(),
    );
    let refused = unit.ranges(&ranges).unwrap_err().to_string();
    assert_eq!(refused, of("DW_AT_ranges", ".debug_ranges at 0x20"));
    let refused = unit.locations(&locations).unwrap_err().to_string();
    assert_eq!(refused, of("DW_AT_location", ".debug_loc at 0x20"));
}

#[test]
fn of_split_units() {
    let header = |sections: &Sections<'_>| sections.units().next().unwrap().unwrap();
    // of version 5, whose lists have no address to count from
    values().with(|sections| {
        let abbrev = [1, 0x11, 0, 0x55, 0x23, 3, 0x1a, 0, 0, 0];
        let info = unit_bytes(5, &[1, 0, 0]);
        let dwo = Sections {
            debug_info: &info,
            debug_abbrev: &abbrev,
            ..*sections
        };
        let unit = dwo.split_unit(&header(&dwo), None).unwrap();
        let (bases, root) = (unit.bases(), unit.root().unwrap());
        assert!(bases.is_dwo && bases.low_pc.is_none() && bases.rnglists_base == Some(12));
        assert_eq!(unit.text(&root.attr(DW_AT_name).unwrap()), Ok(&b"cd"[..]));
        let refused = unit.ranges(&root.attr(DW_AT_ranges).unwrap()).unwrap_err();
        let text = format!(
            "DW_AT_ranges of the entry at 0xc of the unit at 0x0: {NO_BASE} (.debug_rnglists.dwo at 0x10, no DW_AT_low_pc)"
        );
        assert_eq!(refused.to_string(), text);
        assert!(refused.is_dwo);
    });
    // of version 4, whose DW_AT_ranges counts from its skeleton's base
    let info = unit_bytes(4, &[1, 0, 0, 0, 0]);
    let sections = Sections {
        debug_info: &info,
        debug_abbrev: &[1, 0x11, 0, 0x55, 0x17, 0, 0, 0],
        ..Sections::default()
    };
    let unit = sections.split_unit(&header(&sections), None).unwrap();
    let refused = unit.ranges(&unit.root().unwrap().attr(DW_AT_ranges).unwrap());
    let text = format!(
        "DW_AT_ranges of the entry at 0xb of the unit at 0x0: {NO_BASE} (.debug_ranges, no DW_AT_GNU_ranges_base)"
    );
    assert_eq!(refused.unwrap_err().to_string(), text);
    // a header that is cut
    let program = Sections::default();
    let cut = Sections {
        debug_info: &info[..9],
        ..sections
    };
    let refused = cut.split_units(&program).next().unwrap().unwrap_err();
    let text = format!("the unit at 0x0: {EOF} (.debug_info.dwo at 0x0)");
    assert_eq!(refused.to_string(), text);
}

#[test]
fn of_the_supplementary_file() {
    let info = unit_bytes(5, &[1, 3, 0, 0, 0]);
    let sections = Sections {
        debug_info: &info,
        debug_abbrev: &[1, 0x11, 0, 3, 0x1d, 0, 0, 0],
        debug_str_sup: b"ab",
        ..Sections::default()
    };
    let unit = sections.unit(0).unwrap();
    let name = unit.root().unwrap().attr(DW_AT_name).unwrap();
    assert_eq!(name.raw_value(), AttributeValue::DebugStrRefSup(3));
    let refused = unit.text(&name).unwrap_err().to_string();
    let text = format!("{EOF} (.debug_str of the supplementary file at 0x3)");
    assert_eq!(
        refused,
        format!("DW_AT_name of the entry at 0xc of the unit at 0x0: {text}")
    );
}
