//! The units of addresses.

mod common;

use common::{table, unit_bytes};
use gimli_proved::{Endian, Error, Sections};

// A set of version 2 for a unit, with ranges as addresses and lengths.
fn set(unit: u32, ranges: &[(u64, u64)]) -> Vec<u8> {
    let mut set = vec![0, 0, 0, 0, 2, 0];
    set.extend(unit.to_le_bytes());
    set.extend([8, 0, 0, 0, 0, 0]);
    for (begin, length) in ranges.iter().chain(&[(0, 0)]) {
        set.extend(begin.to_le_bytes());
        set.extend(length.to_le_bytes());
    }
    set[0] = (set.len() - 4) as u8;
    set
}

#[test]
fn unit_of_an_address() {
    let aranges = set(0x40, &[(0x1000, 0x20)]);
    let sections = Sections {
        debug_aranges: &aranges,
        ..Sections::default()
    };
    assert_eq!(sections.unit_of_address(0x101f), Ok(Some(0x40)));
    assert_eq!(sections.unit_of_address(0x1020), Ok(None));
    let short = Sections {
        debug_aranges: &aranges[..9],
        ..Sections::default()
    };
    assert_eq!(short.unit_of_address(0), Err(Error::UnexpectedEof));
}

// Units of version 4, the last of which begins at an offset.
fn units_up_to(offset: u64) -> Vec<u8> {
    let first = offset.checked_sub(11).map(|length| {
        let entries = vec![1; length as usize];
        unit_bytes(4, &entries)
    });
    [first.unwrap_or_default(), unit_bytes(4, &[1])].concat()
}

// The sets of a table: the unit of an address holds it.
#[test]
fn sets_of_the_table() {
    let mut counts = [0; 3];
    for row in table("finds.txt") {
        let Some(address) = row.call.strip_prefix("words find info ") else {
            continue;
        };
        let Ok(address) = u64::from_str_radix(address, 16) else {
            continue;
        };
        let info = units_up_to(0);
        let sections = Sections {
            debug_info: &info,
            debug_abbrev: &[1, 0x11, 0, 0, 0, 0],
            debug_aranges: &row.bytes[0],
            ..Sections::default()
        };
        match sections.unit_of_address(address) {
            Ok(Some(offset)) if offset == 0 || (12..1 << 20).contains(&offset) => {
                let info = units_up_to(offset);
                let sections = Sections {
                    debug_info: &info,
                    ..sections
                };
                let unit = sections.unit(offset).unwrap();
                assert_eq!(unit.holds_address(address), Ok(true), "{address:x}");
                counts[0] += 1;
            }
            Ok(Some(_)) => {}
            Ok(None) => {
                assert_eq!(
                    sections.units_of_address(address),
                    Ok(vec![]),
                    "{address:x}"
                );
                counts[1] += 1;
            }
            Err(error) => {
                let units = sections.units_of_address(address);
                assert_eq!(units.map_err(|refused| refused.error), Err(error));
                counts[2] += 1;
            }
        }
    }
    assert!(counts.iter().all(|count| *count > 10), "{counts:?}");
}

// Units of version 5: a range from low_pc to high_pc, one by addresses, a list, and none.
const ABBREV: [u8; 34] = [
    1, 0x11, 0, 0x11, 1, 0x12, 0x0b, 0, 0, // low_pc, and the number of bytes
    2, 0x11, 0, 0x11, 1, 0x12, 1, 0, 0, // low_pc and high_pc
    3, 0x11, 0, 0x11, 1, 0x55, 0x17, 0, 0, // low_pc, and ranges at an offset
    4, 0x11, 0, 0, 0, 0, 0,
];

const RNGLISTS: [u8; 19] = [
    0x0f, 0, 0, 0, 5, 0, 8, 0, 0, 0, 0, 0, // the header
    4, 0x10, 0x20, 4, 0x30, 0x31, 0,
];

fn units() -> Vec<u8> {
    let address = |number: u64| number.to_le_bytes();
    let first = [&[1][..], &address(0x1000), &[0x40]].concat();
    let second = [&[2][..], &address(0x1020), &address(0x1080)].concat();
    let third = [&[3][..], &address(0x1000), &[12, 0, 0, 0]].concat();
    [&first[..], &second, &third, &[4]]
        .map(|unit| unit_bytes(5, unit))
        .concat()
}

#[test]
fn units_by_their_roots() {
    let info = units();
    let sections = Sections {
        debug_info: &info,
        debug_abbrev: &ABBREV,
        debug_rnglists: &RNGLISTS,
        ..Sections::default()
    };
    let [first, second, third, _] = offsets(&sections);
    for (address, wanted) in [
        (0xfff, vec![]),
        (0x1000, vec![first]),
        (0x101f, vec![first, third]),
        (0x1020, vec![first, second]),
        (0x1030, vec![first, second, third]),
        (0x1040, vec![second]),
        (0x1080, vec![]),
    ] {
        assert_eq!(
            sections.units_of_address(address),
            Ok(wanted),
            "{address:x}"
        );
        assert_eq!(sections.unit_of_address(address), Ok(None));
    }
    // a list that is cut in an entry is a refusal
    let cut = Sections {
        debug_rnglists: &RNGLISTS[..14],
        ..sections
    };
    let refused = cut.units_of_address(0x1000).unwrap_err();
    let reason = "The input ends before what should stand there. (.debug_rnglists at 0xc)";
    let text = format!("DW_AT_ranges of the entry at 0xc of the unit at {third:#x}: {reason}");
    assert_eq!(refused.to_string(), text);
}

fn offsets(sections: &Sections<'_>) -> [u64; 4] {
    let offsets: Vec<u64> = sections
        .units()
        .map(|unit| unit.unwrap().offset())
        .collect();
    offsets.try_into().unwrap()
}

#[test]
fn units_by_their_sets() {
    let info = units();
    let sections = Sections {
        debug_info: &info,
        debug_abbrev: &ABBREV,
        debug_rnglists: &RNGLISTS,
        ..Sections::default()
    };
    let [first, second, third, last] = offsets(&sections);
    // two sets for the last unit, one for the first, whose root has more than its set, and none for
    // the others
    let sets = [
        set(last as u32, &[(0x1030, 8)]),
        set(first as u32, &[(0x1000, 8)]),
        set(
            last as u32,
            &[(0x2000, 8), (u64::MAX - 1, 1), (u64::MAX - 8, 9)],
        ),
    ];
    let aranges = sets.concat();
    let sections = Sections {
        debug_aranges: &aranges,
        ..sections
    };
    for (address, wanted) in [
        (0x1000, vec![first]),
        (0x1008, vec![]),
        (0x1030, vec![second, third, last]),
        (0x1031, vec![second, last]),
        (0x2007, vec![last]),
        (u64::MAX - 1, vec![]),
    ] {
        assert_eq!(
            sections.units_of_address(address),
            Ok(wanted),
            "{address:x}"
        );
    }
    // a set of no unit
    let aranges = [&aranges[..], &set(1, &[(0x3000, 8)])].concat();
    let sections = Sections {
        debug_aranges: &aranges,
        ..sections
    };
    assert_eq!(sections.units_of_address(0x1000), Ok(vec![first]));
    assert_eq!(sections.units_of_address(0x3000), Ok(vec![]));
}

#[test]
fn malformed_sets() {
    let good = set(0, &[(0x1000, 8)]);
    let changed = |at: usize, byte: u8| {
        let mut set = good.clone();
        set[at] = byte;
        set
    };
    let cases = [
        (changed(4, 4), Error::UnknownVersion),
        (changed(10, 3), Error::UnsupportedAddressSize),
        (changed(11, 1), Error::UnsupportedSegmentSize),
        (changed(0, 0xff), Error::UnexpectedEof),
        (changed(3, 0xff), Error::UnexpectedEof),
        (vec![0xf0, 0xff, 0xff, 0xff], Error::UnknownReservedLength),
        (good[..good.len() - 1].to_vec(), Error::UnexpectedEof),
    ];
    let info = unit_bytes(4, &[1]);
    for (bad, error) in cases {
        let aranges = [&good[..], &bad].concat();
        let sections = Sections {
            debug_aranges: &aranges,
            debug_abbrev: &[1, 0x11, 0, 0, 0, 0],
            ..Sections::default()
        };
        assert_eq!(sections.unit_of_address(0), Err(error));
        // (without a unit none holds it)
        assert_eq!(sections.units_of_address(0), Ok(vec![]));
        let debug_info = &info;
        let sections = Sections {
            debug_info,
            ..sections
        };
        let refused = sections.units_of_address(0).unwrap_err();
        let text = format!("{error} (.debug_aranges at {:#x})", good.len());
        assert_eq!(refused.to_string(), text);
        // a set before it holds the address
        assert_eq!(sections.units_of_address(0x1007), Ok(vec![0]));
    }
}

// A set whose length takes eight bytes, in big endian, before one that is refused.
#[test]
fn a_malformed_set_after_a_long_one() {
    let long = [
        &[0xff, 0xff, 0xff, 0xff, 0, 0, 0, 0, 0, 0, 0, 0x24, 0, 2][..],
        &[0; 8],
        &[8, 0],
        &[0; 8], // the padding
        &[0; 16],
    ];
    let aranges = [&long.concat()[..], &[0, 0, 0, 2, 0, 9]].concat();
    let sections = Sections {
        debug_info: &[0, 0, 0, 8, 0, 4, 0, 0, 0, 0, 8, 1],
        debug_abbrev: &[1, 0x11, 0, 0, 0, 0],
        debug_aranges: &aranges,
        endian: Endian::Big,
        ..Sections::default()
    };
    let unit = sections.unit(0).unwrap();
    let refused = unit.holds_address(0).unwrap_err();
    let text = "The version is unknown. (.debug_aranges at 0x30)";
    assert_eq!(refused.to_string(), text);
}

// The attributes of a root in the order in which they are read, and where the first that is refused
// stands; a set that is refused comes before all.
#[test]
fn malformed_roots() {
    let abbrev = [
        1, 0x11, 0, 0x11, 1, 0x12, 0x1b, 0, 0, // low_pc, and high_pc at an index
        2, 0x11, 0, 0x73, 0x17, 0x12, 0x1b, 0,
        0, // the same after the table's base, without low_pc
        3, 0x11, 0, 0x55, 0x17, 0x11, 1, 0, 0, // ranges at an offset, and low_pc
        4, 0x11, 0, 0x55, 0x23, 0, 0, 0, // ranges at an index
    ];
    let low = [0; 8];
    let eof = "The input ends before what should stand there.";
    let no_base = "The value counts from a base that the unit does not have.";
    let kind = "The kind of an entry of a range list is unknown.";
    for (root, reason, place) in [
        (
            [&[1][..], &low, &[3]].concat(),
            format!("DW_AT_high_pc of the entry at 0xc of the unit at 0x0: {no_base}"),
            ".debug_addr, no DW_AT_addr_base",
        ),
        (
            vec![2, 8, 0, 0, 0, 3],
            format!("DW_AT_high_pc of the entry at 0xc of the unit at 0x0: {eof}"),
            ".debug_addr at 0x20",
        ),
        (
            [&[3, 99, 0, 0, 0][..], &low].concat(),
            format!("DW_AT_ranges of the entry at 0xc of the unit at 0x0: {eof}"),
            ".debug_rnglists at 0x63",
        ),
        (
            [&[3, 12, 0, 0, 0][..], &low].concat(),
            format!("DW_AT_ranges of the entry at 0xc of the unit at 0x0: {kind}"),
            ".debug_rnglists at 0xc",
        ),
        (
            vec![4, 3],
            format!("DW_AT_ranges of the entry at 0xc of the unit at 0x0: {no_base}"),
            ".debug_rnglists, no DW_AT_rnglists_base",
        ),
    ] {
        let info = unit_bytes(5, &root);
        let rnglists = [&RNGLISTS[..12], &[4, 0x10, 0x20, 9]].concat();
        let sections = Sections {
            debug_info: &info,
            debug_abbrev: &abbrev,
            debug_rnglists: &rnglists,
            debug_aranges: &[],
            ..Sections::default()
        };
        let unit = sections.unit(0).unwrap();
        let refused = unit.holds_address(0x30).unwrap_err();
        assert_eq!(refused.to_string(), format!("{reason} ({place})"));
        assert_eq!(sections.units_of_address(0x30), Err(refused));
        let aranges = [&set(1, &[(0x30, 8)])[..], &[1]].concat();
        let debug_aranges = &aranges;
        let sections = Sections {
            debug_aranges,
            ..sections
        };
        let refused = sections.units_of_address(0x30).unwrap_err();
        let at = aranges.len() - 1;
        assert_eq!(
            refused.to_string(),
            format!("{eof} (.debug_aranges at {at:#x})")
        );
    }
}
