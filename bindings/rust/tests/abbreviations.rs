//! Tables of abbreviations that are handed over.

mod common;

use common::{files, some_entries, text_of};
use gimli_proved::{Error, Row, Rows, Sections};

// Without the section of abbreviations, so that each call has to go by those that are handed over.
#[test]
fn by_abbreviations() {
    for file in files() {
        let sections = file.sections();
        let without = Sections {
            debug_abbrev: &[],
            ..sections
        };
        for unit in sections.units() {
            let unit = unit.unwrap();
            let table = sections.abbreviations(&unit).unwrap();
            assert!(table.is_some(), "{}", file.name);
            let rows: Vec<Row> = sections.rows(&unit).map(|row| row.unwrap()).collect();
            let text = text_of(sections.entries(&unit));
            for room in [1, 3, 64, 4096] {
                let by = without.rows_from(&unit, unit.root(), room).by(&table);
                assert!(by.eq(rows.iter().map(|row| Ok(*row))), "{}", file.name);
                let by = without.entries_from(&unit, unit.root(), room, room);
                assert!(text_of(by.by(&table)) == text, "{} {room}", file.name);
            }
            let all = some_entries(&mut sections.entries(&unit), usize::MAX);
            for (row, entry) in rows.iter().zip(all) {
                let mut by = without.entries_from(&unit, row.place(), 1, 16).by(&table);
                assert_eq!(some_entries(&mut by, 1), [entry], "{}", file.name);
            }
        }
    }
}

#[test]
fn abbreviations() {
    // a unit of version 4 with entries of the codes 1, 2 and 1, and abbreviations that stand one
    // after the other
    let info = [10, 0, 0, 0, 4, 0, 1, 0, 0, 0, 8, 1, 2, 1];
    let abbrev = [
        9, 1, 0x11, 0, 0, 0, 2, 0x34, 0, 0, 0, 0, // those of the unit, from 1 on
        1, 5, 0, 0, 0, 0, // one code, from 12 on
        2, 0x34, 0, 0, 0, 1, 0x11, 0, 0, 0, 0, // not in order, from 18 on
        1, 0, // without a tag, from 29 on
    ];
    // the sections whose units have the abbreviations at an offset
    let at = |offset: u8| {
        let mut info = info;
        info[6] = offset;
        info
    };
    let infos = [1, 12, 18, 29, 40].map(at);
    let [own, other, unordered, tagless, outside] = infos.each_ref().map(|info| {
        let sections = Sections {
            debug_info: info,
            debug_abbrev: &abbrev,
            ..Sections::default()
        };
        (sections, sections.units().next().unwrap().unwrap())
    });
    let (sections, unit) = own;
    let table = sections.abbreviations(&unit).unwrap().unwrap();
    assert_eq!(
        format!("{table:?}"),
        "Abbreviations { declarations: 2, .. }"
    );
    let tags = |rows: Rows<'_>| -> Vec<_> { rows.map(|row| row.map(|row| row.tag)).collect() };
    let own = [Ok(0x11), Ok(0x34), Ok(0x11)];
    assert_eq!(tags(sections.rows(&unit).by(&table)), own);
    // by those of another unit, which declare one code
    let another = other.0.abbreviations(&other.1).unwrap().unwrap();
    let undeclared = Error::InvalidAbbreviationCode;
    let rows = sections.rows_from(&unit, unit.root(), 1);
    assert_eq!(tags(rows.by(&another)), [Ok(5), Err(undeclared)]);
    let mut entries = sections.entries(&unit).by(&another);
    assert_eq!(entries.next_entry().unwrap().unwrap().tag(), 5);
    assert_eq!(entries.next_entry().err(), Some(undeclared));
    assert!(entries.is_row_refused());
    // from the third call on
    let mut rows = sections.rows_from(&unit, unit.root(), 1);
    assert_eq!(rows.by_ref().take(2).count(), 2);
    assert_eq!(tags(rows.by(&another)), [Ok(5)]);
    // none, by which the unit's are read
    let none = unordered.0.abbreviations(&unordered.1).unwrap();
    assert!(none.is_none());
    let rows = unordered.0.rows_from(&unordered.1, unit.root(), 1);
    assert_eq!(tags(rows.by(&none)), own);
    // refused
    for ((sections, unit), error) in [
        (tagless, Error::AbbreviationTagZero),
        (outside, Error::UnexpectedEof),
    ] {
        assert_eq!(sections.abbreviations(&unit).err(), Some(error));
        assert_eq!(tags(sections.rows(&unit)), [Err(error)]);
    }
}
