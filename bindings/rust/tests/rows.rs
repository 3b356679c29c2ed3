//! Rows of real files and of units made by hand, and siblings.

mod common;

use common::{files, line, some_of};
use gimli_proved::{
    Abbreviations, AllUnits, Entries, Error, OwnedEntry, Place, Row, Rows, Sections, Unit,
    UnitEntries, UnitHeader, UnitRows, Units,
};

fn first_rows(sections: &Sections<'_>, room: usize) -> String {
    let unit = match sections.units().next() {
        None => return String::from("no unit\n"),
        Some(Err(error)) => return format!("error {}\n", error.number()),
        Some(Ok(unit)) => unit,
    };
    let mut text = String::new();
    let mut rows = sections.rows_from(&unit, unit.root(), room);
    while let Some(row) = rows.next() {
        match row {
            Ok(r) => text += &line(r.offset, r.depth, r.tag, r.has_children()),
            Err(error) => {
                return text + &format!("error {} {:x}\n", error.number(), rows.place().offset);
            }
        }
    }
    text + "end\n"
}

#[test]
fn no_unit() {
    assert_eq!(first_rows(&Sections::default(), 1), "no unit\n");
    let one = Sections {
        debug_info: &[1],
        ..Sections::default()
    };
    assert_eq!(first_rows(&one, 1), "error 1\n");
    assert_eq!(
        one.units().next().unwrap().unwrap_err(),
        Error::UnexpectedEof
    );
}

#[test]
fn rows_of_first_units() {
    for file in files() {
        for room in [1, 2, 64, 4096] {
            assert!(
                first_rows(&file.sections(), room) == file.rows,
                "{} {room}",
                file.name
            );
        }
    }
}

#[test]
fn dumps() {
    for file in files() {
        let sections = file.sections();
        let mut text = String::new();
        for unit in sections.units() {
            let unit = unit.unwrap();
            text += &format!(
                "unit {:x} {} {}\n",
                unit.offset(),
                unit.version(),
                unit.kind()
            );
            for row in sections.rows(&unit) {
                let r = row.unwrap();
                text += &line(r.offset, r.depth, r.tag, r.has_children());
            }
            text += "end\n";
        }
        assert!(
            text == file.dump,
            "{}: {}",
            file.name,
            text.lines()
                .zip(file.dump.lines())
                .find(|(a, b)| a != b)
                .map_or(String::new(), |(a, b)| format!("{a} beside {b}"))
        );
    }
}

#[test]
fn siblings() {
    for file in files() {
        let sections = file.sections();
        for unit in sections.units() {
            let unit = unit.unwrap();
            let rows: Vec<Row> = sections.rows(&unit).map(|row| row.unwrap()).collect();
            let honest = sections.first_false_sibling(&unit).unwrap().is_none();
            for (i, row) in rows
                .iter()
                .enumerate()
                .filter(|(i, _)| rows.len() < 2000 || i % 97 == 0)
            {
                let next = rows[i + 1..]
                    .iter()
                    .find(|r| r.depth == row.depth)
                    .filter(|r| !r.is_null() && !row.is_null());
                let plain = sections.next_sibling(&unit, row.place(), false).unwrap();
                assert_eq!(plain.as_ref(), next, "{} {:x}", file.name, row.offset);
                if honest {
                    assert_eq!(
                        sections.next_sibling(&unit, row.place(), true).unwrap(),
                        plain,
                        "{}",
                        file.name
                    );
                }
            }
        }
    }
}

#[test]
fn threads_may_share() {
    fn is<T: Send + Sync>() {}
    is::<Rows<'_>>();
    is::<Entries<'_, '_>>();
    is::<Abbreviations>();
    is::<Units<'_>>();
    is::<Sections<'_>>();
    is::<UnitHeader>();
    is::<Unit<'_>>();
    is::<AllUnits<'_>>();
    is::<UnitRows<'_, '_>>();
    is::<UnitEntries<'_, '_>>();
    is::<OwnedEntry<'_>>();
}

#[test]
fn rows_go_on_at_the_place() {
    for file in files() {
        let sections = file.sections();
        let unit = sections.units().next().unwrap().unwrap();
        let all: Vec<Row> = sections.rows(&unit).map(|row| row.unwrap()).collect();
        if all.len() > 2000 {
            continue;
        }
        for room in [1, 3, 64, 4096] {
            for k in some_of(all.len()) {
                let mut rows = sections.rows_from(&unit, unit.root(), room);
                let mut read: Vec<Row> = rows.by_ref().take(k).map(|row| row.unwrap()).collect();
                let rest = sections.rows_from(&unit, rows.place(), room);
                read.extend(rest.map(|row| row.unwrap()));
                assert!(read == all, "{} {room} {k}", file.name);
            }
        }
    }
}

#[test]
fn refusals_of_rows() {
    // a unit of version 4: its root, two entries, and a code that is not declared
    let info = [11, 0, 0, 0, 4, 0, 0, 0, 0, 0, 8, 1, 2, 2, 9];
    let abbrev = [1, 0x11, 1, 0, 0, 2, 0x34, 0, 0, 0, 0];
    let sections = Sections {
        debug_info: &info,
        debug_abbrev: &abbrev,
        ..Sections::default()
    };
    let unit = sections.units().next().unwrap().unwrap();
    let refused = Place {
        offset: 14,
        depth: 1,
    };
    for room in [0, 1, 2, 3, 4, usize::MAX] {
        let mut rows = sections.rows_from(&unit, unit.root(), room);
        let mut entries = sections.entries_from(&unit, unit.root(), room, 0);
        for offset in 11..14 {
            assert_eq!(rows.place().offset, offset, "{room}");
            assert_eq!(entries.place().offset, offset, "{room}");
            assert_eq!(rows.next().unwrap().unwrap().offset, offset);
            assert_eq!(entries.next_entry().unwrap().unwrap().offset(), offset);
            assert!(!rows.is_row_refused() && !entries.is_row_refused());
        }
        let error = Error::InvalidAbbreviationCode;
        assert_eq!(rows.next(), Some(Err(error)));
        assert_eq!(entries.next_entry().err(), Some(error));
        for _ in 0..2 {
            assert_eq!((rows.place(), entries.place()), (refused, refused));
            assert!(rows.is_row_refused() && entries.is_row_refused());
            assert_eq!(rows.next(), None);
            assert!(entries.next_entry().unwrap().is_none());
        }
        let mut rest = sections.rows_from(&unit, refused, room);
        assert_eq!((rest.next(), rest.next()), (Some(Err(error)), None));
    }
    // abbreviations that end too early
    let short = Sections {
        debug_abbrev: &abbrev[..2],
        ..sections
    };
    let (mut rows, mut entries) = (short.rows(&unit), short.entries(&unit));
    assert_eq!(rows.next(), Some(Err(Error::UnexpectedEof)));
    assert_eq!(entries.next_entry().err(), Some(Error::UnexpectedEof));
    assert_eq!((rows.place(), entries.place()), (unit.root(), unit.root()));
    assert!(!rows.is_row_refused() && !entries.is_row_refused());
    assert!(rows.next().is_none() && entries.next_entry().unwrap().is_none());
    assert_eq!(
        format!("{rows:?}"),
        "Rows { unit: 0, place: Place { offset: 11, depth: 0 }, room: 4, .. }"
    );
    assert!(format!("{entries:?}").starts_with("Entries { unit: 0, place: Place { offset: 11,"));
}
