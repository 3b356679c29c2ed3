//! Refused memory, and how much is asked for. The library and the crate ask malloc and realloc
//! alike, which are those of this program, over glibc's.

use gimli_proved::{
    Bases, DW_AT_byte_size, DW_AT_const_value, DW_AT_ranges, Error, Place, Range, Refused, Row,
    Sections, UnitHeader,
};
use std::{cell::Cell, ffi::c_void, ptr};

thread_local! {
    // how many requests are granted before one is refused; below 0 all are granted
    static LEFT: Cell<i64> = const { Cell::new(-1) };
    // the largest number of bytes that was asked for at once
    static MOST: Cell<usize> = const { Cell::new(0) };
}

unsafe extern "C" {
    fn __libc_malloc(size: usize) -> *mut c_void;
    fn __libc_realloc(block: *mut c_void, size: usize) -> *mut c_void;
}

fn is_refused(size: usize) -> bool {
    MOST.set(MOST.get().max(size));
    let left = LEFT.get();
    LEFT.set((left - 1).max(-1));
    left == 0
}

#[unsafe(no_mangle)]
extern "C" fn malloc(size: usize) -> *mut c_void {
    if is_refused(size) {
        return ptr::null_mut();
    }
    // SAFETY: any size may be asked for.
    unsafe { __libc_malloc(size) }
}

#[unsafe(no_mangle)]
unsafe extern "C" fn realloc(block: *mut c_void, size: usize) -> *mut c_void {
    if is_refused(size) {
        return ptr::null_mut();
    }
    // SAFETY: the caller's block is one of glibc's.
    unsafe { __libc_realloc(block, size) }
}

// A call with all requests granted, or all but the one after so many; whether one was refused.
fn with_refused<T>(at: i64, call: impl FnOnce() -> T) -> (T, bool) {
    LEFT.set(at);
    let answer = call();
    let left = LEFT.replace(-1);
    (answer, at >= 0 && left < 0)
}

// How many requests a call makes.
fn requests<T>(call: impl FnOnce() -> T) -> i64 {
    LEFT.set(i64::MAX);
    call();
    i64::MAX - LEFT.replace(-1)
}

const ABBREV: [u8; 23] = [
    1, 0x11, 1, 0x55, 0x17, 0, 0, // the root, with ranges at an offset
    2, 0x34, 0, 0x0b, 0x0b, 0x1c, 0x05, 0, 0, // one byte and two bytes
    3, 0x05, 0, 0, 0, // no attribute
    0, 0,
];

// A unit of version 5 with so many entries under its root.
fn unit_of(entries: u8) -> Vec<u8> {
    let mut info = vec![0, 0, 0, 0, 5, 0, 1, 8, 0, 0, 0, 0, 1, 0, 0, 0, 0];
    for i in 0..entries {
        match i % 3 {
            0 => info.push(3),
            _ => info.extend([2, i, i, 1]),
        }
    }
    info.push(0);
    let length = (info.len() - 4) as u32;
    info[..4].copy_from_slice(&length.to_le_bytes());
    info
}

fn sections(info: &[u8]) -> (Sections<'_>, UnitHeader) {
    let sections = Sections {
        debug_info: info,
        debug_abbrev: &ABBREV,
        ..Sections::default()
    };
    (sections, sections.units().next().unwrap().unwrap())
}

// The rows of a unit; after the one refusal of memory another iterator goes on at the place.
fn rows(sections: &Sections<'_>, unit: &UnitHeader, room: usize, into: &mut Vec<Row>) {
    let mut rows = sections.rows_from(unit, unit.root(), room);
    let mut refusals = 0;
    loop {
        let place = rows.place();
        match rows.next() {
            None => return,
            Some(Ok(row)) => into.push(row),
            Some(Err(Error::OutOfMemory)) if refusals == 0 => {
                assert!(rows.place() == place && rows.next().is_none());
                rows = sections.rows_from(unit, place, room);
                refusals += 1;
            }
            Some(Err(error)) => panic!("{error}"),
        }
    }
}

#[derive(Debug, PartialEq)]
struct Seen {
    place: Place,
    tag: u16,
    numbers: (Option<u64>, Option<u64>),
}

// The same of entries with attributes.
fn entries(
    sections: &Sections<'_>,
    unit: &UnitHeader,
    room: usize,
    space: usize,
    into: &mut Vec<Seen>,
) {
    let mut entries = sections.entries_from(unit, unit.root(), room, space);
    let mut refusals = 0;
    loop {
        match entries.next_entry() {
            Ok(None) => return,
            Ok(Some(entry)) => into.push(Seen {
                place: entry.place(),
                tag: entry.tag(),
                numbers: (
                    entry.attr(DW_AT_byte_size).and_then(|a| a.number()),
                    entry.attr(DW_AT_const_value).and_then(|a| a.number()),
                ),
            }),
            Err(Error::OutOfMemory) if refusals == 0 => {
                entries = sections.entries_from(unit, entries.place(), room, space);
                refusals += 1;
            }
            Err(error) => panic!("{error}"),
        }
    }
}

#[test]
fn rows_go_on() {
    let info = unit_of(40);
    let (sections, unit) = sections(&info);
    for room in [1, 7, 4096, usize::MAX] {
        let mut wanted = Vec::new();
        rows(&sections, &unit, room, &mut wanted);
        assert_eq!(wanted.len(), 42);
        let mut got = Vec::with_capacity(64);
        let mut at = 0;
        while with_refused(at, || rows(&sections, &unit, room, &mut got)).1 {
            assert!(got == wanted, "{room} {at}");
            got.clear();
            at += 1;
        }
        assert!(at > 1, "{room}");
    }
}

#[test]
fn entries_go_on() {
    let info = unit_of(40);
    let (sections, unit) = sections(&info);
    for (room, space) in [(1, 0), (7, 5), (4096, 4096), (usize::MAX, 100)] {
        let mut wanted = Vec::new();
        entries(&sections, &unit, room, space, &mut wanted);
        assert_eq!(wanted.len(), 42);
        let mut got = Vec::with_capacity(64);
        let mut at = 0;
        while with_refused(at, || entries(&sections, &unit, room, space, &mut got)).1 {
            assert!(got == wanted, "{room} {space} {at}");
            got.clear();
            at += 1;
        }
        assert!(at > 1, "{room} {space}");
    }
}

// Refused memory is answered once, and is the end.
#[test]
fn refusals_are_told() {
    let info = unit_of(1);
    let (sections, unit) = sections(&info);
    let mut rows = sections.rows(&unit);
    let (row, _) = with_refused(0, || rows.next());
    assert_eq!(row, Some(Err(Error::OutOfMemory)));
    assert!(rows.place() == unit.root() && !rows.is_row_refused());
    assert_eq!(rows.next(), None);
    let rows = sections.rows_from(&unit, rows.place(), 1);
    assert_eq!(rows.filter(|row| row.is_ok()).count(), 3);
    let mut entries = sections.entries_from(&unit, unit.root(), usize::MAX, usize::MAX);
    assert_eq!(entries.next_entry().err(), Some(Error::OutOfMemory));
    assert!(matches!(entries.next_entry(), Ok(None)));
    assert!(entries.place() == unit.root() && !entries.is_row_refused());
}

#[test]
fn abbreviations_are_whole_or_refused() {
    let info = unit_of(40);
    let (sections, unit) = sections(&info);
    for at in 0..2 {
        let (abbreviations, is_refused) = with_refused(at, || sections.abbreviations(&unit));
        assert!(is_refused && abbreviations.err() == Some(Error::OutOfMemory));
    }
    assert_eq!(requests(|| sections.abbreviations(&unit)), 2);
}

// The first call reads them, and they are read once more for all others; by those that are handed
// over no call reads any.
#[test]
fn abbreviations_are_read_once() {
    let info = unit_of(40);
    let (sections, unit) = sections(&info);
    let rows = |room| sections.rows_from(&unit, unit.root(), room);
    let one_call = requests(|| rows(4096).count());
    assert!(one_call > 1);
    for room in [1, 7] {
        assert_eq!(requests(|| rows(room).count()), one_call + 2, "{room}");
    }
    let abbreviations = sections.abbreviations(&unit).unwrap();
    assert_eq!(requests(|| rows(7).by(&abbreviations).count()), 1);
}

#[test]
fn lists_are_whole_or_refused() {
    let info = unit_of(0);
    let (sections, unit) = sections(&info);
    let list: Vec<u8> = (0..40).flat_map(|i| [4, i, i + 1]).chain([0]).collect();
    let sections = Sections {
        debug_rnglists: &list,
        ..sections
    };
    let mut entries = sections.entries(&unit);
    let entry = entries.next_entry().unwrap().unwrap();
    let (attr, bases) = (entry.attr(DW_AT_ranges).unwrap(), Bases::default());
    let wanted: Vec<Range> = sections.ranges(&unit, &attr, &bases).unwrap();
    assert_eq!(wanted.len(), 40);
    let mut refused = 0;
    loop {
        match with_refused(refused, || sections.ranges(&unit, &attr, &bases)) {
            (Err(error), true) => assert_eq!(error, Error::OutOfMemory),
            (ranges, is_refused) => {
                assert!(ranges == Ok(wanted) && !is_refused);
                break;
            }
        }
        refused += 1;
    }
    assert_eq!(refused, 2);
    let (ranges, _) = with_refused(1, || sections.attr_ranges(&unit, &attr, &bases));
    assert_eq!(ranges.err(), Some(Error::OutOfMemory));
}

// The number of entries of a unit, their tags, the ranges of its root, and the units of an address.
type Answers = (usize, Vec<u16>, Vec<Range>, Vec<u64>);

// The same, each entry read by its offset.
fn of_unit(sections: &Sections<'_>, mut tags: Vec<u16>) -> Result<Answers, Refused> {
    let unit = sections.unit(0)?;
    let mut rows = unit.rows();
    while let Some(row) = rows.next().transpose()? {
        if !row.is_null() {
            tags.push(unit.entry_at(row.offset)?.tag());
        }
    }
    let (mut entries, mut count) = (unit.entries(), 0);
    while entries.next_entry()?.is_some() {
        count += 1;
    }
    let ranges = unit.die_ranges(&unit.root()?.entry())?;
    Ok((count, tags, ranges, sections.units_of_address(2)?))
}

#[test]
fn units_are_whole_or_refused() {
    let info = unit_of(40);
    let (sections, _) = sections(&info);
    let list: Vec<u8> = (0..40).flat_map(|i| [4, i, i + 1]).chain([0]).collect();
    let sections = Sections {
        debug_rnglists: &list,
        ..sections
    };
    let wanted = of_unit(&sections, vec![]).unwrap();
    assert_eq!((wanted.0, wanted.1.len(), wanted.2.len()), (42, 41, 40));
    assert_eq!(wanted.3, [0]);
    let mut at = 0;
    loop {
        let room = Vec::with_capacity(64);
        let (answer, is_refused) = with_refused(at, || of_unit(&sections, room));
        match answer {
            Err(refused) => assert!(
                is_refused && refused.error == Error::OutOfMemory,
                "{refused}"
            ),
            // (an iterator goes on without a table that it can't have)
            Ok(answer) => assert!(answer == wanted, "{at}"),
        }
        if !is_refused {
            break;
        }
        at += 1;
    }
    assert!(at > 100, "{at}");
}

// The library reads the table of a unit to tell whether it holds an address.
#[test]
fn held_addresses_are_answered_or_refused() {
    let info = unit_of(40);
    let (sections, _) = sections(&info);
    let sections = Sections {
        debug_rnglists: &[4, 8, 9, 1],
        ..sections
    };
    let unit = sections.unit(0).unwrap();
    // one that is held, and one before which the list is refused
    for (address, wanted) in [(8, None), (9, Some(Error::UnexpectedEof))] {
        let mut at = 0;
        loop {
            let (holds, is_refused) = with_refused(at, || unit.holds_address(address));
            match holds {
                Ok(holds) => assert!(holds && wanted.is_none() && !is_refused, "{at}"),
                Err(refused) if refused.error == Error::OutOfMemory => assert!(is_refused, "{at}"),
                // (the place of a refusal is left out where there is no memory to find it)
                Err(refused) => assert_eq!(Some(refused.error), wanted),
            }
            if !is_refused {
                break;
            }
            at += 1;
        }
        assert!(at > 1, "{at}");
    }
}

// The table of a unit is read once for all of its calls.
#[test]
fn units_read_their_table_once() {
    let info = unit_of(40);
    let (sections, header) = sections(&info);
    let read = requests(|| sections.unit(0));
    assert!(read > requests(|| sections.bases(&header)));
    let unit = sections.unit(0).unwrap();
    // a buffer for rows, and two for entries and their attributes; no more for entries without any
    assert_eq!(requests(|| unit.rows().count()), 1);
    assert_eq!(
        requests(|| unit.entry_at(unit.header().header_size() + 5)),
        2
    );
    assert_eq!(
        unit.entry_at(unit.header().header_size() + 5)
            .unwrap()
            .tag(),
        5
    );
}

// The buffers of a small unit are small.
#[test]
fn small_units_ask_for_little() {
    let info = unit_of(3);
    let (sections, unit) = sections(&info);
    MOST.set(0);
    assert_eq!(sections.rows(&unit).count(), 5);
    let mut entries = sections.entries(&unit);
    let mut count = 0;
    while entries.next_entry().unwrap().is_some() {
        count += 1;
    }
    assert_eq!(count, 5);
    assert!(MOST.get() < 16384, "{}", MOST.get());
}
