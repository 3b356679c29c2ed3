//! Ranges and locations.

mod common;

use common::{root, unit_bytes};
use gimli_proved::{Bases, Error, Sections};

#[test]
fn ranges_and_locations() {
    // a unit of version 5 whose entry has ranges at an offset, a location list, and a byte
    let info = unit_bytes(5, &[1, 0, 0, 0, 0, 0, 0, 0, 0, 7]);
    let abbrev = [1, 0x11, 0, 0x55, 0x17, 2, 0x17, 3, 0x0b, 0, 0, 0];
    let rnglists = [4, 0x10, 0x20, 4, 0x30, 0x40, 0];
    let loclists = [4, 1, 2, 1, 0x9c, 0];
    let sections = Sections {
        debug_info: &info,
        debug_abbrev: &abbrev,
        debug_rnglists: &rnglists,
        debug_loclists: &loclists,
        ..Sections::default()
    };
    let (unit, attrs) = root(&sections);
    let [first, second, name] = attrs[..].try_into().unwrap();
    let bases = Bases {
        low_pc: Some(0x1000),
        ..Bases::default()
    };
    let ranges = sections.ranges(&unit, &first, &bases).unwrap();
    let found: Vec<(u64, u64)> = ranges.iter().map(|r| (r.begin, r.end)).collect();
    assert_eq!(found, [(0x1010, 0x1020), (0x1030, 0x1040)]);
    let locations = sections.locations(&unit, &second, &bases).unwrap();
    assert_eq!(
        (locations.len(), locations[0].begin, locations[0].end),
        (1, 0x1001, 0x1002)
    );
    assert_eq!(sections.expression(&unit, &locations[0]), [0x9c]);
    // lists with an item that is refused, after one of ranges and one of locations
    let short = Sections {
        debug_rnglists: &rnglists[..4],
        debug_loclists: &[4, 1, 2, 1, 0x9c, 0x63],
        ..sections
    };
    let (cut, unknown) = (Error::UnexpectedEof, Error::UnknownLocListsEntry);
    assert_eq!(short.ranges(&unit, &first, &bases), Err(cut));
    assert_eq!(short.locations(&unit, &second, &bases), Err(unknown));
    let mut one_by_one = short.attr_ranges(&unit, &first, &bases).unwrap().unwrap();
    assert_eq!(one_by_one.next(), Some(Ok(ranges[0])));
    assert_eq!(one_by_one.next(), Some(Err(cut)));
    assert_eq!(one_by_one.next(), None);
    let one_by_one = short.attr_locations(&unit, &second, &bases).unwrap();
    let found: Vec<_> = one_by_one.unwrap().collect();
    assert_eq!(found, [Ok(locations[0]), Err(unknown)]);
    let one_by_one = sections.attr_ranges(&unit, &first, &bases).unwrap();
    let found: Result<Vec<_>, Error> = one_by_one.unwrap().collect();
    assert_eq!(found, Ok(ranges));
    // a list outside of its section, and a value that names none
    let mut far = info.clone();
    far[13] = 200;
    let far = Sections {
        debug_info: &far,
        ..sections
    };
    let outside = root(&far).1[0];
    assert_eq!(far.ranges(&unit, &outside, &bases), Err(cut));
    assert_eq!(far.attr_ranges(&unit, &outside, &bases).err(), Some(cut));
    assert_eq!(sections.ranges(&unit, &name, &bases), Err(Error::NoList));
    assert!(
        sections
            .attr_ranges(&unit, &name, &bases)
            .unwrap()
            .is_none()
    );
    assert!(
        sections
            .attr_locations(&unit, &name, &bases)
            .unwrap()
            .is_none()
    );
}

#[test]
fn lists_of_empty_ranges() {
    // a unit of version 5 whose entry has ranges at an offset, and a location list
    let info = unit_bytes(5, &[1, 0, 0, 0, 0, 0, 0, 0, 0]);
    let rnglists = [4, 0x10, 0x10, 4, 0x30, 0x20, 0];
    let loclists = [4, 1, 1, 1, 0x9c, 4, 3, 2, 1, 0x9c, 0];
    let empty = [0];
    for (debug_rnglists, debug_loclists) in [(&rnglists[..], &loclists[..]), (&empty, &empty)] {
        let sections = Sections {
            debug_info: &info,
            debug_abbrev: &[1, 0x11, 0, 0x55, 0x17, 2, 0x17, 0, 0, 0],
            debug_rnglists,
            debug_loclists,
            ..Sections::default()
        };
        let (unit, attrs) = root(&sections);
        let [ranges, locations] = attrs[..].try_into().unwrap();
        let whole = sections.unit(0).unwrap();
        assert_eq!(whole.ranges(&ranges), Ok(vec![]));
        assert_eq!(whole.locations(&locations), Ok(vec![]));
        let bases = Bases::default();
        assert_eq!(sections.ranges(&unit, &ranges, &bases), Ok(vec![]));
        assert_eq!(sections.locations(&unit, &locations, &bases), Ok(vec![]));
        let ranges = sections.attr_ranges(&unit, &ranges, &bases).unwrap();
        assert_eq!(ranges.unwrap().count(), 0);
        let locations = sections.attr_locations(&unit, &locations, &bases).unwrap();
        assert_eq!(locations.unwrap().count(), 0);
    }
}
