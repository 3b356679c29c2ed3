//! The rows of the table of bases, by whole units: bases, texts, addresses, lists, and whether they
//! hold an address.

mod common;

use common::{Row, table};
use gimli_proved::{Attribute, DW_AT_ranges, Error, Refused, Sections, Unit};

// A refusal, as the table writes it: the place is left out, and a base has its attribute.
fn refusal(refused: Refused) -> String {
    match refused.error {
        Error::NoBase => format!("missing {:x}", refused.base.unwrap().0),
        Error::BadBase => format!("invalid {:x}", refused.attribute.unwrap().0),
        Error::NoString => "no text".into(),
        error => format!("refused {}", error.number()),
    }
}

// An answer without the places of refusals, and what stands after one.
fn without_places(answer: &str) -> String {
    let parts = answer
        .split("; ")
        .map(|part| match part.split_once("refused ") {
            Some((before, after)) => {
                let number = after.split([' ', ',']).next().unwrap();
                format!("{before}refused {number}")
            }
            None => String::from(part),
        });
    parts.collect::<Vec<_>>().join("; ")
}

// The unit of a row: the first, or the second with the first as its skeleton.
fn unit<'a>(kind: &str, sections: &Sections<'a>) -> Result<Unit<'a>, Refused> {
    let headers: Vec<_> = sections.units().map(|header| header.unwrap()).collect();
    match kind {
        "main" => sections.unit(0),
        "dwo" => sections.split_unit(&headers[0], None),
        "split" => sections.split_unit(&headers[1], Some(&sections.unit_of(&headers[0]).unwrap())),
        kind => panic!("{kind}"),
    }
}

fn number(base: Option<u64>) -> String {
    base.map_or("-".into(), |base| base.to_string())
}

fn bases_text(unit: &Unit<'_>) -> String {
    let bases = unit.bases();
    format!(
        "low_pc {} addr {} str {} rnglists {} loclists {} gnu {}",
        bases
            .low_pc
            .map_or("-".into(), |low_pc| format!("{low_pc:#x}")),
        number(bases.addr_base),
        number(bases.str_offsets_base),
        number(bases.rnglists_base),
        number(bases.loclists_base),
        number(bases.gnu_ranges_base),
    )
}

// The place of bytes in the section that they are of.
fn place(bytes: &[u8], sections: &Sections<'_>) -> usize {
    let all = [
        sections.debug_info,
        sections.debug_str,
        sections.debug_line_str,
        sections.debug_str_sup,
    ];
    let start = bytes.as_ptr() as usize;
    let places = all
        .iter()
        .filter_map(|section| start.checked_sub(section.as_ptr() as usize));
    places.min().unwrap()
}

fn hex(bytes: &[u8]) -> String {
    bytes.iter().map(|byte| format!("{byte:02x}")).collect()
}

// An attribute's address and text.
fn value_text(unit: &Unit<'_>, attribute: &Attribute<'_>) -> String {
    let address = match unit.address(attribute) {
        Ok(address) => format!("{address:#x}"),
        Err(refused) if refused.error == Error::NoAddress => "none".into(),
        Err(refused) => refusal(refused),
    };
    let text = match unit.text(attribute) {
        Ok([]) => "-".into(),
        Ok(text) => hex(text),
        Err(refused) => return format!("{:x} {address} {}", attribute.name(), refusal(refused)),
    };
    let place = place(unit.text(attribute).unwrap(), unit.sections());
    format!("{:x} {address} {place}:{text}", attribute.name())
}

// The items of a list and its refusal, or the refusal that comes before any.
fn list_text<T>(
    word: &str,
    list: Result<Vec<T>, Refused>,
    one_by_one: Vec<Result<T, Error>>,
    show: impl Fn(&T) -> String,
) -> String {
    match list {
        Err(refused) if one_by_one.is_empty() => format!(" {word} {}", refusal(refused)),
        list => {
            let items = one_by_one.iter().map(|item| match item {
                Ok(item) => show(item),
                Err(error) => format!("refused {}", error.number()),
            });
            let items: Vec<String> = items.map(|item| format!(", {item}")).collect();
            assert_eq!(list.is_ok(), one_by_one.iter().all(Result::is_ok));
            format!(" {word}{}", items.concat())
        }
    }
}

// The list that an attribute names, of ranges or of locations; nothing of any other.
fn lists_text(unit: &Unit<'_>, attribute: &Attribute<'_>) -> String {
    let (sections, header, bases) = (unit.sections(), unit.header(), unit.bases());
    let list = if attribute.at_name() == DW_AT_ranges {
        let items = sections
            .attr_ranges(header, attribute, bases)
            .ok()
            .flatten();
        let items = items.map_or(vec![], Iterator::collect);
        list_text("ranges", unit.ranges(attribute), items, |range| {
            format!("{:x} {:x}", range.begin, range.end)
        })
    } else if attribute.is_location_list() {
        let items = sections
            .attr_locations(header, attribute, bases)
            .ok()
            .flatten();
        let items = items.map_or(vec![], Iterator::collect);
        list_text("locations", unit.locations(attribute), items, |it| {
            let expression = hex(unit.expression(it));
            format!("{:x} {:x} {}:{expression}", it.begin, it.end, it.place)
        })
    } else {
        String::new()
    };
    format!("{:x}{list}", attribute.name())
}

// The same of each attribute of the root.
fn of_root(unit: &Unit<'_>, text: impl Fn(&Unit<'_>, &Attribute<'_>) -> String) -> String {
    let root = unit.root().unwrap();
    let texts: Vec<String> = root
        .attrs()
        .map(|attribute| text(unit, &attribute))
        .collect();
    texts.join("; ")
}

// Whether the one unit of its sections holds an address, which `units_of_address` says too. A
// refusal names its section.
fn holds_text(unit: &Unit<'_>, address: u64) -> String {
    let holds = unit.holds_address(address);
    let units = holds.map(|holds| if holds { vec![0] } else { vec![] });
    // (which takes the units for those of a program)
    if !unit.bases().is_dwo {
        assert_eq!(unit.sections().units_of_address(address), units);
    }
    let named = |refused: Refused| {
        assert!(refused.section.is_some(), "{refused}");
        refusal(refused)
    };
    holds.map_or_else(named, |holds| holds.to_string())
}

fn sections_of(row: &Row) -> Sections<'_> {
    let bytes = |n: usize| row.bytes.get(n).map_or(&[][..], |bytes| bytes);
    let sections = Sections {
        debug_info: bytes(0),
        debug_abbrev: bytes(1),
        debug_addr: bytes(2),
        ..Sections::default()
    };
    match row.call.split(' ').next().unwrap() {
        "holds" => Sections {
            debug_ranges: bytes(3),
            debug_rnglists: bytes(4),
            debug_aranges: bytes(5),
            ..sections
        },
        "lists" => Sections {
            debug_ranges: bytes(3),
            debug_rnglists: bytes(4),
            debug_loc: bytes(5),
            debug_loclists: bytes(6),
            ..sections
        },
        _ => Sections {
            debug_str: bytes(3),
            debug_line_str: bytes(4),
            debug_str_offsets: bytes(5),
            debug_str_sup: bytes(6),
            ..sections
        },
    }
}

fn answer(row: &Row) -> String {
    let sections = sections_of(row);
    let (call, word) = row.call.split_once(' ').unwrap();
    if call == "holding" {
        return match sections.header_holding(word.parse().unwrap()) {
            Ok(Some(unit)) => format!("unit {}", unit.offset()),
            Ok(None) => "none".into(),
            Err(error) => format!("refused {}", error.number()),
        };
    }
    let (kind, address) = word.split_once(" 0x").unwrap_or((word, "0"));
    match (call, unit(kind, &sections)) {
        (_, Err(refused)) => refusal(refused),
        ("bases", Ok(unit)) => bases_text(&unit),
        ("values", Ok(unit)) => of_root(&unit, value_text),
        ("lists", Ok(unit)) => of_root(&unit, lists_text),
        ("holds", Ok(unit)) => holds_text(&unit, u64::from_str_radix(address, 16).unwrap()),
        (call, _) => panic!("{call}"),
    }
}

#[test]
fn rows_of_the_table() {
    let rows = table("bases.txt");
    let holds = |row: &&Row| row.call.starts_with("holds ");
    assert!(rows.iter().filter(holds).count() >= 60);
    for row in &rows {
        let (own, wanted) = (answer(row), without_places(&row.answer));
        assert_eq!(
            without_places(&own),
            wanted,
            "{} {:x?}",
            row.call,
            row.bytes
        );
    }
    assert!(rows.len() >= 100, "{}", rows.len());
}
