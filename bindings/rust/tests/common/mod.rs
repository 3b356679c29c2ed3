//! What the tests share: the repository's real files, its tables, and units made by hand.
#![allow(dead_code)]

pub mod values;

use gimli_proved::{Attribute, Entries, Entry, Place, Sections, UnitHeader};
use std::{env, fs, path::PathBuf};

/// A real file: its sections, and its rows and its dump as text.
pub struct File {
    pub name: String,
    pub info: Vec<u8>,
    pub abbrev: Vec<u8>,
    pub rows: String,
    pub dump: String,
}

fn folder() -> PathBuf {
    let here = PathBuf::from(env!("CARGO_MANIFEST_DIR")).join("../../crates/gimli_vectors/data");
    env::var("VECTORS").map_or(here, PathBuf::from)
}

/// All of them.
pub fn files() -> Vec<File> {
    let folder = folder();
    let names = fs::read_dir(&folder).unwrap().filter_map(|file| {
        let name = file.unwrap().file_name().into_string().unwrap();
        name.strip_suffix(".info").map(String::from)
    });
    let mut names: Vec<String> = names.collect();
    names.sort();
    assert!(!names.is_empty(), "{folder:?}");
    let read = |name: &str, end: &str| fs::read(folder.join(format!("{name}.{end}"))).unwrap();
    let text = |name: &str, end: &str| String::from_utf8(read(name, end)).unwrap();
    let files = names.into_iter().map(|name| File {
        info: read(&name, "info"),
        abbrev: read(&name, "abbrev"),
        rows: text(&name, "rows"),
        dump: text(&name, "dump"),
        name,
    });
    files.collect()
}

impl File {
    pub fn sections(&self) -> Sections<'_> {
        Sections {
            debug_info: &self.info,
            debug_abbrev: &self.abbrev,
            ..Sections::default()
        }
    }
}

/// A row of a table: the call, the bytes that it is given, and the answer.
pub struct Row {
    pub call: String,
    pub bytes: Vec<Vec<u8>>,
    pub answer: String,
}

// The bytes that a text says in hexadecimal, with those of the table's names; none of another form.
fn hex(text: &str, names: &[(String, String)]) -> Option<Vec<u8>> {
    let words = text
        .split_whitespace()
        .map(|word| match word.strip_prefix('$') {
            Some(name) => names.iter().find(|it| it.0 == name).map(|it| it.1.clone()),
            None => Some(String::from(word)),
        });
    let digits: String = words.collect::<Option<_>>()?;
    let digits: Vec<char> = digits.chars().filter(|digit| *digit != ' ').collect();
    let pairs = digits.chunks(2).map(|pair| pair.iter().collect::<String>());
    pairs
        .map(|pair| u8::from_str_radix(&pair, 16).ok())
        .collect()
}

/// The rows of a table that have the form `CALL : BYTES : BYTES .. = ANSWER`.
pub fn table(file: &str) -> Vec<Row> {
    let text = fs::read_to_string(folder().join(file)).unwrap();
    let lines = || text.lines().filter(|line| !line.starts_with('#'));
    let names = lines().filter_map(|line| line.split_once(" := "));
    let names: Vec<_> = names
        .map(|(name, bytes)| (name.into(), bytes.into()))
        .collect();
    let rows = lines().filter_map(|line| {
        let (left, answer) = line.split_once(" = ")?;
        let (call, bytes) = left.split_once(" :")?;
        let bytes = bytes
            .split(':')
            .map(|bytes| hex(bytes, &names))
            .collect::<Option<_>>()?;
        // (of two answers the first is that of readers whose offsets have 64 bits)
        let answer = answer.split(" | ").next().unwrap().trim();
        Some(Row {
            call: call.into(),
            bytes,
            answer: answer.into(),
        })
    });
    rows.collect()
}

/// A row as the files of rows have it.
pub fn line(offset: u64, depth: isize, tag: u16, flag: bool) -> String {
    format!("{offset:x} {depth} {tag:x} {}\n", u8::from(flag))
}

/// A unit in 32-bit DWARF and little endian, whose abbreviations are at 0, with these bytes of
/// entries.
pub fn unit_bytes(version: u16, entries: &[u8]) -> Vec<u8> {
    let header: &[u8] = match version {
        5 => &[5, 0, 1, 8, 0, 0, 0, 0],
        _ => &[version as u8, 0, 0, 0, 0, 0, 8],
    };
    let rest = [header, entries].concat();
    [&(rest.len() as u32).to_le_bytes()[..], &rest].concat()
}

/// The header of the first unit, and the attributes of its root.
pub fn root<'a>(sections: &Sections<'a>) -> (UnitHeader, Vec<Attribute<'a>>) {
    let unit = sections.units().next().unwrap().unwrap();
    let mut entries = sections.entries(&unit);
    let root = entries.next_entry().unwrap().unwrap();
    (unit, root.attrs().collect())
}

/// Some numbers of items from none to all.
pub fn some_of(all: usize) -> impl Iterator<Item = usize> {
    (0..=all).filter(move |k| *k < 4 || k % 61 < 2 || *k + 2 > all)
}

/// So many entries at most, as their places and the names of their attributes.
pub fn some_entries(entries: &mut Entries<'_, '_>, most: usize) -> Vec<(Place, Vec<u16>)> {
    let mut some = Vec::new();
    while some.len() < most {
        let Some(entry) = entries.next_entry().unwrap() else {
            break;
        };
        some.push((entry.place(), entry.attrs().map(|a| a.name()).collect()));
    }
    some
}

/// An entry with its attributes as text.
pub fn entry_text(entry: &Entry<'_, '_>) -> String {
    let (offset, depth) = (entry.offset(), entry.depth());
    let mut text = line(offset, depth, entry.tag(), entry.has_children());
    for a in entry.attrs() {
        text += &format!("  {:x} {:x} {:?}\n", a.name(), a.form(), a.raw_value());
    }
    text
}

/// The same of all entries of an iterator.
pub fn text_of(mut entries: Entries<'_, '_>) -> String {
    let mut text = String::new();
    while let Some(entry) = entries.next_entry().unwrap() {
        text += &entry_text(&entry);
    }
    text
}
