//! Opens ELF files by the crate `object`, for the programs beside it. What is opened stays in memory
//! until the program ends.

use gimli_proved::{AllUnits, Endian, Refused, SectionId, Sections, Unit};
use object::{Object, ObjectKind, ObjectSection};
use std::{borrow::Cow, process::ExitCode};

type File = object::File<'static>;

const USAGE: &str = "usage: PROGRAM FILE [DWO]";

/// The bytes of the sections of a name, decompressed, one after the other, as a linker joins them:
/// where no linker did, each type unit has a section of its own.
fn section(file: &File, name: &str) -> &'static [u8] {
    let others = file.sections().filter(|section| section.name() == Ok(name)).skip(1);
    let sections = file.section_by_name(name).into_iter().chain(others);
    let parts: Vec<_> = sections.filter_map(|section| section.uncompressed_data().ok()).collect();
    match &*parts {
        [] => &[],
        [Cow::Borrowed(bytes)] => bytes,
        _ => parts.concat().leak(),
    }
}

/// The sections of an ELF file by their names.
fn sections(file: &File, name: impl Fn(SectionId) -> Option<&'static str>) -> Sections<'static> {
    let endian = if file.is_little_endian() { Endian::Little } else { Endian::Big };
    Sections::load(endian, |id| name(id).map_or(&[], |name| section(file, name)))
}

fn open(path: &str) -> Option<File> {
    object::File::parse(&*std::fs::read(path).ok()?.leak()).ok()
}

/// The sections of a linked program; none where the file is no such program.
pub fn open_linked(path: &str) -> Option<Sections<'static>> {
    let file = open(path)?;
    let is_linked = matches!(file.kind(), ObjectKind::Executable | ObjectKind::Dynamic);
    is_linked.then(|| sections(&file, |id| Some(id.name())))
}

/// The units of FILE, or those of DWO, if that is named too, each with its skeleton in FILE.
fn open_units(words: &[String]) -> Result<AllUnits<'static>, String> {
    let [file, dwo @ ..] = words else { return Err(USAGE.into()) };
    let opened = |path: &String| open(path).ok_or(format!("{path} is no ELF file"));
    let program = sections(&opened(file)?, |id| Some(id.name()));
    match dwo {
        [] => Ok(program.all_units()),
        [dwo] => Ok(sections(&opened(dwo)?, SectionId::dwo_name).split_units(&program)),
        _ => Err(USAGE.into()),
    }
}

/// Runs a program over the units that its words name; a refusal ends it.
pub fn run(program: impl FnOnce(AllUnits) -> Result<(), Refused>) -> ExitCode {
    let words: Vec<String> = std::env::args().skip(1).collect();
    let (status, message) = match open_units(&words).map(program) {
        Ok(Ok(())) => return ExitCode::SUCCESS,
        Ok(Err(refused)) => (1, refused.to_string()),
        Err(message) => (2, message),
    };
    eprintln!("{message}");
    ExitCode::from(status)
}

/// Calls a function for each of the units.
pub fn each_unit(mut call: impl FnMut(&Unit) -> Result<(), Refused>) -> ExitCode {
    run(|mut units| units.try_for_each(|unit| call(&unit?)))
}
