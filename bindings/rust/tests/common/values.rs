//! A file made by hand whose root has a value of each kind.

use super::unit_bytes;
use gimli_proved::Sections;

/// What the root of a unit of version 5 says, and the sections of its values.
#[derive(Clone)]
pub struct Values {
    /// the names of its attributes, as the table of abbreviations has them
    pub names: [u16; 10],
    /// where the tables of offsets of texts, addresses, ranges and locations begin
    pub bases: [u32; 4],
    /// the indices of low_pc, of the name, of the ranges and of the location
    pub indices: [Vec<u8>; 4],
    pub addr: Vec<u8>,
    pub str: Vec<u8>,
    pub line_str: Vec<u8>,
    pub str_offsets: Vec<u8>,
    pub rnglists: Vec<u8>,
    pub loclists: Vec<u8>,
}

const FORMS: [u16; 10] = [
    0x17, 0x17, 0x17, 0x17, 0x1b, 0x1a, 0x23, 0x22, 0x0e, 0x1f, // the last are offsets of 0
];

/// Those of which nothing is refused.
pub fn values() -> Values {
    let lists = |list: &[u8]| [&[0x13, 0, 0, 0, 5, 0, 8, 0, 1, 0, 0, 0, 4, 0, 0, 0], list].concat();
    let addresses = [0x1000u64, 0x2000].map(u64::to_le_bytes).concat();
    Values {
        names: [0x72, 0x73, 0x74, 0x8c, 0x11, 3, 0x55, 2, 0x25, 0x1b],
        bases: [8, 8, 12, 12],
        indices: std::array::from_fn(|_| vec![0]),
        addr: [&[0x14, 0, 0, 0, 5, 0, 8, 0][..], &addresses].concat(),
        str: b"ab\0cd\0".to_vec(),
        line_str: b"x\0".to_vec(),
        str_offsets: vec![0x0c, 0, 0, 0, 5, 0, 0, 0, 3, 0, 0, 0, 7, 0, 0, 0],
        rnglists: lists(&[4, 0x10, 0x20, 0]),
        loclists: lists(&[4, 0x10, 0x20, 1, 0x9c, 0]),
    }
}

impl Values {
    pub fn info(&self) -> Vec<u8> {
        let bases = self.bases.map(u32::to_le_bytes).concat();
        unit_bytes(
            5,
            &[&[1], &bases[..], &self.indices.concat(), &[0; 8]].concat(),
        )
    }

    pub fn abbrev(&self) -> Vec<u8> {
        let mut abbrev = vec![1, 0x11, 0];
        for (name, form) in self.names.iter().zip(FORMS) {
            // (a number of up to 14 bits, in two bytes)
            abbrev.extend([*name as u8 | 0x80, (*name >> 7) as u8, form as u8]);
        }
        [&abbrev[..], &[0, 0, 0]].concat()
    }

    /// What a function answers over the sections.
    pub fn with<T>(&self, call: impl FnOnce(&Sections<'_>) -> T) -> T {
        call(&Sections {
            debug_info: &self.info(),
            debug_abbrev: &self.abbrev(),
            debug_addr: &self.addr,
            debug_str: &self.str,
            debug_line_str: &self.line_str,
            debug_str_offsets: &self.str_offsets,
            debug_rnglists: &self.rnglists,
            debug_loclists: &self.loclists,
            ..Sections::default()
        })
    }
}
