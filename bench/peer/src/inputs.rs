// What the tasks read: numbers and words that are made, and the tables of abbreviations of a corpus.

struct Numbers(u64);

impl Numbers {
    fn next(&mut self) -> u64 {
        self.0 ^= self.0 << 13;
        self.0 ^= self.0 >> 7;
        self.0 ^= self.0 << 17;
        self.0
    }
}

// Unsigned LEB128 numbers of the lengths that are met: most of one byte, many of two, some longer.
pub fn leb128(size: usize) -> Vec<u8> {
    let mut numbers = Numbers(0x9e3779b97f4a7c15);
    let mut bytes = vec![];
    while bytes.len() < size {
        let bits = match numbers.next() % 100 {
            0..=59 => 7,
            60..=89 => 14,
            90..=95 => 21,
            96..=98 => 32,
            _ => 64,
        };
        let mut value = numbers.next() & (u64::MAX >> (64 - bits));
        while value >= 128 {
            bytes.push(value as u8 | 128);
            value >>= 7;
        }
        bytes.push(value as u8);
    }
    bytes
}

pub fn words(size: usize) -> Vec<u8> {
    let mut numbers = Numbers(0x2545f4914f6cdd1d);
    (0..size / 8)
        .flat_map(|_| numbers.next().to_le_bytes())
        .collect()
}

// The number at a place, as far as 64 bits hold it, and the place after it.
fn number(bytes: &[u8], mut place: usize) -> (u64, usize) {
    let (mut value, mut shift) = (0u64, 0);
    loop {
        let byte = bytes[place];
        place += 1;
        if shift < 64 {
            value |= u64::from(byte & 127) << shift;
        }
        shift += 7;
        if byte < 128 {
            return (value, place);
        }
    }
}

// The offsets of the tables of a section, which stand one after the other, each up to a code 0.
pub fn tables(section: &[u8]) -> Vec<u64> {
    let mut offsets = vec![];
    let mut place = 0;
    while place < section.len() {
        offsets.push(place as u64);
        loop {
            let (code, after) = number(section, place);
            place = after;
            if code == 0 {
                break;
            }
            // the tag and the children flag
            place = number(section, place).1 + 1;
            loop {
                let (name, after) = number(section, place);
                let (form, after) = number(section, after);
                place = after;
                if form == 0x21 {
                    place = number(section, place).1;
                }
                if name == 0 && form == 0 {
                    break;
                }
            }
        }
    }
    offsets
}
