//! Sheets made of a few items.
#![allow(dead_code)]

/// A block of 512 bytes: its kind, its name, and bytes at their offsets. The check comes last.
pub fn block(kind: u8, name: &str, items: &[(usize, &[u8])]) -> Vec<u8> {
    let mut block = vec![0; 512];
    block[0] = kind;
    block[1] = name.len() as u8;
    block[2..][..name.len()].copy_from_slice(name.as_bytes());
    for (at, bytes) in items {
        block[*at..][..bytes.len()].copy_from_slice(bytes);
    }
    let words = block.chunks(2).map(|word| u32::from(word[0]) << 8 | u32::from(word[1]));
    let sum = words.fold(0, |sum, word| (sum + word) % 0xffff);
    block[510..].copy_from_slice(&(0xffff - sum as u16).to_be_bytes());
    block
}

/// A field of so many bits, with its other items.
pub fn field(name: &str, bits: u32, items: &[(usize, &[u8])]) -> Vec<u8> {
    block(b'F', name, &[&[(66, &bits.to_be_bytes()[..])], items].concat())
}

pub const ARG_BOOL: (usize, &[u8]) = (71, &[6]);
pub const ARG_CODE: (usize, &[u8]) = (71, &[7]);
pub const GEN_FALSE: (usize, &[u8]) = (72, &[1]);
pub const FIXED: (usize, &[u8]) = (74, &[1]);
pub const SLICE: (usize, &[u8]) = (70, &[5]);

/// A default that is a number, up to 255.
pub fn number(value: &u8) -> [(usize, &[u8]); 2] {
    [(73, &[1]), (83, std::slice::from_ref(value))]
}

/// A condition: of each range the start, if it has one, and the end's kind and number.
pub fn condition(name: &str, ranges: &[(Option<u64>, (u8, u64))]) -> Vec<u8> {
    let parts = ranges.iter().flat_map(|(start, (end_kind, end))| {
        let kinds = [start.is_some().into(), *end_kind];
        [&kinds[..], &start.unwrap_or(0).to_be_bytes(), &end.to_be_bytes()].concat()
    });
    let parts: Vec<u8> = parts.collect();
    block(b'C', name, &[(66, &[ranges.len() as u8]), (68, &parts)])
}

/// The sheet of eight blocks in the rules.
pub fn example() -> Vec<u8> {
    [
        field("ver", 4, &number(&4)),
        field("hl", 4, &[&number(&1)[..], &[GEN_FALSE]].concat()),
        field("size", 12, &[GEN_FALSE]),
        field("flag", 1, &[&number(&1)[..], &[ARG_BOOL]].concat()),
        field("rest", 3, &number(&5)),
        block(b'L', "hl", &[(66, &[0, 3]), (75, &[4])]),
        block(b'L', "size", &[(66, &[2, 1])]),
        condition("ver", &[(Some(4), (1, 4))]),
    ]
    .concat()
}

/// A fixed number, bytes, and a number of 7 bits and one of 57 that touch 8 bytes together.
pub fn mixed() -> Vec<u8> {
    [
        field("kind", 8, &[&number(&9)[..], &[FIXED]].concat()),
        field("hash", 24, &[SLICE, (73, &[2]), (84, &[0, 3, 0xaa, 0xbb, 0xcc])]),
        field("low", 7, &[]),
        field("high", 57, &[]),
    ]
    .concat()
}
