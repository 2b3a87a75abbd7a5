//! What an accepted sheet says, asked of both sides, item by item.

use pktfmt_checked as port;
use port::ffi;

use super::found::Found;
use super::{conds, fields, lengths};
use crate::original::Definition;
use crate::random::Random;
use crate::sheet::Sheet;

/// What stands in a buffer before.
const BEFORE: u8 = 0xa5;
/// The bytes of a buffer after the header.
const AFTER_HEADER: usize = 3;

/// A sheet that the original accepts, in each of its forms.
pub struct Accepted<'a> {
    pub definition: &'a Definition,
    pub stated: &'a Sheet,
    pub bytes: &'a [u8],
}

impl Accepted<'_> {
    /// Its header as include/pktfmt.h has it, by the original.
    pub fn header(&self) -> ffi::Header {
        ffi::Header {
            bytes: self.definition.header.header_len_in_bytes() as u64,
            fields: self.stated.fields.len() as u64,
            conditions: self.stated.conds.len() as u64,
        }
    }
}

pub fn compare(accepted: &Accepted, random: &mut Random, found: &mut Found) {
    let header = accepted.header();
    found.same("check", &Ok(header), &ffi::check(accepted.bytes));
    let buffer = template(accepted, found);
    match port::Sheet::new(accepted.bytes) {
        Ok(sheet) => {
            found.same("header of the crate's sheet", &header.bytes, &(sheet.header_bytes() as u64));
            fields::compare(accepted, &sheet, &buffer, random, found);
            lengths::compare(accepted, &sheet, random, found);
            conds::compare(accepted, &sheet, found);
        }
        Err(refusal) => found.told(false, "the crate's sheet", || ("accepted".into(), refusal.to_string())),
    }
}

/// The template in a buffer that is longer than the header.
fn template(accepted: &Accepted, found: &mut Found) -> Vec<u8> {
    let mut expected = accepted.definition.header.header_template().to_vec();
    expected.resize(expected.len() + AFTER_HEADER, BEFORE);
    let mut buffer = vec![BEFORE; expected.len()];
    found.same("template's answer", &Ok(()), &ffi::template(accepted.bytes, &mut buffer));
    found.same("template", &expected, &buffer);
    buffer
}
