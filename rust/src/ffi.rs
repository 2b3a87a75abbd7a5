//! The functions of `include/pktfmt.h`, one by one, with slices where C has pointers and counts, and a `Result` where C
//! has an answer, a refusal, and whether it accepts.
//!
//! [`Sheet`](crate::Sheet) and [`Field`](crate::Field) are made of these, and will do for nearly all. What they lack is
//! here: any bytes can be asked for, locators and lengths can be made up, and fields read and written by sheet and index.
//!
//! What the header asks of its callers holds of every slice and every reference of Rust: all elements are readable, one
//! that is written overlaps no other, and no pointer is null.

use std::mem::MaybeUninit;
use std::ptr::addr_of_mut;

#[cfg(test)]
mod tests;

/// The version whose structs and codes stand here, 0.2.0.
pub const VERSION: u64 = 2_000;

/// Bytes of a block.
pub const BLOCK: usize = 512;
/// The most blocks of a sheet.
pub const MAX_BLOCKS: usize = 99;
/// The most fields of a sheet.
pub const MAX_FIELDS: usize = 64;
/// The most conditions of an accepted sheet.
pub const MAX_CONDITIONS: usize = 8;
/// The most ranges of a condition.
pub const MAX_RANGES: usize = 24;
/// The most bytes of a name.
pub const MAX_NAME: usize = 64;
/// The most bytes of a listing.
pub const MAX_LISTING: usize = 40_000;

/// Why something was refused. [`crate::Refusal`] has it in words.
#[repr(C)]
#[derive(Clone, Copy, Debug, Default, PartialEq, Eq)]
pub struct Refusal {
    /// A [`Group`](crate::Group) by its number.
    pub group: u64,
    /// The reason's number in its group.
    pub number: u64,
    /// Mostly the index of the block at fault; for the group access the index of the field that was asked for.
    pub place: u64,
}

/// What an accepted sheet's header has, and how many conditions there are.
#[repr(C)]
#[derive(Clone, Copy, Debug, Default, PartialEq, Eq)]
pub struct Header {
    /// How many bytes the header has.
    pub bytes: u64,
    /// How many fields.
    pub fields: u64,
    /// How many conditions the sheet has.
    pub conditions: u64,
}

/// The field holds a number.
pub const HOLDS_NUMBER: u64 = 0;
/// The field holds a number that is fixed to its default.
pub const HOLDS_FIXED: u64 = 1;
/// The field holds bytes.
pub const HOLDS_BYTES: u64 = 2;

/// Where a field stands.
///
/// Anyone can make one up. One that no field can have is access 1, whatever is asked; at any other reads and writes
/// stay inside the field, and the field inside the header.
#[repr(C)]
#[derive(Clone, Copy, Debug, Default, PartialEq, Eq)]
pub struct Locator {
    /// The field's index, which is the place of refusals.
    pub index: u64,
    /// The header's bytes.
    pub header_bytes: u64,
    /// The number of the field's first bit. Bit 0 is the most significant one of byte 0.
    pub first_bit: u64,
    /// The field's bits.
    pub bits: u64,
    /// One of [`HOLDS_NUMBER`], [`HOLDS_FIXED`] and [`HOLDS_BYTES`].
    pub held: u64,
    /// 0 for bytes.
    pub default_number: u64,
}

/// Bytes of a sheet or a buffer.
#[repr(C)]
#[derive(Clone, Copy, Debug, Default, PartialEq, Eq)]
pub struct Span {
    /// The index of the first.
    pub at: u64,
    /// How many they are.
    pub count: u64,
}

/// `u8`
pub const U8: u64 = 1;
/// `u16`
pub const U16: u64 = 2;
/// `u32`
pub const U32: u64 = 3;
/// `u64`
pub const U64: u64 = 4;
/// `&[u8]`
pub const BYTE_SLICE: u64 = 5;
/// `bool`
pub const BOOL: u64 = 6;
/// Code of the reader's own.
pub const CODE: u64 = 7;

/// A field's record, with every item that the sheet leaves out resolved.
#[repr(C)]
#[derive(Clone, Copy, Debug, Default, PartialEq, Eq)]
pub struct Field {
    /// Where it stands.
    pub at: Locator,
    /// How it is held, one of [`U8`] to [`CODE`].
    pub repr: u64,
    /// How it is handed over, one of [`U8`] to [`CODE`].
    pub arg: u64,
    /// 1 where gen is true.
    pub generated: u64,
    /// 1 where a write needs a guard.
    pub guarded: u64,
    /// Its name, in the sheet.
    pub name: Span,
    /// Its default, in the sheet; of 0 bytes where it states none: then they are zeros.
    pub default_bytes: Span,
}

/// The index of the header's length.
pub const HEADER_LEN: u64 = 0;
/// The index of the payload's length.
pub const PAYLOAD_LEN: u64 = 1;
/// The index of the packet's length.
pub const PACKET_LEN: u64 = 2;
/// How many lengths a sheet can give.
pub const SLOTS: usize = 3;

/// Given, and not how.
pub const UNDEFINED: u64 = 0;
/// x
pub const X: u64 = 1;
/// x + first
pub const X_PLUS: u64 = 2;
/// x * first
pub const X_TIMES: u64 = 3;
/// (x + first) * second
pub const PLUS_TIMES: u64 = 4;
/// x * first + second
pub const TIMES_PLUS: u64 = 5;
/// Not given.
pub const ABSENT: u64 = 6;

/// A length; 0 for what it lacks.
#[repr(C)]
#[derive(Clone, Copy, Debug, Default, PartialEq, Eq)]
pub struct Length {
    /// One of [`UNDEFINED`] to [`ABSENT`].
    pub form: u64,
    /// The form's first number.
    pub first: u64,
    /// The form's second number.
    pub second: u64,
    /// The index of the field whose value is x.
    pub field: u64,
    /// The length of that field's largest value.
    pub largest: u64,
}

/// The numbers from the first to the last, both included.
#[repr(C)]
#[derive(Clone, Copy, Debug, Default, PartialEq, Eq)]
pub struct Range {
    /// The first.
    pub first: u64,
    /// The last.
    pub last: u64,
}

/// The values that a field may have.
#[repr(C)]
#[derive(Clone, Copy, Debug, Default, PartialEq, Eq)]
pub struct Condition {
    /// The index of the field.
    pub field: u64,
    /// How many ranges there are.
    pub count: u64,
    /// The ranges, and zeros after them. They are cut at the field's largest value, and none meets another.
    pub ranges: [Range; MAX_RANGES],
}

/// The declarations themselves. What each asks of its caller is in the header.
#[allow(missing_docs)]
pub mod c {
    use super::{Condition, Field, Header, Length, Locator, Refusal, Span, MAX_CONDITIONS, MAX_FIELDS, SLOTS};
    use std::os::raw::c_char;

    #[rustfmt::skip]
    extern "C" {
        pub fn pktfmt_version() -> u64;
        pub fn pktfmt_check(sheet: *const u8, sheet_len: usize, header: *mut Header, refusal: *mut Refusal) -> bool;
        pub fn pktfmt_field_by_index(sheet: *const u8, sheet_len: usize, index: u64, field: *mut Field,
            refusal: *mut Refusal) -> bool;
        pub fn pktfmt_field_by_name(sheet: *const u8, sheet_len: usize, name: *const c_char, name_len: usize,
            field: *mut Field, refusal: *mut Refusal) -> bool;
        pub fn pktfmt_fields(sheet: *const u8, sheet_len: usize, header: *mut Header,
            fields: *mut [Field; MAX_FIELDS], refusal: *mut Refusal) -> bool;
        pub fn pktfmt_lengths(sheet: *const u8, sheet_len: usize, lengths: *mut [Length; SLOTS],
            refusal: *mut Refusal) -> bool;
        pub fn pktfmt_conditions(sheet: *const u8, sheet_len: usize, conditions: *mut [Condition; MAX_CONDITIONS],
            refusal: *mut Refusal) -> bool;
        pub fn pktfmt_template(sheet: *const u8, sheet_len: usize, buf: *mut u8, buf_len: usize,
            refusal: *mut Refusal) -> bool;
        pub fn pktfmt_read_number(sheet: *const u8, sheet_len: usize, index: u64, buf: *const u8, buf_len: usize,
            value: *mut u64, refusal: *mut Refusal) -> bool;
        pub fn pktfmt_read_bytes(sheet: *const u8, sheet_len: usize, index: u64, buf: *const u8, buf_len: usize,
            bytes: *mut Span, refusal: *mut Refusal) -> bool;
        pub fn pktfmt_write_number(sheet: *const u8, sheet_len: usize, index: u64, buf: *mut u8, buf_len: usize,
            value: u64, refusal: *mut Refusal) -> bool;
        pub fn pktfmt_write_bytes(sheet: *const u8, sheet_len: usize, index: u64, buf: *mut u8, buf_len: usize,
            bytes: *const u8, bytes_len: usize, refusal: *mut Refusal) -> bool;
        pub fn pktfmt_list(sheet: *const u8, sheet_len: usize, out: *mut c_char, out_len: usize) -> usize;
        pub fn pktfmt_read_number_at(at: *const Locator, buf: *const u8, buf_len: usize, value: *mut u64,
            refusal: *mut Refusal) -> bool;
        pub fn pktfmt_read_bytes_at(at: *const Locator, buf: *const u8, buf_len: usize, bytes: *mut Span,
            refusal: *mut Refusal) -> bool;
        pub fn pktfmt_write_number_at(at: *const Locator, buf: *mut u8, buf_len: usize, value: u64,
            refusal: *mut Refusal) -> bool;
        pub fn pktfmt_write_bytes_at(at: *const Locator, buf: *mut u8, buf_len: usize, bytes: *const u8,
            bytes_len: usize, refusal: *mut Refusal) -> bool;
        pub fn pktfmt_forward(length: *const Length, x: u64, y: *mut u64) -> bool;
        pub fn pktfmt_back(length: *const Length, y: u64, x: *mut u64) -> bool;
    }
}

/// What a function tells that writes an answer or a refusal. Neither has to be cleared before.
///
/// # Safety
///
/// `call` writes the whole answer where it returns true, and the whole refusal where it returns false.
#[inline]
unsafe fn told<Answer>(call: impl FnOnce(*mut Answer, *mut Refusal) -> bool) -> Result<Answer, Refusal> {
    let (mut answer, mut refusal) = (MaybeUninit::uninit(), MaybeUninit::uninit());
    if call(answer.as_mut_ptr(), refusal.as_mut_ptr()) {
        // SAFETY: the caller says that it is written.
        Ok(unsafe { answer.assume_init() })
    } else {
        // SAFETY: the caller says that it is written.
        Err(unsafe { refusal.assume_init() })
    }
}

/// The library's version.
pub fn version() -> u64 {
    // SAFETY: it has no arguments.
    unsafe { c::pktfmt_version() }
}

/// Checks a sheet.
pub fn check(sheet: &[u8]) -> Result<Header, Refusal> {
    // SAFETY: pointer and count are those of a slice; the header says that the answer or the refusal is written.
    unsafe { told(|header, refusal| c::pktfmt_check(sheet.as_ptr(), sheet.len(), header, refusal)) }
}

/// A field by its index.
pub fn field_by_index(sheet: &[u8], index: u64) -> Result<Field, Refusal> {
    // SAFETY: as for `check`.
    unsafe { told(|field, refusal| c::pktfmt_field_by_index(sheet.as_ptr(), sheet.len(), index, field, refusal)) }
}

/// A field by its name. Where there is none the refusal's place is the number of fields.
pub fn field_by_name(sheet: &[u8], name: &[u8]) -> Result<Field, Refusal> {
    let (start, count) = (name.as_ptr().cast(), name.len());
    // SAFETY: as for `check`; so are the name's pointer and count.
    unsafe { told(|field, told| c::pktfmt_field_by_name(sheet.as_ptr(), sheet.len(), start, count, field, told)) }
}

/// Checks a sheet, and tells all fields, in order: as many as the header has, and zeros after them.
pub fn fields(sheet: &[u8]) -> Result<(Header, [Field; MAX_FIELDS]), Refusal> {
    let (start, count) = (sheet.as_ptr(), sheet.len());
    // SAFETY: as for `check`; header and fields are the two parts of the answer.
    unsafe {
        told(|answer: *mut (Header, [Field; MAX_FIELDS]), refusal| {
            c::pktfmt_fields(start, count, addr_of_mut!((*answer).0), addr_of_mut!((*answer).1), refusal)
        })
    }
}

/// All lengths, by their slots.
pub fn lengths(sheet: &[u8]) -> Result<[Length; SLOTS], Refusal> {
    // SAFETY: as for `check`.
    unsafe { told(|lengths, refusal| c::pktfmt_lengths(sheet.as_ptr(), sheet.len(), lengths, refusal)) }
}

/// All conditions, in the order of the sheet: as many as `check` tells, and zeros after them.
pub fn conditions(sheet: &[u8]) -> Result<[Condition; MAX_CONDITIONS], Refusal> {
    // SAFETY: as for `check`.
    unsafe { told(|conditions, refusal| c::pktfmt_conditions(sheet.as_ptr(), sheet.len(), conditions, refusal)) }
}

/// Writes the template to the front of a buffer.
pub fn template(sheet: &[u8], buf: &mut [u8]) -> Result<(), Refusal> {
    let (start, count) = (buf.as_mut_ptr(), buf.len());
    // SAFETY: as for `check`; so are the buffer's pointer and count, and it is borrowed for this call alone.
    unsafe { told(|_, refusal| c::pktfmt_template(sheet.as_ptr(), sheet.len(), start, count, refusal)) }
}

/// Reads a number by sheet and index.
pub fn read_number(sheet: &[u8], index: u64, buf: &[u8]) -> Result<u64, Refusal> {
    let (start, count) = (buf.as_ptr(), buf.len());
    // SAFETY: as for `check`; so are the buffer's pointer and count.
    unsafe { told(|value, told| c::pktfmt_read_number(sheet.as_ptr(), sheet.len(), index, start, count, value, told)) }
}

/// Where the bytes of a field stand in a buffer, by sheet and index.
pub fn read_bytes(sheet: &[u8], index: u64, buf: &[u8]) -> Result<Span, Refusal> {
    let (start, count) = (buf.as_ptr(), buf.len());
    // SAFETY: as for `check`; so are the buffer's pointer and count.
    unsafe { told(|bytes, told| c::pktfmt_read_bytes(sheet.as_ptr(), sheet.len(), index, start, count, bytes, told)) }
}

/// Writes a number by sheet and index.
pub fn write_number(sheet: &[u8], index: u64, buf: &mut [u8], value: u64) -> Result<(), Refusal> {
    let (start, count) = (buf.as_mut_ptr(), buf.len());
    // SAFETY: as for `template`.
    unsafe { told(|_, told| c::pktfmt_write_number(sheet.as_ptr(), sheet.len(), index, start, count, value, told)) }
}

/// Writes bytes by sheet and index.
pub fn write_bytes(sheet: &[u8], index: u64, buf: &mut [u8], bytes: &[u8]) -> Result<(), Refusal> {
    let (start, count, new, new_count) = (buf.as_mut_ptr(), buf.len(), bytes.as_ptr(), bytes.len());
    // SAFETY: as for `template`; so are the pointer and the count of the bytes.
    unsafe {
        told(|_, told| c::pktfmt_write_bytes(sheet.as_ptr(), sheet.len(), index, start, count, new, new_count, told))
    }
}

/// Writes the listing of a sheet, or the line of its refusal, to the front of a buffer, as far as there is room. Tells
/// how many bytes it has in all.
pub fn list(sheet: &[u8], out: &mut [u8]) -> usize {
    // SAFETY: pointers and counts are those of slices, and the borrows keep them apart.
    unsafe { c::pktfmt_list(sheet.as_ptr(), sheet.len(), out.as_mut_ptr().cast(), out.len()) }
}

/// Reads a number at a locator.
#[inline]
pub fn read_number_at(at: &Locator, buf: &[u8]) -> Result<u64, Refusal> {
    // SAFETY: as for `check`, of the buffer's pointer and count.
    unsafe { told(|value, refusal| c::pktfmt_read_number_at(at, buf.as_ptr(), buf.len(), value, refusal)) }
}

/// Where the bytes at a locator stand in a buffer.
#[inline]
pub fn read_bytes_at(at: &Locator, buf: &[u8]) -> Result<Span, Refusal> {
    // SAFETY: as for `read_number_at`.
    unsafe { told(|bytes, refusal| c::pktfmt_read_bytes_at(at, buf.as_ptr(), buf.len(), bytes, refusal)) }
}

/// Writes a number at a locator.
#[inline]
pub fn write_number_at(at: &Locator, buf: &mut [u8], value: u64) -> Result<(), Refusal> {
    // SAFETY: as for `read_number_at`, and the buffer is borrowed for this call alone.
    unsafe { told(|_, refusal| c::pktfmt_write_number_at(at, buf.as_mut_ptr(), buf.len(), value, refusal)) }
}

/// Writes bytes at a locator.
#[inline]
pub fn write_bytes_at(at: &Locator, buf: &mut [u8], bytes: &[u8]) -> Result<(), Refusal> {
    let (new, new_count) = (bytes.as_ptr(), bytes.len());
    // SAFETY: as for `write_number_at`; so are the pointer and the count of the bytes.
    unsafe { told(|_, told| c::pktfmt_write_bytes_at(at, buf.as_mut_ptr(), buf.len(), new, new_count, told)) }
}

/// The length of the value x.
#[inline]
pub fn forward(length: &Length, x: u64) -> Option<u64> {
    let mut y = 0;
    // SAFETY: both pointers are those of references.
    unsafe { c::pktfmt_forward(length, x, &mut y) }.then_some(y)
}

/// The value whose length is y.
#[inline]
pub fn back(length: &Length, y: u64) -> Option<u64> {
    let mut x = 0;
    // SAFETY: both pointers are those of references.
    unsafe { c::pktfmt_back(length, y, &mut x) }.then_some(x)
}
