//! Functions of the port as C calls them, with nothing of the crate between.

use pktfmt_checked::ffi::{c, Field, Header, Locator, Refusal, MAX_FIELDS};

#[inline(always)]
pub fn fields(sheet: &[u8], header: &mut Header, fields: &mut [Field; MAX_FIELDS], refusal: &mut Refusal) -> bool {
    // SAFETY: pointer and count are those of a slice, the others those of references, and the borrows keep them apart.
    unsafe { c::pktfmt_fields(sheet.as_ptr(), sheet.len(), header, fields, refusal) }
}

#[inline(always)]
pub fn read_number(at: &Locator, buf: &[u8], value: &mut u64, refusal: &mut Refusal) -> bool {
    // SAFETY: as for `fields`.
    unsafe { c::pktfmt_read_number_at(at, buf.as_ptr(), buf.len(), value, refusal) }
}

#[inline(always)]
pub fn write_number(at: &Locator, buf: &mut [u8], value: u64, refusal: &mut Refusal) -> bool {
    // SAFETY: as for `fields`.
    unsafe { c::pktfmt_write_number_at(at, buf.as_mut_ptr(), buf.len(), value, refusal) }
}
