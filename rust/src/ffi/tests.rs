//! What is seen of the functions only where they get C's own arguments, and lengths that are made up.

use std::fmt::Debug;
use std::mem::size_of;
use std::ptr::{null, null_mut};

use super::*;

const SHEET_1: Refusal = Refusal { group: 3, number: 1, place: 0 };
const ACCESS_1: Refusal = Refusal { group: 10, number: 1, place: 0 };

/// A number, or a struct of numbers, all of whose bytes are this one.
fn of_bytes<T: Copy>(byte: u8) -> T {
    let mut value = MaybeUninit::<T>::uninit();
    // SAFETY: all of it is written, and numbers may have any bytes.
    unsafe {
        value.as_mut_ptr().cast::<u8>().write_bytes(byte, size_of::<T>());
        value.assume_init()
    }
}

/// A function refuses so, and leaves zeros for its answer.
fn refuses<T: Copy + PartialEq + Debug>(told: Refusal, call: impl FnOnce(*mut T, *mut Refusal) -> bool) {
    let (mut answer, mut refusal) = (of_bytes(0xa5), of_bytes(0xa5));
    assert!(!call(&mut answer, &mut refusal));
    assert_eq!((answer, refusal), (of_bytes(0), told));
}

/// A function answers so, and leaves the refusal as it was.
fn answers<T: Copy + PartialEq + Debug>(told: T, call: impl FnOnce(*mut T, *mut Refusal) -> bool) {
    let (mut answer, mut refusal) = (of_bytes(0xa5), of_bytes(0xa5));
    assert!(call(&mut answer, &mut refusal));
    assert_eq!((answer, refusal), (told, of_bytes(0xa5)));
}

#[test]
fn a_refused_answer_is_zeros() {
    let (sheet, count, buf) = ([1, 2, 3].as_ptr(), 3, [0; 9]);
    let at = Locator { index: 5, ..Locator::default() };
    let none = Refusal { place: 5, ..ACCESS_1 };
    // SAFETY: pointers and counts are those of arrays that live so long; the others are those of `refuses`.
    unsafe {
        refuses::<Header>(SHEET_1, |answer, told| c::pktfmt_check(sheet, count, answer, told));
        refuses::<Field>(SHEET_1, |answer, told| c::pktfmt_field_by_index(sheet, count, 0, answer, told));
        refuses::<Field>(SHEET_1, |answer, told| {
            c::pktfmt_field_by_name(sheet, count, b"a".as_ptr().cast(), 1, answer, told)
        });
        refuses::<(Header, [Field; MAX_FIELDS])>(SHEET_1, |answer, told| {
            c::pktfmt_fields(sheet, count, addr_of_mut!((*answer).0), addr_of_mut!((*answer).1), told)
        });
        refuses::<[Length; SLOTS]>(SHEET_1, |answer, told| c::pktfmt_lengths(sheet, count, answer, told));
        refuses::<[Condition; MAX_CONDITIONS]>(SHEET_1, |answer, told| {
            c::pktfmt_conditions(sheet, count, answer, told)
        });
        refuses::<u64>(SHEET_1, |answer, told| c::pktfmt_read_number(sheet, count, 0, buf.as_ptr(), 9, answer, told));
        refuses::<Span>(SHEET_1, |answer, told| c::pktfmt_read_bytes(sheet, count, 0, buf.as_ptr(), 9, answer, told));
        refuses::<u64>(none, |answer, told| c::pktfmt_read_number_at(&at, buf.as_ptr(), 9, answer, told));
        refuses::<Span>(none, |answer, told| c::pktfmt_read_bytes_at(&at, buf.as_ptr(), 9, answer, told));
    }
}

#[test]
fn a_refused_field_is_no_locator() {
    for sheet in [&[][..], &[0; 512], &[0; 511]] {
        let mut field: Field = of_bytes(0xa5);
        // SAFETY: pointer and count are those of a slice.
        assert!(!unsafe { c::pktfmt_field_by_index(sheet.as_ptr(), sheet.len(), 0, &mut field, &mut of_bytes(0)) });
        assert_eq!(read_number_at(&field.at, &[0; 9]), Err(ACCESS_1));
        assert_eq!(write_bytes_at(&field.at, &mut [0; 9], &[]), Err(ACCESS_1));
    }
}

#[test]
fn of_nothing_the_pointer_may_be_null() {
    let absent = Length { form: ABSENT, ..Length::default() };
    // SAFETY: where a pointer is null the count is 0; the others are those of `refuses` and `answers`.
    unsafe {
        answers(Header::default(), |answer, told| c::pktfmt_check(null(), 0, answer, told));
        answers([absent; SLOTS], |answer, told| c::pktfmt_lengths(null(), 0, answer, told));
        answers((Header::default(), [Field::default(); MAX_FIELDS]), |answer, told| {
            c::pktfmt_fields(null(), 0, addr_of_mut!((*answer).0), addr_of_mut!((*answer).1), told)
        });
        answers([Condition::default(); MAX_CONDITIONS], |answer, told| c::pktfmt_conditions(null(), 0, answer, told));
        refuses::<Field>(ACCESS_1, |answer, told| c::pktfmt_field_by_name(null(), 0, null(), 0, answer, told));
        refuses::<u64>(ACCESS_1, |answer, told| c::pktfmt_read_number(null(), 0, 0, null(), 0, answer, told));
        let mut refusal = of_bytes(0xa5);
        assert!(c::pktfmt_template(null(), 0, null_mut(), 0, &mut refusal));
        assert!(!c::pktfmt_write_bytes(null(), 0, 0, null_mut(), 0, null(), 0, &mut refusal));
        assert_eq!(refusal, ACCESS_1);
        assert_eq!(c::pktfmt_list(null(), 0, null_mut(), 0), "header 0\ntemplate\n".len());
    }
}

/// Neither way has an answer, and 0 is written for it.
fn has_none(form: u64, first: u64, second: u64) {
    let length = Length { form, first, second, ..Length::default() };
    for way in [c::pktfmt_forward, c::pktfmt_back] {
        let mut answer = 7;
        // SAFETY: both pointers are those of references.
        assert!(!unsafe { way(&length, 8, &mut answer) }, "{length:?}");
        assert_eq!(answer, 0);
    }
}

#[test]
fn lengths_of_no_form_have_no_answer() {
    for form in [UNDEFINED, ABSENT, 7, 255, 256 + X, (1 << 32) + X, u64::MAX] {
        has_none(form, 0, 0);
        has_none(form, 1, 1);
    }
}

#[test]
fn lengths_with_a_number_that_the_form_lacks_have_no_answer() {
    for (form, first, second) in [(X, 1, 0), (X, 0, 1), (X_PLUS, 1, 1), (X_TIMES, 1, 1), (X_TIMES, 2, u64::MAX)] {
        has_none(form, first, second);
    }
}

#[test]
fn nothing_else_of_a_length_is_looked_at() {
    let length = Length { form: TIMES_PLUS, first: 3, second: 1, field: u64::MAX, largest: u64::MAX };
    assert_eq!((forward(&length, 2), back(&length, 7), back(&length, 8)), (Some(7), Some(2), None));
}
