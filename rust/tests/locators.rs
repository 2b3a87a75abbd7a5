//! Locators that were made up.

mod common;

use common::{field, FIXED, SLICE};
use pktfmt_checked::ffi::{self, Locator, Refusal, HOLDS_BYTES, HOLDS_FIXED, HOLDS_NUMBER};
use pktfmt_checked::Group;

const LONGEST_HEADER: u64 = 4_194_303;

/// A number with the default 0, fixed to it or not, or bytes.
fn locator(header_bytes: u64, first_bit: u64, bits: u64, held: u64) -> Locator {
    Locator { index: 6, header_bytes, first_bit, bits, held, default_number: 0 }
}

/// What every use of a locator is refused with, in a buffer of so many bytes; none changes the buffer.
fn is_refused(at: Locator, size: usize, number: u64) {
    let refusal = Refusal { group: Group::Access as u64, number, place: at.index };
    let mut buf = vec![0x5a; size];
    assert_eq!(ffi::read_number_at(&at, &buf), Err(refusal), "{at:?}");
    assert_eq!(ffi::read_bytes_at(&at, &buf), Err(refusal), "{at:?}");
    assert_eq!(ffi::write_number_at(&at, &mut buf, 0), Err(refusal), "{at:?}");
    assert_eq!(ffi::write_bytes_at(&at, &mut buf, &[]), Err(refusal), "{at:?}");
    assert_eq!(buf, vec![0x5a; size]);
}

/// A locator that no field can have is access 1, in a short buffer too.
fn is_no_locator(at: Locator) {
    for size in [0, 1, 64] {
        is_refused(at, size, 1);
    }
}

#[test]
fn past_the_header() {
    is_no_locator(locator(0, 0, 1, HOLDS_NUMBER));
    is_no_locator(locator(8, 57, 8, HOLDS_NUMBER));
    is_no_locator(locator(8, 64, 8, HOLDS_NUMBER));
    is_no_locator(locator(8, 56, 16, HOLDS_BYTES));
    is_no_locator(locator(8, u64::MAX, 1, HOLDS_NUMBER));
    is_no_locator(locator(8, 1, u64::MAX, HOLDS_NUMBER));
    is_no_locator(locator(8, u64::MAX, u64::MAX, HOLDS_BYTES));
}

#[test]
fn of_a_shape_that_no_field_has() {
    is_no_locator(locator(64, 1, 64, HOLDS_NUMBER));
    is_no_locator(locator(64, 0, 65, HOLDS_FIXED));
    is_no_locator(locator(64, 4, 16, HOLDS_BYTES));
    is_no_locator(locator(64, 0, 20, HOLDS_BYTES));
}

#[test]
fn of_too_few_bits() {
    is_no_locator(Locator::default());
    is_no_locator(locator(64, 0, 0, HOLDS_NUMBER));
    is_no_locator(locator(64, 512, 0, HOLDS_FIXED));
    is_no_locator(locator(64, 0, 0, HOLDS_BYTES));
    is_no_locator(locator(64, 0, 8, HOLDS_BYTES));
}

#[test]
fn with_a_default_over_the_width() {
    is_no_locator(Locator { default_number: 256, ..locator(64, 0, 8, HOLDS_NUMBER) });
    is_no_locator(Locator { default_number: 1 << 63, ..locator(64, 0, 63, HOLDS_FIXED) });
    is_no_locator(Locator { default_number: 1, ..locator(64, 0, 16, HOLDS_BYTES) });
}

#[test]
fn that_hold_something_else() {
    is_no_locator(locator(64, 0, 16, 3));
    is_no_locator(locator(64, 0, 16, 1 << 32));
    is_no_locator(locator(64, 0, 16, u64::MAX));
}

#[test]
fn of_a_header_that_is_too_long() {
    for header in [LONGEST_HEADER + 1, u64::MAX] {
        is_no_locator(locator(header, 0, 8, HOLDS_NUMBER));
        is_no_locator(locator(header, 0, 16, HOLDS_BYTES));
    }
    for held in [HOLDS_NUMBER, HOLDS_BYTES] {
        is_refused(locator(LONGEST_HEADER, 0, 16, held), 64, 2);
    }
}

#[test]
fn that_a_field_could_have() {
    let mut buf = [0; 4];
    let middle = locator(3, 6, 12, HOLDS_NUMBER);
    assert_eq!(ffi::write_number_at(&middle, &mut buf, 0xfff), Ok(()));
    assert_eq!(buf, [0x03, 0xff, 0xc0, 0]);
    assert_eq!(ffi::read_number_at(&middle, &buf), Ok(0xfff));
    let span = ffi::Span { at: 1, count: 2 };
    assert_eq!(ffi::read_bytes_at(&locator(3, 8, 16, HOLDS_BYTES), &buf), Ok(span));
}

/// Fields that are so many bits together, from a bit on: up to the next byte, whole bytes, and what is left.
fn filler(from: u64, bits: u64) -> Vec<Vec<u8>> {
    let first = ((8 - from % 8) % 8).min(bits);
    let last = (bits - first) % 8;
    let whole = bits - first - last;
    let middle: &[_] = if whole == 8 { &[] } else { &[SLICE] };
    [(first, &[][..]), (whole, middle), (last, &[])]
        .into_iter()
        .filter(|(bits, _)| *bits != 0)
        .enumerate()
        .map(|(i, (bits, items))| field(&format!("f{from}_{i}"), bits as u32, items))
        .collect()
}

/// A sheet one of whose fields stands at a locator, and the field's index.
fn sheet_with(at: Locator) -> (Vec<u8>, u64) {
    let value = at.default_number.to_be_bytes();
    let stated: [(usize, &[u8]); 2] = [(73, &[1]), (76, &value)];
    let items = match at.held {
        HOLDS_NUMBER => stated.to_vec(),
        HOLDS_FIXED => [&stated[..], &[FIXED]].concat(),
        _ => vec![SLICE],
    };
    let before = filler(0, at.first_bit);
    let end = at.first_bit + at.bits;
    let after = filler(end, 8 * at.header_bytes - end);
    let this = field("this", at.bits as u32, &items);
    ([before.concat(), this, after.concat()].concat(), before.len() as u64)
}

/// Whether a field can stand at a locator whose header is within the limit.
fn can_stand(at: Locator) -> bool {
    let shape = match at.held {
        HOLDS_BYTES => at.bits >= 16 && at.bits % 8 == 0 && at.first_bit % 8 == 0,
        _ => at.bits >= 1 && at.first_bit % 8 + at.bits <= 64 && u128::from(at.default_number) < 1 << at.bits,
    };
    shape && at.first_bit + at.bits <= 8 * at.header_bytes
}

/// A number with the least default, the largest of a width or the next, fixed or not; and bytes.
fn all_held(at: Locator) -> Vec<Locator> {
    let over = 1u64.checked_shl(at.bits as u32).unwrap_or(0);
    let numbers = [0, over.wrapping_sub(1), over]
        .map(|default_number| [HOLDS_NUMBER, HOLDS_FIXED].map(|held| Locator { held, default_number, ..at }));
    [&numbers.concat()[..], &[Locator { held: HOLDS_BYTES, ..at }]].concat()
}

#[test]
fn that_pass_are_exactly_those_of_fields() {
    for (header_bytes, first_bit, bits) in
        (0..=9).flat_map(|h| (0..=24).flat_map(move |s| (0..=66).map(move |w| (h, s, w))))
    {
        for at in all_held(locator(header_bytes, first_bit, bits, HOLDS_NUMBER)) {
            if can_stand(at) {
                let (sheet, index) = sheet_with(at);
                assert_eq!(ffi::field_by_index(&sheet, index).map(|field| field.at), Ok(Locator { index, ..at }));
                let buf = [0; 9];
                let is_bytes = at.held == HOLDS_BYTES;
                assert_eq!(ffi::read_bytes_at(&at, &buf).is_ok(), is_bytes);
                assert_eq!(ffi::read_number_at(&at, &buf).is_ok(), !is_bytes);
            } else {
                is_refused(at, 9, 1);
            }
        }
    }
}
