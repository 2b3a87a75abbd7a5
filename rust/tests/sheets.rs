//! What sheets say: names, defaults, types, lengths and conditions at their limits.

mod common;

use common::{block, condition, field, mixed, ARG_BOOL, ARG_CODE, SLICE};
use pktfmt_checked::{Condition, Field, Sheet, Slot, SlotState, Type, Value};

fn sheet(blocks: &[Vec<u8>]) -> Sheet {
    Sheet::new(&blocks.concat()).expect("it is accepted")
}

#[test]
fn the_empty_sheet() {
    let empty = sheet(&[]);
    assert_eq!((empty.header_bytes(), empty.fields(), empty.conditions()), (0, &[][..], &[][..]));
    assert_eq!(empty.lengths(), &[SlotState::Absent; 3]);
    assert_eq!((empty.template(), empty.write_template(&mut [])), (vec![], Ok(())));
    assert_eq!(empty.listing(), "header 0\ntemplate\n");
    assert_eq!(empty.field(""), None);
}

#[test]
fn names_are_found_as_they_are() {
    let longest = "~".repeat(64);
    let names = ["a", "ab", "b", "A", "\"\\'", &longest, "!", "types"];
    let sheet = sheet(&names.map(|name| field(name, 8, &[])));
    for (index, name) in names.into_iter().enumerate() {
        assert_eq!(sheet.fields()[index].name(), name);
        assert_eq!(sheet.field(name).map(|field| field.index()), Some(index));
    }
    for name in ["", "aa", "B", "type", &longest[1..], "a\0", "ä"] {
        assert_eq!(sheet.field(name), None);
    }
}

#[test]
fn sixty_four_fields_each_at_its_index() {
    let blocks: Vec<_> = (0..64).map(|index| field(&format!("f{index}"), 1 + index % 8, &[])).collect();
    let sheet = sheet(&blocks);
    assert_eq!((sheet.fields().len(), sheet.header_bytes()), (64, 36));
    let mut next = 0;
    for (index, field) in sheet.fields().iter().enumerate() {
        assert_eq!((field.index(), field.first_bit(), field.bits()), (index, next, 1 + index as u64 % 8));
        next += field.bits();
    }
}

#[test]
fn defaults_are_numbers_or_bytes_and_fixed_ones_are_guarded() {
    let sheet = Sheet::new(&mixed()).expect("it is accepted");
    let [kind, hash, low, high]: &[Field; 4] = sheet.fields().try_into().expect("there are four");
    assert_eq!((kind.default(), kind.is_fixed()), (Value::Number(9), true));
    assert_eq!((hash.default(), hash.is_fixed()), (Value::Bytes(&[0xaa, 0xbb, 0xcc]), false));
    assert_eq!((low.default(), high.default()), (Value::Number(0), Value::Number(0)));
    assert_eq!([kind, hash, low, high].map(|field| field.guarded()), [true, false, true, true]);
}

#[test]
fn bytes_that_are_not_stated_are_zeros() {
    let zeros = [0; 9];
    let sheet = sheet(&[field("stated", 16, &[SLICE, (73, &[2]), (84, &[0, 2])]), field("wide", 72, &[])]);
    let [stated, wide]: &[Field; 2] = sheet.fields().try_into().expect("there are two");
    assert_eq!((stated.default(), wide.default()), (Value::Bytes(&zeros[..2]), Value::Bytes(&zeros)));
    for field in sheet.fields() {
        assert_eq!(field.read(&sheet.template()), Ok(field.default()));
    }
}

#[test]
fn types_are_those_of_the_width_or_stated() {
    let widths = [("a", 1), ("b", 7), ("c", 16), ("d", 17), ("e", 23), ("f", 33), ("g", 31), ("h", 72)];
    let blocks = widths.map(|(name, bits)| field(name, bits, if bits == 1 { &[ARG_BOOL] } else { &[] }));
    let sheet = sheet(&[&blocks[..], &[field("i", 16, &[SLICE, ARG_CODE])]].concat());
    let reprs: Vec<_> = sheet.fields().iter().map(|field| field.repr()).collect();
    let [u8, u16, u32, u64, slice] = [Type::U8, Type::U16, Type::U32, Type::U64, Type::ByteSlice];
    assert_eq!(reprs, [u8, u8, u16, u32, u32, u64, u32, slice, slice]);
    let args: Vec<_> = sheet.fields().iter().map(|field| field.arg().to_string()).collect();
    assert_eq!(args, ["bool", "u8", "u16", "u32", "u32", "u64", "u32", "&[u8]", "code"]);
    let guarded: Vec<_> = sheet.fields().iter().map(|field| field.guarded()).collect();
    assert_eq!(guarded, [true, true, false, true, true, true, true, false, false]);
}

#[test]
fn values_are_read_and_written_as_they_are_held() {
    let sheet = Sheet::new(&mixed()).expect("it is accepted");
    let mut buf = sheet.template();
    let values = [Value::Number(9), Value::Bytes(&[1, 2, 3]), Value::Number(127), Value::Number(1)];
    for (field, value) in sheet.fields().iter().zip(values) {
        assert_eq!(field.write(&mut buf, value), Ok(()));
        assert_eq!(field.read(&buf), Ok(value));
    }
    assert_eq!(buf, [9, 1, 2, 3, 0xfe, 0, 0, 0, 0, 0, 0, 1]);
}

#[test]
fn lengths_that_are_given_and_not_how() {
    let sheet = sheet(&[block(b'L', "", &[(66, &[1])])]);
    assert_eq!(sheet.lengths(), &[SlotState::Absent, SlotState::Undefined, SlotState::Absent]);
    assert_eq!(Slot::ALL.map(|slot| sheet.length(slot).defined()), [None; 3]);
}

#[test]
fn conditions_are_cut_at_the_largest_value() {
    let (open, to, below) = ((0, 0), |last| (1, last), |end| (2, end));
    let ends = [open, to(300), to(256), to(255), below(300), below(257), below(256)];
    let names = ["a", "b", "c", "d", "e", "f", "g"];
    let fields = names.map(|name| field(name, 8, &[]));
    let conditions: Vec<_> = names.iter().zip(ends).map(|(name, end)| condition(name, &[(Some(7), end)])).collect();
    let sheet = sheet(&[&fields[..], &conditions].concat());
    assert!(sheet.conditions().iter().all(|condition| condition.ranges() == [7..=255]));
    assert_eq!(sheet.conditions().len(), 7);
}

#[test]
fn conditions_allow_what_lies_in_their_ranges() {
    let ranges = [(Some(200), (0, 0)), (None, (2, 3)), (Some(7), (1, 7)), (Some(9), (2, 10)), (Some(100), (2, 200))];
    let sheet = sheet(&[field("a", 8, &[]), condition("a", &ranges)]);
    let [condition]: &[Condition; 1] = sheet.conditions().try_into().expect("there is one");
    assert_eq!(condition.ranges(), [200..=255, 0..=2, 7..=7, 9..=9, 100..=199]);
    let edges = [0, 2, 3, 6, 7, 8, 9, 10, 99, 100, 255, 256, u64::MAX];
    let allowed: Vec<_> = edges.into_iter().filter(|value| condition.allows(*value)).collect();
    assert_eq!(allowed, [0, 2, 7, 9, 100, 255]);
}

#[test]
fn as_many_conditions_and_ranges_as_there_can_be() {
    let ranges: Vec<_> = (0..24).map(|first| (Some(10 * first), (1, 10 * first + 1))).collect();
    let names = ["a", "b", "c", "d", "e", "f", "g", "h"];
    let fields = names.map(|name| field(name, 8, &[]));
    let conditions: Vec<_> = names.iter().rev().map(|name| condition(name, &ranges)).collect();
    let sheet = sheet(&[&fields[..], &conditions].concat());
    let on: Vec<_> = sheet.conditions().iter().map(|condition| condition.field_index()).collect();
    assert_eq!(on, [7, 6, 5, 4, 3, 2, 1, 0]);
    let expected: Vec<_> = (0..24).map(|first| 10 * first..=10 * first + 1).collect();
    assert!(sheet.conditions().iter().all(|condition| condition.ranges() == expected));
}

#[test]
fn a_condition_without_ranges_allows_nothing() {
    let sheet = sheet(&[field("a", 8, &[]), condition("a", &[])]);
    let [condition]: &[Condition; 1] = sheet.conditions().try_into().expect("there is one");
    assert!(condition.ranges().is_empty() && !condition.allows(0));
}

#[test]
fn the_last_number_of_64_bits() {
    let sheet = sheet(&[field("a", 64, &[]), condition("a", &[(Some(u64::MAX), (0, 0)), (None, (2, 1))])]);
    let [condition]: &[Condition; 1] = sheet.conditions().try_into().expect("there is one");
    assert_eq!(condition.ranges(), [u64::MAX..=u64::MAX, 0..=0]);
}

#[test]
fn a_header_that_is_too_long_for_a_listing() {
    let sheet = sheet(&[field("long", 8 * 8193, &[])]);
    assert_eq!((sheet.header_bytes(), sheet.template()), (8193, vec![0; 8193]));
    assert_eq!(sheet.fields()[0].default(), Value::Bytes(&[0; 8193]));
    assert_eq!(sheet.listing(), "refused room 1 1\n");
}

#[test]
fn what_is_kept_can_be_sent_to_other_threads() {
    let sheet = Sheet::new(&mixed()).expect("it is accepted");
    let template = sheet.template();
    let kind = sheet.field("kind").cloned().expect("the sheet has it");
    drop(sheet);
    let read = std::thread::spawn(move || kind.read_number(&template)).join().expect("the thread ends");
    assert_eq!(read, Ok(9));
}
