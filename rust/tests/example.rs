//! The sheet of eight blocks in the rules, and the sheets of the folder of examples.

mod common;

use std::path::Path;

use common::example;
use pktfmt_checked::{ffi, Condition, Formula, Sheet, Slot, SlotState, Type, Value};

const LISTING: &str = "\
header 3
field 0 0 0 4 u8 1 ver
field 1 0 4 4 u8 1 hl
field 2 1 0 12 u16 1 size
field 3 2 4 1 u8 1 flag
field 4 2 5 3 u8 1 rest
template 41000d
length header_len hl 60
length packet_len size 4095
cond ver 4 4
";

fn sheet() -> Sheet {
    Sheet::new(&example()).expect("it is accepted")
}

#[test]
fn its_header() {
    assert_eq!((sheet().header_bytes(), sheet().fields().len()), (3, 5));
    assert_eq!(sheet().as_bytes(), example());
    let header = ffi::Header { bytes: 3, fields: 5, conditions: 1 };
    assert_eq!(ffi::check(&example()), Ok(header));
    assert_eq!(ffi::fields(&example()).map(|(header, _)| header), Ok(header));
}

#[test]
fn its_fields() {
    let expected = [
        ("ver", 0, 4, Type::U8, Type::U8, true, 4),
        ("hl", 4, 4, Type::U8, Type::U8, false, 1),
        ("size", 8, 12, Type::U16, Type::U16, false, 0),
        ("flag", 20, 1, Type::U8, Type::Bool, true, 1),
        ("rest", 21, 3, Type::U8, Type::U8, true, 5),
    ];
    let sheet = sheet();
    for (index, (field, (name, first_bit, bits, repr, arg, generated, default))) in
        sheet.fields().iter().zip(expected).enumerate()
    {
        assert_eq!((field.index(), field.name()), (index, name));
        assert_eq!((field.first_bit(), field.bits()), (first_bit, bits));
        assert_eq!((field.repr(), field.arg(), field.generated()), (repr, arg, generated));
        assert_eq!((field.default(), field.is_fixed(), field.guarded()), (Value::Number(default), false, true));
        assert_eq!(sheet.field(name), Some(field));
    }
}

#[test]
fn its_listing() {
    assert_eq!(sheet().listing(), LISTING);
}

#[test]
fn a_listing_is_written_as_far_as_there_is_room() {
    for room in [0, 1, 10, LISTING.len() - 1, LISTING.len(), LISTING.len() + 2] {
        let mut out = vec![b'?'; room];
        assert_eq!(ffi::list(&example(), &mut out), LISTING.len());
        let (text, rest) = out.split_at(room.min(LISTING.len()));
        assert_eq!(text, &LISTING.as_bytes()[..text.len()]);
        assert!(rest.iter().all(|byte| *byte == b'?'));
    }
}

#[test]
fn its_template_leaves_what_comes_after_the_header() {
    let mut buf = [0xee; 5];
    assert_eq!(sheet().write_template(&mut buf), Ok(()));
    assert_eq!(buf, [0x41, 0x00, 0x0d, 0xee, 0xee]);
    assert_eq!(sheet().template(), buf[..3]);
}

#[test]
fn what_is_written_is_read_and_its_neighbours_stay() {
    let (sheet, mut buf) = (sheet(), [0x41, 0x00, 0x0d]);
    sheet.field("size").unwrap().write_number(&mut buf, 0xabc).unwrap();
    assert_eq!(buf, [0x41, 0xab, 0xcd]);
    let numbers = sheet.fields().iter().map(|field| field.read_number(&buf).unwrap());
    assert_eq!(numbers.collect::<Vec<_>>(), [4, 1, 0xabc, 1, 5]);
}

#[test]
fn its_lengths() {
    let sheet = sheet();
    let [header, payload, packet] = Slot::ALL.map(|slot| sheet.length(slot));
    assert_eq!(sheet.lengths(), &[header, payload, packet]);
    assert_eq!(payload, SlotState::Absent);
    let [header, packet] = [header, packet].map(|slot| slot.defined().expect("it says how"));
    assert_eq!((header.formula(), header.field_index(), header.largest()), (Formula::Times { factor: 4 }, 1, 60));
    assert_eq!((packet.formula(), packet.field_index(), packet.largest()), (Formula::X, 2, 4095));
    assert_eq!((header.forward(15), header.back(60), header.back(61)), (Some(60), Some(15), None));
}

#[test]
fn its_condition() {
    let sheet = sheet();
    let [version]: &[Condition; 1] = sheet.conditions().try_into().expect("there is one");
    assert_eq!((version.field_index(), version.ranges()), (0, &[4..=4][..]));
    assert_eq!([3, 4, 5].map(|value| version.allows(value)), [false, true, false]);
}

#[test]
fn lengths_forward_and_back() {
    let formula = Formula::PlusTimes { addend: 2, factor: 4 };
    assert_eq!(formula.forward(5), Some(28));
    assert_eq!([28, 30, 4].map(|y| formula.back(y)), [Some(5), None, None]);
    assert_eq!(formula.forward(u64::MAX), None);
    let other = Formula::TimesPlus { factor: 4, addend: 2 };
    assert_eq!((other.forward(5), other.back(22), other.back(1)), (Some(22), Some(5), None));
    assert_eq!((Formula::X.forward(7), Formula::X.back(7)), (Some(7), Some(7)));
    let plus = Formula::Plus { addend: 3 };
    assert_eq!((plus.forward(7), plus.back(10), plus.back(2)), (Some(10), Some(7), None));
    let zero = Formula::Times { factor: 0 };
    assert_eq!((zero.forward(7), zero.back(0)), (Some(0), None));
}

#[test]
fn the_examples_have_their_listings() {
    let folder = Path::new(env!("CARGO_MANIFEST_DIR")).with_file_name("examples");
    for name in ["bits", "ethernet", "rfc791", "three_bytes", "udp"] {
        let sheet = std::fs::read(folder.join(format!("{name}.sheet"))).expect("the sheet can be read");
        let listing = std::fs::read_to_string(folder.join(format!("{name}.listing"))).expect("and its listing");
        assert_eq!(Sheet::new(&sheet).expect("it is accepted").listing(), listing);
    }
}
