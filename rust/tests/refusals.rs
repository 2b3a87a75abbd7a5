//! Refusals, that they change nothing, and how they are told in words.

mod common;

use common::{block, condition, example, field, mixed};
use pktfmt_checked::{
    ffi, AccessFault, CondFault, Field, FieldFault, Group, HeaderFault, LengthFault, Reason, Refusal, RoomFault, Sheet,
    SheetFault,
};

fn refused(reason: Reason, place: u64) -> Result<Sheet, Refusal> {
    Err(Refusal { reason, place })
}

#[test]
fn bytes_that_are_no_sheet() {
    let sheet = |fault| refused(Reason::Sheet(fault), 0);
    assert_eq!(Sheet::new(&[0]), sheet(SheetFault::WrongLength));
    assert_eq!(Sheet::new(&[0; 512 * 100]), sheet(SheetFault::WrongLength));
    assert_eq!(Sheet::new(&[0; 512]), sheet(SheetFault::BadCheck));
    assert_eq!(Sheet::new(&block(b'X', "a", &[])), sheet(SheetFault::UnknownOrMisplacedKind));
    let unnamed = block(b'F', "", &[(69, &[8])]);
    assert_eq!(Sheet::new(&unnamed), sheet(SheetFault::ByteOutsideLayout));
}

#[test]
fn each_step_has_its_group() {
    let byte = || field("a", 8, &[]);
    let wide = [byte(), field("b", 65, &[])].concat();
    assert_eq!(Sheet::new(&wide), refused(Reason::Field(FieldFault::WidthNotAllowed), 1));
    let twice = [byte(), byte()].concat();
    assert_eq!(Sheet::new(&twice), refused(Reason::Header(HeaderFault::NameUsedBefore), 1));
    let unwhole = [byte(), field("b", 7, &[])].concat();
    assert_eq!(Sheet::new(&unwhole), refused(Reason::Header(HeaderFault::HeaderNotWholeBytes), 2));
    let unknown = [byte(), block(b'L', "b", &[(66, &[1, 1])])].concat();
    assert_eq!(Sheet::new(&unknown), refused(Reason::Length(LengthFault::NoSuchField), 1));
    let empty = [byte(), condition("a", &[(Some(300), (0, 0))])].concat();
    assert_eq!(Sheet::new(&empty), refused(Reason::Cond(CondFault::RangeEmpty), 1));
}

#[test]
fn a_sheets_refusal_comes_before_all_others() {
    let sheet = field("b", 65, &[]);
    let refusal = ffi::Refusal { group: Group::Field as u64, number: 1, place: 0 };
    let mut buf = [7; 2];
    assert_eq!(ffi::check(&sheet), Err(refusal));
    assert_eq!(ffi::field_by_index(&sheet, 9), Err(refusal));
    assert_eq!(ffi::field_by_name(&sheet, b"c"), Err(refusal));
    assert_eq!(ffi::fields(&sheet), Err(refusal));
    assert_eq!(ffi::lengths(&sheet), Err(refusal));
    assert_eq!(ffi::conditions(&sheet), Err(refusal));
    assert_eq!(ffi::template(&sheet, &mut buf), Err(refusal));
    assert_eq!(ffi::read_number(&sheet, 9, &buf), Err(refusal));
    assert_eq!(ffi::read_bytes(&sheet, 9, &buf), Err(refusal));
    assert_eq!(ffi::write_number(&sheet, 9, &mut buf, 0), Err(refusal));
    assert_eq!(ffi::write_bytes(&sheet, 9, &mut buf, &[]), Err(refusal));
    assert_eq!(buf, [7; 2]);
    let mut line = [b'?'; 20];
    assert_eq!(ffi::list(&sheet, &mut line), 18);
    assert_eq!(&line, b"refused field 1 0\n??");
}

#[test]
fn a_template_needs_room() {
    let sheet = Sheet::new(&example()).unwrap();
    let refusal = Err(Refusal { reason: Reason::Room(RoomFault::BufferUnderHeader), place: 8 });
    let mut buf = [0xee; 2];
    assert_eq!(sheet.write_template(&mut buf), refusal);
    assert_eq!(buf, [0xee; 2]);
    assert_eq!(sheet.write_template(&mut []), refusal);
}

#[test]
fn access_2_to_5() {
    let sheet = Sheet::new(&mixed()).unwrap();
    let mut buf = sheet.template();
    let before = buf.clone();
    let [kind, hash, low, high]: &[Field; 4] = sheet.fields().try_into().expect("there are four");
    let refused = |fault, place| Err(Refusal { reason: Reason::Access(fault), place });
    let access = |fault, place| refused(fault, place).map(|_: u64| ());
    assert_eq!(high.read_number(&buf[..11]), refused(AccessFault::BufferUnderHeader, 3));
    assert_eq!(kind.read_number(&[]), refused(AccessFault::BufferUnderHeader, 0));
    assert_eq!(kind.write_number(&mut buf[..11], 9), access(AccessFault::BufferUnderHeader, 0));
    assert_eq!(hash.read_number(&buf), refused(AccessFault::FieldOfOtherKind, 1));
    assert_eq!(low.read_bytes(&buf).map(drop), access(AccessFault::FieldOfOtherKind, 2));
    assert_eq!(low.write_bytes(&mut buf, &[1]), access(AccessFault::FieldOfOtherKind, 2));
    assert_eq!(hash.write_number(&mut buf, 1), access(AccessFault::FieldOfOtherKind, 1));
    assert_eq!(low.write_number(&mut buf, 128), access(AccessFault::ValueNotTheWidth, 2));
    assert_eq!(hash.write_bytes(&mut buf, &[1, 2]), access(AccessFault::ValueNotTheWidth, 1));
    assert_eq!(hash.write_bytes(&mut buf, &[]), access(AccessFault::ValueNotTheWidth, 1));
    assert_eq!(kind.write_number(&mut buf, 8), access(AccessFault::FixedToItsDefault, 0));
    assert_eq!(buf, before);
}

#[test]
fn access_1_is_of_the_index_or_of_as_many_as_there_are() {
    let sheet = mixed();
    let access_1 = |place| ffi::Refusal { group: Group::Access as u64, number: 1, place };
    for index in [4, 64, u64::MAX] {
        assert_eq!(ffi::field_by_index(&sheet, index), Err(access_1(index)));
        assert_eq!(ffi::read_number(&sheet, index, &[]), Err(access_1(index)));
    }
    for name in [&b""[..], b"kin", b"kinds", b"type"] {
        assert_eq!(ffi::field_by_name(&sheet, name), Err(access_1(4)));
    }
}

/// The table of reasons in the rules: each group's name, the number and the words.
fn rows() -> Vec<(&'static str, u64, &'static str)> {
    let rules = include_str!(concat!(env!("CARGO_MANIFEST_DIR"), "/../docs/RULES.md"));
    let table = rules.split("| group | number | | name |").nth(1).expect("the rules have the table");
    let rows = table.lines().skip(2).take_while(|line| line.starts_with('|'));
    let mut last = "";
    rows.map(|row| {
        let parts: Vec<_> = row.split('|').map(str::trim).collect();
        last = if parts[1].is_empty() { last } else { parts[1] };
        (last, parts[2].parse().expect("a number"), parts[3])
    })
    .collect()
}

#[test]
fn every_reason_in_words() {
    let reasons: Vec<_> =
        Reason::ALL.iter().map(|reason| (reason.group().name(), reason.number(), reason.words())).collect();
    assert_eq!(reasons, rows());
    for (reason, (group, number, words)) in Reason::ALL.into_iter().zip(rows()) {
        let place = match (group, number) {
            ("number" | "type" | "position" | "bound", _) | ("sheet", 1) => "",
            ("header", 6) | ("length", 1) | ("cond", 8) | ("room", 1) => ", of 7 blocks",
            ("access", _) => ", field 7",
            _ => ", block 7",
        };
        assert_eq!(Refusal { reason, place: 7 }.to_string(), format!("{words} ({group} {number}{place})"));
    }
}

#[test]
fn some_refusals_in_words() {
    let eight = Sheet::new(&[field("a", 7, &[]), field("b", 58, &[])].concat()).unwrap_err();
    assert_eq!(eight.to_string(), "the field has at most 64 bits and touches over 8 bytes (header 3, block 1)");
    let length = Sheet::new(&[0]).unwrap_err();
    assert_eq!(length.to_string(), "the bytes are no whole blocks of 512, or over 99 of them (sheet 1)");
    let whole = Sheet::new(&field("a", 7, &[])).unwrap_err();
    assert_eq!(whole.to_string(), "the header's bits are no whole bytes (header 6, of 1 blocks)");
    let sheet = Sheet::new(&mixed()).unwrap();
    let short = sheet.fields()[2].read_number(&[]).unwrap_err();
    assert_eq!(short.to_string(), "the buffer is shorter than the header (access 2, field 2)");
    let error: Box<dyn std::error::Error + Send + Sync> = short.into();
    assert!(error.source().is_none());
}
