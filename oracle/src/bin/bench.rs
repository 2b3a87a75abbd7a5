//! The port's time beside that of Rust, row by row; docs/SPEED.md tells what the rows are. Each is a ratio: the medians
//! of many rounds in which both sides take turns, with the same inputs.

use std::hint::black_box;
use std::time::Instant;

use oracle::sheet::{CondBlock, DefaultItem, End, FieldBlock, Form, LengthBlock, Range, Sheet};
use oracle::{by_hand, port};
use pktfmt_checked::ffi::{self, Locator, Refusal, HOLDS_NUMBER};
use pktfmt_checked::Field;

const ROUNDS: usize = 201;

fn main() {
    let (large, refused, small) = (large(12).to_bytes(), large(9).to_bytes(), small().to_bytes());
    row("check, 64 fields, 2 lengths, 8 conditions", check(&large, true, 20));
    row("check, the eight blocks of the lister's example", check(&small, true, 200));
    row("check, the large sheet refused at its last block", check(&refused, false, 20));
    row("template of the large sheet", template(&large));
    row("all fields of the large sheet, beside one check", fields(&large));
    rows("reads", reads);
    rows("reads at the buffer's end", |at| reads(ending(at)));
    rows("writes", writes);
    rows("writes at the buffer's end", |at| writes(ending(at)));
    rows("reads by the crate, beside C", reads_by_the_crate);
    rows("writes by the crate, beside C", writes_by_the_crate);
}

/// Nanoseconds of what is measured, which is the port, and of what it is measured by.
type Times = (f64, f64);

fn row(what: &str, (port, beside): Times) {
    println!("{what:50} {:5.2}   ({port:8.1} ns beside {beside:8.1} ns)", port / beside);
}

/// All numbers of 1 to 64 bits together, and the width that fares worst.
fn rows(what: &str, times: impl Fn(Locator) -> Times) {
    let sum = |times: Vec<Times>| times.iter().fold((0.0, 0.0), |(p, b), (port, beside)| (p + port, b + beside));
    let widths: Vec<Vec<Times>> = (1..=64).map(|width| numbers(width).map(&times).collect()).collect();
    let count = widths.iter().map(Vec::len).sum::<usize>() as f64;
    let of_width: Vec<Times> = widths.into_iter().map(sum).collect();
    let worst = of_width.iter().map(|(port, beside)| port / beside).fold(0.0, f64::max);
    let (port, beside) = sum(of_width);
    row(&format!("{what}, 1 to 64 bits"), (port / count, beside / count));
    println!("{:50} {worst:5.2}", format!("{what}, the worst width"));
}

/// Both sides in turns, `calls` of each a round; the medians of a call.
fn compare(calls: usize, mut port: impl FnMut(), mut beside: impl FnMut()) -> Times {
    compare_rounds(calls, || (0..calls).for_each(|_| port()), || (0..calls).for_each(|_| beside()))
}

/// The same of rounds, which make so many calls each.
fn compare_rounds(calls: usize, mut port: impl FnMut(), mut beside: impl FnMut()) -> Times {
    let time = |round: &mut dyn FnMut()| {
        let began = Instant::now();
        round();
        began.elapsed().as_nanos() as f64 / calls as f64
    };
    let times = (0..ROUNDS).map(|_| (time(&mut port), time(&mut beside)));
    let (mut ports, mut others): (Vec<f64>, Vec<f64>) = times.unzip();
    (median(&mut ports), median(&mut others))
}

fn median(times: &mut [f64]) -> f64 {
    times.sort_by(f64::total_cmp);
    times[times.len() / 2]
}

// ---- sheets

fn check(sheet: &[u8], accepted: bool, calls: usize) -> Times {
    assert_eq!(ffi::check(sheet).is_ok(), accepted);
    assert_eq!(original::definition(sheet).is_some(), accepted);
    compare(
        calls,
        || _ = black_box(ffi::check(black_box(sheet))),
        || _ = black_box(original::definition(black_box(sheet))),
    )
}

fn template(sheet: &[u8]) -> Times {
    let bytes = ffi::check(sheet).expect("the large sheet is accepted").bytes as usize;
    let (mut port, mut rust) = (vec![0; bytes], vec![0; bytes]);
    let times = compare(
        20,
        || ffi::template(black_box(sheet), black_box(&mut port)).expect("there is room"),
        || rust.copy_from_slice(original::definition(black_box(sheet)).expect("accepted").header.header_template()),
    );
    assert_eq!(port, rust);
    times
}

/// All fields in one call, beside one check by the port.
fn fields(sheet: &[u8]) -> Times {
    let (mut header, mut fields) = (ffi::Header::default(), [ffi::Field::default(); ffi::MAX_FIELDS]);
    let mut refusal = Refusal::default();
    let times = compare(
        20,
        || {
            let (header, fields) = (black_box(&mut header), black_box(&mut fields));
            black_box(port::fields(black_box(sheet), header, fields, black_box(&mut refusal)));
        },
        || _ = black_box(ffi::check(black_box(sheet))),
    );
    assert_eq!(ffi::check(sheet), Ok(header));
    assert_eq!(fields.map(|field| field.at.index), std::array::from_fn(|index| index as u64));
    times
}

fn number(name: &str, bits: u32, default: DefaultItem) -> FieldBlock {
    FieldBlock { name: name.to_string(), bits, repr: 0, arg: 0, gen: 0, default, fixed: false }
}

fn length(slot: u8, name: &str, form: Form) -> LengthBlock {
    LengthBlock { slot, name: name.to_string(), form }
}

fn within(start: u64, end: End) -> Range {
    Range { start: Some(start), end }
}

/// Eight groups of eight fields, 12 bytes each; two lengths; eight conditions of four ranges. The last range of all
/// starts where it is told to: at 9 it meets another.
fn large(last: u64) -> Sheet {
    let group = |g: u32| {
        let named = |what: &str, bits, default| number(&format!("{what}_{g}"), bits, default);
        [
            named("version", 4, DefaultItem::Number(4)),
            FieldBlock { gen: 1, ..named("header_length", 4, DefaultItem::Number(12)) },
            named("type_of_service", 8, DefaultItem::Absent),
            FieldBlock { gen: 1, ..named("total_length", 16, DefaultItem::Number(96)) },
            FieldBlock { repr: 5, ..named("address", 48, DefaultItem::Bytes(vec![2, 0, 0, 1, 2, 3])) },
            FieldBlock { arg: 6, ..named("flag", 1, DefaultItem::Number(1)) },
            named("reserved", 3, DefaultItem::Number(0)),
            named("fragment_offset", 12, DefaultItem::Number(77)),
        ]
    };
    let cond = |g: u32| {
        let start = if g == 7 { last } else { 12 };
        let ranges = [(0, End::Included(3)), (4, End::Excluded(6)), (8, End::Included(9)), (start, End::Included(15))];
        CondBlock { name: format!("version_{g}"), ranges: ranges.map(|(start, end)| within(start, end)).to_vec() }
    };
    Sheet {
        fields: (0..8).flat_map(group).collect(),
        lengths: vec![length(0, "header_length_0", Form::Times(8)), length(2, "total_length_0", Form::X)],
        conds: (0..8).map(cond).collect(),
    }
}

/// The lister's example of docs/RULES.md.
fn small() -> Sheet {
    Sheet {
        fields: vec![
            number("ver", 4, DefaultItem::Number(4)),
            FieldBlock { gen: 1, ..number("hl", 4, DefaultItem::Number(1)) },
            FieldBlock { gen: 1, ..number("size", 12, DefaultItem::Absent) },
            FieldBlock { arg: 6, ..number("flag", 1, DefaultItem::Number(1)) },
            number("rest", 3, DefaultItem::Number(5)),
        ],
        lengths: vec![length(0, "hl", Form::Times(4)), length(2, "size", Form::X)],
        conds: vec![CondBlock { name: "ver".to_string(), ranges: vec![within(4, End::Included(4))] }],
    }
}

/// Plain Rust that decodes the bytes of a sheet, without step 1, and calls the original.
mod original {
    use std::ops::Bound;

    use oracle::original::{fields, header, Entry, FieldInput};
    use oracle::original::{
        Arg, BuiltinTypes, Cond, CondBounds, DefaultVal, Header, Length, LengthField, UsableAlgExpr,
    };

    pub struct Definition {
        pub header: Header,
        _length: Length,
        _cond: Cond,
    }

    pub fn definition(sheet: &[u8]) -> Option<Definition> {
        let (mut inputs, mut conds) = (Vec::new(), Vec::new());
        let mut lengths = vec![LengthField::None; 3];
        for block in sheet.chunks_exact(512) {
            match block[0] {
                b'F' => inputs.push(field(block)),
                b'L' => lengths[usize::from(block[66])] = length(block),
                _ => conds.push(cond(block)),
            }
        }
        let header = header(fields(inputs).ok()?, sheet.len() / 512).ok()?;
        let length = Length::from_packet_length(lengths, &header).ok()?;
        let cond = Cond::from_cond_list(conds, &header).ok()?;
        Some(Definition { header, _length: length, _cond: cond })
    }

    fn name(block: &[u8]) -> String {
        String::from_utf8(block[2..][..usize::from(block[1])].to_vec()).expect("names are of bytes 33 to 126")
    }

    fn number(block: &[u8], at: usize) -> u64 {
        u64::from_be_bytes(block[at..][..8].try_into().expect("8 bytes"))
    }

    fn builtin(code: u8) -> BuiltinTypes {
        match code {
            1 => BuiltinTypes::U8,
            2 => BuiltinTypes::U16,
            3 => BuiltinTypes::U32,
            4 => BuiltinTypes::U64,
            5 => BuiltinTypes::ByteSlice,
            _ => BuiltinTypes::Bool,
        }
    }

    fn field(block: &[u8]) -> FieldInput {
        let value = match block[73] {
            0 => None,
            1 => Some(DefaultVal::Num(number(block, 76))),
            2 => {
                let count = usize::from(u16::from_be_bytes([block[84], block[85]]));
                Some(DefaultVal::Bytes(block[86..][..count].to_vec()))
            }
            _ => Some(DefaultVal::Bool(number(block, 76) == 1)),
        };
        FieldInput {
            name: name(block),
            bit: number(block, 66) >> 32,
            repr: (block[70] != 0).then(|| builtin(block[70])),
            arg: match block[71] {
                0 => None,
                7 => Some(Arg::Code(String::new())),
                code => Some(Arg::BuiltinTypes(builtin(code))),
            },
            default: value.map(|value| (value, block[74] == 1)),
            gen: (block[72] != 0).then(|| block[72] == 2),
        }
    }

    fn length(block: &[u8]) -> LengthField {
        let (first, second) = (number(block, 68), number(block, 76));
        let expr = match block[67] {
            0 => return LengthField::Undefined,
            1 => UsableAlgExpr::IdentOnly(name(block)),
            2 => UsableAlgExpr::SimpleAdd(name(block), first),
            3 => UsableAlgExpr::SimpleMult(name(block), first),
            4 => UsableAlgExpr::AddMult(name(block), first, second),
            5 => UsableAlgExpr::MultAdd(name(block), first, second),
            form => panic!("no sheet here has form {form}"),
        };
        LengthField::Expr { expr }
    }

    fn cond(block: &[u8]) -> Entry {
        let range = |part: &[u8]| CondBounds {
            start: if part[0] == 0 { Bound::Unbounded } else { Bound::Included(number(part, 2)) },
            end: match part[1] {
                0 => Bound::Unbounded,
                1 => Bound::Included(number(part, 10)),
                _ => Bound::Excluded(number(part, 10)),
            },
        };
        (name(block), block[68..].chunks_exact(18).take(block[66].into()).map(range).collect())
    }
}

// ---- fields

/// As many buffers as there are calls in a round, so that no call waits for what the one before it wrote.
const BUFFERS: [[u8; 64]; 100] = [[0x5a; 64]; 100];

/// The numbers of a width from each bit of byte 20 on that touch at most 8 bytes.
fn numbers(bits: u64) -> impl Iterator<Item = Locator> {
    let number = Locator { index: 0, header_bytes: 64, first_bit: 0, bits, held: HOLDS_NUMBER, default_number: 0 };
    (160..168).filter(move |start| start % 8 + bits <= 64).map(move |first_bit| Locator { first_bit, ..number })
}

/// The same number in a header that ends with it.
fn ending(at: Locator) -> Locator {
    Locator { header_bytes: (at.first_bit + at.bits).div_ceil(8), ..at }
}

/// A field of the crate that stands there: one of a sheet with fields before it and after it.
fn field_at(at: Locator) -> Field {
    let (byte, end) = (at.first_bit / 8 * 8, at.first_bit + at.bits);
    let after = end.div_ceil(8) * 8;
    let parts = [("front", 0, byte), ("before", byte, at.first_bit), ("number", at.first_bit, end)];
    let rest = [("after", end, after), ("rest", after, 8 * at.header_bytes)];
    let fields = parts.into_iter().chain(rest).filter(|(_, first, end)| first < end);
    let fields = fields.map(|(name, first, end)| number(name, (end - first) as u32, DefaultItem::Absent));
    let sheet = Sheet { fields: fields.collect(), ..Sheet::default() };
    let sheet = pktfmt_checked::Sheet::new(&sheet.to_bytes()).expect("it is accepted");
    let field = sheet.field("number").expect("it has the number");
    assert_eq!((field.first_bit(), field.bits()), (at.first_bit, at.bits));
    field.clone()
}

/// By the C function, beside by hand. Neither is compiled into the loops: what they are told need not be hidden from the
/// compiler for each call, which would store it each time.
fn reads(at: Locator) -> Times {
    let (at, bytes) = (black_box(&at), ..at.header_bytes as usize);
    let (mut value, mut refusal) = (0, Refusal::default());
    compare_rounds(
        BUFFERS.len(),
        || BUFFERS.iter().for_each(|buf| _ = black_box(port::read_number(at, &buf[bytes], &mut value, &mut refusal))),
        || BUFFERS.iter().for_each(|buf| _ = black_box(by_hand::read_number(at, &buf[bytes]))),
    )
}

/// By the C function, beside by hand.
fn writes(at: Locator) -> Times {
    let (at, bytes) = (black_box(&at), ..at.header_bytes as usize);
    let value = black_box(0x0123_4567_89ab_cdef >> (64 - at.bits));
    let (mut left, mut right, mut refusal) = (BUFFERS, BUFFERS, Refusal::default());
    let times = compare_rounds(
        BUFFERS.len(),
        || {
            for buf in &mut left {
                black_box(port::write_number(at, &mut buf[bytes], value, &mut refusal));
            }
        },
        || right.iter_mut().for_each(|buf| _ = black_box(by_hand::write_number(at, &mut buf[bytes], value))),
    );
    assert_eq!(left, right);
    times
}

/// By the crate's field, beside the C function; what is measured is a number that was read.
fn reads_by_the_crate(at: Locator) -> Times {
    let (field, bytes) = (field_at(at), ..at.header_bytes as usize);
    let (mut value, mut refusal) = (0, Refusal::default());
    let (field, at) = (black_box(&field), black_box(&at));
    let mut by_c = |buf: &[u8]| port::read_number(at, buf, &mut value, &mut refusal).then_some(value);
    let number = |read: Option<u64>| _ = black_box(read.expect("it is accepted"));
    compare_rounds(
        BUFFERS.len(),
        || BUFFERS.iter().for_each(|buf| number(field.read_number(&buf[bytes]).ok())),
        || BUFFERS.iter().for_each(|buf| number(by_c(&buf[bytes]))),
    )
}

/// By the crate's field, beside the C function.
fn writes_by_the_crate(at: Locator) -> Times {
    let (field, bytes) = (field_at(at), ..at.header_bytes as usize);
    let (field, at) = (black_box(&field), black_box(&at));
    let value = black_box(0x0123_4567_89ab_cdef >> (64 - at.bits));
    let (mut left, mut right, mut refusal) = (BUFFERS, BUFFERS, Refusal::default());
    let mut by_c = |buf: &mut [u8]| port::write_number(at, buf, value, &mut refusal);
    let times = compare_rounds(
        BUFFERS.len(),
        || {
            for buf in &mut left {
                assert!(field.write_number(&mut buf[bytes], value).is_ok());
            }
        },
        || right.iter_mut().for_each(|buf| assert!(by_c(&mut buf[bytes]))),
    );
    assert_eq!(left, right);
    times
}
