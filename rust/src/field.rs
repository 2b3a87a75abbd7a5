//! The fields of an accepted sheet.

use std::fmt;

use crate::ffi;
use crate::Refusal;

/// A field of an accepted sheet: its record, and where it stands.
///
/// Only a [`Sheet`](crate::Sheet) gives one. It is worked out once, can be kept without the sheet, and serves any number
/// of buffers. A buffer holds a header from its front on, and may be longer; in a shorter one every read and write is
/// refused. A refused write changes nothing.
///
/// ```
/// use pktfmt_checked::{AccessFault, Reason, Sheet, Type, Value};
///
/// let sheet = Sheet::new(include_bytes!(concat!(env!("CARGO_MANIFEST_DIR"), "/../examples/ethernet.sheet")))?;
/// let mut packet = sheet.template();
///
/// let vlan = sheet.field("vlan").expect("the sheet has it");
/// assert_eq!((vlan.first_bit(), vlan.bits(), vlan.repr()), (116, 12, Type::U16));
/// assert_eq!(vlan.read_number(&packet)?, 1);
/// vlan.write_number(&mut packet, 0xabc)?;
/// assert_eq!(vlan.read_number(&packet)?, 0xabc);
///
/// let source = sheet.field("source").expect("the sheet has it");
/// source.write_bytes(&mut packet, &[2, 0, 0, 0, 0, 7])?;
/// assert_eq!(source.read(&packet)?, Value::Bytes(&[2, 0, 0, 0, 0, 7]));
///
/// let refusal = vlan.write_number(&mut packet, 0x1000).unwrap_err();
/// assert_eq!(refusal.reason, Reason::Access(AccessFault::ValueNotTheWidth));
/// assert_eq!(vlan.read_number(&packet)?, 0xabc);
/// # Ok::<(), pktfmt_checked::Refusal>(())
/// ```
#[derive(Clone, Debug, PartialEq, Eq)]
pub struct Field {
    at: ffi::Locator,
    name: Box<str>,
    repr: Type,
    arg: Type,
    generated: bool,
    guarded: bool,
    /// None of a number.
    default_bytes: Box<[u8]>,
}

/// How a field is held, and how it is handed over.
#[derive(Clone, Copy, Debug, PartialEq, Eq, Hash)]
#[repr(u64)]
pub enum Type {
    /// `u8`
    U8 = ffi::U8,
    /// `u16`
    U16 = ffi::U16,
    /// `u32`
    U32 = ffi::U32,
    /// `u64`
    U64 = ffi::U64,
    /// `&[u8]`
    ByteSlice = ffi::BYTE_SLICE,
    /// `bool`
    Bool = ffi::BOOL,
    /// By code of the reader's own; no field is held so.
    Code = ffi::CODE,
}

/// What a field holds: a number, or the bytes of a byte slice.
#[derive(Clone, Copy, Debug, PartialEq, Eq)]
pub enum Value<'a> {
    /// A number within the field's width.
    Number(u64),
    /// As many bytes as the field has.
    Bytes(&'a [u8]),
}

impl Field {
    /// Its name, 1 to 64 printable ASCII characters.
    pub fn name(&self) -> &str {
        &self.name
    }

    /// Its index, which is the place of refusals.
    pub fn index(&self) -> usize {
        self.at.index as usize
    }

    /// The number of its first bit. Bit 0 is the most significant one of byte 0.
    pub fn first_bit(&self) -> u64 {
        self.at.first_bit
    }

    /// How many bits it has.
    pub fn bits(&self) -> u64 {
        self.at.bits
    }

    /// How it is held. A byte slice is read and written as bytes, every other as a number.
    pub fn repr(&self) -> Type {
        self.repr
    }

    /// How it is handed over.
    pub fn arg(&self) -> Type {
        self.arg
    }

    /// Whether its own reading and writing is made public.
    pub fn generated(&self) -> bool {
        self.generated
    }

    /// Whether a write needs a guard: the field is fixed, or does not fill its type.
    pub fn guarded(&self) -> bool {
        self.guarded
    }

    /// What the template holds there.
    pub fn default(&self) -> Value<'_> {
        match self.repr {
            Type::ByteSlice => Value::Bytes(&self.default_bytes),
            _ => Value::Number(self.at.default_number),
        }
    }

    /// Whether nothing but its default can be written.
    pub fn is_fixed(&self) -> bool {
        self.at.held == ffi::HOLDS_FIXED
    }

    /// The number that the field holds in a buffer.
    #[inline]
    pub fn read_number(&self, buf: &[u8]) -> Result<u64, Refusal> {
        ffi::read_number_at(&self.at, buf).map_err(Refusal::told)
    }

    /// The bytes that the field holds, as a part of the buffer.
    #[inline]
    pub fn read_bytes<'a>(&self, buf: &'a [u8]) -> Result<&'a [u8], Refusal> {
        match ffi::read_bytes_at(&self.at, buf) {
            Ok(span) => Ok(part(buf, span)),
            Err(refusal) => Err(Refusal::told(refusal)),
        }
    }

    /// Writes a number to the field.
    #[inline]
    pub fn write_number(&self, buf: &mut [u8], value: u64) -> Result<(), Refusal> {
        ffi::write_number_at(&self.at, buf, value).map_err(Refusal::told)
    }

    /// Writes bytes to the field, as many as it has.
    #[inline]
    pub fn write_bytes(&self, buf: &mut [u8], bytes: &[u8]) -> Result<(), Refusal> {
        ffi::write_bytes_at(&self.at, buf, bytes).map_err(Refusal::told)
    }

    /// What the field holds in a buffer.
    pub fn read<'a>(&self, buf: &'a [u8]) -> Result<Value<'a>, Refusal> {
        match self.repr {
            Type::ByteSlice => self.read_bytes(buf).map(Value::Bytes),
            _ => self.read_number(buf).map(Value::Number),
        }
    }

    /// Writes a value to the field.
    pub fn write(&self, buf: &mut [u8], value: Value<'_>) -> Result<(), Refusal> {
        match value {
            Value::Number(number) => self.write_number(buf, number),
            Value::Bytes(bytes) => self.write_bytes(buf, bytes),
        }
    }

    /// The field as the library tells it of a sheet.
    pub(crate) fn told(field: &ffi::Field, sheet: &[u8]) -> Field {
        let name = std::str::from_utf8(part(sheet, field.name)).expect("a name is ASCII");
        let default_bytes = match (field.at.held, field.default_bytes.count) {
            (ffi::HOLDS_BYTES, 0) => vec![0; field.at.bits as usize / 8],
            _ => part(sheet, field.default_bytes).to_vec(),
        };
        Field {
            at: field.at,
            name: name.into(),
            repr: Type::told(field.repr),
            arg: Type::told(field.arg),
            generated: field.generated == 1,
            guarded: field.guarded == 1,
            default_bytes: default_bytes.into(),
        }
    }
}

fn part(bytes: &[u8], span: ffi::Span) -> &[u8] {
    &bytes[span.at as usize..][..span.count as usize]
}

impl Type {
    /// All of them, in the order of their codes.
    pub const ALL: [Type; 7] = [Type::U8, Type::U16, Type::U32, Type::U64, Type::ByteSlice, Type::Bool, Type::Code];

    /// Its name: of all but code that of the Rust type.
    pub fn name(self) -> &'static str {
        match self {
            Type::U8 => "u8",
            Type::U16 => "u16",
            Type::U32 => "u32",
            Type::U64 => "u64",
            Type::ByteSlice => "&[u8]",
            Type::Bool => "bool",
            Type::Code => "code",
        }
    }

    fn told(code: u64) -> Type {
        let found = Type::ALL.into_iter().find(|each| *each as u64 == code);
        found.unwrap_or_else(|| panic!("pktfmt.h has no type {code}"))
    }
}

impl fmt::Display for Type {
    fn fmt(&self, f: &mut fmt::Formatter<'_>) -> fmt::Result {
        f.write_str(self.name())
    }
}
