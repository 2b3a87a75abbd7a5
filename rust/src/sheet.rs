//! Sheets that were checked.

use std::fmt;

use crate::ffi;
use crate::{Condition, Field, Refusal, Slot, SlotState};

/// A sheet that was checked and accepted, and what it says.
///
/// ```
/// use pktfmt_checked::Sheet;
///
/// let sheet = Sheet::new(include_bytes!(concat!(env!("CARGO_MANIFEST_DIR"), "/../examples/rfc791.sheet")))?;
/// assert_eq!(sheet.header_bytes(), 20);
/// assert_eq!(sheet.fields().len(), 12);
/// assert_eq!(sheet.field("fragment_offset").map(|field| field.bits()), Some(13));
///
/// let mut packet = [0xff; 64];
/// sheet.write_template(&mut packet)?;
/// assert_eq!(packet[..4], [0x45, 0, 0, 0]);
/// assert_eq!(packet[20..], [0xff; 44]);
/// # Ok::<(), pktfmt_checked::Refusal>(())
/// ```
#[derive(Clone, PartialEq, Eq)]
pub struct Sheet {
    bytes: Box<[u8]>,
    header_bytes: usize,
    fields: Vec<Field>,
    lengths: [SlotState; 3],
    conditions: Vec<Condition>,
}

impl Sheet {
    /// Checks the bytes of a sheet, and takes down what it says.
    ///
    /// # Panics
    ///
    /// If the library that was linked is of another version than this crate.
    pub fn new(bytes: &[u8]) -> Result<Sheet, Refusal> {
        assert_eq!(ffi::version(), ffi::VERSION, "libpktfmt.a is of another version than this crate");
        Sheet::accepted(bytes).map_err(Refusal::told)
    }

    fn accepted(bytes: &[u8]) -> Result<Sheet, ffi::Refusal> {
        let (header, fields) = ffi::fields(bytes)?;
        let conditions = ffi::conditions(bytes)?;
        Ok(Sheet {
            bytes: bytes.into(),
            header_bytes: header.bytes as usize,
            fields: fields[..header.fields as usize].iter().map(|field| Field::told(field, bytes)).collect(),
            lengths: ffi::lengths(bytes)?.map(SlotState::told),
            conditions: conditions[..header.conditions as usize].iter().map(Condition::told).collect(),
        })
    }

    /// The bytes that were checked.
    pub fn as_bytes(&self) -> &[u8] {
        &self.bytes
    }

    /// How many bytes the header has, at most 4,194,303.
    pub fn header_bytes(&self) -> usize {
        self.header_bytes
    }

    /// All fields, at most 64, in the order of the header: each stands at its index.
    pub fn fields(&self) -> &[Field] {
        &self.fields
    }

    /// The field of a name.
    pub fn field(&self, name: &str) -> Option<&Field> {
        self.fields.iter().find(|field| field.name() == name)
    }

    /// What the sheet says of each length, in the order of [`Slot::ALL`].
    pub fn lengths(&self) -> &[SlotState; 3] {
        &self.lengths
    }

    /// What the sheet says of a length.
    pub fn length(&self, slot: Slot) -> SlotState {
        self.lengths[slot as usize]
    }

    /// All conditions, at most 8, in the order of the sheet, each on another field.
    pub fn conditions(&self) -> &[Condition] {
        &self.conditions
    }

    /// The bytes that a header starts as: every field holds its default.
    pub fn template(&self) -> Vec<u8> {
        let mut template = vec![0; self.header_bytes];
        self.write_template(&mut template).expect("there is room for a header");
        template
    }

    /// Writes the template to the front of a buffer, and leaves the rest as it was. Room 1, where the buffer is shorter
    /// than the header: then all of it is left.
    pub fn write_template(&self, buf: &mut [u8]) -> Result<(), Refusal> {
        ffi::template(&self.bytes, buf).map_err(Refusal::told)
    }

    /// The listing, line by line as `tools/list` prints it. Where the header is over 8,192 bytes it is one line,
    /// `refused room 1` with the number of blocks.
    pub fn listing(&self) -> String {
        let mut text = vec![0; ffi::MAX_LISTING];
        let count = ffi::list(&self.bytes, &mut text);
        text.truncate(count);
        String::from_utf8(text).expect("a listing is ASCII")
    }
}

/// Without the bytes, of which there are many.
impl fmt::Debug for Sheet {
    fn fmt(&self, f: &mut fmt::Formatter<'_>) -> fmt::Result {
        f.debug_struct("Sheet")
            .field("header_bytes", &self.header_bytes)
            .field("fields", &self.fields)
            .field("lengths", &self.lengths)
            .field("conditions", &self.conditions)
            .finish_non_exhaustive()
    }
}
