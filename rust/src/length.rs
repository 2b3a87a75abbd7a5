//! Lengths that are worked out of a field's value.

use crate::ffi;

/// The lengths that a sheet can give.
#[derive(Clone, Copy, Debug, PartialEq, Eq, Hash)]
#[repr(u64)]
pub enum Slot {
    /// That of the header.
    HeaderLen = ffi::HEADER_LEN,
    /// That of the payload.
    PayloadLen = ffi::PAYLOAD_LEN,
    /// That of the packet.
    PacketLen = ffi::PACKET_LEN,
}

/// What a sheet says of a length.
#[derive(Clone, Copy, Debug, PartialEq, Eq)]
pub enum SlotState {
    /// Nothing.
    Absent,
    /// That there is one, and not how it is worked out.
    Undefined,
    /// How it is worked out.
    Defined(Length),
}

/// A length of an accepted sheet, which is worked out of the value x of one of its fields.
///
/// ```
/// use pktfmt_checked::{Formula, Sheet, Slot, SlotState};
///
/// let sheet = Sheet::new(include_bytes!(concat!(env!("CARGO_MANIFEST_DIR"), "/../examples/rfc791.sheet")))?;
/// let length = sheet.length(Slot::HeaderLen).defined().expect("the sheet says how");
/// assert_eq!(length.formula(), Formula::Times { factor: 4 });
/// assert_eq!(sheet.fields()[length.field_index()].name(), "ihl");
/// assert_eq!(length.largest(), 60);
///
/// assert_eq!(length.forward(5), Some(20));
/// assert_eq!(length.back(20), Some(5));
/// assert_eq!(length.back(22), None);
///
/// assert_eq!(sheet.length(Slot::PayloadLen), SlotState::Absent);
/// # Ok::<(), pktfmt_checked::Refusal>(())
/// ```
#[derive(Clone, Copy, Debug, PartialEq, Eq)]
pub struct Length {
    formula: Formula,
    field: usize,
    largest: u64,
}

/// How a length is worked out of x.
#[derive(Clone, Copy, Debug, PartialEq, Eq, Hash)]
pub enum Formula {
    /// x
    X,
    /// x + a
    Plus {
        /// a
        addend: u64,
    },
    /// x * m
    Times {
        /// m
        factor: u64,
    },
    /// (x + a) * m
    PlusTimes {
        /// a
        addend: u64,
        /// m
        factor: u64,
    },
    /// x * m + a
    TimesPlus {
        /// m
        factor: u64,
        /// a
        addend: u64,
    },
}

impl Slot {
    /// All of them, in their order.
    pub const ALL: [Slot; 3] = [Slot::HeaderLen, Slot::PayloadLen, Slot::PacketLen];
}

impl SlotState {
    /// The length, where the sheet says how it is worked out.
    pub fn defined(self) -> Option<Length> {
        match self {
            SlotState::Absent | SlotState::Undefined => None,
            SlotState::Defined(length) => Some(length),
        }
    }

    /// What the library tells of a slot.
    pub(crate) fn told(ffi::Length { form, first, second, field, largest }: ffi::Length) -> SlotState {
        let formula = match form {
            ffi::UNDEFINED => return SlotState::Undefined,
            ffi::X => Formula::X,
            ffi::X_PLUS => Formula::Plus { addend: first },
            ffi::X_TIMES => Formula::Times { factor: first },
            ffi::PLUS_TIMES => Formula::PlusTimes { addend: first, factor: second },
            ffi::TIMES_PLUS => Formula::TimesPlus { factor: first, addend: second },
            ffi::ABSENT => return SlotState::Absent,
            other => panic!("pktfmt.h has no form {other}"),
        };
        SlotState::Defined(Length { formula, field: field as usize, largest })
    }
}

impl Length {
    /// How it is worked out.
    pub fn formula(&self) -> Formula {
        self.formula
    }

    /// The index of the field whose value is x.
    pub fn field_index(&self) -> usize {
        self.field
    }

    /// The length of that field's largest value.
    pub fn largest(&self) -> u64 {
        self.largest
    }

    /// The length of the value x, unless a step passes 2^64 - 1.
    pub fn forward(&self, x: u64) -> Option<u64> {
        self.formula.forward(x)
    }

    /// The value whose length is y, if there is one and no factor is 0.
    pub fn back(&self, y: u64) -> Option<u64> {
        self.formula.back(y)
    }
}

impl Formula {
    /// The length of the value x, unless a step passes 2^64 - 1.
    pub fn forward(self, x: u64) -> Option<u64> {
        ffi::forward(&self.by_numbers(), x)
    }

    /// The value whose length is y, if there is one and no factor is 0.
    pub fn back(self, y: u64) -> Option<u64> {
        ffi::back(&self.by_numbers(), y)
    }

    /// The formula as the library takes it.
    fn by_numbers(self) -> ffi::Length {
        let (form, first, second) = match self {
            Formula::X => (ffi::X, 0, 0),
            Formula::Plus { addend } => (ffi::X_PLUS, addend, 0),
            Formula::Times { factor } => (ffi::X_TIMES, factor, 0),
            Formula::PlusTimes { addend, factor } => (ffi::PLUS_TIMES, addend, factor),
            Formula::TimesPlus { factor, addend } => (ffi::TIMES_PLUS, factor, addend),
        };
        ffi::Length { form, first, second, ..ffi::Length::default() }
    }
}
