//! Refusals: why, and where.

use std::error::Error;
use std::fmt;

use crate::ffi;
use crate::reasons::{CondFault, HeaderFault, LengthFault, Reason, RoomFault, SheetFault};

/// Why something was refused, and where. `docs/RULES.md` has all reasons.
///
/// In words it ends with the numbers of that page, the group with the number in it, and the place:
///
/// ```
/// use pktfmt_checked::{HeaderFault, Reason, Sheet};
///
/// // The last block alone is a sheet too, of one condition and no field.
/// let bytes = include_bytes!(concat!(env!("CARGO_MANIFEST_DIR"), "/../examples/rfc791.sheet"));
/// let refusal = Sheet::new(&bytes[bytes.len() - 512..]).unwrap_err();
/// assert_eq!(refusal.to_string(), "the condition is on a field that there is not (cond 1, block 0)");
///
/// // The first field has 4 bits.
/// let refusal = Sheet::new(&bytes[..512]).unwrap_err();
/// assert_eq!(refusal.reason, Reason::Header(HeaderFault::HeaderNotWholeBytes));
/// assert_eq!(refusal.to_string(), "the header's bits are no whole bytes (header 6, of 1 blocks)");
/// ```
#[derive(Clone, Copy, Debug, PartialEq, Eq, Hash)]
pub struct Refusal {
    /// Why.
    pub reason: Reason,
    /// Where: mostly the index of the block at fault. For the group access it is the index of the field that was asked
    /// for, for header 6, length 1, cond 8 and room 1 the number of blocks, and for sheet 1 it is 0.
    pub place: u64,
}

impl Refusal {
    /// The refusal as the library tells it. Accepted reads and writes are to be fast, so this is kept out of them.
    #[cold]
    pub(crate) fn told(ffi::Refusal { group, number, place }: ffi::Refusal) -> Refusal {
        let reason = Reason::of_numbers(group, number);
        Refusal { reason: reason.unwrap_or_else(|| panic!("the rules have no reason {group}, {number}")), place }
    }
}

impl fmt::Display for Refusal {
    fn fmt(&self, f: &mut fmt::Formatter<'_>) -> fmt::Result {
        let Refusal { reason, place } = self;
        write!(f, "{} ({} {}", reason.words(), reason.group().name(), reason.number())?;
        match reason {
            Reason::Number(_) | Reason::Type(_) | Reason::Position(_) | Reason::Bound(_) => {}
            Reason::Sheet(SheetFault::WrongLength) => {}
            Reason::Header(HeaderFault::HeaderNotWholeBytes)
            | Reason::Length(LengthFault::PayloadAndPacketGiven)
            | Reason::Cond(CondFault::OverEightEntries)
            | Reason::Room(RoomFault::BufferUnderHeader) => write!(f, ", of {place} blocks")?,
            Reason::Access(_) => write!(f, ", field {place}")?,
            Reason::Sheet(_) | Reason::Field(_) | Reason::Header(_) | Reason::Length(_) | Reason::Cond(_) => {
                write!(f, ", block {place}")?
            }
        }
        f.write_str(")")
    }
}

impl Error for Refusal {}
