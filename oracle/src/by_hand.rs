//! Numbers read and written at a locator, by hand: the port's answers from plain Rust.
//!
//! Access 1 to 5 are asked of any locator, as docs/RULES.md has them. Then 8 bytes that lie in the buffer and hold the
//! whole run are one load, shifts and masks, and one store.

use pktfmt_checked::ffi::{Locator, HOLDS_BYTES, HOLDS_FIXED, HOLDS_NUMBER};

/// A refusal of the group access.
#[derive(Clone, Copy, Debug, PartialEq, Eq)]
pub struct Refusal {
    pub number: u64,
    pub place: u64,
}

const LONGEST_HEADER: u64 = 4_194_303;

#[inline(never)]
pub fn read_number(at: &Locator, buf: &[u8]) -> Result<u64, Refusal> {
    reach(at, buf.len())?;
    let number = |window: u64, first: u64| window << (at.first_bit - 8 * first) >> (64 - at.bits);
    Ok(match window(at, buf.len()) {
        Some(first) => number(u64::from_be_bytes(buf[first..first + 8].try_into().expect("8 bytes")), first as u64),
        None => number(short(buf), 0),
    })
}

#[inline(never)]
pub fn write_number(at: &Locator, buf: &mut [u8], value: u64) -> Result<(), Refusal> {
    reach(at, buf.len())?;
    suit(at, value)?;
    let with = |window: u64, first: u64| {
        let below = 64 - (at.first_bit - 8 * first) - at.bits;
        (window & !(u64::MAX >> (64 - at.bits) << below) | value << below).to_be_bytes()
    };
    match window(at, buf.len()) {
        Some(first) => {
            let window: &mut [u8; 8] = (&mut buf[first..first + 8]).try_into().expect("8 bytes");
            *window = with(u64::from_be_bytes(*window), first as u64);
        }
        None => {
            let count = buf.len();
            let bytes = with(short(buf), 0);
            buf.copy_from_slice(&bytes[..count]);
        }
    }
    Ok(())
}

/// Access 1 to 3 of a number, in a buffer of so many bytes.
#[inline]
fn reach(at: &Locator, bytes: usize) -> Result<(), Refusal> {
    match () {
        () if !is_locator(at) => refused(at, 1),
        () if (bytes as u64) < at.header_bytes => refused(at, 2),
        () if at.held == HOLDS_BYTES => refused(at, 3),
        () => Ok(()),
    }
}

/// Access 4 and 5 of a number.
#[inline]
fn suit(at: &Locator, value: u64) -> Result<(), Refusal> {
    match () {
        () if !has_room_for(at, value) => refused(at, 4),
        () if at.held == HOLDS_FIXED && value != at.default_number => refused(at, 5),
        () => Ok(()),
    }
}

#[inline]
fn refused(at: &Locator, number: u64) -> Result<(), Refusal> {
    Err(Refusal { number, place: at.index })
}

/// Whether a field can stand there.
#[inline]
fn is_locator(at: &Locator) -> bool {
    let shape = match at.held {
        HOLDS_NUMBER | HOLDS_FIXED => {
            at.bits >= 1 && at.bits <= 64 - at.first_bit % 8 && has_room_for(at, at.default_number)
        }
        HOLDS_BYTES => at.first_bit % 8 == 0 && at.bits % 8 == 0 && at.bits >= 16 && at.default_number == 0,
        _ => false,
    };
    shape
        && at.header_bytes <= LONGEST_HEADER
        && at.first_bit <= 8 * at.header_bytes
        && at.bits <= 8 * at.header_bytes - at.first_bit
}

#[inline]
fn has_room_for(at: &Locator, value: u64) -> bool {
    at.bits >= 64 || value >> at.bits == 0
}

/// The first of 8 bytes that hold the run, which lies in a buffer of so many; none of fewer than 8.
#[inline]
fn window(at: &Locator, bytes: usize) -> Option<usize> {
    (bytes >= 8).then(|| ((at.first_bit / 8) as usize).min(bytes - 8))
}

/// Fewer than 8 bytes, with zeros after them.
#[cold]
fn short(buf: &[u8]) -> u64 {
    let mut bytes = [0; 8];
    bytes[..buf.len()].copy_from_slice(buf);
    u64::from_be_bytes(bytes)
}

#[cfg(test)]
mod tests {
    use super::*;
    use crate::random::Random;
    use pktfmt_checked::{ffi, Group};

    /// A locator at which a field can stand, or nearly.
    fn locator(random: &mut Random) -> Locator {
        let header_bytes = if random.percent(95) { random.from_to(0, 24) } else { random.near(LONGEST_HEADER) };
        let first_bit = if random.percent(95) { random.up_to(8 * header_bytes.min(24)) } else { random.number() };
        let bits = if random.percent(95) { random.from_to(0, 66) } else { random.number() };
        let held = random.pick(&[0, 0, 0, 1, 1, 1, 2, 3]);
        let default_number = if random.percent(30) { 0 } else { value(random, bits) };
        let at = Locator { index: random.number(), header_bytes, first_bit, bits, held, default_number };
        if held == HOLDS_BYTES && random.percent(80) {
            Locator { first_bit: first_bit / 8 * 8, bits: bits / 8 * 8, default_number: 0, ..at }
        } else {
            at
        }
    }

    /// A number within a width, or nearly.
    fn value(random: &mut Random, width: u64) -> u64 {
        let most = if (1..64).contains(&width) { u64::MAX >> (64 - width) } else { u64::MAX };
        if random.percent(80) {
            random.up_to(most)
        } else {
            random.near(most)
        }
    }

    /// The port's refusal.
    fn told(ffi::Refusal { group, number, place }: ffi::Refusal) -> Refusal {
        assert_eq!(group, Group::Access as u64);
        Refusal { number, place }
    }

    #[test]
    fn the_port_answers_the_same() {
        let mut counts = [0; 6];
        for index in 0..1_000_000 {
            let mut random = Random::new(1, index);
            let at = locator(&mut random);
            let value = if random.percent(30) { at.default_number } else { value(&mut random, at.bits) };
            let mut left: Vec<u8> = (0..random.from_to(0, 26)).map(|_| random.draw() as u8).collect();
            let mut right = left.clone();
            let port = ffi::read_number_at(&at, &left).map_err(told);
            assert_eq!(port, read_number(&at, &left), "{at:?} in {left:?}");
            let port = ffi::write_number_at(&at, &mut left, value).map_err(told);
            let by_hand = write_number(&at, &mut right, value);
            assert_eq!(port, by_hand, "{at:?}, {value} into {left:?}");
            assert_eq!(left, right, "{at:?}, {value}");
            counts[by_hand.map_or_else(|refusal| refusal.number as usize, |()| 0)] += 1;
        }
        assert!(counts.iter().all(|count| *count > 5_000), "few of some answer: {counts:?}");
    }
}
