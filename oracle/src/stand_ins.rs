//! What the original's files need of files and crates that are not here.

/// `crate::utils::Spanned`: an item, and where it stood.
pub struct Spanned<T> {
    pub item: T,
    pub span: (usize, usize),
}

/// `return_err!` of `utils.rs`.
macro_rules! return_err {
    ($error: expr) => {
        return Err($error)
    };
}

/// `byteorder::ByteOrder`, of which the original uses one function.
pub trait ByteOrder {
    /// Writes the lowest `count` bytes of `number` to the front of `buf`. Panics where it takes more.
    fn write_uint(buf: &mut [u8], number: u64, count: usize);
}

/// `byteorder::NetworkEndian`: the most significant byte first.
pub enum NetworkEndian {}

impl ByteOrder for NetworkEndian {
    fn write_uint(buf: &mut [u8], number: u64, count: usize) {
        let bytes = number.to_be_bytes();
        let (unused, used) = bytes.split_at(8 - count);
        assert!(unused.iter().all(|byte| *byte == 0), "{number} takes more than {count} bytes");
        buf[..count].copy_from_slice(used);
    }
}
