//! The file `cond.rs` once more, with a door to the one function of it that is private.

use super::ast::{max_value, BitPos, BuiltinTypes, Error, Field, Header};

#[allow(warnings)]
pub(crate) mod cond {
    include!("../../../target/oracle/ast/cond.rs");

    impl CondBounds {
        /// `update_end`, which has no other way in.
        pub(crate) fn clip(&mut self, largest: u64) {
            self.update_end(largest)
        }
    }
}
