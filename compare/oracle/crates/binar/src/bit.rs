//! Stand-in module list: the first three modules are original.
#[macro_use]
pub mod bitwise;
pub mod bitblock;
pub mod bool;

pub mod bitwise_for_slice;
pub mod bitwise_truncated;
pub mod bitwise_via_borrow;
pub mod truncated;
pub mod unsigned_integers;
