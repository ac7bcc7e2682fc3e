//! paulimer: the files of the original, and stand-ins for the modules that sources.sha256 does not list (core, pauli/batch and
//! pauli/dense). build.sh puts both here.
#![allow(clippy::all, dead_code)]

pub mod core;
pub mod pauli;
pub mod pauli_group;
pub mod setwise;
pub mod traits;

pub use pauli::{DensePauli, Pauli, PauliBinaryOps, PauliMutable, SparsePauli};
pub use pauli_group::PauliGroup;

/// A number in subscript digits, for printing only.
pub fn subscript_digits(number: usize) -> String {
    number.to_string().bytes().map(|digit| char::from_u32(0x2080 + u32::from(digit - b'0')).unwrap()).collect()
}
