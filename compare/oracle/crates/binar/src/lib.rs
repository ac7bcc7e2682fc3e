//! binar: the files of the original, and stand-ins for the modules that sources.sha256 does not list. build.sh puts both here.
#![allow(clippy::all)]

pub mod bit;
pub mod matrix;
pub mod vec;

pub use bit::bitblock::BitBlock;
pub use bit::bitwise::{
    BitLength, Bitwise, BitwiseMut, BitwisePair, BitwisePairMut, FromBits, IntoBitIterator,
};
pub use matrix::BitMatrix;
pub use vec::{BitVec, BitView, BitViewMut, IndexSet};

/// Eight values of one type.
pub type Tuple8<T> = (T, T, T, T, T, T, T, T);
