//! Stand-in module list; every module is original.
pub mod aligned_vec;
pub mod aligned_view;
pub mod bitvec;
pub mod bitview;
pub mod index_set;

pub use crate::bit::bitblock::{BIT_BLOCK_WORD_COUNT, BitAccessor, BitBlock, Word};
pub use aligned_vec::AlignedBitVec;
pub use aligned_view::{AlignedBitView, AlignedBitViewMut};
pub use bitvec::BitVec;
pub use bitview::{BitView, BitViewMut};
pub use index_set::IndexSet;
