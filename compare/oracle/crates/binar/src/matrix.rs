//! Stand-in module list: the first two modules are original.
pub mod aligned_bitmatrix;
pub mod bitmatrix;

pub mod column;
mod m4ri;
mod transpose_kernel;

pub use aligned_bitmatrix::{
    AlignedBitMatrix, EchelonForm as AlignedEchelonForm, complete_to_full_rank_row_basis, kernel_basis_matrix,
    row_stacked,
};
pub use bitmatrix::{BitMatrix, EchelonForm};
pub use column::Column;

/// Rows or columns, in an error's text only.
#[derive(Debug, Clone, Copy, PartialEq, Eq)]
pub enum Axis {
    Row,
    Column,
}

/// An error of the sparse constructors, which no request calls.
#[derive(Debug, Clone, PartialEq, Eq)]
pub enum SparseConversionError {
    TooManyEntries { axis: Axis, provided: usize, declared: usize },
    IndexOutOfBounds { axis: Axis, index: usize, bound: usize },
}
