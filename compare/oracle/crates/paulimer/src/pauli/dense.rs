//! Stand-in: a Pauli whose x and z sets are bit rows over the places of a support; the identity has empty sets.
use super::{Pauli, PauliUnitary, PauliUnitaryProjective, SparsePauli};
use crate::traits::{BitwiseNeutralElement, NeutralElement};
use binar::vec::AlignedBitVec;
use binar::{Bitwise, BitwiseMut, IndexSet};
use std::collections::HashMap;

pub type DensePauli = PauliUnitary<AlignedBitVec, u8>;
pub type DensePauliProjective = PauliUnitaryProjective<AlignedBitVec>;

/// Each qubit number is replaced by its place; the exponent stays.
pub fn condense_from(pauli: &SparsePauli, places: &HashMap<usize, usize>) -> DensePauli {
    let row = |bits: &IndexSet| {
        let mut row = AlignedBitVec::zeros(places.len());
        for qubit in bits.support() {
            row.assign_index(places[&qubit], true);
        }
        row
    };
    DensePauli::from_bits(row(pauli.x_bits()), row(pauli.z_bits()), pauli.xz_phase_exponent())
}

/// A Pauli as bit rows over qubits 0 to `qubit_count` - 1; no request uses it.
pub fn dense_from(pauli: &SparsePauli, qubit_count: usize) -> DensePauli {
    condense_from(pauli, &(0..qubit_count).map(|qubit| (qubit, qubit)).collect())
}

impl NeutralElement for AlignedBitVec {
    type NeutralElementType = AlignedBitVec;
    fn neutral_element(&self) -> AlignedBitVec {
        AlignedBitVec::zeros(self.len())
    }
    fn default_size_neutral_element() -> AlignedBitVec {
        AlignedBitVec::zeros(0)
    }
    fn neutral_element_of_size(size: usize) -> AlignedBitVec {
        AlignedBitVec::zeros(size)
    }
}
impl BitwiseNeutralElement for AlignedBitVec {}

impl NeutralElement for IndexSet {
    type NeutralElementType = IndexSet;
    fn neutral_element(&self) -> IndexSet {
        IndexSet::new()
    }
    fn default_size_neutral_element() -> IndexSet {
        IndexSet::new()
    }
    fn neutral_element_of_size(_size: usize) -> IndexSet {
        IndexSet::new()
    }
}
impl BitwiseNeutralElement for IndexSet {}
