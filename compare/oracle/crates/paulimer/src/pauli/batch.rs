//! Stand-in: a name that pauli.rs hands on; no request uses it.
pub struct PauliTensorBatch;
