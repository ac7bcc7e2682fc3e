//! Stand-in: names of signed one-qubit Paulis, which no request uses.
#[derive(Clone, Copy, Debug, PartialEq, Eq, PartialOrd, Ord)]
pub enum PauliObservable {
    PlusI,
    MinusI,
    PlusX,
    MinusX,
    PlusY,
    MinusY,
    PlusZ,
    MinusZ,
}

#[derive(Clone, Copy, Debug, PartialEq, Eq, PartialOrd, Ord)]
pub struct PositionedPauliObservable {
    pub qubit_id: usize,
    pub observable: PauliObservable,
}
