//! What is asked: a call with its rolls, made anew from the sizes alone.
use crate::lists::{self, Kind};
use crate::ours::REFUSED;
use crate::random::Random;
use driver::answer::{group_of, to_plain, to_sparse};
use driver::roll::{self, Plain};
use paulimer::pauli::commutes_with;
use paulimer::pauli_group::{centralizer_within, PauliGroup};

#[derive(Clone, Copy, PartialEq, Eq, Debug)]
pub enum Call {
    CheckRoll,
    Product,
    Join,
    StandardGenerators,
    Rank,
    Phases,
    IsAbelian,
    IsStabilizerGroup,
    Log2Size,
    Factorization,
    /// So many elements, members and others in turn.
    Factorizations(usize),
    MembershipClaim,
    AbsenceClaim,
    Elements(u32),
    JoinedSizes,
    StandardBound,
    PageSize(u32),
    SymplecticForm,
    CentralizerOf,
    CentralizerWithin,
    PartialCmp,
    Modulo,
    TryQuotient,
    Bitand,
    /// This line, on the left list as A and the right one as B.
    Combine(&'static str),
    ClosingReport,
}

/// How the right list, or the element, stands to the left list.
#[derive(Clone, Copy, PartialEq, Eq, Debug)]
pub enum Relation {
    None,
    Member,
    NoMember,
    /// Two lists, and neither group holds the other.
    Apart,
    /// The same group by other generators.
    Same,
    /// The right group is inside the left one.
    Inside,
    /// The left group is inside the right one.
    Around,
    /// Half of either list is shared, and neither group holds the other.
    Overlap,
}

#[derive(Clone, Copy)]
pub struct Case {
    pub call: Call,
    pub name: &'static str,
    pub case: &'static str,
    pub relation: Relation,
}

const fn case(call: Call, name: &'static str, case: &'static str, relation: Relation) -> Case {
    Case { call, name, case, relation }
}

impl Case {
    /// Whether the first number told is one of the case. A small group inside another may be the same group.
    pub fn fits(&self, first: u64) -> bool {
        match (self.call, self.relation) {
            (Call::Factorization, relation) => first == u64::from(relation == Relation::Member),
            (Call::Factorizations(count), _) => first == count as u64,
            (Call::PartialCmp, Relation::Same) => first == 0,
            (Call::PartialCmp, Relation::Around) => first <= 1,
            (Call::PartialCmp, _) => first == 3,
            (Call::TryQuotient, relation) => (first == REFUSED) == (relation == Relation::Apart),
            _ => first != REFUSED,
        }
    }

    /// How many Paulis are read where each list has so many.
    pub fn paulis(&self, generators: usize) -> usize {
        match self.call {
            Call::Factorizations(elements) => generators + elements,
            _ => generators,
        }
    }
}

pub const PAGE_START: u32 = 1000;
pub const MANY: &str = "indexed_factorizations_of";

pub const JOINED: &str = "A|B";
pub const QUOTIENT: &str = "(A|B)/A";
pub const CLAIM: &str = "claim / membership";

pub const CASES: [Case; 34] = [
    case(Call::CheckRoll, "check_roll", "", Relation::None),
    case(Call::Product, "product", "", Relation::Apart),
    case(Call::Join, "join", "", Relation::Apart),
    case(Call::StandardGenerators, "standard_generators", "", Relation::None),
    case(Call::Rank, "rank", "", Relation::None),
    case(Call::Phases, "phases", "", Relation::None),
    case(Call::IsAbelian, "is_abelian", "", Relation::None),
    case(Call::IsStabilizerGroup, "is_stabilizer_group", "", Relation::None),
    case(Call::Log2Size, "log2_size", "", Relation::None),
    case(Call::Factorization, "indexed_factorization_of", "member", Relation::Member),
    case(Call::Factorization, "indexed_factorization_of", "non-member", Relation::NoMember),
    case(Call::Factorizations(1), MANY, "1 element", Relation::None),
    case(Call::Factorizations(8), MANY, "8 elements", Relation::None),
    case(Call::Factorizations(40), MANY, "40 elements", Relation::None),
    case(Call::Factorizations(128), MANY, "128 elements", Relation::None),
    case(Call::Elements(0), "elements", "first page", Relation::None),
    case(Call::Elements(PAGE_START), "elements", "later page", Relation::None),
    case(Call::JoinedSizes, "joined_sizes", "", Relation::Apart),
    case(Call::StandardBound, "standard_bound", "", Relation::None),
    case(Call::PageSize(PAGE_START), "page_size", "later page", Relation::None),
    case(Call::SymplecticForm, "symplectic_form_of", "", Relation::None),
    case(Call::CentralizerOf, "centralizer_of", "", Relation::None),
    case(Call::CentralizerWithin, "centralizer_within", "", Relation::None),
    case(Call::PartialCmp, "partial_cmp", "equal", Relation::Same),
    case(Call::PartialCmp, "partial_cmp", "inside", Relation::Around),
    case(Call::PartialCmp, "partial_cmp", "no order", Relation::Apart),
    case(Call::Modulo, "modulo", "", Relation::Apart),
    case(Call::TryQuotient, "try_quotient", "subgroup", Relation::Inside),
    case(Call::TryQuotient, "try_quotient", "no subgroup", Relation::Apart),
    case(Call::Bitand, "bitand", "overlapping", Relation::Overlap),
    case(Call::Bitand, "bitand", "inside", Relation::Inside),
    case(Call::Combine(JOINED), "combine", JOINED, Relation::Apart),
    case(Call::Combine(QUOTIENT), "combine", QUOTIENT, Relation::Apart),
    case(Call::ClosingReport, "closing_report", "8 elements", Relation::None),
];

/// Calls that the Rust does not have.
pub const CLAIMS: [Case; 2] = [
    case(Call::MembershipClaim, "accepts_membership", CLAIM, Relation::Member),
    case(Call::AbsenceClaim, "accepts_absence", CLAIM, Relation::NoMember),
];

#[derive(Clone, Copy, Debug)]
pub struct Size {
    pub generators: usize,
    pub qubits: usize,
    pub kind: Kind,
}

/// `left` is the only roll of a call on one list; `right` is the roll of elements, too. The closing listing has its input in `left`.
#[derive(Clone)]
pub struct Request {
    pub call: Call,
    pub left: Vec<u8>,
    pub right: Vec<u8>,
    /// The named support of a centralizer.
    pub named: Vec<u32>,
    pub number: usize,
    pub other: usize,
    pub claim: Claim,
}

impl Request {
    /// A call on these rolls and nothing further.
    pub fn of_two(call: Call, left: Vec<u8>, right: Vec<u8>) -> Request {
        Request { call, left, right, named: vec![], number: 0, other: 0, claim: Claim::default() }
    }
}

/// What a claim brings: indexes and an exponent, or the roll of a witness.
#[derive(Clone, Default)]
pub struct Claim {
    pub indexes: Vec<u16>,
    pub exponent: u32,
    pub witness: Vec<u8>,
}

const MOST_PAULIS: usize = 128;
const MOST_QUBITS: usize = 128;
const MOST_TOGETHER: usize = 63;
const MOST_INPUT: usize = 65_536;

/// The sizes in generators that a call is measured at; a listing has rank 16 at most, and A|B and A have 128 Paulis together at most.
pub fn generators_of(call: Call) -> &'static [usize] {
    match call {
        Call::Elements(0) => &[2, 10, 16],
        Call::Elements(_) | Call::PageSize(_) => &[10, 16],
        Call::CentralizerOf | Call::CentralizerWithin | Call::Combine(QUOTIENT) => &[2, 10, 40],
        _ => &[2, 10, 40, 128],
    }
}

/// The most qubits that a call takes.
pub fn most_qubits(call: Call) -> usize {
    if matches!(call, Call::CentralizerOf | Call::CentralizerWithin) { MOST_TOGETHER } else { MOST_QUBITS }
}

/// Request `number` of a case; the lists depend on the size, the number and the relation alone.
pub fn make(case: &Case, size: Size, number: usize) -> Request {
    let seed = ((size.generators * 1000 + size.qubits) * 8 + size.kind as usize) * 100 + number;
    let random = &mut Random(seed as u64);
    let (left, mut right) = match (case.call, case.relation) {
        (Call::ClosingReport, _) => return closing(random, size),
        (Call::Factorizations(count), _) => {
            let list = one_list(random, size);
            let elements = members_and_others(random, size, &list, count);
            (list, elements)
        }
        (_, Relation::None) => (one_list(random, size), vec![]),
        (_, Relation::Member | Relation::NoMember) => {
            let list = one_list(random, size);
            let element = if case.relation == Relation::Member {
                lists::member(random, &list)
            } else {
                no_member(random, size, &list, &group_of(None, &list))
            };
            (list, vec![element])
        }
        (_, relation) => two_lists(random, size, relation),
    };
    // A product takes a Pauli from the middle of either list; an element is the only one of its roll.
    let (number, other) = if case.call == Call::Product { (left.len() / 2, right.len() / 2) } else { (0, 0) };
    let named = if case.call == Call::CentralizerWithin { half_and_further(size, &left) } else { vec![] };
    let claim = match case.call {
        Call::MembershipClaim => member_claim(&left, &right[0]),
        Call::AbsenceClaim => absence_claim(size, &left, &mut right[0]),
        _ => Claim::default(),
    };
    Request { call: case.call, left: roll::write(&left), right: roll::write(&right), named, number, other, claim }
}

/// The request of membership of a claim's element.
pub fn membership_of(claim: &Request) -> Request {
    Request { call: Call::Factorization, ..claim.clone() }
}

/// The claim that the Rust's membership tells.
fn member_claim(list: &[Plain], element: &Plain) -> Claim {
    let found = group_of(None, list).indexed_factorization_of(&to_sparse(element));
    let (indexes, exponent) = found.expect("the element is a member");
    Claim { indexes: indexes.iter().map(|&i| i as u16).collect(), exponent: u32::from(exponent), ..Claim::default() }
}

/// The first of the Rust's generators of what commutes with the list that shows the element's absence; where there is none, the element gets
/// a further qubit.
fn absence_claim(size: Size, list: &[Plain], element: &mut Plain) -> Claim {
    let further = size.qubits as u32;
    let witness = witness_of(list, element).unwrap_or_else(|| {
        if !element.x.contains(&further) {
            element.x.push(further);
        }
        lists::one(0, vec![], vec![further])
    });
    Claim { witness: roll::write(&[witness]), ..Claim::default() }
}

fn witness_of(list: &[Plain], element: &Plain) -> Option<Plain> {
    let support: Vec<usize> = lists::support(list).iter().map(|&qubit| qubit as usize).collect();
    let commuting = centralizer_within(&support, &group_of(None, list));
    let absent = to_sparse(element);
    commuting.generators().iter().find(|witness| !commutes_with(*witness, &absent)).map(to_plain)
}

/// The same with every qubit number so much higher.
pub fn raised(request: Request, by: u32) -> Request {
    let raise = |bytes: &[u8]| {
        let mut list = roll::read(bytes).unwrap();
        list.iter_mut().flat_map(|p| p.x.iter_mut().chain(&mut p.z)).for_each(|qubit| *qubit += by);
        roll::write(&list)
    };
    let right = if request.right.is_empty() { vec![] } else { raise(&request.right) };
    Request { left: raise(&request.left), right, ..request }
}

fn one_list(random: &mut Random, size: Size) -> Vec<Plain> {
    size.kind.list(random, size.generators, size.qubits)
}

/// Every second qubit of the list, and as many further ones where there is room for them.
fn half_and_further(size: Size, list: &[Plain]) -> Vec<u32> {
    let own = lists::support(list);
    let mut named: Vec<u32> = own.iter().copied().step_by(2).collect();
    let further = named.len().min(MOST_TOGETHER.saturating_sub(own.len()));
    named.extend((size.qubits as u32..).take(further));
    named
}

fn is_member(group: &PauliGroup, element: &Plain) -> bool {
    group.indexed_factorization_of(&to_sparse(element)).is_some()
}

/// Some element on the generators' own qubits whose bits do not solve; else a member times i; else one on a further qubit.
fn no_member(random: &mut Random, size: Size, list: &[Plain], group: &PauliGroup) -> Plain {
    let qubits = lists::support(list);
    for _ in 0..8 {
        let element = lists::stranger(size.kind, random, &qubits);
        if !is_member(group, &element) {
            return element;
        }
    }
    let mut element = lists::member(random, list);
    element.e = (element.e + 1) % 4;
    if is_member(group, &element) {
        element.x.push(size.qubits as u32);
    }
    element
}

/// Members and others in turn, a member first.
fn members_and_others(random: &mut Random, size: Size, list: &[Plain], count: usize) -> Vec<Plain> {
    let group = group_of(None, list);
    (0..count)
        .map(|i| if i % 2 == 0 { lists::member(random, list) } else { no_member(random, size, list, &group) })
        .collect()
}

fn two_lists(random: &mut Random, size: Size, relation: Relation) -> (Vec<Plain>, Vec<Plain>) {
    let side = Size { generators: size.generators.min(MOST_PAULIS / 2), ..size };
    let left = one_list(random, side);
    match relation {
        Relation::Same => {
            let right = lists::rebased(&left);
            (left, right)
        }
        Relation::Inside | Relation::Around => {
            let within = (0..side.generators.div_ceil(2)).map(|_| lists::member(random, &left)).collect();
            if relation == Relation::Inside { (left, within) } else { (within, left) }
        }
        _ => apart(random, side, left, if relation == Relation::Overlap { side.generators / 2 } else { 0 }),
    }
}

/// Adds a list whose last `shared` Paulis are those of `left`. Where one group holds the other, by three tries, the first Pauli of
/// either list gets a further qubit of its own.
fn apart(random: &mut Random, side: Size, mut left: Vec<Plain>, shared: usize) -> (Vec<Plain>, Vec<Plain>) {
    let from = left.len() - shared;
    let ours = group_of(None, &left);
    let mut right = Vec::new();
    for _ in 0..3 {
        right = one_list(random, side);
        right[from..].clone_from_slice(&left[from..]);
        if ours.partial_cmp(&group_of(None, &right)).is_none() {
            return (left, right);
        }
    }
    assert!(side.qubits + 2 <= MOST_QUBITS, "one group holds the other, and no qubit is left");
    left[0].x.push(side.qubits as u32);
    right[0].x.push(side.qubits as u32 + 1);
    (left, right)
}

/// Four members and four others, in turn. The list is cut where the input would be longer than an input may be.
fn closing(random: &mut Random, size: Size) -> Request {
    let mut list = one_list(random, size);
    loop {
        let elements = members_and_others(random, size, &list, 8);
        let generators = roll::write(&list);
        let mut input = Vec::from((generators.len() as u32).to_le_bytes());
        input.extend(generators);
        input.extend(roll::write(&elements));
        if input.len() <= MOST_INPUT {
            return Request::of_two(Call::ClosingReport, input, vec![]);
        }
        list.truncate(list.len() - 8);
    }
}
