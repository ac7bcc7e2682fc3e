//! The same requests answered by the Rust original, from the same bytes to the same bytes. Every call reads its rolls and makes its
//! groups anew.
use crate::lists;
use crate::ours::REFUSED;
use crate::requests::{self, Call, Request};
use driver::answer::{group_of, to_plain, to_sparse};
use driver::roll::{self, Plain};
use paulimer::pauli::{commutes_with, PauliBinaryOps, SparsePauli};
use paulimer::pauli_group::{centralizer_of, centralizer_within, symplectic_form_of, PauliGroup};
use std::cmp::Ordering;
use std::fmt::Write;

pub type Told = ([u64; 3], Vec<u8>);

fn list(bytes: &[u8]) -> Vec<Plain> {
    roll::read(bytes).expect("the roll is accepted")
}

fn group(bytes: &[u8]) -> PauliGroup {
    group_of(None, &list(bytes))
}

fn number(n: usize) -> Told {
    ([n as u64, 0, 0], Vec::new())
}

fn written(paulis: &[SparsePauli]) -> Told {
    let plain: Vec<Plain> = paulis.iter().map(to_plain).collect();
    ([0; 3], roll::write(&plain))
}

pub fn call(request: &Request) -> Told {
    let left = &request.left[..];
    match request.call {
        Call::CheckRoll => number(list(left).len()),
        Call::StandardGenerators => written(group(left).standard_generators()),
        Call::Rank => number(group(left).binary_rank()),
        Call::Phases => number(group(left).phases().len()),
        Call::IsAbelian => number(usize::from(group(left).is_abelian())),
        Call::IsStabilizerGroup => number(usize::from(group(left).is_stabilizer_group())),
        Call::Log2Size => number(group(left).log2_size()),
        Call::Elements(start) => page(left, start),
        Call::StandardBound => number(bound(&list(left))),
        Call::PageSize(start) => number(group(left).elements().skip(start as usize).take(128).count()),
        Call::SymplecticForm => symplectic(left),
        Call::CentralizerOf => written(centralizer_of(&group(left)).generators()),
        Call::CentralizerWithin => within(left, &request.named),
        Call::ClosingReport => report(left),
        _ => on_two(request),
    }
}

#[allow(deprecated)]
fn on_two(request: &Request) -> Told {
    let (left, right) = (&request.left[..], &request.right[..]);
    match request.call {
        Call::Product => product(request),
        Call::Factorization => member(request),
        Call::Factorizations(_) => members(left, right),
        Call::JoinedSizes => joined_sizes(left, right),
        Call::Join => written((&group(left) | &group(right)).generators()),
        Call::PartialCmp => number(order(group(left).partial_cmp(&group(right)))),
        Call::Modulo => written(group(left).modulo(&group(right)).generators()),
        Call::TryQuotient => match group(left).try_quotient(&group(right)) {
            Some(quotient) => written(quotient.generators()),
            None => ([REFUSED, 11, 0], Vec::new()),
        },
        Call::Combine(line) => combine(line, &group(left), &group(right)),
        Call::MembershipClaim | Call::AbsenceClaim => unreachable!("the Rust has no such call"),
        _ => common(left, right),
    }
}

fn product(request: &Request) -> Told {
    let mut product = to_sparse(&list(&request.left)[request.number]);
    let other = to_sparse(&list(&request.right)[request.other]);
    let anticommute = u64::from(!commutes_with(&product, &other));
    product.mul_assign_right(&other);
    ([anticommute, 0, 0], written(&[product]).1)
}

/// The sizes of the joined roll, which is made and written for it.
fn joined_sizes(left: &[u8], right: &[u8]) -> Told {
    let joined: Vec<Plain> = (&group(left) | &group(right)).generators().iter().map(to_plain).collect();
    ([roll::write(&joined).len() as u64, joined.len() as u64, lists::support(&joined).len() as u64], Vec::new())
}

fn bound(list: &[Plain]) -> usize {
    2 + (10 + 8 * lists::support(list).len()) * list.len().max(1)
}

fn member(request: &Request) -> Told {
    let element = to_sparse(&list(&request.right)[request.number]);
    match group(&request.left).indexed_factorization_of(&element) {
        None => ([0; 3], Vec::new()),
        Some((indexes, exponent)) => {
            let bytes = indexes.iter().flat_map(|&i| (i as u16).to_le_bytes()).collect();
            ([1, indexes.len() as u64, u64::from(exponent)], bytes)
        }
    }
}

fn members(left: &[u8], right: &[u8]) -> Told {
    let elements: Vec<SparsePauli> = list(right).iter().map(to_sparse).collect();
    let results = group(left).indexed_factorizations_of(&elements);
    let bytes: Vec<u8> = results.iter().flat_map(record).collect();
    ([results.len() as u64, bytes.len() as u64, 0], bytes)
}

/// A result as the library writes it.
fn record(result: &Option<(Vec<usize>, u8)>) -> Vec<u8> {
    let Some((indexes, exponent)) = result else { return vec![0] };
    let numbers = std::iter::once(indexes.len()).chain(indexes.iter().copied());
    [1, *exponent].into_iter().chain(numbers.flat_map(|n| (n as u16).to_le_bytes())).collect()
}

fn page(bytes: &[u8], start: u32) -> Told {
    let page: Vec<SparsePauli> = group(bytes).elements().skip(start as usize).take(128).collect();
    written(&page)
}

fn symplectic(bytes: &[u8]) -> Told {
    let paulis: Vec<SparsePauli> = list(bytes).iter().map(to_sparse).collect();
    written(&symplectic_form_of(&paulis))
}

fn within(bytes: &[u8], named: &[u32]) -> Told {
    let support: Vec<usize> = named.iter().map(|&qubit| qubit as usize).collect();
    written(centralizer_within(&support, &group(bytes)).generators())
}

fn order(order: Option<Ordering>) -> usize {
    match order {
        Some(Ordering::Equal) => 0,
        Some(Ordering::Less) => 1,
        Some(Ordering::Greater) => 2,
        None => 3,
    }
}

/// Where neither group holds the other its standard generators, else its own ones, which are the smaller list.
fn common(left: &[u8], right: &[u8]) -> Told {
    let (left, right) = (group(left), group(right));
    let common = &left & &right;
    if left.partial_cmp(&right).is_none() { written(common.standard_generators()) } else { written(common.generators()) }
}

/// Whether the Rust's common part lacks elements that are in both groups.
pub fn is_smaller(request: &Request) -> bool {
    let (left, right) = (group(&request.left), group(&request.right));
    let rank = |group: &PauliGroup| group.binary_rank();
    request.call == Call::Bitand && rank(&(&left & &right)) + rank(&(&left | &right)) < rank(&left) + rank(&right)
}

fn combine(line: &str, a: &PauliGroup, b: &PauliGroup) -> Told {
    let joined = a | b;
    match line {
        requests::JOINED => written(joined.generators()),
        _ => written(joined.try_quotient(a).expect("A is inside A|B").generators()),
    }
}

fn report(input: &[u8]) -> Told {
    let (length, rest) = input.split_at(4);
    let length = u32::from_le_bytes(length.try_into().unwrap()) as usize;
    let group = group(&rest[..length]);
    let phases: Vec<String> = group.phases().iter().map(u8::to_string).collect();
    let abelian = if group.is_abelian() { "yes" } else { "no" };
    let mut text = format!("rank {} phases {} abelian {abelian}\n", group.binary_rank(), phases.join(","));
    for (number, pauli) in list(&rest[length..]).iter().enumerate() {
        match group.indexed_factorization_of(&to_sparse(pauli)) {
            None => writeln!(text, "{number} not member").unwrap(),
            Some((indexes, exponent)) => {
                write!(text, "{number} member").unwrap();
                indexes.iter().for_each(|i| write!(text, " {i}").unwrap());
                writeln!(text, " phase {exponent}").unwrap();
            }
        }
    }
    ([0; 3], text.into_bytes())
}
