//! One request line in, one answer line out; every answer but `bad` comes from the Rust.
use crate::roll::{self, Plain};
use binar::{Bitwise, IndexSet};
use paulimer::pauli::{Pauli, PauliBinaryOps, SparsePauli, commutes_with};
use paulimer::pauli_group::{PauliGroup, centralizer_of, centralizer_within, symplectic_form_of};
use std::cmp::Ordering;
use std::panic::{AssertUnwindSafe, catch_unwind};

/// The answer to a line; `panic` if the Rust panics.
pub fn answer(line: &str) -> String {
    let words: Vec<&str> = line.split_ascii_whitespace().collect();
    catch_unwind(AssertUnwindSafe(|| reply(&words).unwrap_or_else(|| "bad".into()))).unwrap_or_else(|_| "panic".into())
}

/// Keeps a caught panic from printing.
pub fn silence() {
    std::panic::set_hook(Box::new(|_| {}));
}

pub fn to_sparse(plain: &Plain) -> SparsePauli {
    let set = |qubits: &[u32]| qubits.iter().map(|&q| q as usize).collect::<IndexSet>();
    SparsePauli::from_bits(set(&plain.x), set(&plain.z), plain.e)
}

pub fn to_plain(pauli: &SparsePauli) -> Plain {
    let list = |bits: &IndexSet| bits.support().map(|q| u32::try_from(q).unwrap()).collect();
    Plain { e: pauli.xz_phase_exponent(), x: list(pauli.x_bits()), z: list(pauli.z_bits()) }
}

pub fn group_of(promise: Option<bool>, list: &[Plain]) -> PauliGroup {
    let paulis: Vec<SparsePauli> = list.iter().map(to_sparse).collect();
    match promise {
        None => PauliGroup::new(&paulis),
        Some(abelian) => PauliGroup::with_promise(&paulis, abelian),
    }
}

fn list_of(word: &str) -> Option<Vec<Plain>> {
    roll::read(&roll::unhex(word)?)
}

fn promise_of(word: &str) -> Option<Option<bool>> {
    match word {
        "n" => Some(None),
        "t" => Some(Some(true)),
        "f" => Some(Some(false)),
        _ => None,
    }
}

fn group(promise: &str, word: &str) -> Option<PauliGroup> {
    Some(group_of(promise_of(promise)?, &list_of(word)?))
}

/// Two groups whose joined list is within the joined limits.
fn groups(pl: &str, l: &str, pr: &str, r: &str) -> Option<(PauliGroup, PauliGroup)> {
    let (left, right) = (list_of(l)?, list_of(r)?);
    let within = left.len() + right.len() <= roll::MAX_PAULIS
        && roll::distinct(left.iter().chain(&right)) <= roll::MAX_QUBITS;
    within.then_some(())?;
    Some((group_of(promise_of(pl)?, &left), group_of(promise_of(pr)?, &right)))
}

fn element(word: &str, number: &str) -> Option<Plain> {
    list_of(word)?.get(number.parse::<usize>().ok()?).cloned()
}

pub fn written(paulis: &[SparsePauli]) -> String {
    let plain: Vec<Plain> = paulis.iter().map(to_plain).collect();
    roll::hex(&roll::write(&plain))
}

fn yes(answer: bool) -> String {
    if answer { "yes" } else { "no" }.into()
}

fn commas(numbers: &[u8]) -> String {
    numbers.iter().map(u8::to_string).collect::<Vec<_>>().join(",")
}

fn spaced(indexes: &[usize]) -> String {
    indexes.iter().map(|i| format!(" {i}")).collect()
}

/// What membership tells of an element.
fn told(found: Option<&(Vec<usize>, u8)>) -> String {
    match found {
        None => "none".into(),
        Some((indexes, exponent)) => format!("phase {exponent} indexes{}", spaced(indexes)),
    }
}

#[allow(deprecated)]
fn reply(words: &[&str]) -> Option<String> {
    Some(match *words {
        ["standard", p, r] => written(group(p, r)?.standard_generators()),
        ["rank", p, r] => group(p, r)?.binary_rank().to_string(),
        ["phases", p, r] => commas(group(p, r)?.phases()),
        ["abelian", p, r] => yes(group(p, r)?.is_abelian()),
        ["stabilizer", p, r] => yes(group(p, r)?.is_stabilizer_group()),
        ["log2size", p, r] => group(p, r)?.log2_size().to_string(),
        ["member", p, r, e, k] => told(group(p, r)?.indexed_factorization_of(&to_sparse(&element(e, k)?)).as_ref()),
        ["members", p, r, e] => {
            let elements: Vec<SparsePauli> = list_of(e)?.iter().map(to_sparse).collect();
            let results = group(p, r)?.indexed_factorizations_of(&elements);
            results.iter().map(|o| told(o.as_ref())).collect::<Vec<_>>().join("; ")
        }
        ["elements", p, r, start, count] => {
            let group = group(p, r)?;
            let start: u32 = start.parse().ok()?;
            let count = match count.parse::<u32>().ok()? {
                0 => 64,
                count => count.min(128),
            };
            (group.binary_rank() <= 16).then_some(())?;
            let page: Vec<SparsePauli> = group.elements().skip(start as usize).take(count as usize).collect();
            written(&page)
        }
        ["join", l, r] => {
            let (left, right) = groups("n", l, "n", r)?;
            written((&left | &right).generators())
        }
        ["compare", pl, l, pr, r] => {
            let (left, right) = groups(pl, l, pr, r)?;
            match left.partial_cmp(&right) {
                Some(Ordering::Equal) => "equal",
                Some(Ordering::Less) => "less",
                Some(Ordering::Greater) => "greater",
                None => "none",
            }
            .into()
        }
        ["modulo", pl, l, pr, r] => {
            let (left, right) = groups(pl, l, pr, r)?;
            written(left.modulo(&right).generators())
        }
        ["quotient", pl, l, pr, r] => {
            let (left, right) = groups(pl, l, pr, r)?;
            match left.try_quotient(&right) {
                None => "refused 11".into(),
                Some(quotient) => written(quotient.generators()),
            }
        }
        ["common", pl, l, pr, r] => {
            let (left, right) = groups(pl, l, pr, r)?;
            written((&left & &right).standard_generators())
        }
        ["commongens", pl, l, pr, r] => {
            let (left, right) = groups(pl, l, pr, r)?;
            let common = &left & &right;
            let mut generators = common.generators().to_vec();
            if left.partial_cmp(&right).is_none() {
                // The last of them are the shared phases, out of a hash set: put them in rising order.
                let shared = left.phases().iter().filter(|e| right.phases().contains(e)).count();
                let from = generators.len() - shared;
                generators[from..].sort_by_key(Pauli::xz_phase_exponent);
            }
            written(&generators)
        }
        ["symplectic", r] => {
            let list: Vec<SparsePauli> = list_of(r)?.iter().map(to_sparse).collect();
            written(&symplectic_form_of(&list))
        }
        ["product", r1, i, r2, j] => {
            let (left, right) = (list_of(r1)?, list_of(r2)?);
            (roll::distinct(left.iter().chain(&right)) <= roll::MAX_QUBITS).then_some(())?;
            let mut product = to_sparse(&element(r1, i)?);
            product.mul_assign_right(&to_sparse(&element(r2, j)?));
            written(&[product])
        }
        ["commute", r1, i, r2, j] => yes(commutes_with(&to_sparse(&element(r1, i)?), &to_sparse(&element(r2, j)?))),
        ["centralizer", r] => written(centralizer_of(&group("n", r)?).generators()),
        ["centralizerwithin", r, qubits] => {
            let support: Option<Vec<u32>> = match qubits {
                "-" => Some(Vec::new()),
                list => list.split(',').map(|q| q.parse().ok()).collect(),
            };
            let support = support?;
            let named = Plain { e: 0, x: support.clone(), z: Vec::new() };
            (roll::distinct(list_of(r)?.iter().chain([&named])) <= roll::MAX_QUBITS).then_some(())?;
            let support: Vec<usize> = support.iter().map(|&q| q as usize).collect();
            written(centralizer_within(&support, &group("n", r)?).generators())
        }
        ["report", r, e] => {
            let group = group("n", r)?;
            let mut lines = vec![format!(
                "rank {} phases {} abelian {}",
                group.binary_rank(),
                commas(group.phases()),
                yes(group.is_abelian())
            )];
            for (number, pauli) in list_of(e)?.iter().enumerate() {
                lines.push(match group.indexed_factorization_of(&to_sparse(pauli)) {
                    None => format!("{number} not member"),
                    Some((indexes, exponent)) => format!("{number} member{} phase {exponent}", spaced(&indexes)),
                });
            }
            lines.join("; ")
        }
        _ => return None,
    })
}
