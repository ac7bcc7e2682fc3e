//! Lists of Paulis: sparse, dense and commuting ones, and products of them.
use crate::random::Random;
use driver::roll::Plain;

#[derive(Clone, Copy, PartialEq, Eq, Debug)]
pub enum Kind {
    /// Commuting checks of weight about 4 on neighbouring qubits of a ring: X Z Z X.
    Sparse,
    /// Each qubit is in x and in z with probability 1/2; order two, any sign. Most pairs of such lists do not commute.
    Dense,
    /// Random products of the checks: dense, and all commute.
    Commuting,
}

pub const KINDS: [Kind; 3] = [Kind::Sparse, Kind::Dense, Kind::Commuting];

impl Kind {
    pub fn name(self) -> &'static str {
        match self {
            Kind::Sparse => "sparse",
            Kind::Dense => "dense",
            Kind::Commuting => "commuting",
        }
    }

    pub fn named(name: &str) -> Option<Kind> {
        KINDS.into_iter().find(|kind| kind.name() == name)
    }

    pub fn list(self, random: &mut Random, count: usize, qubits: usize) -> Vec<Plain> {
        match self {
            Kind::Sparse => sparse(random, count, qubits),
            Kind::Dense => (0..count).map(|_| some(|| dense(random, qubits))).collect(),
            Kind::Commuting => (0..count).map(|_| some(|| commuting(random, qubits))).collect(),
        }
    }
}

pub fn one(e: u8, x: Vec<u32>, z: Vec<u32>) -> Plain {
    Plain { e, x, z }
}

pub fn identity() -> Plain {
    one(0, vec![], vec![])
}

pub fn is_power_of_i(pauli: &Plain) -> bool {
    pauli.x.is_empty() && pauli.z.is_empty()
}

fn shared(left: &[u32], right: &[u32]) -> usize {
    left.iter().filter(|qubit| right.binary_search(qubit).is_ok()).count()
}

fn in_one(left: &[u32], right: &[u32]) -> Vec<u32> {
    let mut qubits: Vec<u32> = left.iter().filter(|q| right.binary_search(q).is_err()).copied().collect();
    qubits.extend(right.iter().filter(|q| left.binary_search(q).is_err()));
    qubits.sort_unstable();
    qubits
}

pub fn times(left: &Plain, right: &Plain) -> Plain {
    let sign = 2 * (shared(&left.z, &right.x) % 2) as u8;
    one((left.e + right.e + sign) % 4, in_one(&left.x, &right.x), in_one(&left.z, &right.z))
}

/// The first try that is not a power of i.
fn some(mut attempt: impl FnMut() -> Plain) -> Plain {
    loop {
        let pauli = attempt();
        if !is_power_of_i(&pauli) {
            return pauli;
        }
    }
}

fn dense(random: &mut Random, qubits: usize) -> Plain {
    let all: Vec<u32> = (0..qubits as u32).collect();
    dense_on(random, &all)
}

/// Order two: the exponent is the overlap of x and z, up to a sign.
pub fn dense_on(random: &mut Random, qubits: &[u32]) -> Plain {
    let x: Vec<u32> = qubits.iter().copied().filter(|_| random.flip()).collect();
    let z: Vec<u32> = qubits.iter().copied().filter(|_| random.flip()).collect();
    let e = (shared(&x, &z) + 2 * random.below(2)) % 4;
    one(e as u8, x, z)
}

/// X Z Z X from qubit `at` of a ring on.
fn check(at: usize, qubits: usize) -> Plain {
    let place = |step: usize| ((at + step) % qubits) as u32;
    let pair = |a: u32, b: u32| vec![a.min(b), a.max(b)];
    one(0, pair(place(0), place(3)), pair(place(1), place(2)))
}

/// Checks at random places of the ring; where they run out, products of two near ones.
fn sparse(random: &mut Random, count: usize, qubits: usize) -> Vec<Plain> {
    let mut places: Vec<usize> = (0..qubits).collect();
    random.shuffle(&mut places);
    (0..count)
        .map(|i| {
            let (at, away) = (places[i % qubits], i / qubits % qubits);
            let first = check(at, qubits);
            if away == 0 { first } else { times(&first, &check(at + away, qubits)) }
        })
        .collect()
}

fn commuting(random: &mut Random, qubits: usize) -> Plain {
    let chosen = (0..qubits).filter(|_| random.flip()).collect::<Vec<_>>();
    chosen.into_iter().fold(identity(), |product, at| times(&product, &check(at, qubits)))
}

/// The product of a random half of the list, in its order; no power of i where that can be.
pub fn member(random: &mut Random, list: &[Plain]) -> Plain {
    for _ in 0..64 {
        let chosen: Vec<&Plain> = list.iter().filter(|_| random.flip()).collect();
        let product = chosen.into_iter().fold(identity(), |product, pauli| times(&product, pauli));
        if !is_power_of_i(&product) {
            return product;
        }
    }
    list[0].clone()
}

/// Another list of the same group: each Pauli but the last times the next.
pub fn rebased(list: &[Plain]) -> Vec<Plain> {
    let mut other: Vec<Plain> = list.windows(2).map(|two| times(&two[0], &two[1])).collect();
    other.extend(list.last().cloned());
    if other.iter().any(is_power_of_i) { list.iter().rev().cloned().collect() } else { other }
}

pub fn support(list: &[Plain]) -> Vec<u32> {
    let mut qubits: Vec<u32> = list.iter().flat_map(|p| p.x.iter().chain(&p.z)).copied().collect();
    qubits.sort_unstable();
    qubits.dedup();
    qubits
}

/// A Pauli in the style of the kind on these qubits, which need not be in any group.
pub fn stranger(kind: Kind, random: &mut Random, qubits: &[u32]) -> Plain {
    if kind != Kind::Sparse {
        return dense_on(random, qubits);
    }
    let weight = (2 + random.below(3)).min(qubits.len());
    let from = random.below(qubits.len() - weight + 1);
    let near = qubits[from..from + weight].to_vec();
    if random.flip() { one(0, near, vec![]) } else { one(0, vec![], near) }
}
