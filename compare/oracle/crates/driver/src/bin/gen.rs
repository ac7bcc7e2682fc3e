//! Prints random requests: gen SEED KIND COUNT GENERATORS QUBITS. KIND is a request's first word; GENERATORS and QUBITS are upper
//! bounds. The same seed gives the same lines on every machine.
use driver::prng::Prng;
use driver::roll::{self, Plain};
use std::io::Write;

const PAIRS: [&str; 6] = ["join", "compare", "modulo", "quotient", "common", "commongens"];
const OTHERS: [&str; 15] = [
    "standard", "rank", "phases", "abelian", "stabilizer", "log2size", "member", "members", "elements", "symplectic",
    "product", "commute", "centralizer", "centralizerwithin", "report",
];

fn main() {
    let words: Vec<String> = std::env::args().skip(1).collect();
    let [seed, kind, count, generators, qubits] = &words[..] else {
        eprintln!("usage: gen SEED KIND COUNT GENERATORS QUBITS\nKIND: {} {}", PAIRS.join(" "), OTHERS.join(" "));
        std::process::exit(2);
    };
    let number = |word: &String| word.parse::<usize>().expect("a number");
    let kind = kind.as_str();
    assert!(PAIRS.contains(&kind) || OTHERS.contains(&kind), "unknown kind");
    let mut make = Make {
        prng: Prng::new(number(seed) as u64),
        generators: number(generators).min(roll::MAX_PAULIS),
        qubits: number(qubits).clamp(1, roll::MAX_QUBITS),
    };
    let mut out = std::io::BufWriter::new(std::io::stdout().lock());
    for _ in 0..number(count) {
        if writeln!(out, "{}", make.request(kind)).is_err() {
            return;
        }
    }
}

struct Make {
    prng: Prng,
    generators: usize,
    qubits: usize,
}

/// A Pauli over the places of a universe of qubits.
#[derive(Clone)]
struct Bits {
    e: u8,
    x: Vec<bool>,
    z: Vec<bool>,
}

impl Bits {
    fn identity(n: usize, e: u8) -> Self {
        Bits { e, x: vec![false; n], z: vec![false; n] }
    }
    fn times(&mut self, other: &Bits) {
        let mut overlap = 0;
        for q in 0..self.x.len() {
            overlap += u8::from(self.z[q] && other.x[q]);
            self.x[q] ^= other.x[q];
            self.z[q] ^= other.z[q];
        }
        self.e = self.e.wrapping_add(other.e).wrapping_add(2 * (overlap % 2));
    }
    fn plain(&self, universe: &[u32]) -> Plain {
        let set = |bits: &[bool]| bits.iter().zip(universe).filter(|(b, _)| **b).map(|(_, q)| *q).collect();
        Plain { e: self.e, x: set(&self.x), z: set(&self.z) }
    }
}

fn hexed(list: &[Plain]) -> String {
    roll::hex(&roll::write(list))
}

impl Make {
    /// Rising qubit numbers: from 0 on, or scattered over all numbers of 32 bits, or up to its last ones.
    fn universe(&mut self) -> Vec<u32> {
        let n = 1 + self.prng.below(self.qubits);
        let n = if self.prng.chance(15) { self.qubits } else { n };
        let style = self.prng.below(4);
        let mut numbers: Vec<u32> = match style {
            0 | 1 => (0..n as u32).collect(),
            2 => (0..n).map(|_| self.prng.next() as u32).collect(),
            _ => (0..n).map(|i| if i % 2 == 0 { i as u32 } else { u32::MAX - self.prng.below(200) as u32 }).collect(),
        };
        if style >= 2 && self.prng.chance(30) {
            numbers[0] = u32::MAX;
        }
        numbers.sort_unstable();
        numbers.dedup();
        numbers
    }

    fn exponent(&mut self) -> u8 {
        let any = self.prng.next() as u8;
        if self.prng.chance(15) { any } else { any % 4 }
    }

    fn random(&mut self, n: usize) -> Bits {
        let mut bits = Bits::identity(n, self.exponent());
        if self.prng.chance(50) {
            for q in 0..n {
                let two = self.prng.below(4);
                bits.x[q] = two & 1 == 1;
                bits.z[q] = two & 2 == 2;
            }
        } else {
            for _ in 0..1 + self.prng.below(3) {
                let (q, two) = (self.prng.below(n), 1 + self.prng.below(3));
                bits.x[q] = two & 1 == 1;
                bits.z[q] = two & 2 == 2;
            }
        }
        bits
    }

    /// Independent commuting Paulis of order two: single Zs moved by random gates.
    fn commuting(&mut self, n: usize, count: usize) -> Vec<Bits> {
        let mut list: Vec<Bits> = (0..count.min(n))
            .map(|q| {
                let mut bits = Bits::identity(n, 2 * self.prng.below(2) as u8);
                bits.z[q] = true;
                bits
            })
            .collect();
        for _ in 0..3 * n {
            let (gate, a, b) = (self.prng.below(3), self.prng.below(n), self.prng.below(n));
            for p in &mut list {
                match gate {
                    0 => {
                        (p.x[a], p.z[a]) = (p.z[a], p.x[a]);
                        p.e = (p.e + 2 * u8::from(p.x[a] && p.z[a])) % 4;
                    }
                    1 => {
                        p.e = (p.e + u8::from(p.x[a])) % 4;
                        p.z[a] ^= p.x[a];
                    }
                    _ if a != b => {
                        p.x[b] ^= p.x[a];
                        p.z[a] ^= p.z[b];
                    }
                    _ => {}
                }
            }
        }
        list
    }

    fn combination(&mut self, list: &[Bits], n: usize) -> Bits {
        let mut bits = Bits::identity(n, 0);
        let percent = self.prng.pick(&[20, 50, 80]);
        for other in list {
            if self.prng.chance(percent) {
                bits.times(other);
            }
        }
        bits
    }

    /// A list of at most `most` generators over n qubits, with the odd cases mixed in.
    fn list(&mut self, n: usize, most: usize) -> Vec<Bits> {
        let count = if self.prng.chance(10) { most } else { self.prng.below(most + 1) };
        let style = self.prng.below(10);
        let mut list = match style {
            0 => Vec::new(),
            1..=5 => self.commuting(n, count),
            _ => (0..count).map(|_| self.random(n)).collect(),
        };
        // Odd cases: with one kept, a clean stabilizer list is common too.
        let odd = if self.prng.chance(50) { 1 + self.prng.below(3) } else { 0 };
        for _ in 0..odd {
            let mut one = match self.prng.below(8) {
                0 | 1 => self.combination(&list, n),
                2 if !list.is_empty() => list[self.prng.below(list.len())].clone(),
                3 => Bits::identity(n, self.exponent()),
                4 => Bits::identity(n, 2),
                5 => {
                    let mut bits = Bits::identity(n, 0);
                    let q = self.prng.below(n);
                    (bits.x[q], bits.z[q]) = (true, true);
                    bits
                }
                _ => self.random(n),
            };
            match self.prng.below(6) {
                0 | 1 => one.e = one.e.wrapping_add(2),
                2 => one.e = one.e.wrapping_add(1),
                _ => {}
            }
            if list.len() < most {
                list.insert(self.prng.below(list.len() + 1), one);
            } else if !list.is_empty() {
                let place = self.prng.below(list.len());
                list[place] = one;
            }
        }
        list
    }

    fn promise(&mut self) -> &'static str {
        self.prng.pick(&["n", "n", "n", "t", "f"])
    }

    fn plains(&self, list: &[Bits], universe: &[u32]) -> Vec<Plain> {
        list.iter().map(|bits| bits.plain(universe)).collect()
    }

    /// Elements: members, members with another phase, single generators, strangers, some off the support.
    fn elements(&mut self, list: &[Bits], universe: &[u32]) -> Vec<Plain> {
        let n = universe.len();
        let mut elements = Vec::new();
        for _ in 0..1 + self.prng.below(4) {
            let mut one = match self.prng.below(8) {
                0..=3 => self.combination(list, n),
                4 if !list.is_empty() => list[self.prng.below(list.len())].clone(),
                5 => Bits::identity(n, self.exponent()),
                _ => self.random(n),
            };
            if self.prng.chance(50) {
                one.e = self.exponent();
            }
            let mut plain = one.plain(universe);
            if self.prng.chance(8) && roll::distinct([&plain]) < roll::MAX_QUBITS {
                let off = self.prng.next() as u32;
                let set = if self.prng.chance(50) { &mut plain.x } else { &mut plain.z };
                if let Err(place) = set.binary_search(&off) {
                    set.insert(place, off);
                }
            }
            elements.push(plain);
        }
        while roll::distinct(&elements) > roll::MAX_QUBITS {
            elements.pop();
        }
        elements
    }

    /// No element, one, a few, or up to a whole roll of them.
    fn many_elements(&mut self, list: &[Bits], universe: &[u32]) -> Vec<Plain> {
        let few = self.prng.below(20);
        let count = self.prng.pick(&[0, 1, 8, 40, roll::MAX_PAULIS, few, few, few]);
        let mut elements = Vec::new();
        while elements.len() < count {
            elements.extend(self.elements(list, universe));
        }
        elements.truncate(count);
        while roll::distinct(&elements) > roll::MAX_QUBITS {
            elements.pop();
        }
        elements
    }

    /// A second list near the first: part of it, more than it, its products, with other signs, or another list.
    fn partner(&mut self, list: &[Bits], universe: &[u32], most: usize) -> Vec<Plain> {
        let n = universe.len();
        let mut right: Vec<Bits> = match self.prng.below(8) {
            0 => list.iter().filter(|_| self.prng.chance(60)).cloned().collect(),
            1 => {
                let mut more = list.to_vec();
                more.extend((0..1 + self.prng.below(2)).map(|_| self.random(n)));
                more
            }
            2..=4 => (0..self.prng.below(most + 1)).map(|_| self.combination(list, n)).collect(),
            5 => {
                let mut again = list.to_vec();
                again.reverse();
                for i in 1..again.len() {
                    let factor = again[i - 1].clone();
                    again[i].times(&factor);
                }
                again
            }
            _ => self.list(n, most),
        };
        right.truncate(most);
        if self.prng.chance(40) && !right.is_empty() {
            for _ in 0..1 + self.prng.below(2) {
                let place = self.prng.below(right.len());
                let by = self.prng.pick(&[2, 2, 2, 1]);
                right[place].e = right[place].e.wrapping_add(by);
            }
        }
        if self.prng.chance(10) {
            // Other qubits, partly the same.
            let shift = 1 + self.prng.below(3) as u32;
            let other: Vec<u32> = universe.iter().map(|&q| q.saturating_add(shift).min(65_535)).collect();
            if other.windows(2).all(|two| two[0] < two[1]) {
                return self.plains(&right, &other);
            }
        }
        self.plains(&right, universe)
    }

    fn request(&mut self, kind: &str) -> String {
        let universe = self.universe();
        let n = universe.len();
        let most = match kind {
            // Both lists of a pair together stay within the limit.
            _ if PAIRS.contains(&kind) => self.generators.min(roll::MAX_PAULIS / 2),
            "elements" => self.generators.min(14),
            _ => self.generators,
        };
        let list = self.list(n, most);
        let roll = hexed(&self.plains(&list, &universe));
        match kind {
            "member" => {
                let elements = self.elements(&list, &universe);
                let k = self.prng.below(elements.len());
                format!("member {} {roll} {} {k}", self.promise(), hexed(&elements))
            }
            "members" => {
                let elements = self.many_elements(&list, &universe);
                format!("members {} {roll} {}", self.promise(), hexed(&elements))
            }
            "report" => format!("report {roll} {}", hexed(&self.elements(&list, &universe))),
            "elements" => {
                let start = match self.prng.below(4) {
                    0 => 0,
                    1 => self.prng.below(20),
                    2 => self.prng.below(1 << (list.len() + 1)),
                    _ => self.prng.next() as u32 as usize,
                };
                let count = self.prng.pick(&[0, 0, 1, 5, 16, 64, 100, 128, 129, 4_000_000_000usize]);
                format!("elements {} {roll} {start} {count}", self.promise())
            }
            "join" => format!("join {roll} {}", hexed(&self.partner(&list, &universe, most))),
            _ if PAIRS.contains(&kind) => {
                let right = hexed(&self.partner(&list, &universe, most));
                // Either side may be the derived one.
                let (l, r) = if self.prng.chance(50) { (roll, right) } else { (right, roll) };
                format!("{kind} {} {l} {} {r}", self.promise(), self.promise())
            }
            "symplectic" | "centralizer" => format!("{kind} {roll}"),
            "centralizerwithin" => {
                let mut support: Vec<u32> = universe.iter().copied().filter(|_| self.prng.chance(60)).collect();
                if self.prng.chance(30) {
                    support.push(self.prng.next() as u32);
                    support.sort_unstable();
                    support.dedup();
                }
                let list: Vec<String> = support.iter().map(u32::to_string).collect();
                format!("{kind} {roll} {}", if list.is_empty() { "-".into() } else { list.join(",") })
            }
            "product" | "commute" => {
                let (left, right) = (self.elements(&list, &universe), self.elements(&list, &universe));
                let (i, j) = (self.prng.below(left.len()), self.prng.below(right.len()));
                format!("{kind} {} {i} {} {j}", hexed(&left), hexed(&right))
            }
            _ => format!("{kind} {} {roll}", self.promise()),
        }
    }
}
