//! Rolls (docs/REFERENCE.md), read and written without the Rust under test.

/// i^e times X on `x`, then Z on `z`; both rising.
#[derive(Clone, Debug, PartialEq, Eq)]
pub struct Plain {
    pub e: u8,
    pub x: Vec<u32>,
    pub z: Vec<u32>,
}

pub const MAX_PAULIS: usize = 128;
pub const MAX_QUBITS: usize = 128;

fn number(bytes: &[u8]) -> usize {
    bytes.iter().rev().fold(0, |sum, &byte| 256 * sum + byte as usize)
}

/// The Paulis of an accepted roll; none if a refusal from 1 to 7 would meet it.
pub fn read(bytes: &[u8]) -> Option<Vec<Plain>> {
    if bytes.len() < 2 {
        return None;
    }
    let count = number(&bytes[..2]);
    if count > MAX_PAULIS || bytes.len() < 2 + 10 * count {
        return None;
    }
    let table = &bytes[2..2 + 10 * count];
    let body = &bytes[2 + 10 * count..];
    let mut before = 0;
    let mut paulis = Vec::new();
    for entry in table.chunks(10) {
        let (x_count, z_count) = (number(&entry[6..8]), number(&entry[8..10]));
        if entry[0] != 1 || number(&entry[2..6]) != before {
            return None;
        }
        let take = |from: usize, to: usize| -> Option<Vec<u32>> {
            let set: Vec<u32> = body.get(4 * from..4 * to)?.chunks(4).map(|four| number(four) as u32).collect();
            set.windows(2).all(|two| two[0] < two[1]).then_some(set)
        };
        let x = take(before, before + x_count)?;
        let z = take(before + x_count, before + x_count + z_count)?;
        before += x_count + z_count;
        paulis.push(Plain { e: entry[1], x, z });
    }
    (body.len() == 4 * before && distinct(&paulis) <= MAX_QUBITS).then_some(paulis)
}

/// How many qubits the Paulis use.
pub fn distinct<'a>(paulis: impl IntoIterator<Item = &'a Plain>) -> usize {
    let mut qubits: Vec<u32> = paulis.into_iter().flat_map(|p| p.x.iter().chain(&p.z)).copied().collect();
    qubits.sort_unstable();
    qubits.dedup();
    qubits.len()
}

/// The roll of the Paulis; the exponent bytes are those given.
pub fn write(paulis: &[Plain]) -> Vec<u8> {
    let mut bytes = Vec::from((paulis.len() as u16).to_le_bytes());
    let mut before = 0u32;
    for pauli in paulis {
        bytes.extend([1, pauli.e]);
        bytes.extend(before.to_le_bytes());
        bytes.extend((pauli.x.len() as u16).to_le_bytes());
        bytes.extend((pauli.z.len() as u16).to_le_bytes());
        before += (pauli.x.len() + pauli.z.len()) as u32;
    }
    for pauli in paulis {
        for qubit in pauli.x.iter().chain(&pauli.z) {
            bytes.extend(qubit.to_le_bytes());
        }
    }
    bytes
}

pub fn hex(bytes: &[u8]) -> String {
    if bytes.is_empty() {
        return "-".into();
    }
    let digit = |four: u8| char::from_digit(u32::from(four), 16).unwrap();
    bytes.iter().flat_map(|&byte| [digit(byte >> 4), digit(byte & 15)]).collect()
}

pub fn unhex(text: &str) -> Option<Vec<u8>> {
    if text == "-" {
        return Some(Vec::new());
    }
    let digits: Option<Vec<u8>> = text
        .chars()
        .map(|c| if c.is_ascii_uppercase() { None } else { c.to_digit(16).map(|d| d as u8) })
        .collect();
    let digits = digits?;
    (digits.len() % 2 == 0).then(|| digits.chunks(2).map(|two| 16 * two[0] + two[1]).collect())
}
