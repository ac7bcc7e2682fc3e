//! Filled windows, beside the calls on the roll of the checks inside and beside the Rust.
use crate::lists::Kind;
use crate::ours::Areas;
use crate::print::{self, Row};
use crate::random::Random;
use crate::requests::{make, Call, Case, Request, Size, CASES};
use crate::timing::{compare, Plan};
use crate::{in_turn, note, stop, theirs, turn};
use driver::roll::{self, Plain};
use howhiruke::{Window, WINDOW_BYTES};
use std::hint::black_box;

pub const WINDOWS: &str = "windows";
pub const BESIDE_ROLL: &str = "window / roll";
pub const BESIDE_RUST: &str = "beside the Rust";

const QUBITS: usize = 128;
const WIDTHS: [usize; 3] = [1, 16, 64];
const KINDS: [Kind; 2] = [Kind::Sparse, Kind::Dense];
/// Checks that are sent one after the other.
const ROUND: usize = 128;

const SEND: &str = "window_send";
/// Each question, and the call on a roll that it is.
const QUESTIONS: [(&str, &str); 4] = [
    ("window_standard_generators", "standard_generators"),
    ("window_rank", "rank"),
    ("window_phases", "phases"),
    ("window_indexed_factorization_of", "indexed_factorization_of"),
];

/// A window that is never given back.
fn made(width: usize) -> Window<'static> {
    let bytes: Box<[u8; WINDOW_BYTES]> = vec![0; WINDOW_BYTES].into_boxed_slice().try_into().unwrap();
    Window::make(Box::leak(bytes), width).expect("a width from 1 to 64")
}

fn send(window: &mut Window, check: &[u8]) {
    window.send(check).unwrap_or_else(|refusal| stop(&format!("a check was refused: {refusal}")));
}

/// Holds the list's Paulis, each of which was sent twice, so that the oldest have left.
fn filled(list: &[Plain]) -> Window<'static> {
    let mut window = made(list.len());
    for check in list.iter().chain(list) {
        send(&mut window, &roll::write(std::slice::from_ref(check)));
    }
    window
}

/// Stops the run unless the window, the roll and the Rust tell and write the same.
fn check(name: &str, size: Size, window: &Window, request: &Request) {
    let (mut areas, mut others) = (Areas::new(), Areas::new());
    let (told, length) = areas.of_window(window, request);
    let (other, written) = others.call(request);
    let (rust, bytes) = theirs::call(request);
    if told != other || told != rust || areas.out[..length] != others.out[..written] || areas.out[..length] != bytes[..] {
        stop(&format!("the answers differ: {name} {size:?}: {told:?}, of the roll {other:?}, of the Rust {rust:?}"));
    }
}

fn theirs_in_turn(requests: &[Request]) -> impl FnMut() + '_ {
    move || {
        for request in requests {
            black_box(theirs::call(black_box(request)));
        }
    }
}

/// The two rows of a call at a size: in times of the call on the roll, ours alone, and beside the Rust.
fn measured(plan: Plan, rows: &mut Vec<Row>, name: &'static str, size: Size, requests: &[Request], mut window: impl FnMut()) {
    let Size { generators, qubits, kind } = size;
    let row = |case, figures| Row { section: WINDOWS, name, case, generators, qubits, kind: kind.name(), figures };
    let cost = row(BESIDE_ROLL, compare(plan, requests.len(), in_turn(requests.to_vec()), &mut window));
    print::cost(&cost);
    rows.push(cost);
    note(rows, row(BESIDE_RUST, compare(plan, requests.len(), &mut window, theirs_in_turn(requests))));
}

fn question(plan: Plan, rows: &mut Vec<Row>, name: &'static str, case: &Case, size: Size) {
    let requests: Vec<Request> = (0..turn(plan, case, size)).map(|number| make(case, size, number)).collect();
    let windows: Vec<Window> = requests.iter().map(|request| filled(&roll::read(&request.left).unwrap())).collect();
    for (window, request) in windows.iter().zip(&requests) {
        check(name, size, window, request);
    }
    let mut areas = Areas::new();
    let ask = || {
        for (window, request) in windows.iter().zip(&requests) {
            black_box(areas.of_window(black_box(window), black_box(request)));
        }
    };
    measured(plan, rows, name, size, &requests, ask);
}

/// A sent check beside joining the roll of the checks that stay with its own.
fn sending(plan: Plan, rows: &mut Vec<Row>, size: Size) {
    let list = size.kind.list(&mut Random(size.generators as u64), ROUND, size.qubits);
    let checks: Vec<Vec<u8>> = list.iter().map(|check| roll::write(std::slice::from_ref(check))).collect();
    let staying = |k: usize| (1..size.generators).rev().map(|back| list[(k + ROUND - back) % ROUND].clone()).collect::<Vec<Plain>>();
    let join = |(k, check): (usize, &Vec<u8>)| Request::of_two(Call::Join, roll::write(&staying(k)), check.clone());
    let joins: Vec<Request> = checks.iter().enumerate().map(join).collect();
    let mut window = made(size.generators);
    let mut send_all = || checks.iter().for_each(|check| send(&mut window, black_box(check)));
    send_all();
    measured(plan, rows, SEND, size, &joins, send_all);
    let inside: Vec<Plain> = staying(ROUND - 1).into_iter().chain(list.last().cloned()).collect();
    check(SEND, size, &window, &Request::of_two(Call::StandardGenerators, roll::write(&inside), vec![]));
}

pub fn measure(plan: Plan, asked: impl Fn(&str) -> bool, rows: &mut Vec<Row>) {
    for kind in KINDS {
        for generators in WIDTHS {
            let size = Size { generators, qubits: QUBITS, kind };
            if asked(SEND) {
                sending(plan, rows, size);
            }
            for (name, call) in QUESTIONS.into_iter().filter(|(name, _)| asked(name)) {
                question(plan, rows, name, CASES.iter().find(|case| case.name == call).unwrap(), size);
            }
        }
    }
}
