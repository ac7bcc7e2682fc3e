//! Measures the static library beside the Rust original; run.sh says how.
mod lists;
mod m4ri;
mod matrices;
mod ours;
mod print;
mod random;
mod requests;
mod theirs;
mod timing;
mod windows;

use lists::Kind;
use ours::Areas;
use print::Row;
use requests::{make, membership_of, raised, Call, Case, Request, Size, CASES, CLAIMS, MANY};
use std::hint::black_box;
use timing::{compare, Figures, Plan};

const STEPS: [usize; 9] = [1, 2, 4, 8, 16, 32, 64, 96, 128];
const GROWING: [(&str, &str); 3] =
    [("standard_generators", ""), ("indexed_factorization_of", "member"), ("partial_cmp", "equal")];

struct Options {
    plan: Plan,
    only: Option<String>,
    csv: Option<String>,
}

/// Stops the run unless both sides tell the same, and what the case is named for. The Rust's common part may be smaller than it is.
fn check(areas: &mut Areas, case: &Case, size: Size, request: &Request) {
    let (told, length) = areas.call(request);
    let (other, bytes) = theirs::call(request);
    let what = format!("{} {} {size:?}", case.name, case.case);
    if (told != other || areas.out[..length] != bytes[..]) && !theirs::is_smaller(request) {
        stop(&format!("the answers differ: {what}: {told:?} and {length} bytes, the Rust {other:?} and {} bytes", bytes.len()));
    }
    if !case.fits(told[0]) {
        stop(&format!("not the case that was meant: {what}: {told:?}"));
    }
}

/// How many requests are made in turn: fewer would be learned by the branch predictor, which no caller with new lists gets.
fn turn(plan: Plan, case: &Case, size: Size) -> usize {
    (16_384 / (case.paulis(size.generators) * size.qubits)).clamp(plan.shortest, 1024)
}

fn measure(plan: Plan, areas: &mut Areas, case: &Case, size: Size) -> Figures {
    let requests: Vec<Request> = (0..turn(plan, case, size)).map(|number| make(case, size, number)).collect();
    for request in &requests {
        check(areas, case, size, request);
    }
    let ours = || {
        for request in &requests {
            black_box(areas.call(black_box(request)));
        }
    };
    let theirs = || {
        for request in &requests {
            black_box(theirs::call(black_box(request)));
        }
    };
    compare(plan, requests.len(), ours, theirs)
}

fn note(rows: &mut Vec<Row>, row: Row) {
    print::line(&row);
    rows.push(row);
}

fn calls(options: &Options, areas: &mut Areas, rows: &mut Vec<Row>) {
    for case in CASES.iter().filter(|case| options.only.as_deref().is_none_or(|only| only == case.name)) {
        for size in each_size(options.plan, case.call) {
            let figures = measure(options.plan, areas, case, size);
            let (name, case, Size { generators, qubits, kind }) = (case.name, case.case, size);
            note(rows, Row { section: "calls", name, case, generators, qubits, kind: kind.name(), figures });
        }
    }
}

/// What forty elements cost in times of one, ours alone, at the size that is held to a bar.
fn forty(options: &Options, rows: &mut Vec<Row>) {
    let size = Size { generators: 40, qubits: 128, kind: Kind::Dense };
    let many = |elements: usize| {
        let case = CASES.iter().find(|case| case.call == Call::Factorizations(elements)).unwrap();
        in_turn((0..options.plan.shortest).map(|number| make(case, size, number)).collect())
    };
    let figures = compare(options.plan, options.plan.shortest, many(1), many(40));
    let (Size { generators, qubits, kind }, case) = (size, "40 elements / 1 element");
    let row = Row { section: "many", name: MANY, case, generators, qubits, kind: kind.name(), figures };
    print::cost(&row);
    rows.push(row);
}

/// What a claim costs in times of membership of the same element, ours alone.
fn claims(options: &Options, rows: &mut Vec<Row>) {
    for case in CLAIMS.iter().filter(|case| options.only.as_deref().is_none_or(|only| only == case.name)) {
        for size in each_size(options.plan, case.call) {
            let claims: Vec<Request> = (0..turn(options.plan, case, size)).map(|number| make(case, size, number)).collect();
            let elements: Vec<Request> = claims.iter().map(membership_of).collect();
            check_claims(case, size, claims.iter().zip(&elements));
            let count = claims.len();
            let figures = compare(options.plan, count, in_turn(elements), in_turn(claims));
            let (name, case, Size { generators, qubits, kind }) = (case.name, case.case, size);
            let row = Row { section: "claims", name, case, generators, qubits, kind: kind.name(), figures };
            print::cost(&row);
            rows.push(row);
        }
    }
}

/// Stops the run unless every claim is accepted and agrees with membership.
fn check_claims<'a>(case: &Case, size: Size, pairs: impl Iterator<Item = (&'a Request, &'a Request)>) {
    let mut areas = Areas::new();
    for (claim, element) in pairs {
        let (told, member) = (areas.call(claim), areas.call(element));
        if told != ([1, 0, 0], 0) || member.0[0] != u64::from(case.call == Call::MembershipClaim) {
            stop(&format!("not the case that was meant: {} {size:?}: {told:?}, membership {member:?}", case.name));
        }
    }
}

fn in_turn(requests: Vec<Request>) -> impl FnMut() {
    let mut areas = Areas::new();
    move || {
        for request in &requests {
            black_box(areas.call(black_box(request)));
        }
    }
}

/// Products of Paulis that lie on one qubit.
fn one_qubit(options: &Options, areas: &mut Areas, rows: &mut Vec<Row>) {
    let size = Size { generators: 2, qubits: 1, kind: Kind::Dense };
    let case = CASES.iter().find(|case| case.call == Call::Product).unwrap();
    let figures = measure(options.plan, areas, case, size);
    let Size { generators, qubits, kind } = size;
    note(rows, Row { section: "one qubit", name: case.name, case: "one qubit", generators, qubits, kind: kind.name(), figures });
}

/// What reading numbers around 2^31 costs in times of numbers around 0, ours alone.
fn high_numbers(options: &Options, rows: &mut Vec<Row>) {
    let size = Size { generators: 40, qubits: 128, kind: Kind::Dense };
    for (call, name) in [(Call::CheckRoll, "check_roll"), (Call::Join, "join"), (Call::StandardGenerators, "standard_generators")] {
        let case = CASES.iter().find(|case| case.call == call).unwrap();
        let from = |by: u32| {
            in_turn((0..options.plan.shortest).map(|number| raised(make(case, size, number), by)).collect())
        };
        let figures = compare(options.plan, options.plan.shortest, from(0), from((1 << 31) - 64));
        let (Size { generators, qubits, kind }, case) = (size, "numbers around 2^31 / around 0");
        let row = Row { section: "numbers", name, case, generators, qubits, kind: kind.name(), figures };
        print::cost(&row);
        rows.push(row);
    }
}

fn each_size(plan: Plan, call: Call) -> Vec<Size> {
    let mut sizes = Vec::new();
    for &generators in requests::generators_of(call) {
        for &qubits in plan.qubits {
            let qubits = qubits.min(requests::most_qubits(call));
            sizes.extend(plan.kinds.iter().map(|&kind| Size { generators, qubits, kind }));
        }
    }
    sizes
}

/// Dense lists on 128 qubits. A comparison's generators are those of both lists.
fn growth(options: &Options, areas: &mut Areas, rows: &mut Vec<Row>) {
    for (name, told) in GROWING {
        let case = CASES.iter().find(|case| (case.name, case.case) == (name, told)).unwrap();
        let lists = if case.call == Call::PartialCmp { 2 } else { 1 };
        for generators in STEPS.into_iter().filter(|step| step % lists == 0) {
            let size = Size { generators: generators / lists, qubits: 128, kind: Kind::Dense };
            let figures = measure(options.plan, areas, case, size);
            note(rows, Row { section: "growth", name, case: told, generators, qubits: 128, kind: "dense", figures });
        }
    }
}

fn against_m4ri(options: &Options, rows: &mut Vec<Row>) {
    for (count, cols) in matrices::SIZES {
        for (way, figures) in matrices::measure(options.plan, count, cols) {
            let row = Row {
                section: "matrices",
                name: "echelon_form",
                case: way,
                generators: count,
                qubits: cols / 2,
                kind: "dense",
                figures,
            };
            note(rows, row);
        }
    }
}

fn run(options: &Options) {
    let (mut rows, mut areas) = (Vec::new(), Areas::new());
    let asked = |name: &str| options.only.as_deref().is_none_or(|only| only == name);
    print::heading();
    calls(options, &mut areas, &mut rows);
    if asked(MANY) {
        forty(options, &mut rows);
    }
    claims(options, &mut rows);
    windows::measure(options.plan, |name| asked(name) || asked(windows::WINDOWS), &mut rows);
    if asked("one_qubit") {
        one_qubit(options, &mut areas, &mut rows);
    }
    if asked("numbers") {
        high_numbers(options, &mut rows);
    }
    if asked("growth") {
        growth(options, &mut areas, &mut rows);
    }
    if asked("echelon_form") {
        against_m4ri(options, &mut rows);
    }
    if rows.is_empty() {
        stop("no such call");
    }
    if let Some(name) = &options.csv {
        std::fs::write(name, print::csv(&rows)).unwrap_or_else(|error| stop(&format!("{name}: {error}")));
    }
}

fn stop(why: &str) -> ! {
    eprintln!("{why}");
    std::process::exit(2)
}

/// Runs one call of ours alone: NAME GENERATORS QUBITS KIND N. NAME may be a call and its case with a comma between.
fn ours_alone(words: &[String]) {
    let [name, generators, qubits, kind, count] = words else { stop("--ours NAME GENERATORS QUBITS KIND N") };
    let number = |word: &String| word.parse::<usize>().unwrap_or_else(|_| stop("a number is wanted"));
    let (generators, qubits, count) = (number(generators), number(qubits), number(count));
    if name == "echelon_form" {
        let input = matrices::Input::random(&mut random::Random(1), generators, 2 * qubits);
        let mut area = input.words.clone();
        for _ in 0..count {
            black_box(input.reduce(black_box(&mut area)));
        }
        return;
    }
    let kind = Kind::named(kind).unwrap_or_else(|| stop("no such kind"));
    let (name, told) = name.split_once(',').unwrap_or((name, ""));
    let fits = |case: &&Case| case.name == name && (told.is_empty() || case.case == told);
    let case = CASES.iter().chain(&CLAIMS).find(fits).unwrap_or_else(|| stop("no such call"));
    let request = make(case, Size { generators, qubits, kind }, 0);
    let mut areas = Areas::new();
    for _ in 0..count {
        black_box(areas.call(black_box(&request)));
    }
}

fn main() {
    let words: Vec<String> = std::env::args().skip(1).collect();
    let mut options = Options { plan: timing::FULL, only: None, csv: None };
    let mut i = 0;
    while i < words.len() {
        let next = || Some(words.get(i + 1).unwrap_or_else(|| stop("a word is missing")).clone());
        match words[i].as_str() {
            "--ours" => return ours_alone(&words[i + 1..]),
            "--quick" => options.plan = timing::QUICK,
            "--only" => options.only = next(),
            "--csv" => options.csv = next(),
            other => stop(&format!("{other}: no such option")),
        }
        i += if words[i] == "--quick" { 1 } else { 2 };
    }
    run(&options);
}
