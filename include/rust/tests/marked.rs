//! The marked rows of the specification, and refusals, through the safe functions.
use howhiruke::*;

type Pauli<'a> = (u8, &'a [u32], &'a [u32]);

const I: Pauli = (0, &[], &[]);
const MINUS_I: Pauli = (2, &[], &[]);
const I_I: Pauli = (1, &[], &[]);
const X: Pauli = (0, &[0], &[]);
const MINUS_X: Pauli = (2, &[0], &[]);
const Z: Pauli = (0, &[], &[0]);
const Y: Pauli = (1, &[0], &[0]);
const XZ: Pauli = (0, &[0], &[0]);
const X1: Pauli = (0, &[1], &[]);
const XX: Pauli = (0, &[0, 1], &[]);
const ZZ: Pauli = (0, &[], &[0, 1]);

fn roll(paulis: &[Pauli]) -> Vec<u8> {
    let mut table = (paulis.len() as u16).to_le_bytes().to_vec();
    let mut bodies: Vec<u8> = Vec::new();
    for (e, xs, zs) in paulis {
        table.extend([1, *e]);
        table.extend(((bodies.len() / 4) as u32).to_le_bytes());
        table.extend((xs.len() as u16).to_le_bytes());
        table.extend((zs.len() as u16).to_le_bytes());
        for q in xs.iter().chain(zs.iter()) {
            bodies.extend(q.to_le_bytes());
        }
    }
    table.extend(bodies);
    table
}

fn work() -> Vec<u64> {
    vec![u64::MAX; WORK_WORDS]
}

/// What a call wrote.
fn written(call: impl Fn(&mut [u64], &mut [u8]) -> Result<usize, Refusal>) -> Result<Vec<u8>, Refusal> {
    let mut area = work();
    let mut out = vec![165; 4096];
    let n = call(&mut area, &mut out)?;
    assert!(area.iter().all(|w| *w == 0));
    assert!(out[n..].iter().all(|b| *b == 165));
    Ok(out[..n].to_vec())
}

fn standard(paulis: &[Pauli]) -> Result<Vec<u8>, Refusal> {
    written(|w, o| standard_generators(&roll(paulis), w, o))
}

fn phases_of(paulis: &[Pauli]) -> Result<Phases, Refusal> {
    phases(&roll(paulis), Promise::None, &mut work())
}

fn refused<T>(reason: Reason, place: usize) -> Result<T, Refusal> {
    Err(Refusal { reason, place })
}

#[test]
fn standard_generators_and_phases() {
    assert_eq!(standard(&[]), Ok(roll(&[I])));
    assert_eq!(phases_of(&[]), Ok(Phases::Zero));
    assert_eq!(standard(&[MINUS_I]), Ok(roll(&[MINUS_I])));
    assert_eq!(phases_of(&[MINUS_I]), Ok(Phases::ZeroTwo));
    assert_eq!(standard(&[I_I]), Ok(roll(&[I_I])));
    assert_eq!(phases_of(&[I_I]), Ok(Phases::All));
    assert_eq!(phases_of(&[Y]), Ok(Phases::Zero));
    assert_eq!(phases_of(&[XZ]), Ok(Phases::ZeroTwo));
    assert_eq!(standard(&[X, MINUS_X]), Ok(roll(&[X, MINUS_I])));
    assert_eq!(log2_size(&roll(&[X, Z]), Promise::None, &mut work()), Ok(3));
}

#[test]
fn membership() {
    let mut out = [165; 6];
    let found = indexed_factorization_of(&roll(&[Z, X]), &roll(&[XZ]), 0, Promise::None, &mut work(), &mut out);
    assert_eq!(found, Ok(Membership::Member { count: 2, exponent: 2 }));
    assert_eq!(out, [0, 0, 1, 0, 165, 165]);
    let other = indexed_factorization_of(&roll(&[XX, ZZ]), &roll(&[X]), 0, Promise::None, &mut work(), &mut out);
    assert_eq!(other, Ok(Membership::NotMember));
}

#[test]
fn many_elements() {
    let (bell, none) = (roll(&[XX, ZZ]), Promise::None);
    let elements = roll(&[(0, &[0, 1], &[0, 1]), X, I, (2, &[0, 1], &[0, 1])]);
    let mut out = [165; 16];
    let mut area = work();
    let found = indexed_factorizations_of(&bell, &elements, none, &mut area, &mut out);
    assert_eq!(found, Ok(Results { count: 4, bytes: 14 }));
    assert_eq!(out, [1, 0, 2, 0, 0, 0, 1, 0, 0, 1, 0, 0, 0, 0, 165, 165]);
    assert!(area.iter().all(|w| *w == 0));
    let many = |elements: &[u8], words: usize, room: usize| {
        indexed_factorizations_of(&bell, elements, none, &mut work()[..words], &mut [0; 16][..room])
    };
    assert_eq!(many(&roll(&[]), WORK_WORDS, 0), Ok(Results { count: 0, bytes: 0 }));
    assert_eq!(many(&roll(&[]), WORK_WORDS - 1, 0), refused(Reason::Work, 0));
    assert_eq!(many(&elements, WORK_WORDS, 13), refused(Reason::Output, 0));
    assert_eq!(many(&elements[..1], WORK_WORDS, 16), refused(Reason::Length, 0));
}

#[test]
fn centralizers() {
    let bell = roll(&[XX, ZZ]);
    let within = |named: &[u32]| written(|w, o| centralizer_within(&bell, named, w, o));
    assert_eq!(written(|w, o| centralizer_of(&bell, w, o)), Ok(roll(&[XX, ZZ, (1, &[], &[])])));
    assert_eq!(within(&[0, 1]), Ok(roll(&[XX, ZZ, (1, &[], &[])])));
    assert_eq!(within(&[0, 2]), Ok(roll(&[(0, &[2], &[]), (0, &[], &[2]), (1, &[], &[])])));
    assert_eq!(within(&[]), Ok(roll(&[(1, &[], &[])])));
    assert_eq!(within(&[1, 0]), refused(Reason::Support, 0));
    let last = HIGHEST_QUBIT;
    assert_eq!(within(&[0, 1, last]), Ok(roll(&[XX, ZZ, (0, &[last], &[]), (0, &[], &[last]), (1, &[], &[])])));
    let short = centralizer_within(&bell, &[1, 0], &mut work()[1..], &mut [0; 64]);
    assert_eq!(short, refused(Reason::Support, 0));
    assert_eq!(centralizer_of(&bell, &mut work()[1..], &mut [0; 64]), refused(Reason::Work, 0));
}

#[test]
fn lines() {
    let (bell, xx, x1, raw) = (roll(&[XX, ZZ]), roll(&[XX]), roll(&[X1]), roll(&[(5, &[0], &[])]));
    let line = |line: &[u8], rolls: [&[u8]; 4]| {
        let (mut area, mut out) = (vec![u64::MAX; LINE_WORDS], vec![165; 4096]);
        let n = combine(line, rolls, &mut area, &mut out)?;
        assert!(area.iter().all(|w| *w == 0));
        assert!(out[n..].iter().all(|b| *b == 165));
        Ok(out[..n].to_vec())
    };
    assert_eq!(line(b"A", [&raw, &[], &[], &[]]), Ok(roll(&[(1, &[0], &[])])));
    assert_eq!(line(b"A|B&C/D", [&x1, &bell, &bell, &xx]), Ok(roll(&[X1, I, ZZ])));
    assert_eq!(line(b"(A|B)&C", [&x1, &bell, &xx, &[]]), Ok(xx.clone()));
    assert_eq!(line(b"A|B", [&x1, &[], &xx, &xx]), refused(Reason::Line, 0));
    assert_eq!(line(b"(((((A)))))", [&x1, &[], &[], &[]]), refused(Reason::Depth, 0));
    assert_eq!(line(b"A", [&x1, &[], &[], &xx[..1]]), refused(Reason::Length, 0));
    assert_eq!(line(b"A/B", [&x1, &xx, &[], &[]]), refused(Reason::Subgroup, 0));
    let short = combine(b"A", [&x1, &[], &[], &[]], &mut vec![0; LINE_WORDS - 1], &mut [0; 64]);
    assert_eq!(short, refused(Reason::Work, 0));
}

#[test]
fn claims() {
    let (none, bell) = (Promise::None, roll(&[XX, ZZ]));
    let minus_yy: Pauli = (0, &[0, 1], &[0, 1]);
    let elements = roll(&[minus_yy, (2, &[0, 1], &[0, 1]), Z]);
    let member = |number: usize, indexes: &[u16], exponent: u32| {
        accepts_membership(&bell, &elements, number, indexes, exponent, none, &mut work())
    };
    assert_eq!(member(0, &[0, 1], 0), Ok(true));
    assert_eq!(member(1, &[0, 1], 0), Ok(false));
    assert_eq!(member(1, &[0, 1], 2), Ok(false));
    assert_eq!(member(0, &[1, 0], 0), refused(Reason::Claim, 0));
    assert_eq!(member(0, &[0, 2], 0), refused(Reason::Claim, 0));
    assert_eq!(member(0, &[0, 1], 4), refused(Reason::Claim, 0));
    assert_eq!(member(3, &[1, 0], 4), refused(Reason::Number, 0));
    let three = roll(&[XX, ZZ, minus_yy]);
    assert_eq!(accepts_membership(&three, &elements, 0, &[2], 0, none, &mut work()), Ok(true));
    let absent = |number: usize, witness: usize| accepts_absence(&bell, &elements, number, &roll(&[ZZ, X, XX]), witness);
    assert_eq!(absent(2, 2), Ok(true));
    assert_eq!(absent(2, 1), Ok(false));
    assert_eq!(absent(2, 0), Ok(false));
    assert_eq!(absent(1, 2), Ok(false));
    assert_eq!(absent(2, 3), refused(Reason::Number, 0));
}

#[test]
fn windows() {
    let mut bytes = Box::new([0x33; WINDOW_BYTES]);
    assert!(matches!(Window::make(&mut bytes, 65), Err(Refusal { reason: Reason::Width, place: 0 })));
    assert!(bytes.iter().all(|b| *b == 0x33));
    let mut window = Window::make(&mut bytes, 2).unwrap();
    assert_eq!(window.rank(&mut work()), Ok(0));
    assert_eq!(window.send(&roll(&[X])), Ok(()));
    assert_eq!(window.send(&roll(&[Z])), Ok(()));
    assert_eq!(window.phases(&mut work()), Ok(Phases::ZeroTwo));
    assert_eq!(window.send(&roll(&[X, Z])), refused(Reason::Checks, 0));
    assert_eq!(window.send(&roll(&[XX])), Ok(()));
    assert_eq!(written(|w, o| window.standard_generators(w, o)), Ok(roll(&[XX, Z])));
    assert_eq!(window.save(b"returned"), Ok(()));
    assert_eq!(window.send(&roll(&[X1])), Ok(()));
    assert_eq!(window.round(), 4);
    assert_eq!(window.return_to(b"returneD"), refused(Reason::Mark, 0));
    assert_eq!(window.return_to(b"returned"), Ok(()));
    assert_eq!(window.round(), 3);
    for k in 1..8 {
        assert_eq!(window.save(&[k; 8]), Ok(()));
    }
    assert_eq!(window.save(&[8; 8]), refused(Reason::Marks, 0));
    assert_eq!(window.delete(&[7; 8]), Ok(()));
    assert_eq!(window.delete(&[7; 8]), refused(Reason::Mark, 0));
    assert_eq!(window.save(&[8; 8]), Ok(()));
    let asked = |p: Pauli| window.indexed_factorization_of(&roll(&[p]), 0, &mut work(), &mut [0; 64]);
    assert_eq!(asked(X), Ok(Membership::NotMember));
    assert_eq!(asked(Z), Ok(Membership::Member { count: 1, exponent: 0 }));
}

#[test]
fn sizes() {
    let (none, bell, x1) = (Promise::None, roll(&[XX, ZZ]), roll(&[X1]));
    assert_eq!(joined_sizes(&bell, &x1), Ok(JoinedSizes { bytes: 52, paulis: 3, qubits: 2 }));
    assert_eq!(joined_sizes(&bell, &x1[..1]), refused(Reason::Length, 0));
    assert_eq!(standard_bound(&roll(&[])), Ok(12));
    assert_eq!(standard_bound(&bell), Ok(54));
    assert_eq!(page_size(&bell, none, 1, 16, &mut work()), Ok(3));
    assert_eq!(page_size(&bell, none, 4, 16, &mut work()), Ok(0));
    assert_eq!(page_size(&bell, none, 1, 2, &mut work()), Ok(2));
    let qubits: Vec<[u32; 1]> = (0..7).map(|q| [q]).collect();
    let seven = roll(&qubits.iter().map(|q| (0, &[] as &[u32], &q[..])).collect::<Vec<Pauli>>());
    assert_eq!(page_size(&seven, none, 0, 16, &mut work()), Ok(16));
    assert_eq!(page_size(&seven, none, 0, 0, &mut work()), Ok(DEFAULT_PAGE as usize));
    assert_eq!(page_size(&seven, none, 0, 129, &mut work()), Ok(LARGEST_PAGE as usize));
    assert_eq!(check_roll(&written(|w, o| elements(&seven, none, 0, 0, w, o)).unwrap()), Ok(64));
    assert_eq!(page_size(&bell, none, 1, 2, &mut work()[1..]), refused(Reason::Work, 0));
}

#[test]
fn two_groups() {
    let none = Promise::None;
    let bell = roll(&[XX, ZZ]);
    let xx = roll(&[XX]);
    let order = |l: &[u8], r: &[u8]| partial_cmp(l, r, none, none, &mut work());
    assert_eq!(order(&roll(&[X]), &roll(&[MINUS_X])), Ok(Order::NoOrder));
    assert_eq!(order(&bell, &bell), Ok(Order::Equal));
    assert_eq!(order(&xx, &bell), Ok(Order::Less));
    assert_eq!(order(&bell, &xx), Ok(Order::Greater));
    assert_eq!(written(|w, o| modulo(&bell, &xx, none, none, w, o)), Ok(roll(&[I, ZZ])));
    assert_eq!(written(|w, o| try_quotient(&bell, &xx, none, none, w, o)), Ok(roll(&[I, ZZ])));
    assert_eq!(written(|w, o| try_quotient(&xx, &roll(&[Z]), none, none, w, o)), refused(Reason::Subgroup, 0));
}

#[test]
fn common_part() {
    let none = Promise::None;
    let common = |l: &[u8], r: &[u8]| written(|w, o| bitand(l, r, none, none, w, o));
    assert_eq!(common(&roll(&[XX, ZZ]), &roll(&[XX])), Ok(roll(&[XX])));
    assert_eq!(common(&roll(&[X]), &roll(&[Z])), Ok(roll(&[I])));
    let crews = (roll(&[X, X1]), roll(&[MINUS_X, (2, &[1], &[])]));
    assert_eq!(common(&crews.0, &crews.1), Ok(roll(&[XX])));
}

#[test]
fn closing_listing() {
    let generators = roll(&[XX, ZZ]);
    let elements = roll(&[(0, &[0, 1], &[0, 1]), (2, &[0, 1], &[0, 1]), (0, &[], &[2])]);
    let input = [&(generators.len() as u32).to_le_bytes(), &generators[..], &elements[..]].concat();
    let text = "rank 2 phases 0 abelian yes\n0 member 0 1 phase 0\n1 not member\n2 not member\n";
    assert_eq!(written(|w, o| closing_report(&input, w, o)), Ok(text.into()));
    assert_eq!(written(|w, o| closing_report(&input[..3], w, o)), Ok("refused 1 at 0 in roll 1\n".into()));
    assert_eq!(closing_report(&input[..3], &mut work()[1..], &mut [0; 64]), refused(Reason::Work, 0));
    assert_eq!(closing_report(&input[..3], &mut work(), &mut [0; 24]), refused(Reason::Output, 0));
}

#[test]
fn lists() {
    let three = roll(&[X, Z, X1]);
    assert_eq!(written(|w, o| symplectic_form_of(&three, w, o)), Ok(roll(&[Z, X, X1])));
    let xx = roll(&[XX]);
    assert_eq!(written(|w, o| elements(&xx, Promise::None, 0, 16, w, o)), Ok(roll(&[I, XX])));
    assert_eq!(rank(&three, &mut work()), Ok(3));
    assert_eq!(is_abelian(&three, Promise::None, &mut work()), Ok(false));
    assert_eq!(is_stabilizer_group(&xx, Promise::None, &mut work()), Ok(true));
}

#[test]
fn rolls() {
    let bell = roll(&[XX, ZZ]);
    let x1 = roll(&[X1]);
    let mut out = [0; 64];
    assert_eq!(check_roll(&bell), Ok(2));
    let Product { bytes, anticommute } = product(&roll(&[Z]), 0, &roll(&[X]), 0, &mut out).unwrap();
    assert_eq!(out[..bytes], roll(&[(2, &[0], &[0])]));
    assert!(anticommute);
    assert!(!product(&bell, 0, &bell, 1, &mut out).unwrap().anticommute);
    let n = join(&bell, &x1, &mut out).unwrap();
    assert_eq!(out[..n], roll(&[XX, ZZ, X1]));
    assert_eq!(one_qubit_product(4, 8), Ok(14));
    assert_eq!(one_qubit_product(8, 4), Ok(12));
    assert_eq!(one_qubit_product(15, 16), refused(Reason::Number, 0));
    assert_eq!(joined_entry(&bell, &x1, 1), Ok(Entry { exponent: 0, xcount: 0, zcount: 2 }));
    assert_eq!(joined_body(&bell, &x1, 1), Ok(&bell[30..38]));
    assert_eq!(joined_body(&bell, &x1, 2), Ok(&x1[12..16]));
    assert_eq!(joined_body(&bell, &x1, 3), refused(Reason::Number, 0));
}

#[test]
fn refusals() {
    let bell = roll(&[XX, ZZ]);
    assert_eq!(rank(&bell[..1], &mut work()), refused(Reason::Length, 0));
    assert_eq!(rank(&bell, &mut work()[1..]), refused(Reason::Work, 0));
    assert_eq!(rank(&roll(&[X, (0, &[65_535, 65_536, HIGHEST_QUBIT], &[])]), &mut work()), Ok(2));
    assert_eq!(rank(&roll(&[X, (0, &[HIGHEST_QUBIT, 0], &[])]), &mut work()), refused(Reason::Rising, 1));
    assert_eq!(rank(&roll(&[X, Z, (0, &[1, 0], &[])]), &mut work()), refused(Reason::Rising, 2));
    assert_eq!(join(&bell, &bell, &mut []), refused(Reason::Output, 0));
    assert_eq!(check_roll(&roll(&[X; 128])), Ok(128));
    assert_eq!(check_roll(&roll(&[X; 129])), refused(Reason::Paulis, 0));
    let qubits: Vec<[u32; 1]> = (0..17).map(|q| [q]).collect();
    let zs: Vec<Pauli> = qubits.iter().map(|q| (0, &[] as &[u32], &q[..])).collect();
    let listed = |n: usize| written(|w, o| elements(&roll(&zs[..n]), Promise::None, 0, 1, w, o));
    assert_eq!(listed(16), Ok(roll(&[I])));
    assert_eq!(listed(17), refused(Reason::Listing, 0));
}

#[test]
fn words_of_a_refusal() {
    let refusal = Refusal { reason: Reason::Exponent, place: 3 };
    assert_eq!(refusal.to_string(), "refused 4 at 3: the exponent is missing");
    let error: Box<dyn std::error::Error> = refusal.into();
    assert!(error.source().is_none());
    assert_eq!(Reason::Unknown(99).number(), 99);
}

#[test]
fn matrix() {
    let mut words = [3, 9, 1, 9, 7, 7, 5];
    assert_eq!(echelon_form(&mut words, 1, 2, 2), Formation::Rank(2));
    assert_eq!(words, [1, 2, 2, 3, 0, 1, 5]);
    assert_eq!(echelon_form(&mut words[..5], 1, 2, 2), Formation::Misfit);
}
