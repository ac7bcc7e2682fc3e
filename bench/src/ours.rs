//! Requests answered by the static library.
use crate::requests::{Call, Request};
use howhiruke::{JoinedSizes, Membership, Order, Phases, Product, Promise, Refusal, Results, Window};

/// What a call tells: up to three numbers, and how many bytes it wrote.
pub type Told = ([u64; 3], usize);

/// The first number of a refusal; the second is its reason.
pub const REFUSED: u64 = u64::MAX;

/// The areas lent to every call, never cleared between calls.
pub struct Areas {
    work: Vec<u64>,
    pub out: Vec<u8>,
}

const NONE: Promise = Promise::None;

fn number(answer: Result<usize, Refusal>) -> Told {
    answer.map_or_else(refused, |n| ([n as u64, 0, 0], 0))
}

fn yes(answer: Result<bool, Refusal>) -> Told {
    number(answer.map(usize::from))
}

fn roll(answer: Result<usize, Refusal>) -> Told {
    answer.map_or_else(refused, |length| ([0; 3], length))
}

fn refused(refusal: Refusal) -> Told {
    ([REFUSED, refusal.reason.number(), refusal.place as u64], 0)
}

fn phases(answer: Result<Phases, Refusal>) -> Told {
    number(answer.map(|phases| match phases {
        Phases::Zero => 1,
        Phases::ZeroTwo => 2,
        Phases::All => 4,
    }))
}

fn order(answer: Result<Order, Refusal>) -> Told {
    number(answer.map(|order| order as usize))
}

fn membership(answer: Result<Membership, Refusal>) -> Told {
    match answer {
        Ok(Membership::Member { count, exponent }) => ([1, count as u64, u64::from(exponent)], 2 * count),
        Ok(Membership::NotMember) => ([0; 3], 0),
        Err(refusal) => refused(refusal),
    }
}

fn product(answer: Result<Product, Refusal>) -> Told {
    answer.map_or_else(refused, |product| ([u64::from(product.anticommute), 0, 0], product.bytes))
}

fn sizes(answer: Result<JoinedSizes, Refusal>) -> Told {
    answer.map_or_else(refused, |sizes| ([sizes.bytes as u64, sizes.paulis as u64, sizes.qubits as u64], 0))
}

fn memberships(answer: Result<Results, Refusal>) -> Told {
    answer.map_or_else(refused, |results| ([results.count as u64, results.bytes as u64, 0], results.bytes))
}

impl Areas {
    pub fn new() -> Self {
        Areas { work: vec![0; howhiruke::LINE_WORDS], out: vec![0; 1 << 18] }
    }

    pub fn call(&mut self, request: &Request) -> Told {
        let (left, right) = (&request.left[..], &request.right[..]);
        let (area, out) = (&mut self.work[..], &mut self.out[..]);
        if let Call::Combine(line) = request.call {
            return roll(howhiruke::combine(line.as_bytes(), [left, right, &[], &[]], area, out));
        }
        let work = &mut area[..howhiruke::WORK_WORDS];
        match request.call {
            Call::CheckRoll => number(howhiruke::check_roll(left)),
            Call::Product => product(howhiruke::product(left, request.number, right, request.other, out)),
            Call::Join => roll(howhiruke::join(left, right, out)),
            Call::StandardGenerators => roll(howhiruke::standard_generators(left, work, out)),
            Call::Rank => number(howhiruke::rank(left, work)),
            Call::Phases => phases(howhiruke::phases(left, NONE, work)),
            Call::IsAbelian => yes(howhiruke::is_abelian(left, NONE, work)),
            Call::IsStabilizerGroup => yes(howhiruke::is_stabilizer_group(left, NONE, work)),
            Call::Log2Size => number(howhiruke::log2_size(left, NONE, work)),
            Call::Factorization => {
                membership(howhiruke::indexed_factorization_of(left, right, request.number, NONE, work, out))
            }
            Call::Factorizations(_) => {
                memberships(howhiruke::indexed_factorizations_of(left, right, NONE, work, out))
            }
            Call::MembershipClaim => {
                let claim = &request.claim;
                yes(howhiruke::accepts_membership(left, right, request.number, &claim.indexes, claim.exponent, NONE, work))
            }
            Call::AbsenceClaim => yes(howhiruke::accepts_absence(left, right, request.number, &request.claim.witness, 0)),
            Call::Elements(start) => roll(howhiruke::elements(left, NONE, start, 128, work, out)),
            Call::JoinedSizes => sizes(howhiruke::joined_sizes(left, right)),
            Call::StandardBound => number(howhiruke::standard_bound(left)),
            Call::PageSize(start) => number(howhiruke::page_size(left, NONE, start, 128, work)),
            Call::SymplecticForm => roll(howhiruke::symplectic_form_of(left, work, out)),
            Call::CentralizerOf => roll(howhiruke::centralizer_of(left, work, out)),
            Call::CentralizerWithin => roll(howhiruke::centralizer_within(left, &request.named, work, out)),
            Call::PartialCmp => order(howhiruke::partial_cmp(left, right, NONE, NONE, work)),
            Call::Modulo => roll(howhiruke::modulo(left, right, NONE, NONE, work, out)),
            Call::TryQuotient => roll(howhiruke::try_quotient(left, right, NONE, NONE, work, out)),
            Call::Bitand => roll(howhiruke::bitand(left, right, NONE, NONE, work, out)),
            Call::ClosingReport => roll(howhiruke::closing_report(left, work, out)),
            Call::Combine(_) => unreachable!("it has an area of its own"),
        }
    }

    /// The same question about the checks inside a window; a request's left list is not read.
    pub fn of_window(&mut self, window: &Window, request: &Request) -> Told {
        let (work, out) = (&mut self.work[..howhiruke::WORK_WORDS], &mut self.out[..]);
        match request.call {
            Call::StandardGenerators => roll(window.standard_generators(work, out)),
            Call::Rank => number(window.rank(work)),
            Call::Phases => phases(window.phases(work)),
            Call::Factorization => membership(window.indexed_factorization_of(&request.right, request.number, work, out)),
            other => unreachable!("a window has no {other:?}"),
        }
    }
}
