#![doc = include_str!("../README.md")]
#![no_std]
#![deny(missing_docs)]

mod calls;

use calls::Answer;
use core::error::Error;
use core::fmt;

/// The least length of a work area, in words. Its first `WORK_WORDS` words are zero after a call, but untouched at reasons 1 to 9; what is
/// behind them is never touched.
pub const WORK_WORDS: usize = 4096;
/// The least length of the work area of a line, in words. These words are zero after [`combine`], but untouched where the line, a roll or
/// the area itself is refused.
pub const LINE_WORDS: usize = 32_768;
/// Bytes of the longest roll that is accepted or written: an output of this length is never too short for a roll.
pub const LARGEST_ROLL: usize = 132_354;
/// Bytes of the longest roll of one Pauli, which [`product`] writes.
pub const LARGEST_PRODUCT: usize = 1036;
/// Bytes of the indexes that [`indexed_factorization_of`] writes at most.
pub const LARGEST_INDEXES: usize = 256;
/// Bytes of the results that [`indexed_factorizations_of`] writes at most.
pub const LARGEST_RESULTS: usize = 33_280;
/// Bytes of the longest input of [`closing_report`].
pub const LARGEST_INPUT: usize = 65_536;
/// Bytes of the longest text of [`closing_report`].
pub const LARGEST_LISTING: usize = 53_924;
/// Paulis of a roll, and of two lists joined.
pub const MOST_PAULIS: usize = 128;
/// Distinct qubits of a roll, and of two lists joined.
pub const MOST_QUBITS: usize = 128;
/// The largest qubit number: all numbers of 32 bits are taken.
pub const HIGHEST_QUBIT: u32 = u32::MAX;
/// The rank up to which [`elements`] lists a group.
pub const MOST_LISTED_RANK: usize = 16;
/// Elements of a page with count 0.
pub const DEFAULT_PAGE: u32 = 64;
/// Elements of a page with a count of 128 or more.
pub const LARGEST_PAGE: u32 = 128;
/// Distinct qubits of a list and of the named support of its centralizer.
pub const MOST_TOGETHER: usize = 63;
/// Bytes of a line that combines lists.
pub const LONGEST_LINE: usize = 256;
/// Parentheses in parentheses of a line.
pub const DEEPEST_LINE: usize = 4;
/// Checks inside a window.
pub const WIDEST_WINDOW: usize = 64;
/// Marks that a window holds.
pub const MOST_MARKS: usize = 8;
/// Bytes of a window with its marks.
pub const WINDOW_BYTES: usize = 595_777;

/// Why a call is refused.
#[derive(Clone, Copy, Debug, PartialEq, Eq)]
#[non_exhaustive]
pub enum Reason {
    /// 1: the roll is cut, or its length is not that of its table.
    Length,
    /// 2: more than 128 Paulis, also joined.
    Paulis,
    /// 3: an entry's `given` is above 1, or its start is wrong.
    Entry,
    /// 4: the exponent is missing.
    Exponent,
    /// 6: a set does not rise strictly. 5, a qubit number above 65,535, no longer occurs.
    Rising,
    /// 7: more than 128 distinct qubits, also joined.
    Qubits,
    /// 8: a generator or element number is past its list.
    Number,
    /// 9: the work area is under 4,096 words, that of a line under 32,768.
    Work,
    /// 10: a listing with rank above 16.
    Listing,
    /// 11: the divisor is no subgroup.
    Subgroup,
    /// 12: the output is shorter than the result.
    Output,
    /// 13: the named support does not rise strictly, or has more than 63 qubits with the list's own.
    Support,
    /// 14: a line is empty, too long, ill-formed, or names a roll that was not sent.
    Line,
    /// 15: a line's parentheses are deeper than 4.
    Depth,
    /// 16: a claim's indexes do not rise strictly or pass the list, or its exponent is above 3.
    Claim,
    /// 17: a window's width is outside 1 to 64.
    Width,
    /// 18: a roll that is sent to a window does not have exactly one Pauli.
    Checks,
    /// 19: no mark of a window has the name.
    Mark,
    /// 20: a new name while a window holds eight marks.
    Marks,
    /// A number that this crate does not know: the library is of another version.
    Unknown(u64),
}

impl Reason {
    /// The reason's number.
    pub fn number(self) -> u64 {
        match self {
            Reason::Length => 1,
            Reason::Paulis => 2,
            Reason::Entry => 3,
            Reason::Exponent => 4,
            Reason::Rising => 6,
            Reason::Qubits => 7,
            Reason::Number => 8,
            Reason::Work => 9,
            Reason::Listing => 10,
            Reason::Subgroup => 11,
            Reason::Output => 12,
            Reason::Support => 13,
            Reason::Line => 14,
            Reason::Depth => 15,
            Reason::Claim => 16,
            Reason::Width => 17,
            Reason::Checks => 18,
            Reason::Mark => 19,
            Reason::Marks => 20,
            Reason::Unknown(number) => number,
        }
    }

    fn numbered(number: u64) -> Reason {
        match number {
            1 => Reason::Length,
            2 => Reason::Paulis,
            3 => Reason::Entry,
            4 => Reason::Exponent,
            6 => Reason::Rising,
            7 => Reason::Qubits,
            8 => Reason::Number,
            9 => Reason::Work,
            10 => Reason::Listing,
            11 => Reason::Subgroup,
            12 => Reason::Output,
            13 => Reason::Support,
            14 => Reason::Line,
            15 => Reason::Depth,
            16 => Reason::Claim,
            17 => Reason::Width,
            18 => Reason::Checks,
            19 => Reason::Mark,
            20 => Reason::Marks,
            _ => Reason::Unknown(number),
        }
    }
}

impl fmt::Display for Reason {
    fn fmt(&self, f: &mut fmt::Formatter<'_>) -> fmt::Result {
        f.write_str(match self {
            Reason::Length => "the roll is cut, or its length is not that of its table",
            Reason::Paulis => "more than 128 Paulis",
            Reason::Entry => "an entry's first byte is above 1, or its start is wrong",
            Reason::Exponent => "the exponent is missing",
            Reason::Rising => "a set does not rise strictly",
            Reason::Qubits => "more than 128 distinct qubits",
            Reason::Number => "a generator or element number is past its list",
            Reason::Work => "the work area is too short",
            Reason::Listing => "a listing with rank above 16",
            Reason::Subgroup => "the divisor is no subgroup",
            Reason::Output => "the output is shorter than the result",
            Reason::Support => "the named support does not rise, or is too large together with the list's own",
            Reason::Line => "the line is empty, too long or ill-formed, or names a roll that was not sent",
            Reason::Depth => "the line's parentheses are too deep",
            Reason::Claim => "the claim's indexes do not rise or pass the list, or its exponent is above 3",
            Reason::Width => "the window's width is outside 1 to 64",
            Reason::Checks => "the roll does not have exactly one Pauli",
            Reason::Mark => "no mark has the name",
            Reason::Marks => "eight marks are held, and the name is new",
            Reason::Unknown(_) => "a reason that this version does not know",
        })
    }
}

/// A refusal's reason and its place: the Pauli's index in its own roll for reasons 3 to 6, else 0.
#[derive(Clone, Copy, Debug, PartialEq, Eq)]
pub struct Refusal {
    /// Why.
    pub reason: Reason,
    /// Where.
    pub place: usize,
}

impl fmt::Display for Refusal {
    fn fmt(&self, f: &mut fmt::Formatter<'_>) -> fmt::Result {
        write!(f, "refused {} at {}: {}", self.reason.number(), self.place, self.reason)
    }
}

impl Error for Refusal {}

/// What the caller promises of a list. A false promise changes answers.
#[derive(Clone, Copy, Debug, PartialEq, Eq)]
#[repr(u64)]
pub enum Promise {
    /// Nothing: the library looks by itself.
    None = 0,
    /// No two Paulis of the list anticommute.
    Abelian = 1,
    /// Some two Paulis of the list anticommute.
    NotAbelian = 2,
}

/// The exponents e for which i^e is in a group.
#[derive(Clone, Copy, Debug, PartialEq, Eq)]
pub enum Phases {
    /// 0 alone.
    Zero,
    /// 0 and 2: -I is in the group.
    ZeroTwo,
    /// 0, 1, 2 and 3.
    All,
}

/// How the left group compares with the right one.
#[derive(Clone, Copy, Debug, PartialEq, Eq)]
pub enum Order {
    /// They are the same group.
    Equal,
    /// The left one is inside the right one.
    Less,
    /// The right one is inside the left one.
    Greater,
    /// Neither is inside the other.
    NoOrder,
}

/// Whether an element is in a group.
#[derive(Clone, Copy, Debug, PartialEq, Eq)]
pub enum Membership {
    /// It is.
    Member {
        /// How many generators multiply to it; their indexes are in the output.
        count: usize,
        /// The element is i to this exponent times their product.
        exponent: u8,
    },
    /// It is not, with this sign.
    NotMember,
}

/// The product of two Paulis, whose roll is in the output.
#[derive(Clone, Copy, Debug, PartialEq, Eq)]
pub struct Product {
    /// How many bytes its roll has.
    pub bytes: usize,
    /// Whether the two anticommute.
    pub anticommute: bool,
}

/// The results for a roll of elements, which are in the output.
#[derive(Clone, Copy, Debug, PartialEq, Eq)]
pub struct Results {
    /// How many there are: one for each element.
    pub count: usize,
    /// How many bytes they take.
    pub bytes: usize,
}

/// A generator of a joined list.
#[derive(Clone, Copy, Debug, PartialEq, Eq)]
pub struct Entry {
    /// The exponent of i, 0 to 3.
    pub exponent: u8,
    /// How many qubits are in its x set.
    pub xcount: usize,
    /// How many qubits are in its z set.
    pub zcount: usize,
}

/// The roll of two lists joined.
#[derive(Clone, Copy, Debug, PartialEq, Eq)]
pub struct JoinedSizes {
    /// How many bytes it has.
    pub bytes: usize,
    /// How many Paulis.
    pub paulis: usize,
    /// How many distinct qubits.
    pub qubits: usize,
}

/// What becomes of a matrix.
#[derive(Clone, Copy, Debug, PartialEq, Eq)]
pub enum Formation {
    /// Its rank; the echelon form is in the words.
    Rank(usize),
    /// It does not fit the words, which are as they were.
    Misfit,
}

/// The answer, unless it is a refusal.
fn told(answer: Answer) -> Result<Answer, Refusal> {
    if answer.refusal == 0 {
        return Ok(answer);
    }
    Err(Refusal { reason: Reason::numbered(answer.refusal), place: answer.place as usize })
}

fn number(answer: Answer) -> Result<usize, Refusal> {
    Ok(told(answer)?.first as usize)
}

/// How many Paulis a roll has. Reasons 1 to 7.
pub fn check_roll(roll: &[u8]) -> Result<usize, Refusal> {
    number(unsafe { calls::howhiruke_check_roll(roll.as_ptr(), roll.len()) })
}

/// Writes a roll of one Pauli, the product of Pauli `i` of `left` and Pauli `j` of `right`. Reasons 1 to 8 and 12; 7 also for the qubits
/// of both rolls together.
pub fn product(left: &[u8], i: usize, right: &[u8], j: usize, out: &mut [u8]) -> Result<Product, Refusal> {
    let a = told(unsafe {
        calls::howhiruke_product(left.as_ptr(), left.len(), i, right.as_ptr(), right.len(), j, out.as_mut_ptr(), out.len())
    })?;
    Ok(Product { bytes: a.first as usize, anticommute: a.second == 1 })
}

/// The number of the product of two signed Paulis on one qubit, each by its number: 4 times (2 times x + z), plus the exponent. Reason 8.
pub fn one_qubit_product(a: usize, b: usize) -> Result<usize, Refusal> {
    number(unsafe { calls::howhiruke_one_qubit_product(a, b) })
}

/// Writes the roll of the Paulis of `left`, then those of `right`; its length. Reasons 1 to 7 and 12; 2 and 7 also joined.
pub fn join(left: &[u8], right: &[u8], out: &mut [u8]) -> Result<usize, Refusal> {
    number(unsafe { calls::howhiruke_join(left.as_ptr(), left.len(), right.as_ptr(), right.len(), out.as_mut_ptr(), out.len()) })
}

/// Generator `n` of the joined list. Reasons 1 to 8; 2 and 7 also joined.
pub fn joined_entry(left: &[u8], right: &[u8], n: usize) -> Result<Entry, Refusal> {
    let a = told(unsafe { calls::howhiruke_joined_entry(left.as_ptr(), left.len(), right.as_ptr(), right.len(), n) })?;
    Ok(Entry { exponent: a.first as u8, xcount: a.second as usize, zcount: a.third as usize })
}

/// The body of generator `n` of the joined list, where it stands: its x numbers, then its z numbers, 4 bytes each. Reasons as those of
/// [`joined_entry`].
pub fn joined_body<'a>(left: &'a [u8], right: &'a [u8], n: usize) -> Result<&'a [u8], Refusal> {
    let a = told(unsafe { calls::howhiruke_joined_body(left.as_ptr(), left.len(), right.as_ptr(), right.len(), n) })?;
    let roll = if a.first == 0 { left } else { right };
    let start = a.second as usize;
    Ok(&roll[start..start + a.third as usize])
}

/// Writes the standard generators: the same bytes exactly for lists that generate the same group; the roll's length. Reasons 1 to 7, 9, 12.
pub fn standard_generators(roll: &[u8], work: &mut [u64], out: &mut [u8]) -> Result<usize, Refusal> {
    number(unsafe {
        calls::howhiruke_standard_generators(roll.as_ptr(), roll.len(), work.as_mut_ptr(), work.len(), out.as_mut_ptr(), out.len())
    })
}

/// The rank: how many independent Paulis the list has, signs left aside. Reasons 1 to 7 and 9.
pub fn rank(roll: &[u8], work: &mut [u64]) -> Result<usize, Refusal> {
    number(unsafe { calls::howhiruke_rank(roll.as_ptr(), roll.len(), work.as_mut_ptr(), work.len()) })
}

/// The powers of i that are in the group. Reasons 1 to 7 and 9.
pub fn phases(roll: &[u8], promise: Promise, work: &mut [u64]) -> Result<Phases, Refusal> {
    let a = told(unsafe { calls::howhiruke_phases(roll.as_ptr(), roll.len(), promise as u64, work.as_mut_ptr(), work.len()) })?;
    Ok(phases_counted(a.first))
}

fn phases_counted(count: u64) -> Phases {
    match count {
        1 => Phases::Zero,
        2 => Phases::ZeroTwo,
        4 => Phases::All,
        other => unreachable!("{other} phases"),
    }
}

/// Whether no two Paulis of the list anticommute. Reasons 1 to 7 and 9.
pub fn is_abelian(roll: &[u8], promise: Promise, work: &mut [u64]) -> Result<bool, Refusal> {
    let a = unsafe { calls::howhiruke_is_abelian(roll.as_ptr(), roll.len(), promise as u64, work.as_mut_ptr(), work.len()) };
    Ok(number(a)? == 1)
}

/// Whether the group is abelian and does not have -I. Reasons 1 to 7 and 9.
pub fn is_stabilizer_group(roll: &[u8], promise: Promise, work: &mut [u64]) -> Result<bool, Refusal> {
    let a = unsafe { calls::howhiruke_is_stabilizer_group(roll.as_ptr(), roll.len(), promise as u64, work.as_mut_ptr(), work.len()) };
    Ok(number(a)? == 1)
}

/// The binary logarithm of the number of the group's elements. Reasons 1 to 7 and 9.
pub fn log2_size(roll: &[u8], promise: Promise, work: &mut [u64]) -> Result<usize, Refusal> {
    number(unsafe { calls::howhiruke_log2_size(roll.as_ptr(), roll.len(), promise as u64, work.as_mut_ptr(), work.len()) })
}

/// Whether Pauli `element` of the roll `elements` is in the group of `generators`; the indexes of the generators that multiply to it go to
/// the output, rising, 2 bytes each, little-endian. Reasons 1 to 9, and 12 for a member alone.
pub fn indexed_factorization_of(
    generators: &[u8],
    elements: &[u8],
    element: usize,
    promise: Promise,
    work: &mut [u64],
    out: &mut [u8],
) -> Result<Membership, Refusal> {
    let a = told(unsafe {
        calls::howhiruke_indexed_factorization_of(
            generators.as_ptr(),
            generators.len(),
            elements.as_ptr(),
            elements.len(),
            element,
            promise as u64,
            work.as_mut_ptr(),
            work.len(),
            out.as_mut_ptr(),
            out.len(),
        )
    })?;
    Ok(membership(a))
}

fn membership(a: Answer) -> Membership {
    if a.first == 0 {
        return Membership::NotMember;
    }
    Membership::Member { count: a.second as usize, exponent: a.third as u8 }
}

/// What [`indexed_factorization_of`] tells of every Pauli of the roll `elements`, written in their order, one behind the other: byte 0 for no
/// member; else byte 1, the exponent, how many indexes (2 bytes) and the indexes (2 bytes each), little-endian. Reasons 1 to 7, 9, 12; nothing is
/// written at 12.
pub fn indexed_factorizations_of(
    generators: &[u8],
    elements: &[u8],
    promise: Promise,
    work: &mut [u64],
    out: &mut [u8],
) -> Result<Results, Refusal> {
    let a = told(unsafe {
        calls::howhiruke_indexed_factorizations_of(
            generators.as_ptr(),
            generators.len(),
            elements.as_ptr(),
            elements.len(),
            promise as u64,
            work.as_mut_ptr(),
            work.len(),
            out.as_mut_ptr(),
            out.len(),
        )
    })?;
    Ok(Results { count: a.first as usize, bytes: a.second as usize })
}

/// Whether a claim of membership is accepted: the product of the generators at the indexes, which rise strictly, times i to the exponent, is
/// Pauli `element` of the roll `elements`, and that power of i is in the group. With a promise that is absent or true an accepted one agrees
/// with [`indexed_factorization_of`], and what that one tells is accepted; other indexes may do. Reasons 1 to 9 and 16; 16 comes before 9.
pub fn accepts_membership(
    generators: &[u8],
    elements: &[u8],
    element: usize,
    indexes: &[u16],
    exponent: u32,
    promise: Promise,
    work: &mut [u64],
) -> Result<bool, Refusal> {
    let a = unsafe {
        calls::howhiruke_accepts_membership(
            generators.as_ptr(),
            generators.len(),
            elements.as_ptr(),
            elements.len(),
            element,
            indexes.as_ptr(),
            indexes.len(),
            exponent,
            promise as u64,
            work.as_mut_ptr(),
            work.len(),
        )
    };
    Ok(number(a)? == 1)
}

/// Whether a claim of absence is accepted: Pauli `witness` of the roll `witnesses` commutes with all generators and anticommutes with Pauli
/// `element` of the roll `elements`, which is then no member. Reasons 1 to 8; no two rolls are counted together.
pub fn accepts_absence(
    generators: &[u8],
    elements: &[u8],
    element: usize,
    witnesses: &[u8],
    witness: usize,
) -> Result<bool, Refusal> {
    let a = unsafe {
        calls::howhiruke_accepts_absence(
            generators.as_ptr(),
            generators.len(),
            elements.as_ptr(),
            elements.len(),
            element,
            witnesses.as_ptr(),
            witnesses.len(),
            witness,
        )
    };
    Ok(number(a)? == 1)
}

/// Writes a page of the group's elements, `count` of them from number `start` on (0 means [`DEFAULT_PAGE`]), in the order of docs/REFERENCE.md;
/// the roll's length. A start past the end gives an empty roll. Reasons 1 to 7, 9, 10, 12.
pub fn elements(roll: &[u8], promise: Promise, start: u32, count: u32, work: &mut [u64], out: &mut [u8]) -> Result<usize, Refusal> {
    number(unsafe {
        calls::howhiruke_elements(
            roll.as_ptr(),
            roll.len(),
            promise as u64,
            start,
            count,
            work.as_mut_ptr(),
            work.len(),
            out.as_mut_ptr(),
            out.len(),
        )
    })
}

/// Writes generators of the same group, as many as the list has, pairs first: the two of a pair anticommute, all else commutes; the roll's
/// length. Reasons 1 to 7, 9, 12.
pub fn symplectic_form_of(roll: &[u8], work: &mut [u64], out: &mut [u8]) -> Result<usize, Refusal> {
    number(unsafe {
        calls::howhiruke_symplectic_form_of(roll.as_ptr(), roll.len(), work.as_mut_ptr(), work.len(), out.as_mut_ptr(), out.len())
    })
}

/// Writes generators of the group of all Paulis on the list's own qubits that commute with each of its Paulis, the last of them i; the
/// roll's length. Reasons 1 to 7, 9, 12, 13; 13 comes before 9.
pub fn centralizer_of(roll: &[u8], work: &mut [u64], out: &mut [u8]) -> Result<usize, Refusal> {
    number(unsafe {
        calls::howhiruke_centralizer_of(roll.as_ptr(), roll.len(), work.as_mut_ptr(), work.len(), out.as_mut_ptr(), out.len())
    })
}

/// The same on the named qubits, which rise strictly; no number at all gives i alone. Reasons 1 to 7, 9, 12, 13; 13 comes before 9.
pub fn centralizer_within(roll: &[u8], named: &[u32], work: &mut [u64], out: &mut [u8]) -> Result<usize, Refusal> {
    number(unsafe {
        calls::howhiruke_centralizer_within(
            roll.as_ptr(), roll.len(), named.as_ptr(), named.len(), work.as_mut_ptr(), work.len(), out.as_mut_ptr(), out.len(),
        )
    })
}

/// The sizes of the roll that [`join`] writes of the same rolls. Reasons 1 to 7; 2 and 7 also joined.
pub fn joined_sizes(left: &[u8], right: &[u8]) -> Result<JoinedSizes, Refusal> {
    let a = told(unsafe { calls::howhiruke_joined_sizes(left.as_ptr(), left.len(), right.as_ptr(), right.len()) })?;
    Ok(JoinedSizes { bytes: a.first as usize, paulis: a.second as usize, qubits: a.third as usize })
}

/// A length that the roll of [`standard_generators`] never passes: 2 + (10 + 8 s) n for n Paulis on s distinct qubits, n taken as 1 if it is
/// 0. Reasons 1 to 7.
pub fn standard_bound(roll: &[u8]) -> Result<usize, Refusal> {
    number(unsafe { calls::howhiruke_standard_bound(roll.as_ptr(), roll.len()) })
}

/// How many elements the page has that [`elements`] writes with the same promise, start and count. Reasons 1 to 7, 9, 10.
pub fn page_size(roll: &[u8], promise: Promise, start: u32, count: u32, work: &mut [u64]) -> Result<usize, Refusal> {
    number(unsafe {
        calls::howhiruke_page_size(roll.as_ptr(), roll.len(), promise as u64, start, count, work.as_mut_ptr(), work.len())
    })
}

/// How the groups of `left` and `right` compare. Reasons 1 to 7 and 9; 2 and 7 also joined.
pub fn partial_cmp(
    left: &[u8],
    right: &[u8],
    left_promise: Promise,
    right_promise: Promise,
    work: &mut [u64],
) -> Result<Order, Refusal> {
    let a = told(unsafe {
        calls::howhiruke_partial_cmp(
            left.as_ptr(),
            left.len(),
            right.as_ptr(),
            right.len(),
            left_promise as u64,
            right_promise as u64,
            work.as_mut_ptr(),
            work.len(),
        )
    })?;
    Ok(match a.first {
        0 => Order::Equal,
        1 => Order::Less,
        2 => Order::Greater,
        3 => Order::NoOrder,
        other => unreachable!("order {other}"),
    })
}

/// A call on two lists that writes a roll.
fn on_two(
    call: calls::OnTwo,
    left: &[u8],
    right: &[u8],
    left_promise: Promise,
    right_promise: Promise,
    work: &mut [u64],
    out: &mut [u8],
) -> Result<usize, Refusal> {
    number(unsafe {
        call(
            left.as_ptr(),
            left.len(),
            right.as_ptr(),
            right.len(),
            left_promise as u64,
            right_promise as u64,
            work.as_mut_ptr(),
            work.len(),
            out.as_mut_ptr(),
            out.len(),
        )
    })
}

/// Writes `left` modulo `right`: the standard generators of `left`, cleared by those of `right` at their pivots; the roll's length. The left
/// promise is not read. Reasons 1 to 7, 9, 12; 2 and 7 also joined.
pub fn modulo(
    left: &[u8],
    right: &[u8],
    left_promise: Promise,
    right_promise: Promise,
    work: &mut [u64],
    out: &mut [u8],
) -> Result<usize, Refusal> {
    on_two(calls::howhiruke_modulo, left, right, left_promise, right_promise, work, out)
}

/// Writes what [`modulo`] does where the group of `right` is inside that of `left`; the roll's length. Reasons 1 to 7, 9, 11, 12; 2 and 7 also
/// joined.
pub fn try_quotient(
    left: &[u8],
    right: &[u8],
    left_promise: Promise,
    right_promise: Promise,
    work: &mut [u64],
    out: &mut [u8],
) -> Result<usize, Refusal> {
    on_two(calls::howhiruke_try_quotient, left, right, left_promise, right_promise, work, out)
}

/// Writes the common part of the groups of `left` and `right`, every element in both: the smaller list where one group holds the other, else
/// its standard generators; the roll's length. The promises are not read. Reasons 1 to 7, 9, 12; 2 and 7 also joined.
pub fn bitand(
    left: &[u8],
    right: &[u8],
    left_promise: Promise,
    right_promise: Promise,
    work: &mut [u64],
    out: &mut [u8],
) -> Result<usize, Refusal> {
    on_two(calls::howhiruke_bitand, left, right, left_promise, right_promise, work, out)
}

/// Writes what a line such as `A|B&C/D` comes to, with the rolls A to D, of which the empty ones were not sent; the roll's length. `/` is the
/// quotient, `&` the common part, `|` joining, each from the left; `/` binds before `&` and `&` before `|`, and parentheses come first. The
/// work area has [`LINE_WORDS`] words. Reasons 14, 15; 1 to 7 of each roll sent; 9; 2, 7 and 11 of the operations, left operands first; 12.
pub fn combine(line: &[u8], rolls: [&[u8]; 4], work: &mut [u64], out: &mut [u8]) -> Result<usize, Refusal> {
    let [a, b, c, d] = rolls;
    number(unsafe {
        calls::howhiruke_combine(
            line.as_ptr(),
            line.len(),
            a.as_ptr(),
            a.len(),
            b.as_ptr(),
            b.len(),
            c.as_ptr(),
            c.len(),
            d.as_ptr(),
            d.len(),
            work.as_mut_ptr(),
            work.len(),
            out.as_mut_ptr(),
            out.len(),
        )
    })
}

/// A window: the last checks that were sent to it, as many as its width at most, in bytes that the caller lends, on the heap for example. No
/// other than its own functions changes it.
pub struct Window<'a> {
    bytes: &'a mut [u8; WINDOW_BYTES],
}

impl<'a> Window<'a> {
    /// Makes a window without checks and marks, at round 0, of a width from 1 to 64, whatever the bytes hold. Reason 17.
    pub fn make(bytes: &'a mut [u8; WINDOW_BYTES], width: usize) -> Result<Window<'a>, Refusal> {
        told(unsafe { calls::howhiruke_window_make(bytes, width) })?;
        Ok(Window { bytes })
    }

    /// Sends the one check of a roll: it enters, and with as many inside as the width the oldest leaves first. Reasons 1 to 7 of the roll, 18,
    /// then 7 for the qubits of the checks inside, counted after the oldest has left. A refused check changes nothing.
    pub fn send(&mut self, roll: &[u8]) -> Result<(), Refusal> {
        told(unsafe { calls::howhiruke_window_send(self.bytes, roll.as_ptr(), roll.len()) })?;
        Ok(())
    }

    /// Saves the checks inside and the round under a name, whose 8 bytes all count; a mark of that name is replaced. Reason 20.
    pub fn save(&mut self, name: &[u8; 8]) -> Result<(), Refusal> {
        told(unsafe { calls::howhiruke_window_save(self.bytes, name) })?;
        Ok(())
    }

    /// Restores the checks inside and the round of a mark; all marks stay. Reason 19.
    pub fn return_to(&mut self, name: &[u8; 8]) -> Result<(), Refusal> {
        told(unsafe { calls::howhiruke_window_return(self.bytes, name) })?;
        Ok(())
    }

    /// Deletes a mark, which frees it for another name. Reason 19.
    pub fn delete(&mut self, name: &[u8; 8]) -> Result<(), Refusal> {
        told(unsafe { calls::howhiruke_window_delete(self.bytes, name) })?;
        Ok(())
    }

    /// The round: how many checks were accepted, those of the mark that was returned to and those sent since. It stops at the largest number.
    pub fn round(&self) -> u64 {
        unsafe { calls::howhiruke_window_round(self.bytes) }.first
    }

    /// What [`standard_generators`] writes and tells of the checks inside, oldest first.
    pub fn standard_generators(&self, work: &mut [u64], out: &mut [u8]) -> Result<usize, Refusal> {
        number(unsafe {
            calls::howhiruke_window_standard_generators(self.bytes, work.as_mut_ptr(), work.len(), out.as_mut_ptr(), out.len())
        })
    }

    /// What [`rank`] tells of them.
    pub fn rank(&self, work: &mut [u64]) -> Result<usize, Refusal> {
        number(unsafe { calls::howhiruke_window_rank(self.bytes, work.as_mut_ptr(), work.len()) })
    }

    /// What [`phases`] tells of them, without promise.
    pub fn phases(&self, work: &mut [u64]) -> Result<Phases, Refusal> {
        let a = told(unsafe { calls::howhiruke_window_phases(self.bytes, work.as_mut_ptr(), work.len()) })?;
        Ok(phases_counted(a.first))
    }

    /// What [`indexed_factorization_of`] writes and tells, with them as the generators and without promise.
    pub fn indexed_factorization_of(
        &self,
        elements: &[u8],
        element: usize,
        work: &mut [u64],
        out: &mut [u8],
    ) -> Result<Membership, Refusal> {
        let a = told(unsafe {
            calls::howhiruke_window_indexed_factorization_of(
                self.bytes,
                elements.as_ptr(),
                elements.len(),
                element,
                work.as_mut_ptr(),
                work.len(),
                out.as_mut_ptr(),
                out.len(),
            )
        })?;
        Ok(membership(a))
    }
}

/// Writes the closing listing of an input: a 4-byte length, a generator roll of that length, an element roll; the text's length. Reasons 9
/// and 12, 9 first: an input that is refused gives the line `refused N at K in roll R`, which is an answer.
pub fn closing_report(input: &[u8], work: &mut [u64], out: &mut [u8]) -> Result<usize, Refusal> {
    number(unsafe {
        calls::howhiruke_closing_report(
            input.as_ptr(),
            input.len(),
            work.as_mut_ptr(),
            work.len(),
            out.as_mut_ptr(),
            out.len(),
        )
    })
}

/// Reduces a matrix of `rows` rows and `cols` columns in place. A row is `width` words, then `rows.div_ceil(64)` words that the call fills with the
/// transform; the pivot columns come behind the rows, a word each.
pub fn echelon_form(words: &mut [u64], width: usize, rows: usize, cols: usize) -> Formation {
    let a = unsafe { calls::howhiruke_echelon_form(words.as_mut_ptr(), words.len(), width, rows, cols) };
    if a.first == 0 {
        return Formation::Misfit;
    }
    Formation::Rank(a.second as usize)
}
