//! The functions of the static library, as `../../howhiruke.h` declares them.

#[repr(C)]
pub struct Answer {
    pub refusal: u64,
    pub place: u64,
    pub first: u64,
    pub second: u64,
    pub third: u64,
}

/// A call on two lists that writes a roll.
pub type OnTwo = unsafe extern "C" fn(
    *const u8, usize, *const u8, usize, u64, u64, *mut u64, usize, *mut u8, usize,
) -> Answer;

extern "C" {
    pub fn howhiruke_check_roll(roll: *const u8, n: usize) -> Answer;
    pub fn howhiruke_product(
        left: *const u8, nl: usize, i: usize, right: *const u8, nr: usize, j: usize, out: *mut u8, room: usize,
    ) -> Answer;
    pub fn howhiruke_join(left: *const u8, nl: usize, right: *const u8, nr: usize, out: *mut u8, room: usize) -> Answer;
    pub fn howhiruke_one_qubit_product(a: usize, b: usize) -> Answer;
    pub fn howhiruke_joined_entry(left: *const u8, nl: usize, right: *const u8, nr: usize, n: usize) -> Answer;
    pub fn howhiruke_joined_body(left: *const u8, nl: usize, right: *const u8, nr: usize, n: usize) -> Answer;
    pub fn howhiruke_standard_generators(
        roll: *const u8, n: usize, work: *mut u64, words: usize, out: *mut u8, room: usize,
    ) -> Answer;
    pub fn howhiruke_centralizer_of(roll: *const u8, n: usize, work: *mut u64, words: usize, out: *mut u8, room: usize) -> Answer;
    pub fn howhiruke_centralizer_within(
        roll: *const u8, n: usize, named: *const u32, k: usize, work: *mut u64, words: usize, out: *mut u8, room: usize,
    ) -> Answer;
    pub fn howhiruke_rank(roll: *const u8, n: usize, work: *mut u64, words: usize) -> Answer;
    pub fn howhiruke_phases(roll: *const u8, n: usize, promise: u64, work: *mut u64, words: usize) -> Answer;
    pub fn howhiruke_is_abelian(roll: *const u8, n: usize, promise: u64, work: *mut u64, words: usize) -> Answer;
    pub fn howhiruke_is_stabilizer_group(roll: *const u8, n: usize, promise: u64, work: *mut u64, words: usize) -> Answer;
    pub fn howhiruke_log2_size(roll: *const u8, n: usize, promise: u64, work: *mut u64, words: usize) -> Answer;
    pub fn howhiruke_indexed_factorization_of(
        generators: *const u8, n: usize, elements: *const u8, m: usize, number: usize, promise: u64, work: *mut u64, words: usize,
        out: *mut u8, room: usize,
    ) -> Answer;
    pub fn howhiruke_indexed_factorizations_of(
        generators: *const u8, n: usize, elements: *const u8, m: usize, promise: u64, work: *mut u64, words: usize, out: *mut u8,
        room: usize,
    ) -> Answer;
    pub fn howhiruke_accepts_membership(
        generators: *const u8, n: usize, elements: *const u8, m: usize, number: usize, indexes: *const u16, k: usize, exponent: u32,
        promise: u64, work: *mut u64, words: usize,
    ) -> Answer;
    pub fn howhiruke_accepts_absence(
        generators: *const u8, n: usize, elements: *const u8, m: usize, number: usize, witnesses: *const u8, l: usize, witness: usize,
    ) -> Answer;
    pub fn howhiruke_window_make(window: *mut [u8; crate::WINDOW_BYTES], width: usize) -> Answer;
    pub fn howhiruke_window_send(window: *mut [u8; crate::WINDOW_BYTES], roll: *const u8, n: usize) -> Answer;
    pub fn howhiruke_window_save(window: *mut [u8; crate::WINDOW_BYTES], name: *const [u8; 8]) -> Answer;
    pub fn howhiruke_window_return(window: *mut [u8; crate::WINDOW_BYTES], name: *const [u8; 8]) -> Answer;
    pub fn howhiruke_window_delete(window: *mut [u8; crate::WINDOW_BYTES], name: *const [u8; 8]) -> Answer;
    pub fn howhiruke_window_round(window: *const [u8; crate::WINDOW_BYTES]) -> Answer;
    pub fn howhiruke_window_standard_generators(
        window: *const [u8; crate::WINDOW_BYTES], work: *mut u64, words: usize, out: *mut u8, room: usize,
    ) -> Answer;
    pub fn howhiruke_window_rank(window: *const [u8; crate::WINDOW_BYTES], work: *mut u64, words: usize) -> Answer;
    pub fn howhiruke_window_phases(window: *const [u8; crate::WINDOW_BYTES], work: *mut u64, words: usize) -> Answer;
    pub fn howhiruke_window_indexed_factorization_of(
        window: *const [u8; crate::WINDOW_BYTES], elements: *const u8, m: usize, number: usize, work: *mut u64, words: usize,
        out: *mut u8, room: usize,
    ) -> Answer;
    pub fn howhiruke_elements(
        roll: *const u8, n: usize, promise: u64, start: u32, count: u32, work: *mut u64, words: usize, out: *mut u8, room: usize,
    ) -> Answer;
    pub fn howhiruke_symplectic_form_of(
        roll: *const u8, n: usize, work: *mut u64, words: usize, out: *mut u8, room: usize,
    ) -> Answer;
    pub fn howhiruke_joined_sizes(left: *const u8, nl: usize, right: *const u8, nr: usize) -> Answer;
    pub fn howhiruke_standard_bound(roll: *const u8, n: usize) -> Answer;
    pub fn howhiruke_page_size(
        roll: *const u8, n: usize, promise: u64, start: u32, count: u32, work: *mut u64, words: usize,
    ) -> Answer;
    pub fn howhiruke_partial_cmp(
        left: *const u8, nl: usize, right: *const u8, nr: usize, left_promise: u64, right_promise: u64, work: *mut u64, words: usize,
    ) -> Answer;
    pub fn howhiruke_modulo(
        left: *const u8, nl: usize, right: *const u8, nr: usize, left_promise: u64, right_promise: u64, work: *mut u64, words: usize,
        out: *mut u8, room: usize,
    ) -> Answer;
    pub fn howhiruke_try_quotient(
        left: *const u8, nl: usize, right: *const u8, nr: usize, left_promise: u64, right_promise: u64, work: *mut u64, words: usize,
        out: *mut u8, room: usize,
    ) -> Answer;
    pub fn howhiruke_bitand(
        left: *const u8, nl: usize, right: *const u8, nr: usize, left_promise: u64, right_promise: u64, work: *mut u64, words: usize,
        out: *mut u8, room: usize,
    ) -> Answer;
    pub fn howhiruke_combine(
        line: *const u8, n: usize, a: *const u8, na: usize, b: *const u8, nb: usize, c: *const u8, nc: usize, d: *const u8, nd: usize,
        work: *mut u64, words: usize, out: *mut u8, room: usize,
    ) -> Answer;
    pub fn howhiruke_closing_report(
        input: *const u8, n: usize, work: *mut u64, words: usize, out: *mut u8, room: usize,
    ) -> Answer;
    pub fn howhiruke_echelon_form(words: *mut u64, n: usize, width: usize, rows: usize, cols: usize) -> Answer;
}
