/* Signed Pauli groups: the calls of crates/capi, for C and C++ on x86-64 Linux. Link target/staticlib/libcapi.a, which
 * `sh include/build.sh` makes. docs/REFERENCE.md is the manual.
 *
 * Paulis. (e, x, z) is i^e times X on the qubits x, then Z on the qubits z. Y is i X Z, so each Y of a word puts its qubit into x and
 * into z and adds 1 to e: Y is e = 1, YY is e = 2, -Y is e = 3.
 *
 * Rolls. A list of Paulis is given as bytes, all little-endian: the count n (2 bytes), n entries of 10 bytes (given 1, exponent 1, start 4,
 * x count 2, z count 2), then the bodies: x numbers, then z numbers, 4 bytes each, strictly rising in each set. `given` is 1, and `start`
 * is how many qubit numbers stand in earlier bodies.
 *
 * Slices. Every slice is a pointer and a length: bytes of a roll or an output, 64-bit words of a work area. A length may be 0. The pointer
 * must not be NULL, also where the length is 0: any other address will do. Slices lent to one call do not overlap where one of them is
 * written (work, out, words).
 *
 * A work area has HOWHIRUKE_WORK_WORDS words or more and may hold anything. Its first HOWHIRUKE_WORK_WORDS words are zero at the end, but
 * untouched at refusals 1 to 9 and 13 to 16; its other words are never touched. For howhiruke_combine it is HOWHIRUKE_LINE_WORDS. An output is written from its front, and only the result's own bytes;
 * a refusal leaves it alone. An output of HOWHIRUKE_LARGEST_ROLL bytes is never too short for a roll.
 *
 * Nothing is asked of the contents: a call on any bytes ends, and answers or refuses.
 *
 * Threads. There is no state outside of what is lent, and nothing is allocated: calls may run at once as long as none of them writes to
 * what another one is lent.
 */
#ifndef HOWHIRUKE_H
#define HOWHIRUKE_H

#include <stddef.h>
#include <stdint.h>

#ifdef __cplusplus
extern "C" {
#endif

#define HOWHIRUKE_VERSION_MAJOR 4
#define HOWHIRUKE_VERSION_MINOR 0
#define HOWHIRUKE_VERSION_PATCH 0
#define HOWHIRUKE_VERSION "4.0.0"

/* Limits. */
#define HOWHIRUKE_MOST_PAULIS 128       /* of a roll, and of two lists joined */
#define HOWHIRUKE_MOST_QUBITS 128       /* distinct ones, of a roll and of two lists joined */
#define HOWHIRUKE_HIGHEST_QUBIT 4294967295u /* the largest qubit number: all numbers of 32 bits are taken */
#define HOWHIRUKE_MOST_LISTED_RANK 16   /* of a group whose elements are listed */
#define HOWHIRUKE_DEFAULT_PAGE 64       /* elements of a page with count 0 */
#define HOWHIRUKE_LARGEST_PAGE 128      /* elements of a page with a count of 128 or more */
#define HOWHIRUKE_MOST_TOGETHER 63      /* distinct qubits of a list and of the named support of its centralizer */
#define HOWHIRUKE_LONGEST_LINE 256      /* bytes of a line that combines lists */
#define HOWHIRUKE_DEEPEST_LINE 4        /* parentheses in parentheses of a line */
#define HOWHIRUKE_WIDEST_WINDOW 64      /* checks inside a window */
#define HOWHIRUKE_MOST_MARKS 8          /* marks that a window holds */

/* Sizes. How long an output has to be can be asked before the call: for howhiruke_join howhiruke_joined_sizes tells it exactly; for
 * howhiruke_standard_generators what howhiruke_standard_bound tells is enough; a page of howhiruke_elements has as many Paulis as
 * howhiruke_page_size tells, of at most 10 + 8 s bytes each on s qubits, and 2 bytes more. For any roll HOWHIRUKE_LARGEST_ROLL, the length of
 * the largest possible one, is enough. */
#define HOWHIRUKE_WORK_WORDS 4096       /* 64-bit words of a work area */
#define HOWHIRUKE_LINE_WORDS 32768      /* 64-bit words of the work area of a line */
#define HOWHIRUKE_LARGEST_ROLL 132354   /* bytes of the longest roll that is accepted or written */
#define HOWHIRUKE_LARGEST_PRODUCT 1036  /* bytes of the longest roll of one Pauli */
#define HOWHIRUKE_LARGEST_INDEXES 256   /* bytes of the indexes of a member */
#define HOWHIRUKE_LARGEST_RESULTS 33280 /* bytes of the results of 128 elements */
#define HOWHIRUKE_LARGEST_INPUT 65536   /* bytes of the longest input of the closing listing */
#define HOWHIRUKE_LARGEST_LISTING 53924 /* bytes of the longest closing listing */
#define HOWHIRUKE_WINDOW_BYTES 595777   /* bytes of a window with its marks */

/* Refusals, in the order in which they are looked for: 1 to 7 for each roll, left before right and generators before elements; then 2 and
 * 7 for both lists together, where a call counts them so; then 8 to 12. Within a roll: under 2 bytes (1), 2, table cut (1), each entry's
 * 3 and 4 in turn, length (1), each qubit number's 6 in turn, 7. */
enum {
    HOWHIRUKE_REFUSED_LENGTH = 1,    /* under 2 bytes, table cut, or length not that of the table */
    HOWHIRUKE_REFUSED_PAULIS = 2,    /* over 128 Paulis, or joined list over 128 */
    HOWHIRUKE_REFUSED_ENTRY = 3,     /* `given` above 1, or start wrong */
    HOWHIRUKE_REFUSED_EXPONENT = 4,  /* exponent missing (`given` 0) */
    HOWHIRUKE_REFUSED_QUBIT = 5,     /* no longer occurs: was a qubit above 65,535 */
    HOWHIRUKE_REFUSED_RISING = 6,    /* a set not strictly rising */
    HOWHIRUKE_REFUSED_QUBITS = 7,    /* over 128 distinct qubits, also joined */
    HOWHIRUKE_REFUSED_NUMBER = 8,    /* generator or element number past its list */
    HOWHIRUKE_REFUSED_WORK = 9,      /* work area under 4,096 words, of a line under 32,768 */
    HOWHIRUKE_REFUSED_LISTING = 10,  /* listing with rank above 16 */
    HOWHIRUKE_REFUSED_SUBGROUP = 11, /* divisor not a subgroup */
    HOWHIRUKE_REFUSED_OUTPUT = 12,   /* output shorter than the result */
    HOWHIRUKE_REFUSED_SUPPORT = 13,  /* named support not strictly rising, or over 63 qubits with the list's own */
    HOWHIRUKE_REFUSED_LINE = 14,     /* line empty, too long, ill-formed, or naming a roll that was not sent */
    HOWHIRUKE_REFUSED_DEPTH = 15,    /* line with parentheses deeper than 4 */
    HOWHIRUKE_REFUSED_CLAIM = 16,    /* claim with indexes not strictly rising or past the list, or an exponent above 3 */
    HOWHIRUKE_REFUSED_WIDTH = 17,    /* width of a window outside 1 to 64 */
    HOWHIRUKE_REFUSED_CHECKS = 18,   /* roll that is sent to a window without exactly one Pauli */
    HOWHIRUKE_REFUSED_MARK = 19,     /* no mark of a window has the name */
    HOWHIRUKE_REFUSED_MARKS = 20     /* new name while a window holds eight marks */
};

/* refusal is 0 for an answer, which is in first, second and third; what a call does not name is 0. At a refusal, place is the
 * Pauli's index in its own roll for 3 to 6, else 0, and the others are 0. */
typedef struct {
    uint64_t refusal;
    uint64_t place;
    uint64_t first;
    uint64_t second;
    uint64_t third;
} howhiruke_answer;

/* What the caller promises of a list: nothing, that no two of its Paulis anticommute, or that some two do. Every other number is read as
 * none. A false promise changes answers. */
enum { HOWHIRUKE_PROMISE_NONE = 0, HOWHIRUKE_PROMISE_ABELIAN = 1, HOWHIRUKE_PROMISE_NOT_ABELIAN = 2 };

/* How the left group compares with the right one: equal, inside it, holding it, or neither. */
enum { HOWHIRUKE_ORDER_EQUAL = 0, HOWHIRUKE_ORDER_LESS = 1, HOWHIRUKE_ORDER_GREATER = 2, HOWHIRUKE_ORDER_NONE = 3 };

/* ---- rolls: no work area */

/* first: how many Paulis the roll has. Refusals 1 to 7. */
howhiruke_answer howhiruke_check_roll(const uint8_t *roll, size_t roll_len);

/* Writes a roll of one Pauli, the product of Pauli i of left and Pauli j of right. first: its length; second: 1 if the two
 * anticommute, else 0. Refusals 1 to 8, 12; 7 also for the qubits of both rolls together. */
howhiruke_answer howhiruke_product(const uint8_t *left, size_t left_len, size_t i,
                                   const uint8_t *right, size_t right_len, size_t j,
                                   uint8_t *out, size_t out_len);

/* The product of two signed Paulis on one qubit, by their numbers: 4 times (2 times x + z), plus the exponent, 0 to 15, where x and z are 1
 * if the qubit is in that set. Z (4) times X (8) is 14, X times Z is 12. first: the product's number. Refusal 8. */
howhiruke_answer howhiruke_one_qubit_product(size_t a, size_t b);

/* Writes the roll of left's Paulis, then right's. first: its length. Refusals 1 to 7, 12; 2 and 7 also joined. */
howhiruke_answer howhiruke_join(const uint8_t *left, size_t left_len, const uint8_t *right, size_t right_len,
                                uint8_t *out, size_t out_len);

/* Generator n of the joined list. first: its exponent, 0 to 3; second: its x count; third: its z count. Refusals 1 to 8; 2 and 7 also
 * joined. */
howhiruke_answer howhiruke_joined_entry(const uint8_t *left, size_t left_len, const uint8_t *right, size_t right_len, size_t n);

/* Where its body stands. first: 0 for left, 1 for right; second: the body's first byte in that roll; third: its length in bytes.
 * Refusals as those of howhiruke_joined_entry. */
howhiruke_answer howhiruke_joined_body(const uint8_t *left, size_t left_len, const uint8_t *right, size_t right_len, size_t n);

/* ---- groups: refusals 1 to 7 and 9, and those named */

/* Writes the standard generators: the same bytes exactly for lists that generate the same group. first: the roll's length. Also 12. */
howhiruke_answer howhiruke_standard_generators(const uint8_t *roll, size_t roll_len, uint64_t *work, size_t work_len,
                                               uint8_t *out, size_t out_len);

/* first: the rank, which is how many independent Paulis the list has, signs left aside. */
howhiruke_answer howhiruke_rank(const uint8_t *roll, size_t roll_len, uint64_t *work, size_t work_len);

/* first: how many powers of i are in the group: 1 (exponent 0), 2 (0, 2) or 4 (0, 1, 2, 3). */
howhiruke_answer howhiruke_phases(const uint8_t *roll, size_t roll_len, uint64_t promise, uint64_t *work, size_t work_len);

/* first: 1 where no two Paulis of the list anticommute, else 0. */
howhiruke_answer howhiruke_is_abelian(const uint8_t *roll, size_t roll_len, uint64_t promise, uint64_t *work, size_t work_len);

/* first: 1 where the group is abelian and does not have -I, else 0. */
howhiruke_answer howhiruke_is_stabilizer_group(const uint8_t *roll, size_t roll_len, uint64_t promise,
                                               uint64_t *work, size_t work_len);

/* first: the binary logarithm of the number of elements. */
howhiruke_answer howhiruke_log2_size(const uint8_t *roll, size_t roll_len, uint64_t promise, uint64_t *work, size_t work_len);

/* Whether Pauli `number` of the roll elements is in the group of generators. first: 1 for a member, second: how many generators
 * multiply to it, third: the exponent left; their indexes go to the output, rising, 2 bytes each. first: 0 for no member, which is
 * no refusal. Also 8, and 12 for a member alone. */
howhiruke_answer howhiruke_indexed_factorization_of(const uint8_t *generators, size_t generators_len,
                                                    const uint8_t *elements, size_t elements_len, size_t number,
                                                    uint64_t promise, uint64_t *work, size_t work_len,
                                                    uint8_t *out, size_t out_len);

/* The same of every Pauli of the roll elements. The results stand one behind the other, in the elements' order: byte 0 for no member; else
 * byte 1, the exponent left (1 byte), how many generators multiply to it (2) and their indexes, rising (2 each), little-endian. first: how
 * many results there are, second: how many bytes they take. An empty roll of elements has none. Also 12, where nothing is written. */
howhiruke_answer howhiruke_indexed_factorizations_of(const uint8_t *generators, size_t generators_len,
                                                     const uint8_t *elements, size_t elements_len,
                                                     uint64_t promise, uint64_t *work, size_t work_len,
                                                     uint8_t *out, size_t out_len);

/* Writes a page of the group's elements: subsets of the standard generators by size, then lexicographic, phases fastest; count of
 * them from number start on (count 0 means 64, above 128 means 128). A start past the end gives an empty roll. first: the roll's
 * length. Also 10 and 12. */
howhiruke_answer howhiruke_elements(const uint8_t *roll, size_t roll_len, uint64_t promise, uint32_t start, uint32_t count,
                                    uint64_t *work, size_t work_len, uint8_t *out, size_t out_len);

/* Writes generators of the same group, as many as the list has, pairs first: the two of a pair anticommute, all else commutes.
 * first: the roll's length. Also 12. */
howhiruke_answer howhiruke_symplectic_form_of(const uint8_t *roll, size_t roll_len, uint64_t *work, size_t work_len,
                                              uint8_t *out, size_t out_len);

/* ---- claims of other programs. With a promise that is absent or true an accepted claim agrees with membership */

/* A claim that Pauli `number` of the roll elements is a member: indexes of generators, which are numbers of 16 bits, strictly rising, and
 * an exponent, 0 to 3. first: 1 where the product of these generators, times i to the exponent, is the element and that power of i is in
 * the group; else 0. Other indexes than those of howhiruke_indexed_factorization_of may do. Refusals 1 to 7, 8, 16, 9, in this order.
 * What howhiruke_indexed_factorization_of told and wrote is accepted:
 *     uint16_t indexes[128];
 *     for (size_t k = 0; k < a.second; k++)
 *         indexes[k] = (uint16_t)(out[2 * k] + 256 * out[2 * k + 1]);
 *     howhiruke_accepts_membership(generators, generators_len, elements, elements_len, number, indexes, a.second, (uint32_t)a.third,
 *                                  promise, work, work_len).first == 1 */
howhiruke_answer howhiruke_accepts_membership(const uint8_t *generators, size_t generators_len,
                                              const uint8_t *elements, size_t elements_len, size_t number,
                                              const uint16_t *indexes, size_t indexes_len, uint32_t exponent,
                                              uint64_t promise, uint64_t *work, size_t work_len);

/* A claim that it is none: Pauli `witness` of the roll witnesses. first: 1 where that Pauli commutes with all generators and anticommutes
 * with the element; else 0. An element whose bits are in the span of the generators', with another sign, has no such Pauli. Refusals 1 to 7
 * for each roll, generators, elements, witnesses, no two of them counted together; then 8 for either number. No work area. */
howhiruke_answer howhiruke_accepts_absence(const uint8_t *generators, size_t generators_len,
                                           const uint8_t *elements, size_t elements_len, size_t number,
                                           const uint8_t *witnesses, size_t witnesses_len, size_t witness);

/* ---- what commutes with every Pauli of the list: refusals 1 to 7, 13, 9, 12, in this order */

/* Writes generators of the group of all Paulis on the list's own qubits that commute with each of its Paulis: those of the kernel of
 * their rows, then i. first: the roll's length. */
howhiruke_answer howhiruke_centralizer_of(const uint8_t *roll, size_t roll_len, uint64_t *work, size_t work_len,
                                          uint8_t *out, size_t out_len);

/* The same on the named qubits, which are numbers, strictly rising: those of the kernel, then X and Z of each named qubit that the list
 * does not use, then i. No number at all gives i alone. */
howhiruke_answer howhiruke_centralizer_within(const uint8_t *roll, size_t roll_len, const uint32_t *named, size_t named_len,
                                              uint64_t *work, size_t work_len, uint8_t *out, size_t out_len);

/* ---- sizes before the work */

/* The roll that howhiruke_join writes of the same rolls. first: its length, second: how many Paulis it has, third: how many distinct
 * qubits. Refusals 1 to 7; 2 and 7 also joined. No work area. */
howhiruke_answer howhiruke_joined_sizes(const uint8_t *left, size_t left_len, const uint8_t *right, size_t right_len);

/* first: 2 + (10 + 8 s) n for n Paulis on s distinct qubits, n taken as 1 if it is 0: with an output of this length
 * howhiruke_standard_generators is never refused with 12. Refusals 1 to 7. No work area. */
howhiruke_answer howhiruke_standard_bound(const uint8_t *roll, size_t roll_len);

/* first: how many elements the page has that howhiruke_elements writes with the same promise, start and count. Refusals 1 to 7, 9, 10. */
howhiruke_answer howhiruke_page_size(const uint8_t *roll, size_t roll_len, uint64_t promise, uint32_t start, uint32_t count,
                                     uint64_t *work, size_t work_len);

/* ---- two groups: refusals 1 to 7 and 9, and those named; 2 and 7 also joined */

/* first: HOWHIRUKE_ORDER_EQUAL, HOWHIRUKE_ORDER_LESS (left is inside right), HOWHIRUKE_ORDER_GREATER or HOWHIRUKE_ORDER_NONE. */
howhiruke_answer howhiruke_partial_cmp(const uint8_t *left, size_t left_len, const uint8_t *right, size_t right_len,
                                       uint64_t left_promise, uint64_t right_promise, uint64_t *work, size_t work_len);

/* Writes left's standard generators, each multiplied by the standard generators of right at whose pivots it has a one; its exponent is
 * then taken mod 4, 2 or 1 where right has 1, 2 or 4 phases. The left promise is not read. first: the roll's length. Also 12. */
howhiruke_answer howhiruke_modulo(const uint8_t *left, size_t left_len, const uint8_t *right, size_t right_len,
                                  uint64_t left_promise, uint64_t right_promise, uint64_t *work, size_t work_len,
                                  uint8_t *out, size_t out_len);

/* The same, where right is a subgroup of left. Also 11 and 12. */
howhiruke_answer howhiruke_try_quotient(const uint8_t *left, size_t left_len, const uint8_t *right, size_t right_len,
                                        uint64_t left_promise, uint64_t right_promise, uint64_t *work, size_t work_len,
                                        uint8_t *out, size_t out_len);

/* Writes the common part of the two groups, which is every element in both: the smaller list where one group holds the other (left's
 * where they are equal), else its standard generators. The promises are not read. first: the roll's length. Also 12. */
howhiruke_answer howhiruke_bitand(const uint8_t *left, size_t left_len, const uint8_t *right, size_t right_len,
                                  uint64_t left_promise, uint64_t right_promise, uint64_t *work, size_t work_len,
                                  uint8_t *out, size_t out_len);

/* ---- a line that combines lists */

/* Writes what a line such as A|B&C/D comes to, with the rolls A to D; a roll of length 0 was not sent. `/` is the quotient, `&` the common
 * part, `|` joining; `/` binds before `&` and `&` before `|`, each from the left, and parentheses come first: that line is
 * A|(B&(C/D)). A line of one letter writes that roll with exponents 0 to 3. No promises. first: the roll's length. Refusals, in this order:
 * 14, 15; 1 to 7 for each roll sent, named in the line or not; 9; those of the operations, left operands first (2 and 7 joined, 11);
 * 12. Here 1 to 7 of the rolls, 9, 14 and 15 leave the work area untouched; else its HOWHIRUKE_LINE_WORDS words end as zeros, also where an
 * operation refuses. */
howhiruke_answer howhiruke_combine(const uint8_t *line, size_t line_len, const uint8_t *a, size_t a_len, const uint8_t *b, size_t b_len,
                                   const uint8_t *c, size_t c_len, const uint8_t *d, size_t d_len,
                                   uint64_t *work, size_t work_len, uint8_t *out, size_t out_len);

/* ---- a window of the last checks */

/* It holds the last checks that were sent, as many as its width at most. The caller keeps it where it likes; only these calls make or change it.
 * Bytes of any other origin are read as some window, or refused as a roll is (1 to 7): every call ends and stays within bounds. */
typedef struct {
    uint8_t bytes[HOWHIRUKE_WINDOW_BYTES];
} howhiruke_window;

/* Makes a window without checks and marks, at round 0, of a width from 1 to 64, whatever it held before. Refusal 17, which changes nothing. */
howhiruke_answer howhiruke_window_make(howhiruke_window *window, size_t width);

/* Sends the one check of a roll: it enters, and with as many inside as the width the oldest leaves first. Refusals 1 to 7 of the roll, 18, then 7
 * for more than 128 distinct qubits inside, counted after the oldest has left. A refused check changes nothing. No work area. */
howhiruke_answer howhiruke_window_send(howhiruke_window *window, const uint8_t *roll, size_t roll_len);

/* Of the checks inside, oldest first, without promise: what the calls of these names without `window_` answer and write of their roll, with
 * their refusals and work areas. A window without checks is the empty list. */
howhiruke_answer howhiruke_window_standard_generators(const howhiruke_window *window, uint64_t *work, size_t work_len,
                                                      uint8_t *out, size_t out_len);
howhiruke_answer howhiruke_window_rank(const howhiruke_window *window, uint64_t *work, size_t work_len);
howhiruke_answer howhiruke_window_phases(const howhiruke_window *window, uint64_t *work, size_t work_len);
howhiruke_answer howhiruke_window_indexed_factorization_of(const howhiruke_window *window, const uint8_t *elements, size_t elements_len,
                                                           size_t number, uint64_t *work, size_t work_len, uint8_t *out, size_t out_len);

/* Marks to return to, each under a name of 8 bytes, zeros included: the checks inside and the round, which is how many checks were accepted in
 * the window's history. Saving under a used name replaces that mark. Refusal 20 for a new name while eight are held. */
howhiruke_answer howhiruke_window_save(howhiruke_window *window, const uint8_t name[8]);

/* Restores the checks inside and the round of a mark; all marks stay. Refusal 19 for an unknown name. */
howhiruke_answer howhiruke_window_return(howhiruke_window *window, const uint8_t name[8]);

/* Deletes a mark, which frees it for another name. Refusal 19 for an unknown name. Refusals 19 and 20 change nothing. */
howhiruke_answer howhiruke_window_delete(howhiruke_window *window, const uint8_t name[8]);

/* first: the round; it stops at 2^64 - 1. No refusal. */
howhiruke_answer howhiruke_window_round(const howhiruke_window *window);

/* ---- the report */

/* Writes the closing listing of an input: a 4-byte length, a generator roll of that length, an element roll. first: the text's length.
 * Refusals 9 and 12 alone, 9 first, whatever the input: an input that is refused (1 to 7) gives the line `refused N at K in roll R`, which
 * is an answer. */
howhiruke_answer howhiruke_closing_report(const uint8_t *input, size_t input_len, uint64_t *work, size_t work_len,
                                          uint8_t *out, size_t out_len);

/* ---- bit matrices */

/* Reduced row echelon form of rows rows of cols columns, in place. A row is width words, bit c of the row at bit c % 64 of word
 * c / 64, then (rows + 63) / 64 words that the call fills with the transform. The pivot columns come behind the rows, a word each,
 * so words has rows * (width + (rows + 63) / 64) + rows words or more. first: 1, second: the rank. first: 0 where the matrix does not
 * fit, and words is left alone. No refusal. */
howhiruke_answer howhiruke_echelon_form(uint64_t *words, size_t words_len, size_t width, size_t rows, size_t cols);

#ifdef __cplusplus
}
#endif

#endif
