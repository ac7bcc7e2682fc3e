/* The marked rows of the specification, and a refusal of each number, through the C calls. */
#include <stdio.h>
#include <stdlib.h>
#include <string.h>
#include "howhiruke.h"

enum { WORDS = HOWHIRUKE_WORK_WORDS, LINE = HOWHIRUKE_LINE_WORDS, ROOM = HOWHIRUKE_LARGEST_ROLL + 3 };

typedef struct {
    int e;
    int64_t xs[4];
    int64_t zs[4];
} pauli;

/* the end of a set */
#define E -1

static const pauli I = {0, {E}, {E}}, MINUS_I = {2, {E}, {E}}, I_I = {1, {E}, {E}};
static const pauli X = {0, {0, E}, {E}}, MINUS_X = {2, {0, E}, {E}}, Z = {0, {E}, {0, E}}, Y = {1, {0, E}, {0, E}}, XZ = {0, {0, E}, {0, E}};
static const pauli X1 = {0, {1, E}, {E}};
static const pauli XX = {0, {0, 1, E}, {E}}, ZZ = {0, {E}, {0, 1, E}};

typedef struct {
    uint8_t b[8192];
    size_t n;
} roll;

static void put(roll *r, unsigned v, int bytes)
{
    for (int k = 0; k < bytes; k++)
        r->b[r->n++] = (uint8_t)(v >> 8 * k);
}

static int many(const int64_t *set)
{
    int k = 0;
    while (set[k] != E)
        k++;
    return k;
}

static roll of(int count, const pauli *ps)
{
    roll r = {{0}, 0};
    unsigned start = 0;
    put(&r, (unsigned)count, 2);
    for (int i = 0; i < count; i++) {
        put(&r, 1, 1);
        put(&r, (unsigned)ps[i].e, 1);
        put(&r, start, 4);
        put(&r, (unsigned)many(ps[i].xs), 2);
        put(&r, (unsigned)many(ps[i].zs), 2);
        start += (unsigned)(many(ps[i].xs) + many(ps[i].zs));
    }
    for (int i = 0; i < count; i++) {
        for (int k = 0; ps[i].xs[k] != E; k++)
            put(&r, (unsigned)ps[i].xs[k], 4);
        for (int k = 0; ps[i].zs[k] != E; k++)
            put(&r, (unsigned)ps[i].zs[k], 4);
    }
    return r;
}

#define LIST(...) of((int)(sizeof((pauli[]){__VA_ARGS__}) / sizeof(pauli)), (pauli[]){__VA_ARGS__})

static uint64_t work[LINE + 3];
static uint8_t out[ROOM];
static int rows;

/* Before each call: every word and byte has a known value. */
static void lend(void)
{
    memset(work, 0x5a, sizeof work);
    memset(out, 0xa5, sizeof out);
}

static void wrong(const char *row, howhiruke_answer a)
{
    printf("%s: %llu at %llu: %llu %llu %llu\n", row, (unsigned long long)a.refusal, (unsigned long long)a.place,
           (unsigned long long)a.first, (unsigned long long)a.second, (unsigned long long)a.third);
    exit(1);
}

static int same_words(size_t from, size_t to, uint64_t v)
{
    for (size_t k = from; k < to; k++)
        if (work[k] != v)
            return 0;
    return 1;
}

static int kept(size_t from)
{
    for (size_t k = from; k < ROOM; k++)
        if (out[k] != 0xa5)
            return 0;
    return 1;
}

#define FILL 0x5a5a5a5a5a5a5a5aull

/* The work area after a call that used it, or after a refusal up to 9. */
static int used(void)
{
    return same_words(0, WORDS, 0) && same_words(WORDS, LINE + 3, FILL);
}

static int line_used(void)
{
    return same_words(0, LINE, 0) && same_words(LINE, LINE + 3, FILL);
}

static int untouched(void)
{
    return same_words(0, LINE + 3, FILL);
}

static void holds(const char *row, int right)
{
    if (right)
        return;
    printf("%s: the output, the work area or the matrix is wrong\n", row);
    exit(1);
}

static void told(const char *row, howhiruke_answer a, uint64_t first, uint64_t second, uint64_t third)
{
    rows++;
    if (a.refusal || a.place || a.first != first || a.second != second || a.third != third)
        wrong(row, a);
}

static void worked(const char *row, howhiruke_answer a, uint64_t first)
{
    told(row, a, first, 0, 0);
    if (!used() || !kept(0))
        wrong(row, a);
}

/* The output is the roll r, and nothing behind it. */
static void wrote(const char *row, howhiruke_answer a, roll r)
{
    told(row, a, r.n, 0, 0);
    if (memcmp(out, r.b, r.n) || !kept(r.n))
        wrong(row, a);
}

/* The same of a product: second tells whether its factors anticommute. */
static void multiplied(const char *row, howhiruke_answer a, roll r, uint64_t anticommute)
{
    told(row, a, r.n, anticommute, 0);
    if (memcmp(out, r.b, r.n) || !kept(r.n))
        wrong(row, a);
}

static void listed(const char *row, howhiruke_answer a, roll r)
{
    wrote(row, a, r);
    if (!used())
        wrong(row, a);
}

/* A refusal leaves the output alone; `area` says what it leaves of the work area. */
static void refused_with(const char *row, howhiruke_answer a, uint64_t number, uint64_t place, int (*area)(void))
{
    rows++;
    if (a.refusal != number || a.place != place || a.first || a.second || a.third || !kept(0) || !area())
        wrong(row, a);
}

static void refused(const char *row, howhiruke_answer a, uint64_t number, uint64_t place)
{
    refused_with(row, a, number, place, number <= 9 || number == HOWHIRUKE_REFUSED_SUPPORT ? untouched : used);
}

#define ROLL(r) (r).b, (r).n
#define WORK work, WORDS + 3
#define OUT out, ROOM
#define CALL(f, ...) (lend(), howhiruke_##f(__VA_ARGS__))

static void marked(void)
{
    roll none = of(0, NULL);
    roll minus = LIST(MINUS_I), imaginary = LIST(I_I), y = LIST(Y), xz = LIST(XZ), both = LIST(X, Z), opposite = LIST(X, MINUS_X);
    listed("[] standard", CALL(standard_generators, ROLL(none), WORK, OUT), LIST(I));
    worked("[] phases", CALL(phases, ROLL(none), HOWHIRUKE_PROMISE_NONE, WORK), 1);
    listed("[-I] standard", CALL(standard_generators, ROLL(minus), WORK, OUT), minus);
    worked("[-I] phases", CALL(phases, ROLL(minus), HOWHIRUKE_PROMISE_NONE, WORK), 2);
    listed("[iI] standard", CALL(standard_generators, ROLL(imaginary), WORK, OUT), imaginary);
    worked("[iI] phases", CALL(phases, ROLL(imaginary), HOWHIRUKE_PROMISE_NONE, WORK), 4);
    worked("[Y] phases", CALL(phases, ROLL(y), HOWHIRUKE_PROMISE_NONE, WORK), 1);
    worked("[XZ] phases", CALL(phases, ROLL(xz), HOWHIRUKE_PROMISE_NONE, WORK), 2);
    worked("[X,Z] log2 size", CALL(log2_size, ROLL(both), HOWHIRUKE_PROMISE_NONE, WORK), 3);
    listed("[X,-X] standard", CALL(standard_generators, ROLL(opposite), WORK, OUT), LIST(X, MINUS_I));
    roll zx = LIST(Z, X);
    told("[Z,X] on XZ", CALL(indexed_factorization_of, ROLL(zx), ROLL(xz), 0, HOWHIRUKE_PROMISE_NONE, WORK, OUT), 1, 2, 2);
    holds("[Z,X] on XZ", !memcmp(out, "\0\0\1\0", 4) && kept(4) && used());
    roll x = LIST(X), minus_x = LIST(MINUS_X);
    worked("[X] and [-X]", CALL(partial_cmp, ROLL(x), ROLL(minus_x), 0, 0, WORK), HOWHIRUKE_ORDER_NONE);
    roll bell = LIST(XX, ZZ), xx = LIST(XX);
    listed("<XX,ZZ> modulo <XX>", CALL(modulo, ROLL(bell), ROLL(xx), 0, 0, WORK, OUT), LIST(I, ZZ));
    listed("<XX,ZZ> by <XX>", CALL(try_quotient, ROLL(bell), ROLL(xx), 0, 0, WORK, OUT), LIST(I, ZZ));
    roll three = LIST(X, Z, X1);
    listed("symplectic [X0,Z0,X1]", CALL(symplectic_form_of, ROLL(three), WORK, OUT), LIST(Z, X, X1));
}

static void others(void)
{
    roll bell = LIST(XX, ZZ), xx = LIST(XX), x = LIST(X), z = LIST(Z), x1 = LIST(X1);
    told("check", CALL(check_roll, ROLL(bell)), 2, 0, 0);
    worked("rank", CALL(rank, ROLL(bell), WORK), 2);
    worked("abelian", CALL(is_abelian, ROLL(bell), HOWHIRUKE_PROMISE_NONE, WORK), 1);
    worked("promised not abelian", CALL(is_abelian, ROLL(bell), HOWHIRUKE_PROMISE_NOT_ABELIAN, WORK), 0);
    worked("promise 3 is none", CALL(is_abelian, ROLL(bell), 3, WORK), 1);
    worked("stabilizer", CALL(is_stabilizer_group, ROLL(bell), HOWHIRUKE_PROMISE_ABELIAN, WORK), 1);
    worked("equal", CALL(partial_cmp, ROLL(bell), ROLL(bell), 0, 0, WORK), HOWHIRUKE_ORDER_EQUAL);
    worked("less", CALL(partial_cmp, ROLL(xx), ROLL(bell), 0, 0, WORK), HOWHIRUKE_ORDER_LESS);
    worked("greater", CALL(partial_cmp, ROLL(bell), ROLL(xx), 0, 0, WORK), HOWHIRUKE_ORDER_GREATER);
    told("not a member", CALL(indexed_factorization_of, ROLL(bell), ROLL(x), 0, HOWHIRUKE_PROMISE_NONE, WORK, OUT), 0, 0, 0);
    pauli minus_xz = {2, {0, E}, {0, E}};
    multiplied("Z times X", CALL(product, ROLL(z), 0, ROLL(x), 0, OUT), LIST(minus_xz), 1);
    pauli zz_xx = {0, {0, 1, E}, {0, 1, E}};
    multiplied("ZZ times XX", CALL(product, ROLL(bell), 1, ROLL(bell), 0, OUT), LIST(zz_xx), 0);
    wrote("join", CALL(join, ROLL(bell), ROLL(x1), OUT), LIST(XX, ZZ, X1));
    told("Z times X on one qubit", CALL(one_qubit_product, 4, 8), 14, 0, 0);
    told("X times Z on one qubit", CALL(one_qubit_product, 8, 4), 12, 0, 0);
    told("Y times -Y on one qubit", CALL(one_qubit_product, 13, 15), 2, 0, 0);
    refused("16 on one qubit", CALL(one_qubit_product, 16, 0), 8, 0);
    refused("and on the right", CALL(one_qubit_product, 15, 16), 8, 0);
    told("joined entry", CALL(joined_entry, ROLL(bell), ROLL(x1), 1), 0, 0, 2);
    told("joined body", CALL(joined_body, ROLL(bell), ROLL(x1), 1), 0, 30, 8);
    told("joined body of right", CALL(joined_body, ROLL(bell), ROLL(x1), 2), 1, 12, 4);
    listed("elements", CALL(elements, ROLL(xx), HOWHIRUKE_PROMISE_NONE, 0, 16, WORK, OUT), LIST(I, XX));
    listed("elements past the end", CALL(elements, ROLL(xx), HOWHIRUKE_PROMISE_NONE, 2, 0, WORK, OUT), of(0, NULL));
    uint64_t words[] = {3, 9, 1, 9, 7, 7, 5};
    told("echelon form", howhiruke_echelon_form(words, 7, 1, 2, 2), 1, 2, 0);
    uint64_t form[] = {1, 2, 2, 3, 0, 1, 5};
    holds("echelon form", !memcmp(words, form, sizeof form));
    told("misfit", howhiruke_echelon_form(words, 5, 1, 2, 2), 0, 0, 0);
    holds("misfit", !memcmp(words, form, sizeof form));
}

/* A result for each element. */
static void many_elements(void)
{
    pauli both = {0, {0, 1, E}, {0, 1, E}}, minus = {2, {0, 1, E}, {0, 1, E}};
    roll bell = LIST(XX, ZZ), elements = LIST(both, X, I, minus), none = of(0, NULL);
    uint8_t results[] = {1, 0, 2, 0, 0, 0, 1, 0, 0, 1, 0, 0, 0, 0};
    told("many", CALL(indexed_factorizations_of, ROLL(bell), ROLL(elements), 0, WORK, OUT), 4, sizeof results, 0);
    holds("many", !memcmp(out, results, sizeof results) && kept(sizeof results) && used());
    told("many, just room", CALL(indexed_factorizations_of, ROLL(bell), ROLL(elements), 0, WORK, out, sizeof results), 4, sizeof results, 0);
    refused("many 12", CALL(indexed_factorizations_of, ROLL(bell), ROLL(elements), 0, WORK, out, sizeof results - 1), 12, 0);
    refused("many 9", CALL(indexed_factorizations_of, ROLL(bell), ROLL(none), 0, work, WORDS - 1, OUT), 9, 0);
    refused("many 1", CALL(indexed_factorizations_of, ROLL(bell), elements.b, 1, 0, WORK, OUT), 1, 0);
    told("none of many", CALL(indexed_factorizations_of, ROLL(bell), ROLL(none), 0, WORK, out, 0), 0, 0, 0);
    holds("none of many", used());
}

/* What commutes with every Pauli of a list. */
static void centralizers(void)
{
    roll bell = LIST(XX, ZZ), none = of(0, NULL), imaginary = LIST(I_I);
    pauli x2 = {0, {2, E}, {E}}, z2 = {0, {E}, {2, E}};
    pauli x_last = {0, {HOWHIRUKE_HIGHEST_QUBIT, E}, {E}}, z_last = {0, {E}, {HOWHIRUKE_HIGHEST_QUBIT, E}};
    uint32_t named[64], further[] = {0, 2}, falling[] = {1, 0}, twice[] = {2, 2}, high[] = {0, 1, HOWHIRUKE_HIGHEST_QUBIT};
    for (uint32_t k = 0; k < 64; k++)
        named[k] = k;
    listed("centralizer of", CALL(centralizer_of, ROLL(bell), WORK, OUT), LIST(XX, ZZ, I_I));
    listed("centralizer of none", CALL(centralizer_of, ROLL(none), WORK, OUT), imaginary);
    listed("within the list's own", CALL(centralizer_within, ROLL(bell), named, 2, WORK, OUT), LIST(XX, ZZ, I_I));
    listed("within none", CALL(centralizer_within, ROLL(bell), named, 0, WORK, OUT), imaginary);
    listed("within a further one", CALL(centralizer_within, ROLL(bell), further, 2, WORK, OUT), LIST(x2, z2, I_I));
    listed("within the highest", CALL(centralizer_within, ROLL(bell), high, 3, WORK, OUT), LIST(XX, ZZ, x_last, z_last, I_I));
    told("within 63", CALL(centralizer_within, ROLL(bell), named, HOWHIRUKE_MOST_TOGETHER, WORK, OUT), 2 + 10 * 125 + 4 * 126, 0, 0);
    refused("within 64", CALL(centralizer_within, ROLL(bell), named, 64, WORK, OUT), 13, 0);
    refused("within falling", CALL(centralizer_within, ROLL(bell), falling, 2, WORK, OUT), 13, 0);
    refused("within twice", CALL(centralizer_within, ROLL(bell), twice, 2, WORK, OUT), 13, 0);
    refused("within, 13 before 9", CALL(centralizer_within, ROLL(bell), falling, 2, work, WORDS - 1, OUT), 13, 0);
    refused("centralizer 9", CALL(centralizer_of, ROLL(bell), work, WORDS - 1, OUT), 9, 0);
    refused("centralizer 12", CALL(centralizer_of, ROLL(none), WORK, out, imaginary.n - 1), 12, 0);
    refused("centralizer 1", CALL(centralizer_of, bell.b, 1, WORK, OUT), 1, 0);
}

/* The same of a line. */
static void lined(const char *row, howhiruke_answer a, roll r)
{
    wrote(row, a, r);
    if (!line_used())
        wrong(row, a);
}

#define TEXT(line) (const uint8_t *)line, sizeof line - 1
#define LINE_AREA work, LINE + 3
#define LINE_CALL(line, ...) CALL(combine, TEXT(line), __VA_ARGS__, LINE_AREA, OUT)
#define NOT_SENT out, 0

/* Lines that combine lists. */
static void lines(void)
{
    pauli fifth = {5, {0, E}, {E}}, fourth = {1, {0, E}, {E}};
    roll bell = LIST(XX, ZZ), xx = LIST(XX), zz = LIST(ZZ), x1 = LIST(X1), z = LIST(Z), raw = LIST(fifth), imaginary = LIST(fourth);
    static pauli many_zs[65];
    for (int k = 0; k < 65; k++)
        many_zs[k] = (pauli){0, {E}, {k, E}};
    roll half = of(65, many_zs);
    lined("A", LINE_CALL("A", ROLL(raw), NOT_SENT, NOT_SENT, NOT_SENT), imaginary);
    lined("A|B", LINE_CALL("A|B", ROLL(xx), ROLL(x1), NOT_SENT, NOT_SENT), LIST(XX, X1));
    lined("A&B", LINE_CALL("A&B", ROLL(bell), ROLL(xx), NOT_SENT, NOT_SENT), xx);
    lined("A/B", LINE_CALL("A/B", ROLL(bell), ROLL(xx), NOT_SENT, NOT_SENT), LIST(I, ZZ));
    lined("A|B&C/D", LINE_CALL("A|B&C/D", ROLL(x1), ROLL(bell), ROLL(bell), ROLL(xx)), LIST(X1, I, ZZ));
    lined("(A|B)&C", LINE_CALL("(A|B)&C", ROLL(xx), ROLL(zz), ROLL(zz), NOT_SENT), zz);
    lined("((((D))))", LINE_CALL("((((D))))", NOT_SENT, NOT_SENT, NOT_SENT, ROLL(z)), z);
    char open[257];
    memset(open, '(', sizeof open);
    for (size_t n = 256; n <= sizeof open; n++)
        refused_with("all open", CALL(combine, (const uint8_t *)open, n, ROLL(xx), ROLL(xx), ROLL(xx), ROLL(xx), LINE_AREA, OUT), 14, 0, untouched);
    for (size_t n = 1; n <= sizeof open; n++)
        open[n - 1] = n % 2 ? 'A' : '&';
    lined("255 bytes", CALL(combine, (const uint8_t *)open, 255, ROLL(xx), NOT_SENT, NOT_SENT, NOT_SENT, LINE_AREA, OUT), xx);
    refused_with("257 bytes", CALL(combine, (const uint8_t *)open, 257, ROLL(xx), NOT_SENT, NOT_SENT, NOT_SENT, LINE_AREA, OUT), 14, 0, untouched);
    refused_with("no line", LINE_CALL("", ROLL(xx), ROLL(xx), ROLL(xx), ROLL(xx)), 14, 0, untouched);
    refused_with("A|", LINE_CALL("A|", ROLL(xx), ROLL(xx), ROLL(xx), ROLL(xx)), 14, 0, untouched);
    refused_with("A B", LINE_CALL("A B", ROLL(xx), ROLL(xx), ROLL(xx), ROLL(xx)), 14, 0, untouched);
    refused_with("B not sent", LINE_CALL("A|B", ROLL(xx), NOT_SENT, ROLL(xx), ROLL(xx)), 14, 0, untouched);
    refused_with("five deep", LINE_CALL("(((((D)))))", NOT_SENT, NOT_SENT, NOT_SENT, ROLL(z)), HOWHIRUKE_REFUSED_DEPTH, 0, untouched);
    refused_with("14 before 15", LINE_CALL("(((((D)))))", ROLL(z), NOT_SENT, NOT_SENT, NOT_SENT), HOWHIRUKE_REFUSED_LINE, 0, untouched);
    refused_with("14 before 1", LINE_CALL("A|", xx.b, 1, NOT_SENT, NOT_SENT, NOT_SENT), 14, 0, untouched);
    refused_with("1 of a roll not named", LINE_CALL("A", ROLL(xx), xx.b, 1, NOT_SENT, NOT_SENT), 1, 0, untouched);
    refused_with("line 9", CALL(combine, TEXT("A"), ROLL(xx), NOT_SENT, NOT_SENT, NOT_SENT, work, LINE - 1, OUT), 9, 0, untouched);
    refused_with("line 1 before 9", CALL(combine, TEXT("A"), xx.b, 1, NOT_SENT, NOT_SENT, NOT_SENT, work, LINE - 1, OUT), 1, 0, untouched);
    refused_with("line 2", LINE_CALL("(A|A)&C/B", ROLL(half), ROLL(z), ROLL(xx), NOT_SENT), 2, 0, line_used);
    refused_with("line 11", LINE_CALL("C/B&(A|A)", ROLL(half), ROLL(z), ROLL(xx), NOT_SENT), 11, 0, line_used);
    refused_with("line 12", CALL(combine, TEXT("A"), ROLL(xx), NOT_SENT, NOT_SENT, NOT_SENT, LINE_AREA, out, xx.n - 1), 12, 0, line_used);
}

/* Claims of other programs. */
#define INDEXES(...) (const uint16_t[]){__VA_ARGS__}, sizeof((uint16_t[]){__VA_ARGS__}) / sizeof(uint16_t)

static void claims(void)
{
    pauli minus_yy = {0, {0, 1, E}, {0, 1, E}}, yy = {2, {0, 1, E}, {0, 1, E}};
    roll bell = LIST(XX, ZZ), elements = LIST(minus_yy, yy, Z), three = LIST(XX, ZZ, minus_yy), witnesses = LIST(ZZ, X, XX);
    worked("claim", CALL(accepts_membership, ROLL(bell), ROLL(elements), 0, INDEXES(0, 1), 0, 0, WORK), 1);
    worked("claim of another sign", CALL(accepts_membership, ROLL(bell), ROLL(elements), 1, INDEXES(0, 1), 0, 0, WORK), 0);
    worked("claim of a power not in the group", CALL(accepts_membership, ROLL(bell), ROLL(elements), 1, INDEXES(0, 1), 2, 0, WORK), 0);
    worked("claim, other indexes", CALL(accepts_membership, ROLL(three), ROLL(elements), 0, INDEXES(2), 0, 0, WORK), 1);
    worked("claim of no index", CALL(accepts_membership, ROLL(bell), ROLL(bell), 0, (const uint16_t[1]){0}, 0, 0, 0, WORK), 0);
    refused("claim 8", CALL(accepts_membership, ROLL(bell), ROLL(elements), 3, INDEXES(1, 0), 4, 0, WORK), 8, 0);
    refused_with("claim 16, twice", CALL(accepts_membership, ROLL(bell), ROLL(elements), 0, INDEXES(0, 0), 0, 0, work, WORDS - 1), 16, 0, untouched);
    refused_with("claim 16, past", CALL(accepts_membership, ROLL(bell), ROLL(elements), 0, INDEXES(0, 2), 0, 0, WORK), 16, 0, untouched);
    refused_with("claim 16, exponent", CALL(accepts_membership, ROLL(bell), ROLL(elements), 0, INDEXES(0, 1), 4, 0, WORK), HOWHIRUKE_REFUSED_CLAIM, 0, untouched);
    refused("claim 9", CALL(accepts_membership, ROLL(bell), ROLL(elements), 0, INDEXES(0, 1), 0, 0, work, WORDS - 1), 9, 0);
    told("absence", CALL(accepts_absence, ROLL(bell), ROLL(elements), 2, ROLL(witnesses), 2), 1, 0, 0);
    told("absence, clash with a check", CALL(accepts_absence, ROLL(bell), ROLL(elements), 2, ROLL(witnesses), 1), 0, 0, 0);
    told("absence, no clash", CALL(accepts_absence, ROLL(bell), ROLL(elements), 2, ROLL(witnesses), 0), 0, 0, 0);
    told("absence of a wrong sign", CALL(accepts_absence, ROLL(bell), ROLL(elements), 1, ROLL(witnesses), 2), 0, 0, 0);
    refused("absence 1 before 8", CALL(accepts_absence, ROLL(bell), ROLL(elements), 3, witnesses.b, 1, 0), 1, 0);
    refused("absence 8", CALL(accepts_absence, ROLL(bell), ROLL(elements), 3, ROLL(witnesses), 0), 8, 0);
    refused("absence 8 of the witness", CALL(accepts_absence, ROLL(bell), ROLL(elements), 2, ROLL(witnesses), 3), 8, 0);
}

/* A window of the last checks. */
static void windows(void)
{
    static howhiruke_window window, before;
    roll x = LIST(X), z = LIST(Z), xx = LIST(XX), two = LIST(X, Z), none = of(0, NULL);
    memset(&window, 0x33, sizeof window);
    before = window;
    refused_with("window 17", CALL(window_make, &window, 0), HOWHIRUKE_REFUSED_WIDTH, 0, untouched);
    refused_with("window 17, wide", CALL(window_make, &window, HOWHIRUKE_WIDEST_WINDOW + 1), 17, 0, untouched);
    holds("window 17", !memcmp(&window, &before, sizeof window));
    told("window", CALL(window_make, &window, 2), 0, 0, 0);
    worked("rank of no checks", CALL(window_rank, &window, WORK), 0);
    listed("generators of no checks", CALL(window_standard_generators, &window, WORK, OUT), LIST(I));
    told("sent", CALL(window_send, &window, ROLL(x)), 0, 0, 0);
    told("sent", CALL(window_send, &window, ROLL(z)), 0, 0, 0);
    worked("rank of two checks", CALL(window_rank, &window, WORK), 2);
    worked("phases of two checks", CALL(window_phases, &window, WORK), 2);
    before = window;
    refused_with("window 18", CALL(window_send, &window, ROLL(two)), HOWHIRUKE_REFUSED_CHECKS, 0, untouched);
    refused_with("window 18, none", CALL(window_send, &window, ROLL(none)), 18, 0, untouched);
    refused_with("window 1", CALL(window_send, &window, two.b, two.n - 1), 1, 0, untouched);
    holds("window 18", !memcmp(&window, &before, sizeof window));
    told("sent, the oldest leaves", CALL(window_send, &window, ROLL(xx)), 0, 0, 0);
    listed("generators of the last checks", CALL(window_standard_generators, &window, WORK, OUT), LIST(XX, Z));
    told("no member any more", CALL(window_indexed_factorization_of, &window, ROLL(x), 0, WORK, OUT), 0, 0, 0);
    told("member", CALL(window_indexed_factorization_of, &window, ROLL(z), 0, WORK, OUT), 1, 1, 0);
    refused("window 8", CALL(window_indexed_factorization_of, &window, ROLL(z), 1, WORK, OUT), 8, 0);
    refused("window 9", CALL(window_rank, &window, work, WORDS - 1), 9, 0);
    refused("window 12", CALL(window_standard_generators, &window, WORK, out, 10), 12, 0);
    static const uint8_t names[9][8] = {"a", "b", "c", "d", "e", "f", "g", "1234567", {'1', '2', '3', '4', '5', '6', '7', '8'}};
    told("window again", CALL(window_make, &window, 2), 0, 0, 0);
    told("round 0", CALL(window_round, &window), 0, 0, 0);
    told("sent", CALL(window_send, &window, ROLL(x)), 0, 0, 0);
    for (int k = 0; k < 8; k++)
        told("saved", CALL(window_save, &window, names[k]), 0, 0, 0);
    told("sent", CALL(window_send, &window, ROLL(z)), 0, 0, 0);
    told("round 2", CALL(window_round, &window), 2, 0, 0);
    before = window;
    refused_with("window 20", CALL(window_save, &window, names[8]), HOWHIRUKE_REFUSED_MARKS, 0, untouched);
    refused_with("window 19", CALL(window_return, &window, names[8]), HOWHIRUKE_REFUSED_MARK, 0, untouched);
    refused_with("window 19, delete", CALL(window_delete, &window, names[8]), 19, 0, untouched);
    holds("window 19, 20", !memcmp(&window, &before, sizeof window));
    told("saved again", CALL(window_save, &window, names[7]), 0, 0, 0);
    told("returned", CALL(window_return, &window, names[0]), 0, 0, 0);
    told("round 1", CALL(window_round, &window), 1, 0, 0);
    worked("rank at the mark", CALL(window_rank, &window, WORK), 1);
    told("returned to a later mark", CALL(window_return, &window, names[7]), 0, 0, 0);
    worked("rank at the later mark", CALL(window_rank, &window, WORK), 2);
    told("deleted", CALL(window_delete, &window, names[0]), 0, 0, 0);
    refused_with("no mark any more", CALL(window_return, &window, names[0]), 19, 0, untouched);
    told("saved in its place", CALL(window_save, &window, names[8]), 0, 0, 0);
    memset(&window, 0xff, sizeof window);
    refused_with("forged window", CALL(window_send, &window, ROLL(x)), 2, 0, untouched);
}

/* What is told before the work. */
static void sizes(void)
{
    roll bell = LIST(XX, ZZ), x1 = LIST(X1), none = of(0, NULL);
    told("joined sizes", CALL(joined_sizes, ROLL(bell), ROLL(x1)), 52, 3, 2);
    refused("joined sizes 1", CALL(joined_sizes, ROLL(bell), x1.b, 1), 1, 0);
    told("bound of none", CALL(standard_bound, ROLL(none)), 12, 0, 0);
    told("bound", CALL(standard_bound, ROLL(bell)), 54, 0, 0);
    refused("bound 1", CALL(standard_bound, bell.b, 1), 1, 0);
    worked("page", CALL(page_size, ROLL(bell), HOWHIRUKE_PROMISE_NONE, 1, 16, WORK), 3);
    worked("page past the end", CALL(page_size, ROLL(bell), HOWHIRUKE_PROMISE_NONE, 4, 16, WORK), 0);
    worked("page of two", CALL(page_size, ROLL(bell), HOWHIRUKE_PROMISE_NONE, 1, 2, WORK), 2);
    refused("page 9", CALL(page_size, ROLL(bell), HOWHIRUKE_PROMISE_NONE, 1, 2, work, WORDS - 1), 9, 0);
}

/* The common part, and the closing example. */
static void common_and_report(void)
{
    roll bell = LIST(XX, ZZ), xx = LIST(XX), x = LIST(X), z = LIST(Z);
    listed("common part of one inside", CALL(bitand, ROLL(bell), ROLL(xx), 0, 0, WORK, OUT), LIST(XX));
    listed("common part of two apart", CALL(bitand, ROLL(x), ROLL(z), 0, 0, WORK, OUT), LIST(I));
    pauli minus_x1 = {2, {1, E}, {E}};
    roll crew = LIST(X, X1), other = LIST(MINUS_X, minus_x1);
    listed("common part of two crews", CALL(bitand, ROLL(crew), ROLL(other), 0, 0, WORK, OUT), xx);
    listed("common part, promises", CALL(bitand, ROLL(crew), ROLL(other), 2, 1, WORK, OUT), xx);
    pauli both = {0, {0, 1, E}, {0, 1, E}}, minus = {2, {0, 1, E}, {0, 1, E}}, outside = {0, {E}, {2, E}};
    roll elements = LIST(both, minus, outside);
    const char *text = "rank 2 phases 0 abelian yes\n0 member 0 1 phase 0\n1 not member\n2 not member\n";
    uint8_t input[4 + sizeof bell.b + sizeof elements.b] = {(uint8_t)bell.n};
    memcpy(input + 4, bell.b, bell.n);
    memcpy(input + 4 + bell.n, elements.b, elements.n);
    told("closing example", CALL(closing_report, input, 4 + bell.n + elements.n, WORK, OUT), strlen(text), 0, 0);
    holds("closing example", !memcmp(out, text, strlen(text)) && kept(strlen(text)) && used());
    told("closing refusal", CALL(closing_report, input, 3, WORK, OUT), 25, 0, 0);
    holds("closing refusal", !memcmp(out, "refused 1 at 0 in roll 1\n", 25) && kept(25) && used());
    refused("closing 9", CALL(closing_report, input, 4 + bell.n + elements.n, work, WORDS - 1, OUT), 9, 0);
    refused("closing 9 before the input's refusal", CALL(closing_report, input, 3, work, WORDS - 1, OUT), 9, 0);
    refused("closing 12", CALL(closing_report, input, 4 + bell.n + elements.n, WORK, out, strlen(text) - 1), 12, 0);
    refused("closing 12 for a refusal's line", CALL(closing_report, input, 3, WORK, out, 24), 12, 0);
}

static void refusals(void)
{
    roll bell = LIST(XX, ZZ), x = LIST(X), z = LIST(Z), xx = LIST(XX);
    pauli over_16_bits = {0, {65535, 65536, HOWHIRUKE_HIGHEST_QUBIT, E}, {E}}, falling = {0, {1, 0, E}, {E}};
    refused("1", CALL(rank, bell.b, bell.n - 1, WORK), HOWHIRUKE_REFUSED_LENGTH, 0);
    roll changed = bell;
    changed.b[12] = 2;
    refused("3", CALL(rank, ROLL(changed), WORK), 3, 1);
    changed.b[12] = 0;
    refused("4", CALL(check_roll, ROLL(changed)), 4, 1);
    roll sixth = LIST(X, Z, falling), wrapped = LIST(X, {0, {HOWHIRUKE_HIGHEST_QUBIT, 0, E}, {E}}), wide = LIST(X, over_16_bits);
    refused("6", CALL(rank, ROLL(sixth), WORK), 6, 2);
    refused("6 after the highest number", CALL(rank, ROLL(wrapped), WORK), 6, 1);
    listed("no 5", CALL(standard_generators, ROLL(wide), WORK, OUT), wide);
    refused("8", CALL(indexed_factorization_of, ROLL(bell), ROLL(x), 1, 0, WORK, OUT), 8, 0);
    refused("8 joined", CALL(joined_entry, ROLL(bell), ROLL(x), 3), 8, 0);
    refused("8 body", CALL(joined_body, ROLL(bell), ROLL(x), 3), 8, 0);
    refused("9", CALL(rank, ROLL(bell), work, WORDS - 1), 9, 0);
    refused("11", CALL(try_quotient, ROLL(xx), ROLL(z), 0, 0, WORK, OUT), 11, 0);
    refused("12", CALL(standard_generators, ROLL(bell), WORK, out, 37), 12, 0);
}

/* 128 and 129 Paulis, 129 qubits, rank 16 and 17. */
static void edges(void)
{
    static pauli ps[129];
    for (int k = 0; k < 43; k++)
        ps[k] = (pauli){0, {3 * k, 3 * k + 1, 3 * k + 2, E}, {E}};
    roll wide = of(43, ps);
    refused("129 qubits", CALL(rank, ROLL(wide), WORK), 7, 0);
    for (int k = 0; k < 129; k++)
        ps[k] = (pauli){0, {E}, {k, E}};
    roll most = of(128, ps), over = of(129, ps), one = of(1, ps + 128), listable = of(16, ps), larger = of(17, ps);
    worked("128 Paulis", CALL(rank, ROLL(most), WORK), 128);
    refused("129 Paulis", CALL(rank, ROLL(over), WORK), 2, 0);
    refused("129 joined", CALL(join, ROLL(most), ROLL(one), OUT), 2, 0);
    refused("129 qubits joined", CALL(product, ROLL(most), 0, ROLL(one), 0, OUT), 7, 0);
    lend();
    howhiruke_answer a = howhiruke_elements(ROLL(listable), 0, 65535, 1, WORK, OUT);
    told("rank 16", a, 2 + 10 + 4 * 16, 0, 0);
    refused("rank 17", CALL(elements, ROLL(larger), 0, 0, 1, WORK, OUT), 10, 0);
    roll seven = of(7, ps);
    worked("page of 16", CALL(page_size, ROLL(seven), 0, 0, 16, WORK), 16);
    worked("page of count 0", CALL(page_size, ROLL(seven), 0, 0, 0, WORK), HOWHIRUKE_DEFAULT_PAGE);
    worked("page of count 0, the rest", CALL(page_size, ROLL(seven), 0, 100, 0, WORK), 28);
    worked("page above 128", CALL(page_size, ROLL(seven), 0, 0, 129, WORK), HOWHIRUKE_LARGEST_PAGE);
    lend();
    a = howhiruke_elements(ROLL(seven), 0, 0, 0, WORK, OUT);
    holds("elements of count 0", !a.refusal && out[0] == 64 && out[1] == 0 && kept(a.first) && used());
    worked("page of rank 16", CALL(page_size, ROLL(listable), 0, 65535, 2, WORK), 1);
    refused("page of rank 17", CALL(page_size, ROLL(larger), 0, 0, 1, WORK), 10, 0);
}

/* Slices of no bytes and no words. */
static void nothing(void)
{
    roll none = of(0, NULL), identity = LIST(I), x = LIST(X);
    refused("no bytes", CALL(check_roll, x.b, 0), 1, 0);
    refused("no words", CALL(rank, ROLL(x), work, 0), 9, 0);
    refused("no output", CALL(standard_generators, ROLL(none), WORK, out, 0), 12, 0);
    refused_with("no output, no area", CALL(join, ROLL(none), ROLL(none), out, 0), 12, 0, untouched);
    told("no indexes", CALL(indexed_factorization_of, ROLL(none), ROLL(identity), 0, 0, WORK, out, 0), 1, 0, 0);
    told("no member", CALL(indexed_factorization_of, ROLL(none), ROLL(x), 0, 0, WORK, out, 0), 0, 0, 0);
    told("no matrix", howhiruke_echelon_form(work, 0, 0, 0, 0), 1, 0, 0);
}

/* The longest roll, which the empty list joined with it writes again, and the longest product. */
static void longest(void)
{
    static uint8_t b[HOWHIRUKE_LARGEST_ROLL];
    roll none = of(0, NULL), entry, number;
    size_t at = 2;
    b[0] = HOWHIRUKE_MOST_PAULIS;
    for (unsigned k = 0; k < HOWHIRUKE_MOST_PAULIS; k++, at += 10) {
        entry.n = 0;
        put(&entry, 1, 2);
        put(&entry, 256 * k, 4);
        put(&entry, 128, 2);
        put(&entry, 128, 2);
        memcpy(b + at, entry.b, 10);
    }
    for (unsigned k = 0; k < 256 * HOWHIRUKE_MOST_PAULIS; k++, at += 4) {
        number.n = 0;
        put(&number, HOWHIRUKE_HIGHEST_QUBIT - 127 + k % 128, 4);
        memcpy(b + at, number.b, 4);
    }
    told("longest roll", CALL(check_roll, b, sizeof b), HOWHIRUKE_MOST_PAULIS, 0, 0);
    refused_with("longest, short", CALL(join, ROLL(none), b, sizeof b, out, sizeof b - 1), 12, 0, untouched);
    told("longest joined", CALL(join, ROLL(none), b, sizeof b, OUT), sizeof b, 0, 0);
    holds("longest joined", !memcmp(out, b, sizeof b) && kept(sizeof b));
    roll identity = LIST(I);
    told("longest product", CALL(product, b, sizeof b, 0, ROLL(identity), 0, OUT), HOWHIRUKE_LARGEST_PRODUCT, 0, 0);
}

int main(void)
{
    marked();
    others();
    many_elements();
    centralizers();
    lines();
    claims();
    windows();
    sizes();
    common_and_report();
    refusals();
    edges();
    nothing();
    longest();
    printf("C: %d rows equal\n", rows);
    return 0;
}
