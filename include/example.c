/* Rank of the list XX, ZZ on qubits 0 and 1, whether (0,{0,1},{0,1}) and (2,{0,1},{0,1}) are in its group, and the answer for a member
 * checked as a claim. */
#include <stdio.h>
#include "howhiruke.h"

/* count 2; entries: given 1, exponent, start, x count, z count; then the qubit numbers */
static const uint8_t generators[] = {
    2, 0,
    1, 0, 0, 0, 0, 0, 2, 0, 0, 0,
    1, 0, 2, 0, 0, 0, 0, 0, 2, 0,
    0, 0, 0, 0, 1, 0, 0, 0,
    0, 0, 0, 0, 1, 0, 0, 0,
};

static const uint8_t elements[] = {
    2, 0,
    1, 0, 0, 0, 0, 0, 2, 0, 2, 0,
    1, 2, 4, 0, 0, 0, 2, 0, 2, 0,
    0, 0, 0, 0, 1, 0, 0, 0, 0, 0, 0, 0, 1, 0, 0, 0,
    0, 0, 0, 0, 1, 0, 0, 0, 0, 0, 0, 0, 1, 0, 0, 0,
};

static uint64_t work[HOWHIRUKE_WORK_WORDS];

static int refused(howhiruke_answer a)
{
    if (a.refusal == 0)
        return 0;
    printf("refused %llu at %llu\n", (unsigned long long)a.refusal, (unsigned long long)a.place);
    return 1;
}

int main(void)
{
    uint8_t out[256];
    howhiruke_answer a = howhiruke_rank(generators, sizeof generators, work, HOWHIRUKE_WORK_WORDS);
    if (refused(a))
        return 1;
    printf("rank %llu\n", (unsigned long long)a.first);
    for (size_t number = 0; number < 2; number++) {
        a = howhiruke_indexed_factorization_of(generators, sizeof generators, elements, sizeof elements, number,
                                               HOWHIRUKE_PROMISE_NONE, work, HOWHIRUKE_WORK_WORDS, out, sizeof out);
        if (refused(a))
            return 1;
        if (a.first == 0) {
            printf("%zu not member\n", number);
            continue;
        }
        printf("%zu member", number);
        uint16_t indexes[128];
        for (uint64_t k = 0; k < a.second; k++) {
            indexes[k] = (uint16_t)(out[2 * k] + 256 * out[2 * k + 1]);
            printf(" %d", indexes[k]);
        }
        printf(" phase %llu\n", (unsigned long long)a.third);
        a = howhiruke_accepts_membership(generators, sizeof generators, elements, sizeof elements, number, indexes, a.second,
                                         (uint32_t)a.third, HOWHIRUKE_PROMISE_NONE, work, HOWHIRUKE_WORK_WORDS);
        if (refused(a))
            return 1;
        printf("%zu claim %s\n", number, a.first ? "accepted" : "not accepted");
    }
    return 0;
}
