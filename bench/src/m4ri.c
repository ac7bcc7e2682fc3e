/* The few calls of M4RI that the driver makes. Bit c of a row is bit c % 64 of word c / 64, as in the other library. */
#include <m4ri/m4ri.h>
#include <stddef.h>
#include <stdint.h>

mzd_t *bench_m4ri_new(int rows, int cols) { return mzd_init(rows, cols); }

void bench_m4ri_free(mzd_t *matrix) { mzd_free(matrix); }

void bench_m4ri_fill(mzd_t *matrix, const uint64_t *words) {
    for (rci_t r = 0; r < matrix->nrows; r++)
        for (wi_t w = 0; w < matrix->width; w++)
            matrix->rows[r][w] = words[(size_t)r * matrix->width + w];
}

void bench_m4ri_read(const mzd_t *matrix, uint64_t *words) {
    for (rci_t r = 0; r < matrix->nrows; r++)
        for (wi_t w = 0; w < matrix->width; w++)
            words[(size_t)r * matrix->width + w] = matrix->rows[r][w];
}

/* Copies from into work and reduces it by one of M4RI's four ways; the rank. */
int bench_m4ri_reduce(mzd_t *work, const mzd_t *from, int way) {
    mzd_copy(work, from);
    switch (way) {
    case 0: return mzd_echelonize_m4ri(work, 1, 0);
    case 1: return mzd_echelonize_pluq(work, 1);
    case 2: return mzd_echelonize(work, 1);
    default: return mzd_gauss_delayed(work, 0, 1);
    }
}
