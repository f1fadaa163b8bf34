// The numbers layer's loops in C: the measure that the compiled Rattle is held beside.
#include <stddef.h>
#include <stdint.h>

_Bool c_solve(double (*from)[32], const double *rights, size_t n, double *x) {
    double a[32][32];
    for (size_t r = 0; r < 32; r++) {
        for (size_t c = 0; c < 32; c++) a[r][c] = from[r][c];
        x[r] = rights[r];
    }
    for (size_t p = 0; p < n; p++) {
        for (size_t q = p + 1; q < n; q++) {
            double f = a[q][p] / a[p][p];
            for (size_t c = p + 1; c < n; c++) a[q][c] = a[q][c] - f * a[p][c];
            a[q][p] = f;
        }
    }
    for (size_t q = 0; q < n; q++) {
        double t = x[q];
        for (size_t c = 0; c < q; c++) t = t - a[q][c] * x[c];
        x[q] = t;
    }
    for (size_t p = n; p-- > 0;) {
        double t = x[p];
        for (size_t c = p + 1; c < n; c++) t = t - a[p][c] * x[c];
        x[p] = t / a[p][p];
    }
    return 1;
}

_Bool c_all_within(const int64_t *xs, size_t count, int64_t most) {
    _Bool all = 1;
    for (size_t i = 0; i < count; i++) all &= -most <= xs[i] && xs[i] <= most;
    return all;
}
