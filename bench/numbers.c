// Runs the compiled numbers layer and the same loops in C (loops.c) on the same hundred inputs; both must have the same results. With the name of one function only that
// one is run, with any other word none, for the count.
#include <stddef.h>
#include <stdint.h>
#include <stdio.h>
#include <string.h>

_Bool numbers_solve(double (*a)[32], const double *rights, size_t n, double *x);
_Bool numbers_all_within(const int64_t *xs, size_t count, int64_t most);

_Bool c_solve(double (*a)[32], const double *rights, size_t n, double *x);
_Bool c_all_within(const int64_t *xs, size_t count, int64_t most);

static uint64_t seed = 88172645463325252u;

static uint64_t any(void) {
    seed ^= seed << 13;
    seed ^= seed >> 7;
    seed ^= seed << 17;
    return seed;
}

static int asked(const char *only, const char *name) { return !only || !strcmp(only, name); }

int main(int count, char **arguments) {
    const char *only = count > 1 ? arguments[1] : NULL;
    const int solve = asked(only, "numbers_solve"), solve_in_c = asked(only, "c_solve"), within = asked(only, "numbers_all_within"), within_in_c = asked(only, "c_all_within");
    static double a[32][32], rights[32], x[32], y[32];
    static int64_t words[9728];
    for (int k = 0; k < 100; k++) {
        for (int r = 0; r < 32; r++) a[r][r] = (double)(any() % 1000000000 + 1);
        for (int r = 0; r < 32; r++) {
            for (int c = r + 1; c < 32; c++) {
                double g = (double)(any() % 1000000000);
                a[r][c] = a[c][r] = -g;
                a[r][r] += g;
                a[c][c] += g;
            }
        }
        for (int r = 0; r < 32; r++) rights[r] = (double)(any() % 2000000000000000);
        if (solve) numbers_solve(a, rights, 32, x);
        if (solve_in_c) c_solve(a, rights, 32, y);
        if (!only && memcmp(x, y, sizeof x)) return 1;
        for (int i = 0; i < 9728; i++) words[i] = (int64_t)(any() % 100000000000000000);
        _Bool ours = within && numbers_all_within(words, 9728, 100000000000000000), theirs = within_in_c && c_all_within(words, 9728, 100000000000000000);
        if (!only && ours != theirs) return 1;
    }
    return 0;
}
