// The compiled numbers layer against the paper's rules written out again in C, bit for bit. Prints the closing line that the gate adds up.
#include <math.h>
#include <stddef.h>
#include <stdint.h>
#include <stdio.h>
#include <string.h>

_Bool numbers_all_within(const int64_t *xs, size_t count, int64_t most);
uint64_t numbers_nearest_quotient(uint64_t a, uint64_t b);
int64_t numbers_toward_zero(int64_t a, int64_t b);
double numbers_to_double(int64_t x);
_Bool numbers_nearest(double x, int64_t *whole);
_Bool numbers_solve(double (*a)[32], const double *rights, size_t n, double *x);

static long passed, failed;

static void held(int good, const char *what) {
    if (good) {
        passed++;
    } else if (failed++ < 10) {
        printf("differs: %s\n", what);
    }
}

// Numbers that are the same in every run.
static uint64_t seed = 88172645463325252u;

static uint64_t any(void) {
    seed ^= seed << 13;
    seed ^= seed >> 7;
    seed ^= seed << 17;
    return seed;
}

// A number of every size, small ones as often as large ones.
static uint64_t sized(void) { return any() >> (any() % 64); }

static double of_bits(uint64_t b) {
    double x;
    memcpy(&x, &b, sizeof x);
    return x;
}

static uint64_t bits(double x) {
    uint64_t b;
    memcpy(&b, &x, sizeof b);
    return b;
}

// Bit for bit, but that there is one not-a-number.
static int alike(double x, double y) { return (isnan(x) && isnan(y)) || bits(x) == bits(y); }

// ---- whole numbers

static void words(void) {
    static int64_t xs[80];
    const int64_t ends[] = {0, 1, 20000000, 100000000000000000, 140000000000000000, INT64_MAX - 1, INT64_MAX};
    for (int k = 0; k < 3000; k++) {
        int64_t most = k % 3 == 0 ? (int64_t)(sized() >> 1) : ends[any() % 7];
        size_t count = any() % 80;
        int good = 1;
        for (size_t i = 0; i < count; i++) {
            switch (any() % 60) {
            case 0: xs[i] = most; break;
            case 1: xs[i] = -most; break;
            case 2: xs[i] = most < INT64_MAX ? most + 1 : most; break;
            case 3: xs[i] = -most - 1; break;
            case 4: xs[i] = INT64_MIN; break;
            default: xs[i] = most ? (int64_t)(any() % (uint64_t)most) * (any() % 2 ? 1 : -1) : 0;
            }
            __int128 x = xs[i];
            good &= -(__int128)most <= x && x <= most;
        }
        held(numbers_all_within(xs, count, most) == good, "all_within");
    }
    held(!numbers_all_within(xs, 0, -1), "all_within of a negative end");
}

static void quotients(void) {
    for (int k = 0; k < 4000; k++) {
        uint64_t a = sized(), b = sized();
        uint64_t is = b ? (uint64_t)((2 * (unsigned __int128)a + b) / (2 * (unsigned __int128)b)) : 0;
        held(numbers_nearest_quotient(a, b) == is, "nearest_quotient");
        int64_t x = (int64_t)sized(), y = (int64_t)sized();
        held(numbers_toward_zero(x, y) == (y > 0 ? x / y : 0), "toward_zero");
    }
    held(numbers_toward_zero(INT64_MIN, 1) == INT64_MIN, "toward_zero of the least");
}

// ---- doubles

static void doubles(void) {
    for (int k = 0; k < 6000; k++) {
        int64_t x = (int64_t)sized() * (any() % 2 ? 1 : -1);
        if (k % 4 == 0) x = (int64_t)(((uint64_t)x & ~0xfffull) | 0x400);  // near a half of the last place
        held(bits(numbers_to_double(x)) == bits((double)x), "to_double");
    }
    const int64_t at[] = {0, 1, -1, INT64_MIN, INT64_MIN + 1, INT64_MAX, 1ll << 53, (1ll << 53) + 1, -(1ll << 53) - 1, 4294967295, 4294967296, -4294967296};
    for (size_t k = 0; k < sizeof at / sizeof *at; k++) held(bits(numbers_to_double(at[k])) == bits((double)at[k]), "to_double at an end");
}

static void rounding(double x) {
    int64_t whole = -77;
    _Bool is = x >= -20000000.0 && x <= 20000000.0;
    _Bool told = numbers_nearest(x, &whole);
    held(told == is && whole == (is ? llround(x) : -77), "nearest");
}

static void roundings(void) {
    for (int k = 0; k < 4000; k++) {
        double half = (double)(int64_t)(any() % 40000001) - 20000000.0 + 0.5;
        rounding(half);
        rounding(nextafter(half, -1e9));
        rounding(nextafter(half, 1e9));
        rounding(of_bits(any()));
        rounding(((double)any() - 9223372036854775808.0) / 400000000000.0);
    }
    const double at[] = {0.0, -0.0, 0.5, -0.5, 0.49999999999999994, -0.49999999999999994, 20000000.0, -20000000.0, 20000000.3, INFINITY, -INFINITY, NAN, 5e-324, -5e-324};
    for (size_t k = 0; k < sizeof at / sizeof *at; k++) {
        rounding(at[k]);
        rounding(nextafter(at[k], INFINITY));
        rounding(nextafter(at[k], -INFINITY));
    }
}

// ---- systems

// The paper's elimination over a table of n rows and n + 1 columns, the right side last.
static void by_the_paper(size_t n, double t[32][33], double *x) {
    for (size_t p = 0; p < n; p++) {
        for (size_t q = p + 1; q < n; q++) {
            double f = t[q][p] / t[p][p];
            for (size_t c = p + 1; c < n; c++) t[q][c] -= f * t[p][c];
            t[q][32] -= f * t[p][32];
        }
    }
    for (size_t k = n; k-- > 0;) {
        double left = t[k][32];
        for (size_t c = k + 1; c < n; c++) left -= t[k][c] * x[c];
        x[k] = left / t[k][k];
    }
}

// Conductances of a network, or of one whose sums nearly cancel, or any bits at all.
static double conductance(int kind) {
    switch (kind) {
    case 0: return (double)(any() % 1000000000 + 1);
    case 1: return any() % 4 ? 0.0 : (double)((any() % 1000000000 + 1) >> (any() % 30));
    case 2: return any() % 3 ? 1.0 : 1e9;
    default: return of_bits(any());
    }
}

static void system_of(size_t n, int kind) {
    static double a[32][32], kept[32][32], rights[32], x[32], y[32], t[32][33];
    for (size_t r = 0; r < 32; r++) {
        for (size_t c = 0; c < 32; c++) a[r][c] = of_bits(any());  // what stands outside the system is not read
        x[r] = of_bits(any());
        y[r] = rights[r] = of_bits(any());  // past its n rows, x has the right sides as they are
    }
    for (size_t r = 0; r < n; r++) a[r][r] = kind == 2 ? 0.0 : conductance(kind);
    for (size_t r = 0; r < n; r++) {
        for (size_t c = r + 1; c < n; c++) {
            double g = conductance(kind);
            a[r][c] = a[c][r] = kind == 3 ? g : -g;
            if (kind != 3) a[r][r] += g, a[c][c] += g;
        }
    }
    if (kind == 4) {  // Hilbert's matrix: badly conditioned from a dozen rows on
        for (size_t r = 0; r < n; r++)
            for (size_t c = 0; c < n; c++) a[r][c] = 1.0 / (double)(r + c + 1);
    }
    if (kind == 2 && n) a[n - 1][n - 1] += 1.0;  // the only way to ground
    for (size_t r = 0; r < n; r++) {
        rights[r] = kind == 3 ? of_bits(any()) : (double)(int64_t)(any() % 2000000000000001ull) * (any() % 2 ? 1.0 : -1.0);
        memcpy(t[r], a[r], sizeof a[r]);
        t[r][32] = rights[r];
    }
    memcpy(kept, a, sizeof a);
    by_the_paper(n, t, y);
    int good = numbers_solve(a, rights, n, x) && memcmp(kept, a, sizeof a) == 0;
    for (size_t r = 0; r < 32; r++) good &= alike(x[r], y[r]);
    held(good, "solve");
}

static void systems(void) {
    for (size_t k = 0; k < 8000; k++) system_of(1 + k % 32, (int)(k / 32 % 5));
    static double a[32][32], side[32] = {7.0}, x[32] = {5.0};
    held(!numbers_solve(a, side, 33, x) && x[0] == 5.0, "a system of 33 rows");
    held(numbers_solve(a, side, 0, x) && x[0] == 7.0, "a system of no rows");
}

int main(void) {
    words();
    quotients();
    doubles();
    roundings();
    systems();
    printf("%ld passed, %ld failed\n", passed, failed);
    return failed != 0;
}
