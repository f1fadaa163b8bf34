// A plain C reader of the same rules, from a study text to a network record: written as one would who wants it fast and proves nothing. bench/reading.sh counts
// emt_read beside it, and bench/reading.c holds the two to the same answers.
#include <stdint.h>
#include <string.h>

#define WORDS 1024
#define HELD INT64_C(10000000000000000)

static const struct {
    const char *word;
    int length, fields, names;
    int64_t low[5], high[5];
} kinds[10] = {
    {"study", 5, 3, 0, {1, 1, 0}, {1000000, 1000000, 1000000000000000}},
    {"R", 1, 3, 2, {0, 0, 1000}, {32, 32, 1000000000000}},
    {"L", 1, 3, 2, {0, 0, 1}, {32, 32, 1000000000000}},
    {"C", 1, 3, 2, {0, 0, 1}, {32, 32, 1000000000}},
    {"LINE", 4, 4, 2, {0, 0, 1000, 1}, {32, 32, 1000000000000, 1000000000}},
    {"SW", 2, 5, 2, {0, 0, 1000, 1, 1}, {32, 32, 1000000000000, 1000001, 1000001}},
    {"VS", 2, 4, 1, {0, -20000000, 1, 0}, {32, 20000000, 1000000, 1000}},
    {"IS", 2, 4, 1, {0, -2000000000000000, 1, 0}, {32, 2000000000000000, 1000000, 1000}},
    {"VC", 2, 4, 1, {0, -20000000, 1, 1}, {32, 20000000, 1000000, 100000}},
    {"SWT", 3, 5, 2, {0, 0, 1000, 1, 1}, {32, 32, 1000000000000, 1000001, 1000001}},
};

// The number at p, its end after it; p where there is none.
static const uint8_t *number(const uint8_t *p, const uint8_t *end, int minus_allowed, int64_t *x) {
    const uint8_t *at = p;
    int minus = minus_allowed && at < end && *at == '-';
    at += minus;
    if (at == end || *at < '0' || *at > '9') return p;
    int64_t v = *at++ - '0';
    if (v == 0) {
        if (minus) return p;
    } else {
        for (; at < end && *at >= '0' && *at <= '9'; at++) {
            v = v * 10 + (*at - '0');
            if (v > HELD) v = HELD;
        }
    }
    *x = minus ? -v : v;
    return at;
}

static int outside(int kind, int from, int to, const int64_t *f) {
    for (int i = from; i < to; i++)
        if (f[i] < kinds[kind].low[i] || f[i] > kinds[kind].high[i]) return 1;
    return 0;
}

static int64_t nearest(int64_t a, int64_t b) { return (2 * a + b) / (2 * b); }

uint64_t plain_read(const uint8_t *text, size_t length, int64_t *network, size_t words, uint64_t *line) {
    *line = 0;
    if (words != WORDS) return 9;
    if (length > 65536) return 7;
    int64_t record[WORDS] = {0}, step = 0, slots = 0;
    int branches = 0, sources = 0;
    uint64_t fixed = 0;
    const uint8_t *p = text, *end = text + length;
    *line = 1;
    if (p == end) return 1;
    for (; p < end; ++*line) {
        int kind = 10;
        switch (*p) {
        case 'R': kind = 1; break;
        case 'L': kind = p + 1 < end && p[1] == 'I' ? 4 : 2; break;
        case 'C': kind = 3; break;
        case 'S': kind = p + 2 < end && p[2] == 'T' ? 9 : 5; break;
        case 'V': kind = p + 1 < end && p[1] == 'C' ? 8 : 6; break;
        case 'I': kind = 7; break;
        case 's': kind = 0; break;
        }
        if (kind == 10 || end - p < kinds[kind].length || memcmp(p, kinds[kind].word, kinds[kind].length)) return 1;
        p += kinds[kind].length;
        int64_t f[5] = {0};
        for (int i = 0; i < kinds[kind].fields; i++) {
            if (p == end || *p != '\t') return 1;
            const uint8_t *after = number(p + 1, end, kinds[kind].low[i] < 0, &f[i]);
            if (after == p + 1) return 1;
            p = after;
        }
        if (p == end || *p++ != '\n' || (kind == 0) != (*line == 1)) return 1;
        int names = kinds[kind].names, branch = names == 2, source = names == 1, holds = kind == 6 || kind == 8;
        if (outside(kind, 0, names, f) || (branch && f[0] == f[1]) || (source && f[0] == 0) || (kind == 4 && (f[0] == 0 || f[1] == 0))) return 2;
        if (outside(kind, names, kinds[kind].fields, f) || ((kind == 5 || kind == 9) && f[4] <= f[3])) return 3;
        if (branch) {
            int64_t g = kind == 2 ? nearest(1000000000 * step, 2 * f[2]) : kind == 3 ? nearest(2000000 * f[2], step) : nearest(1000000000000, f[2]);
            if (g < 1 || g > 1000000000) return 3;
        }
        if (kind == 4 && f[3] < step) return 4;
        if (holds && fixed >> f[0] & 1) return 5;
        int64_t more = kind == 4 ? 2 * (f[3] / step) + (f[3] % step != 0) : 0;
        if ((branch && branches == 64) || (source && sources == 16) || slots + more > 4096) return 6;
        if (kind == 0) {
            step = f[0];
            memcpy(record, f, 3 * sizeof *f);
        } else {
            int64_t *row = record + 8 + 8 * (branches + sources);
            row[0] = kind;
            memcpy(row + 1, f, sizeof f);
            record[3] = branches + sources + 1;
        }
        branches += branch, sources += source, slots += more;
        if (holds) fixed |= (uint64_t)1 << f[0];
    }
    memcpy(network, record, sizeof record);
    *line = 0;
    return 0;
}
