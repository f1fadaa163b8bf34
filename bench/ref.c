// A whole run in plain C (bench/rules.h): study text on standard input, listing on standard output. bench/emtrun.sh measures emtrun beside it.
// Each step of each area is made anew from the network and the last state; with -k factors and the search for floating nodes are kept until a switch changes,
// which gives the same bits. Nothing that no listing shows is kept: no peaks. Build with -O3 -ffp-contract=off and -lm.
#include <unistd.h>

#include "rules.h"

enum { TEXT = 65536 };

// ---- listing

enum { OUT = 1 << 18, ROOM = 128 };
static char out[OUT + ROOM];
static char *out_end = out;
static char pairs[200];

static void flush(void) {
    for (char *p = out; p < out_end;) {
        ssize_t n = write(1, p, (size_t)(out_end - p));
        if (n <= 0) _exit(1);
        p += n;
    }
    out_end = out;
}

static char *put_pair(char *p, uint32_t x) { return (char *)memcpy(p, pairs + 2 * x, 2) + 2; }

static char *put_eight(char *p, uint32_t x) {
    uint32_t high = x / 10000, low = x % 10000;
    p = put_pair(p, high / 100);
    p = put_pair(p, high % 100);
    p = put_pair(p, low / 100);
    return put_pair(p, low % 100);
}

// Below 10^8, no leading zeros.
static char *put_small(char *p, uint32_t x) {
    if (x < 10) {
        *p = (char)('0' + x);
        return p + 1;
    }
    char digits[8];
    put_eight(digits, x);
    int skip = x < 10000 ? (x < 100 ? 6 : x < 1000 ? 5 : 4) : (x < 1000000 ? (x < 100000 ? 3 : 2) : x < 10000000 ? 1 : 0);
    uint64_t word;
    memcpy(&word, digits, 8);
    word >>= 8 * skip; // little-endian
    memcpy(p, &word, 8);
    return p + 8 - skip;
}

static char *put_number(char *p, whole value) {
    uint64_t x = (uint64_t)value;
    if (value < 0) {
        *p++ = '-';
        x = -x;
    }
    if (x < 100000000) return put_small(p, (uint32_t)x);
    uint64_t high = x / 100000000;
    uint32_t low = (uint32_t)(x % 100000000);
    if (high < 100000000) {
        p = put_small(p, (uint32_t)high);
    } else {
        p = put_small(p, (uint32_t)(high / 100000000));
        p = put_eight(p, (uint32_t)(high % 100000000));
    }
    return put_eight(p, low);
}

static void put_last(const char *word, int count, const whole *numbers) {
    size_t length = strlen(word);
    char *p = (char *)memcpy(out_end, word, length) + length;
    for (int i = 0; i < count; i++) {
        *p++ = '\t';
        p = put_number(p, numbers[i]);
    }
    *p++ = '\n';
    out_end = p;
    flush();
}

ALWAYS void list(whole k) {
    char head[16] = {0};
    size_t head_length = (size_t)(put_number(head, k) - head);
    head[head_length++] = '\t';
    for (int kind = 0; kind < 2; kind++) {
        int count = kind ? branch_count : node_count;
        for (int n = 1; n <= count; n++) {
            char *p = out_end;
            *p++ = kind ? 'i' : 'v';
            *p++ = '\t';
            memcpy(p, head, 16);
            p = put_small(p + head_length, (uint32_t)n);
            *p++ = '\t';
            p = put_number(p, kind ? current[0][n - 1] : volt[n]);
            if (kind && branches[n - 1].kind == LINE) {
                *p++ = '\t';
                p = put_number(p, current[1][n - 1]);
            }
            *p++ = '\n';
            out_end = p;
            if (out_end > out + OUT) flush();
        }
    }
}

// ---- reading

// One number that ends in a tab or at the end; what is past FAR stays there, which is past every range.
static const char *spelt(const char *p, const char *end, bool minus_allowed, whole *value) {
    bool minus = minus_allowed && p < end && *p == '-';
    if (minus) p++;
    if (p == end || *p < '0' || *p > '9') return NULL;
    if (*p == '0') {
        *value = 0;
        p++;
        return !minus && (p == end || *p == '\t') ? p : NULL;
    }
    whole x = 0;
    for (; p < end && *p >= '0' && *p <= '9'; p++) {
        x = 10 * x + (*p - '0');
        if (x > FAR) x = FAR;
    }
    *value = minus ? -x : x;
    return p == end || *p == '\t' ? p : NULL;
}

// This many numbers, each after a tab, up to the line's end. `signed_field` is the one that may have a minus.
static bool spelt_fields(const char *p, const char *end, int count, int signed_field, whole *fields) {
    for (int i = 0; i < count; i++) {
        if (p == end || *p != '\t') return false;
        p = spelt(p + 1, end, i == signed_field, &fields[i]);
        if (!p) return false;
    }
    return p == end;
}

static bool starts(const char *p, const char *end, const char *word) {
    size_t length = strlen(word);
    return (size_t)(end - p) > length && memcmp(p, word, length) == 0 && p[length] == '\t';
}

static int read_head(const char *p, const char *end) {
    whole n[3];
    if (!starts(p, end, "study") || !spelt_fields(p + 5, end, 3, -1, n)) return FORM;
    if (!head_fits(n)) return VALUE;
    step_length = n[0], steps = n[1], limit = n[2];
    return 0;
}

static int read_line(const char *p, const char *end) {
    enum kind kind = R;
    whole n[FIELDS];
    while (kind < KINDS && !starts(p, end, shapes[kind].word)) kind++;
    if (kind == KINDS) return FORM;
    int count = shapes[kind].nodes + shapes[kind].others, signed_field = is_source(kind) ? 1 : -1;
    if (!spelt_fields(p + strlen(shapes[kind].word), end, count, signed_field, n)) return FORM;
    return take(kind, n, branch_count);
}

// 0, or the refusal's number with its line in *at.
static int read_text(const char *text, size_t length, whole *at) {
    const char *p = text, *end = text + length;
    *at = 0;
    if (length > TEXT) return SIZE;
    do {
        ++*at;
        const char *stop = memchr(p, '\n', (size_t)(end - p));
        if (!stop) return FORM;
        int refusal = *at == 1 ? read_head(p, stop) : read_line(p, stop);
        if (refusal) return refusal;
        p = stop + 1;
    } while (p < end);
    return 0;
}

// ---- the run

// Areas advance in rising order, so no far area is ever more than one step behind: nothing waits (refusal 13).
ALWAYS void run_by(bool is_plain) {
    for (whole k = 1; k <= steps; k++) {
        for (int i = 0; i < area_count; i++) {
            struct answer got = advance_by(is_plain, &areas[i], k);
            if (!got.number) continue;
            put_last("stop", 4, (whole[]){k, i + 1, got.number, got.place + (got.number == HISTORY)});
            return;
        }
        list(k);
    }
    put_last("done", 1, &steps);
}

// Not put into one another: each has the registers to itself.
__attribute__((noinline)) static void run_plain(void) { run_by(true); }
__attribute__((noinline)) static void run_any(void) { run_by(false); }

static void run(const char *text, size_t length) {
    whole line;
    int refusal = read_text(text, length, &line);
    if (refusal) {
        put_last("bad", 2, (whole[]){line, refusal});
        return;
    }
    find_areas();
    if (plain) run_plain();
    else run_any();
}

int main(int count, char **words) {
    static char text[TEXT + 1];
    static whole volts[NODES + 1], currents[2][BRANCHES], histories[BRANCHES], latches[BRANCHES], stores[2][SLOTS];
    volt = volts, history = histories, latch = latches;
    for (int side = 0; side < 2; side++) current[side] = currents[side], store[side] = stores[side];
    keep = count > 1 && !strcmp(words[1], "-k");
    for (int i = 0; i < 100; i++) pairs[2 * i] = (char)('0' + i / 10), pairs[2 * i + 1] = (char)('0' + i % 10);
    size_t length = 0;
    char rest[4096];
    for (ssize_t n = 1; n > 0; length += (size_t)n) {
        bool full = length > TEXT;
        n = full ? read(0, rest, sizeof rest) : read(0, text + length, TEXT + 1 - length);
        if (n < 0) return 1;
    }
    run(text, length);
}
