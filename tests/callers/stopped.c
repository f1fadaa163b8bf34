// A listing that a refused area stops, and the call after it, as include/emt.h says of both. Closing line: N passed, M failed.
#include <emt.h>
#include <stdio.h>
#include <string.h>

struct lent {
    int64_t records[EMT_RECORD_WORDS], froms[EMT_STORE_WORDS], tos[EMT_STORE_WORDS];
};
static int64_t network[EMT_NETWORK_WORDS];
static struct lent lent;
static uint8_t out[EMT_LIST_BYTES + 64];
static uint64_t written, area, number, place;
static int passed, failed;

static void expect(const char *what, uint64_t got, uint64_t wanted) {
    if (got == wanted) passed++;
    else failed++, printf("%s: %llu, not %llu\n", what, (unsigned long long)got, (unsigned long long)wanted);
}

static void start(const char *text) {
    uint64_t line;
    expect(text, emt_read((const uint8_t *)text, strlen(text), network, EMT_NETWORK_WORDS, &line), EMT_ACCEPTED);
    expect(text, emt_reset(network, EMT_NETWORK_WORDS, lent.records, EMT_RECORD_WORDS, lent.froms, EMT_STORE_WORDS, lent.tos, EMT_STORE_WORDS), EMT_ACCEPTED);
}

// Lists into a buffer of one mark; what stands behind the lines must keep it.
static uint64_t list(void) {
    memset(out, '?', sizeof out);
    written = area = number = place = 999;
    uint64_t answer = emt_list(network, EMT_NETWORK_WORDS, lent.records, EMT_RECORD_WORDS, lent.froms, EMT_STORE_WORDS, lent.tos, EMT_STORE_WORDS, out,
                               sizeof out, &written, &area, &number, &place);
    for (uint64_t i = written; i < sizeof out; i++)
        if (out[i] != '?') return 999;
    return answer;
}

static void expect_stop(const char *what, uint64_t of_area, uint64_t of_number, uint64_t of_place) {
    expect(what, area, of_area);
    expect(what, number, of_number);
    expect(what, place, of_place);
}

static void expect_lines(const char *what, const char *lines) {
    expect(what, written, strlen(lines));
    expect(what, memcmp(out, lines, strlen(lines)) == 0, 1);
}

// Area 1 is refused: nothing has moved since the last full step, and the same comes again, the stop line alone.
static void first_area(void) {
    start("study\t1000\t5\t0\nSWT\t1\t0\t1000\t1\t2\n");
    expect("area 1: a step", list(), EMT_STOPPED);
    expect_stop("area 1", 1, EMT_FLOATING, 1);
    expect_lines("area 1", "v\t1\t1\t0\ni\t1\t1\t0\nstop\t2\t1\t14\t1\n");
    for (int k = 0; k < 2; k++) {
        struct lent before = lent;
        expect("area 1 again", list(), EMT_STOPPED);
        expect_stop("area 1 again", 1, EMT_FLOATING, 1);
        expect_lines("area 1 again", "stop\t2\t1\t14\t1\n");
        expect("area 1 again: memory", memcmp(&before, &lent, sizeof lent) == 0, 1);
    }
}

// Area 2 is refused: area 1 keeps the step that it took, and areas at different steps are not listed.
static void second_area(void) {
    start("study\t1000\t5\t0\nVS\t1\t9\t1\t0\nSWT\t2\t0\t1000\t1\t2\n");
    expect("area 2", list(), EMT_STOPPED);
    expect_stop("area 2", 2, EMT_FLOATING, 2);
    expect_lines("area 2", "v\t1\t1\t9\nv\t1\t2\t0\ni\t1\t1\t0\nstop\t2\t2\t14\t2\n");
    expect("area 2: area 1", (uint64_t)lent.records[EMT_COUNT(1)], 2);
    expect("area 2: area 2", (uint64_t)lent.records[EMT_COUNT(2)], 1);
    for (int k = 0; k < 2; k++) {
        struct lent before = lent;
        expect("area 2 again", list(), EMT_STATE);
        expect_stop("area 2 again", 0, 0, 0);
        expect_lines("area 2 again", "");
        expect("area 2 again: memory", memcmp(&before, &lent, sizeof lent) == 0, 1);
    }
}

// Where none is refused there is no stop to tell of.
static void not_stopped(void) {
    start("study\t1000\t20\t0\nVS\t1\t9\t1\t0\n");
    uint64_t answer = EMT_MORE;
    for (int k = 0; k < 9 && answer == EMT_MORE; k++) {
        answer = list();
        expect_stop("not stopped", 0, 0, 0);
    }
    expect("not stopped", answer, EMT_ACCEPTED);
}

int main(void) {
    first_area();
    second_area();
    not_stopped();
    printf("%d passed, %d failed\n", passed, failed);
    return failed != 0;
}
