// E1 to E10 of document 01, E9 with a travel time between steps and peaks as document 02 has them, through the compiled calls, as a C program links them. Closing line: N passed, M failed.
#include <emt.h>
#include <stdio.h>
#include <string.h>

static int64_t network[EMT_NETWORK_WORDS], records[EMT_RECORD_WORDS], froms[EMT_STORE_WORDS], tos[EMT_STORE_WORDS];
static int passed, failed;

static void expect(const char *what, int64_t got, int64_t wanted) {
    if (got == wanted) passed++;
    else failed++, printf("%s: %lld, not %lld\n", what, (long long)got, (long long)wanted);
}

// The answer of reading, times 100, plus the line; an accepted study is put at rest.
static int64_t start(const char *text) {
    uint64_t line;
    uint64_t answer = emt_read((const uint8_t *)text, strlen(text), network, EMT_NETWORK_WORDS, &line);
    if (answer) return (int64_t)(100 * answer + line);
    return (int64_t)emt_reset(network, EMT_NETWORK_WORDS, records, EMT_RECORD_WORDS, froms, EMT_STORE_WORDS, tos, EMT_STORE_WORDS);
}

// The answer of advancing, times 100, plus the place; an accepted advance gives the new count.
static int64_t advance(uint64_t area) {
    uint64_t place;
    uint64_t answer = emt_advance(network, EMT_NETWORK_WORDS, records, EMT_RECORD_WORDS, froms, EMT_STORE_WORDS, tos, EMT_STORE_WORDS, area, &place);
    return (int64_t)(100 * answer + place);
}

// One area, step by step: each step is accepted, and the word then has the next of the values.
static void steps(const char *what, const char *text, int word, int count, const int64_t *values) {
    expect(what, start(text), 0);
    for (int k = 1; k <= count; k++) {
        expect(what, advance(1), k);
        expect(what, records[word], values[k - 1]);
    }
}

static void e1(void) {
    steps("E1", "study\t1000\t1\t0\nVS\t1\t1000\t1\t0\nR\t1\t2\t2000\nR\t2\t0\t2000\n", EMT_VOLTAGE(2), 1, (int64_t[]){500});
    expect("E1: done", advance(1), 100 * EMT_DONE);
}

static void e2(void) {
    steps("E2", "study\t1000\t1\t500000000\nVS\t1\t1000\t1\t0\nR\t1\t2\t1000\nR\t2\t0\t2000\n", EMT_VOLTAGE(2), 1, (int64_t[]){667});
    expect("E2", start("study\t1000\t1\t499999999\nVS\t1\t1000\t1\t0\nR\t1\t2\t1000\nR\t2\t0\t2000\n"), 0);
    expect("E2: one less", advance(1), 100 * EMT_UNBALANCED + 2);
}

// Two areas with a line between them, in turn: node 2 then has the next of the values.
static void eight_steps(const char *what, const char *text, const int64_t *values) {
    expect(what, start(text), 0);
    for (int k = 1; k <= 8; k++) {
        expect(what, advance(1), k);
        expect(what, advance(2), k);
        expect(what, records[EMT_VOLTAGE(2)], values[k - 1]);
    }
}

static void e5_and_e6(void) {
    static const char text[] = "study\t1000\t8\t0\nVS\t1\t1000\t1\t0\nLINE\t1\t2\t400000\t2000\n";
    eight_steps("E5", text, (int64_t[]){0, 0, 2000, 2000, 2000, 2000, 0, 0});
    expect("E6", start(text), 0);
    expect("E6: first", advance(1), 1);
    expect("E6: second", advance(1), 2);
    expect("E6: third", advance(1), 100 * EMT_WAIT + 1);
}

static void e7_and_e8(void) {
    expect("E7", start("study\t1000\t9\t0\nVS\t1\t1000\t1\t0\nSW\t1\t2\t1000\t5\t9\n"), 0);
    expect("E7: floats", advance(1), 100 * EMT_FLOATING + 2);
    steps("E8", "study\t1000\t9\t0\nVS\t1\t1000\t1\t0\nSW\t1\t2\t1000\t5\t9\nC\t2\t0\t1000\n", EMT_VOLTAGE(2), 1, (int64_t[]){0});
}

// What is told of a node: the answer, and voltage, peak and step.
static void tells(const char *what, uint64_t node, uint64_t answer, int64_t voltage, uint64_t peak, uint64_t step) {
    int64_t v = -1;
    uint64_t p = 1, s = 1;
    expect(what, (int64_t)emt_node(network, EMT_NETWORK_WORDS, records, EMT_RECORD_WORDS, node, &v, &p, &s), (int64_t)answer);
    expect(what, v, voltage);
    expect(what, (int64_t)p, (int64_t)peak);
    expect(what, (int64_t)s, (int64_t)step);
}

// E5's peaks, asked by node number before any step and after the last; then a peak below the voltage's magnitude, and exchanged arguments.
static void peaks(void) {
    expect("peaks", start("study\t1000\t8\t0\nVS\t1\t-1000\t1\t0\nLINE\t1\t2\t400000\t2000\n"), 0);
    tells("peaks: before any step", 2, EMT_ACCEPTED, 0, 0, 0);
    for (int k = 1; k <= 8; k++) {
        expect("peaks: area 1", advance(1), k);
        expect("peaks: area 2", advance(2), k);
    }
    tells("peaks: node 1", 1, EMT_ACCEPTED, -1000, 1000, 1);
    tells("peaks: node 2", 2, EMT_ACCEPTED, 0, 2000, 3);
    expect("peaks: in the records", records[EMT_PEAK(2)], 2000);
    expect("peaks: and their steps", records[EMT_PEAK_STEP(2)], 3);
    tells("peaks: ground", 0, EMT_NODE, 0, 0, 0);
    tells("peaks: no such node", 3, EMT_NODE, 0, 0, 0);
    records[EMT_PEAK(1)] = 999;
    tells("peaks: below the voltage", 1, EMT_STATE, 0, 0, 0);
    expect("peaks: and so advancing", advance(1), 100 * EMT_STATE);
    int64_t v;
    uint64_t p, s;
    expect("peaks: exchanged", (int64_t)emt_node(records, EMT_RECORD_WORDS, network, EMT_NETWORK_WORDS, 1, &v, &p, &s), EMT_NETWORK);
    expect("peaks: an older length", (int64_t)emt_node(network, EMT_NETWORK_WORDS, records, 512, 1, &v, &p, &s), EMT_STORE);
}

int main(void) {
    e1();
    e2();
    steps("E3", "study\t1000\t2\t0\nVS\t1\t1000\t1\t0\nL\t1\t0\t1000000\n", EMT_CURRENT(1), 2, (int64_t[]){500000000, 1500000000});
    steps("E4", "study\t1000\t3\t0\nVS\t1\t1000\t1\t0\nC\t1\t0\t1000\n", EMT_CURRENT(1), 3, (int64_t[]){2000000000, -2000000000, 2000000000});
    e5_and_e6();
    e7_and_e8();
    eight_steps("E9", "study\t1000\t8\t0\nVS\t1\t1000\t1\t0\nLINE\t1\t2\t400000\t2500\n", (int64_t[]){0, 0, 1000, 2000, 2000, 2000, 1750, 1000});
    expect("E9: shorter than a step", start("study\t1000\t8\t0\nVS\t1\t1000\t1\t0\nLINE\t1\t2\t400000\t999\n"), 100 * EMT_TRAVEL + 3);
    peaks();
    steps("a supply", "study\t1000000\t4\t0\nVC\t1\t20000000\t1\t100000\n", EMT_VOLTAGE(1), 4, (int64_t[]){20000000, 16209143, 6273634, -6156992});
    expect("a supply: and a VS at its node", start("study\t1000\t1\t0\nVS\t1\t5\t1\t0\nVC\t1\t7\t1\t50000\n"), 100 * EMT_DOUBLE + 3);
    expect("E10", start("study\t1000\t3\t0\nVS\t1\t20000000\t1\t0\nL\t1\t0\t500\n"), 0);
    expect("E10: step 1", advance(1), 1);
    expect("E10: step 2", advance(1), 2);
    expect("E10: step 3", advance(1), 100 * EMT_HISTORY + 1);
    printf("%d passed, %d failed\n", passed, failed);
    return failed != 0;
}
