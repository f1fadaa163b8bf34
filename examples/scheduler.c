// scheduler THREADS < STUDY: areas advanced by several threads as they come free, until none can move; then where the run has ended.
// Build: cc -pthread -Iinclude examples/scheduler.c target/staticlib/libemt.a -o scheduler
//
// Threads come by in whatever order, but each run of a study ends with the same counts, the same answers and the same records (docs/DEMANDS.md, 'Where a
// run ends, whatever the order'): so the listing is the same for any number of threads. It has a line for each area, `area`, number, steps taken, answer and its
// place; then as the last `v` and `i` lines of emtrun, without the step, which may be another for each area, all voltages and all currents.
#include <emt.h>
#include <inttypes.h>
#include <pthread.h>
#include <stdio.h>
#include <stdlib.h>

#define THREADS_MOST 64

static int64_t network[EMT_NETWORK_WORDS], records[EMT_RECORD_WORDS], froms[EMT_STORE_WORDS], tos[EMT_STORE_WORDS];

// What is known of each area, by its number. OPEN: it may take a step. WAITS: it was refused by EMT_WAIT, and no area has taken a step since.
// OVER: it has taken all its steps, or one of 14 to 17 has stopped it, which no later step of another area changes; or there is no such area.
enum { OPEN, WAITS, OVER };
static int known[EMT_NODES + 1];

// Held round each call and each look at `known`: a call finds the state as the call before has left it.
static pthread_mutex_t lock = PTHREAD_MUTEX_INITIALIZER;

static uint64_t advance(uint64_t area, uint64_t *place) {
    return emt_advance(network, EMT_NETWORK_WORDS, records, EMT_RECORD_WORDS, froms, EMT_STORE_WORDS, tos, EMT_STORE_WORDS, area, place);
}

// The next open area after this one, round and round; 0 where none is open. Since the lock is held, no call is under way: then in this very state
// every area is over or waits, and the run has ended.
static uint64_t next_open(uint64_t area) {
    for (int tried = 0; tried < EMT_NODES; tried++) {
        area = area % EMT_NODES + 1;
        if (known[area] == OPEN) return area;
    }
    return 0;
}

static void take_step(uint64_t area) {
    uint64_t place;
    switch (advance(area, &place)) {
    case EMT_ACCEPTED: // what it has sent may be what others wait for
        for (int other = 1; other <= EMT_NODES; other++)
            if (known[other] == WAITS) known[other] = OPEN;
        break;
    case EMT_WAIT: known[area] = WAITS; break;
    default: known[area] = OVER;
    }
}

// A thread takes one step of one area after the other. Thread n, from 0, looks at area n + 1 first.
static void *work(void *number) {
    uint64_t area = *(uint64_t *)number;
    do {
        pthread_mutex_lock(&lock);
        area = next_open(area);
        if (area) take_step(area);
        pthread_mutex_unlock(&lock);
    } while (area);
    return NULL;
}

// Each area is asked once more, all in one unchanged state: only these answers say that the run has ended. Answers 0 where one moves after all.
static int list_areas(void) {
    uint64_t place, answer;
    for (uint64_t area = 1; area <= EMT_NODES && (answer = advance(area, &place)) != EMT_AREA; area++) {
        if (answer < EMT_DONE || answer > EMT_HISTORY) return 0;
        printf("area\t%" PRIu64 "\t%" PRId64 "\t%" PRIu64 "\t%" PRIu64 "\n", area, records[EMT_COUNT(area)], answer, place);
    }
    return 1;
}

static void list_records(void) {
    int64_t rows = network[EMT_NETWORK_ROWS], nodes = 0, branch = 0;
    for (int64_t r = 0; r < rows; r++) {
        const int64_t *row = network + EMT_NETWORK_ROW(r);
        int named = EMT_IS_SOURCE(row[0]) ? 1 : 2; // a source names one node, a branch two
        for (int end = 1; end <= named; end++)
            if (row[end] > nodes) nodes = row[end];
    }
    for (int64_t node = 1; node <= nodes; node++) printf("v\t%" PRId64 "\t%" PRId64 "\n", node, records[EMT_VOLTAGE(node)]);
    for (int64_t r = 0; r < rows; r++) {
        int64_t kind = network[EMT_NETWORK_ROW(r)];
        if (EMT_IS_SOURCE(kind)) continue;
        printf("i\t%" PRId64 "\t%" PRId64, ++branch, records[EMT_CURRENT(r)]);
        if (kind == EMT_LINE) printf("\t%" PRId64, records[EMT_TO_CURRENT(r)]);
        printf("\n");
    }
}

int main(int words, char **word) {
    static uint8_t text[EMT_TEXT_BYTES + 1]; // a byte more, so that a text that is too long shows
    static pthread_t thread[THREADS_MOST];
    static uint64_t number[THREADS_MOST];
    int threads = words == 2 ? atoi(word[1]) : 0;
    if (threads < 1 || threads > THREADS_MOST) return fprintf(stderr, "usage: scheduler THREADS < STUDY; 1 to %d threads\n", THREADS_MOST), 2;
    uint64_t line;
    uint64_t answer = emt_read(text, fread(text, 1, sizeof text, stdin), network, EMT_NETWORK_WORDS, &line);
    if (answer != EMT_ACCEPTED) return printf("bad\t%" PRIu64 "\t%" PRIu64 "\n", line, answer), 1;
    answer = emt_reset(network, EMT_NETWORK_WORDS, records, EMT_RECORD_WORDS, froms, EMT_STORE_WORDS, tos, EMT_STORE_WORDS);
    if (answer != EMT_ACCEPTED) return fprintf(stderr, "not reset: %" PRIu64 "\n", answer), 1;
    for (int t = 0; t < threads; t++) {
        number[t] = (uint64_t)t;
        if (pthread_create(&thread[t], NULL, work, &number[t])) return fprintf(stderr, "no thread %d\n", t + 1), 1;
    }
    for (int t = 0; t < threads; t++) pthread_join(thread[t], NULL);
    if (!list_areas()) return fprintf(stderr, "an area answers what ends no run\n"), 1;
    list_records();
    return 0;
}
