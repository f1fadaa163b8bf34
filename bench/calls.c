// A study on standard input, advanced area by area by emt_advance, by emt_advance_in and by plain C (bench/lent.c), for bench/calls.sh.
//   calls                 200 steps by all three, each on memory of its own: the status is 0 where answers and words are the same throughout
//   calls areas           how many areas the study has
//   calls WHO N           100 steps by emt_list, then N steps of every area by `ours`, in a lent `room` or by `plain`
//   calls WHO N judged    the same, but N calls that are refused by 11: each judges all that is lent and takes no step
//   calls time            microseconds of a call that is refused by 11, ours and plain C's
#include <emt.h>
#include <stdio.h>
#include <stdlib.h>
#include <string.h>
#include <time.h>

typedef uint64_t advance(const int64_t *network, size_t network_len, int64_t *records, size_t records_len, int64_t *froms, size_t froms_len, int64_t *tos,
                         size_t tos_len, uint64_t area, uint64_t *place);
advance plain_advance;

struct lent {
    int64_t records[EMT_RECORD_WORDS], froms[EMT_STORE_WORDS], tos[EMT_STORE_WORDS];
};
enum { LEAD = 100, NO_AREA = EMT_NODES + 1 };
static int64_t network[EMT_NETWORK_WORDS];
static struct lent ours, theirs, lent_room;

static uint64_t advance_in_room(const int64_t *net, size_t net_len, int64_t *records, size_t records_len, int64_t *froms, size_t froms_len, int64_t *tos, size_t tos_len,
                                uint64_t area, uint64_t *place) {
    static struct emt_room room;
    return emt_advance_in(net, net_len, records, records_len, froms, froms_len, tos, tos_len, area, place, &room, sizeof room);
}

static uint64_t call(advance *by, struct lent *lent, uint64_t area, uint64_t *place) {
    return by(network, EMT_NETWORK_WORDS, lent->records, EMT_RECORD_WORDS, lent->froms, EMT_STORE_WORDS, lent->tos, EMT_STORE_WORDS, area, place);
}

static void reset(struct lent *lent) {
    if (emt_reset(network, EMT_NETWORK_WORDS, lent->records, EMT_RECORD_WORDS, lent->froms, EMT_STORE_WORDS, lent->tos, EMT_STORE_WORDS)) exit(1);
}

// The areas that take a step; the first number without one is one past the last.
static uint64_t areas(void) {
    uint64_t count = 0, place;
    while (call(emt_advance, &ours, count + 1, &place) == 0) count++;
    reset(&ours);
    return count;
}

// Steps to LEAD by emt_list, which judges once: the study is taken to end there.
static void lead(void) {
    static uint8_t out[1 << 16];
    uint64_t written, area, number, place, answer;
    int64_t steps = network[EMT_NETWORK_STEPS];
    network[EMT_NETWORK_STEPS] = LEAD;
    do
        answer = emt_list(network, EMT_NETWORK_WORDS, ours.records, EMT_RECORD_WORDS, ours.froms, EMT_STORE_WORDS, ours.tos, EMT_STORE_WORDS, out, sizeof out, &written, &area,
                          &number, &place);
    while (answer == EMT_MORE);
    if (answer) exit(1);
    network[EMT_NETWORK_STEPS] = steps;
}

static int compare(void) {
    uint64_t last = areas(), at, there, within;
    for (int k = 1; k <= 2 * LEAD; k++)
        for (uint64_t area = 1; area <= last; area++)
            if (call(emt_advance, &ours, area, &at) || call(plain_advance, &theirs, area, &there) || call(advance_in_room, &lent_room, area, &within) || at != there || at != within)
                return 1;
    return memcmp(&ours, &theirs, sizeof ours) || memcmp(&ours, &lent_room, sizeof ours);
}

// Microseconds of a call that judges all and takes no step, the best of twenty times a thousand.
static double judged(advance *by) {
    double best = 1e9;
    for (int r = 0; r < 20; r++) {
        struct timespec from, to;
        uint64_t at;
        clock_gettime(CLOCK_MONOTONIC, &from);
        for (int k = 0; k < 1000; k++) call(by, &ours, NO_AREA, &at);
        clock_gettime(CLOCK_MONOTONIC, &to);
        double spent = (double)(to.tv_sec - from.tv_sec) * 1e3 + (double)(to.tv_nsec - from.tv_nsec) / 1e6;
        if (spent < best) best = spent;
    }
    return best;
}

int main(int count, char **words) {
    static uint8_t text[EMT_TEXT_BYTES];
    uint64_t line, at;
    const char *what = count > 1 ? words[1] : "";
    if (emt_read(text, fread(text, 1, sizeof text, stdin), network, EMT_NETWORK_WORDS, &line)) return 1;
    reset(&ours);
    if (!*what) return compare();
    if (!strcmp(what, "areas")) return printf("%llu\n", (unsigned long long)areas()) < 0;
    if (!strcmp(what, "time")) return printf("%.1f %.1f\n", judged(emt_advance), judged(plain_advance)) < 0;
    advance *by = !strcmp(what, "ours") ? emt_advance : !strcmp(what, "room") ? advance_in_room : plain_advance;
    uint64_t taken = count > 3 ? EMT_AREA : 0, first = taken ? NO_AREA : 1, last = taken ? NO_AREA : areas();
    lead();
    for (int k = count > 2 ? atoi(words[2]) : 0; k > 0; k--)
        for (uint64_t area = first; area <= last; area++)
            if (call(by, &ours, area, &at) != taken) return 1;
    return 0;
}
