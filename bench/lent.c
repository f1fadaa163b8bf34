// One call over lent memory in plain C: what emt_advance is measured beside (bench/calls.c). It judges the same words, one by one, and then takes the step.
// A branch's place is its row; the row of a source stands as a branch from ground to ground, which is in no area.
#include "rules.h"

enum { NETWORK = 1024, RECORDS = 1024 };
enum { COUNTS = 0, VOLTAGES = 32, CURRENTS = 64, TO_CURRENTS = 144, HISTORIES = 224, PEAKS = 304, PEAK_STEPS = 336, LATCHES = 368, UNUSED = 448 };

// The network by its rows, each judged as the reader judges its line; false where one could not have been read.
static bool load_network(const whole *net) {
    node_count = branch_count = source_count = places = 0;
    slot_count = 0, plain = true;
    memset(fixed, 0, sizeof fixed);
    if (!head_fits(net) || !in(net[3], 0, ROWS)) return false;
    step_length = net[0], steps = net[1], limit = net[2];
    for (int i = 4; i < 8; i++)
        if (net[i]) return false;
    for (int r = 0; r < net[3]; r++) {
        const whole *row = net + 8 + 8 * r;
        if (!in(row[0], 1, KINDS)) return false;
        enum kind kind = (enum kind)(row[0] - 1);
        int fields = shapes[kind].nodes + shapes[kind].others;
        for (int i = 0; i < fields; i++)
            if (row[1 + i] < 0 && !(is_source(kind) && i == 1)) return false;
        for (int i = 1 + fields; i < 8; i++)
            if (row[i]) return false;
        if (is_source(kind)) branches[r] = (struct branch){.kind = kind};
        if (take(kind, row + 1, r)) return false;
    }
    for (int i = 8 + 8 * (int)net[3]; i < NETWORK; i++)
        if (net[i]) return false;
    return true;
}

static bool all_in(const whole *words, int count, whole least, whole most) {
    for (int i = 0; i < count; i++)
        if (!in(words[i], least, most)) return false;
    return true;
}

static whole count_at(const whole *records, int node) { return records[COUNTS + area_of[node]]; }

// A latch that is set is that of an SW, and a step at which it may have parted and that its area has taken.
static bool latch_formed(int r, const whole *records) {
    const struct branch *b = &branches[r];
    whole step = records[LATCHES + r];
    return r < places && b->kind == SW && step >= b->open - 1 && step > b->close && step <= count_at(records, b->from ? b->from : b->to);
}

static bool well_formed(const whole *records) {
    static const whole most_current = INT64_C(140000000000000000);
    if (!all_in(records + COUNTS, area_count, 0, steps) || !all_in(records + COUNTS + area_count, NODES - area_count, 0, 0)) return false;
    if (!all_in(records + VOLTAGES, node_count, -HIGHEST, HIGHEST) || !all_in(records + VOLTAGES + node_count, NODES - node_count, 0, 0)) return false;
    for (int r = 0; r < ROWS; r++) {
        enum kind kind = r < places ? branches[r].kind : VS;
        whole near = is_source(kind) ? 0 : most_current, to = kind == LINE ? most_current : 0, past = kind == L || kind == C ? FAR : 0;
        if (beyond(records[CURRENTS + r], near) || beyond(records[TO_CURRENTS + r], to) || beyond(records[HISTORIES + r], past)) return false;
        if (records[LATCHES + r] && !latch_formed(r, records)) return false;
    }
    for (int i = 0; i < NODES; i++) {
        whole v = i < node_count ? records[VOLTAGES + i] : 0, most = i < node_count ? HIGHEST : 0, count = i < node_count ? count_at(records, i + 1) : 0;
        if (!in(records[PEAKS + i], v < 0 ? -v : v, most) || !in(records[PEAK_STEPS + i], 0, count)) return false;
    }
    if (!all_in(records + UNUSED, RECORDS - UNUSED, 0, 0)) return false;
    for (int r = 0; r < places; r++) {
        const struct branch *b = &branches[r];
        if (b->kind == LINE && beyond(count_at(records, b->from) - count_at(records, b->to), b->d)) return false;
    }
    for (int side = 0; side < 2; side++)
        if (!all_in(store[side], (int)slot_count, -FAR, FAR) || !all_in(store[side] + slot_count, SLOTS - (int)slot_count, 0, 0)) return false;
    return true;
}

// A branch's number in the text, sources not counted.
static uint64_t number_of(int place) {
    uint64_t number = 0;
    for (int r = 0; r <= place; r++) number += !is_source(branches[r].kind);
    return number;
}

// The first line whose far area has not come to step k - d, by its number; or 0.
static uint64_t waiting(const struct area *a, whole k, const whole *records) {
    for (int i = 0; i < a->end_count; i++) {
        const struct branch *b = &branches[a->ends[i].branch];
        if (count_at(records, a->ends[i].side ? b->from : b->to) < k - b->d) return number_of(a->ends[i].branch);
    }
    return 0;
}

// The largest magnitude of each node of the area so far, and the first step where it came.
static void put_peaks(const struct area *a, whole k, whole *records) {
    for (uint64_t left = a->nodes; left; left &= left - 1) {
        int i = __builtin_ctzll(left) - 1;
        whole v = records[VOLTAGES + i] < 0 ? -records[VOLTAGES + i] : records[VOLTAGES + i];
        if (k == 1 || v > records[PEAKS + i]) records[PEAKS + i] = v, records[PEAK_STEPS + i] = k;
    }
}

__attribute__((noinline)) static struct answer advance_plain(struct area *a, whole k) { return advance_by(true, a, k); }
__attribute__((noinline)) static struct answer advance_any(struct area *a, whole k) { return advance_by(false, a, k); }

uint64_t plain_advance(const whole *network, size_t network_len, whole *records, size_t records_len, whole *froms, size_t froms_len, whole *tos, size_t tos_len,
                       uint64_t area, uint64_t *where) {
    *where = 0;
    if (network_len != NETWORK || records_len != RECORDS || froms_len != SLOTS || tos_len != SLOTS) return 9;
    volt = records + VOLTAGES - 1, current[0] = records + CURRENTS, current[1] = records + TO_CURRENTS, history = records + HISTORIES;
    latch = records + LATCHES;
    store[0] = froms, store[1] = tos;
    if (!load_network(network)) return 8;
    find_areas();
    if (!well_formed(records)) return 10;
    if (area < 1 || area > (uint64_t)area_count) return 11;
    whole k = records[COUNTS + area - 1] + 1;
    if (k > steps) return 12;
    if ((*where = waiting(&areas[area - 1], k, records))) return 13;
    struct answer got = plain ? advance_plain(&areas[area - 1], k) : advance_any(&areas[area - 1], k);
    *where = got.number == HISTORY ? number_of(got.place) : (uint64_t)got.place;
    if (got.number) return (uint64_t)got.number;
    put_peaks(&areas[area - 1], k, records);
    *where = (uint64_t)(records[COUNTS + area - 1] = k);
    return 0;
}
