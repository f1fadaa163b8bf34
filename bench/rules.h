// Documents 01 and 02 in plain C, as one would write it who wants the answers fast and proves nothing: what a line may hold, areas, one step of one area.
// For bench/ref.c (a whole run) and bench/lent.c (one call over lent memory). Sums of conductances stay below 2^53, so they are added as doubles.
// A study without lines between steps, VC and SW is advanced by a step that has none of the three: what is not asked for costs nothing.
#include <math.h>
#include <stdbool.h>
#include <stdint.h>
#include <string.h>

// Compiled into its caller, as what is called once would be: a step is compiled twice.
#define ALWAYS __attribute__((always_inline)) static inline

typedef int64_t whole;
enum { NODES = 32, BRANCHES = 64, SOURCES = 16, ROWS = BRANCHES + SOURCES, SLOTS = 4096, FIELDS = 5 };
enum { FORM = 1, NODE, VALUE, TRAVEL, DOUBLE, FULL, SIZE, FLOATING = 14, RANGE, UNBALANCED, HISTORY };
enum kind { R, L, C, LINE, SW, VS, IS, VC, SWT, KINDS }; // in the order of a network's numbers
#define HIGHEST INT64_C(20000000)           // the largest voltage
#define FAR INT64_C(100000000000000000)     // the largest history
#define MOST_STEPS INT64_C(1000000)         // also the longest step
#define WIDEST INT64_C(1000000000000000)    // the largest balance limit
#define STRONGEST INT64_C(2000000000000000) // the largest peak of an IS
#define OHMS INT64_C(1000000000000)         // the largest resistance and inductance
#define TURN INT64_C(1000000000000)         // a whole turn of a VC, in ns times mHz
enum { QUARTER = 256, PARTS = 4 * QUARTER }; // parts of a turn

struct branch {
    enum kind kind;
    int from, to;
    whole g, close, open;
    uint32_t d, slot; // LINE: whole steps of travel, where its slots start in both stores
    uint32_t slots;   // and how many they are
    whole rest;       // what is left of its travel time, below a step
};
struct source {
    enum kind kind;
    int node;
    whole peak, start, rise;
    whole pace; // VC: how far a step takes it
};
struct end {
    int branch, side, node; // side: 0 the from end, 1 the to end
};
struct area {
    uint64_t nodes, held; // bit n for node n; held: ground, fixed nodes, nodes with a line end
    int free_count, lumped_count, end_count, source_count, switch_count;
    int free[NODES], lumped[BRANCHES], switches[BRANCHES], sources[SOURCES];
    struct end ends[2 * BRANCHES];
    double kept[NODES][NODES]; // the factors of the last matrix, where they are kept
};
struct answer {
    int number, place; // number 0: accepted
};

static whole step_length, steps, limit;
static int node_count, branch_count, source_count, area_count, places; // places: one past the last branch's
static uint32_t slot_count;
static struct branch branches[ROWS];
static struct source sources[SOURCES];
static bool fixed[NODES + 1];
static int row_of[NODES + 1], area_of[NODES + 1]; // a free node's row in its area's matrix, else -1; a node's area from 0 on
static struct area areas[NODES];
static bool keep; // factors and the search for floating nodes are kept until a switch changes
static bool plain = true; // no line between steps, no VC and no SW so far

// The state, by node and by a branch's place: currents of the from side, and of a line's to side; the step after which an SW parted; what the from ends and
// the to ends sent.
static whole *volt, *current[2], *history, *latch, *store[2];

// ---- lines

static const struct {
    const char *word;
    int nodes, others;
    whole least[3], most[3];
} shapes[KINDS] = {
    [R] = {"R", 2, 1, {1000}, {OHMS}},
    [L] = {"L", 2, 1, {1}, {OHMS}},
    [C] = {"C", 2, 1, {1}, {1000000000}},
    [LINE] = {"LINE", 2, 2, {1000, 1}, {OHMS, 1000000000}},
    [SW] = {"SW", 2, 3, {1000, 1, 2}, {OHMS, MOST_STEPS, MOST_STEPS + 1}},
    [VS] = {"VS", 1, 3, {-HIGHEST, 1, 0}, {HIGHEST, MOST_STEPS, 1000}},
    [IS] = {"IS", 1, 3, {-STRONGEST, 1, 0}, {STRONGEST, MOST_STEPS, 1000}},
    [VC] = {"VC", 1, 3, {-HIGHEST, 1, 1}, {HIGHEST, MOST_STEPS, 100000}},
    [SWT] = {"SWT", 2, 3, {1000, 1, 2}, {OHMS, MOST_STEPS, MOST_STEPS + 1}},
};

static bool is_source(enum kind kind) { return VS <= kind && kind <= VC; }
static bool is_switch(enum kind kind) { return kind == SW || kind == SWT; }
static bool fixes(enum kind kind) { return kind == VS || kind == VC; }

static bool in(whole x, whole least, whole most) { return least <= x && x <= most; }

static bool head_fits(const whole *n) { return in(n[0], 1, MOST_STEPS) && in(n[1], 1, MOST_STEPS) && in(n[2], 0, WIDEST); }

static whole nearest(whole over, whole under) { return (2 * over + under) / (2 * under); }

static whole conductance(enum kind kind, whole x) {
    if (kind == L) return nearest(1000000000 * step_length, 2 * x);
    return kind == C ? nearest(2000000 * x, step_length) : nearest(OHMS, x);
}

// The cosine of a quarter of a turn, in parts of 2^30: filled where the first VC is read.
static whole cosines[QUARTER + 1];

static void fill_cosines(void) {
    if (cosines[0]) return;
    for (int i = 0; i <= QUARTER; i++) cosines[i] = lround(cos(i * (2 * 3.14159265358979323846 / PARTS)) * 0x1p30);
}

// Takes a line by its fields, a branch to this place; or the number of what is wrong with it.
static int take(enum kind kind, const whole *n, int place) {
    int nodes = shapes[kind].nodes;
    bool source = is_source(kind);
    for (int i = 0; i < nodes; i++)
        if (n[i] > NODES || ((source || kind == LINE) && n[i] == 0)) return NODE;
    if (!source && n[0] == n[1]) return NODE;
    for (int i = 0; i < shapes[kind].others; i++)
        if (!in(n[nodes + i], shapes[kind].least[i], shapes[kind].most[i])) return VALUE;
    if (source) {
        if (fixes(kind) && fixed[n[0]]) return DOUBLE;
        if (source_count == SOURCES) return FULL;
        sources[source_count++] = (struct source){kind, (int)n[0], n[1], n[2], n[3], step_length * n[3]};
        fixed[n[0]] |= fixes(kind);
        if (kind == VC) plain = false, fill_cosines();
    } else {
        struct branch *b = &branches[place];
        *b = (struct branch){.kind = kind, .from = (int)n[0], .to = (int)n[1], .g = conductance(kind, n[2])};
        if (is_switch(kind)) {
            if (n[3] >= n[4]) return VALUE;
            b->close = n[3], b->open = n[4];
            plain &= kind != SW;
        }
        if (!in(b->g, 1, 1000000000)) return VALUE;
        if (kind == LINE) {
            if (n[3] < step_length) return TRAVEL;
            b->d = (uint32_t)(n[3] / step_length), b->rest = n[3] % step_length, b->slot = slot_count;
            b->slots = 2 * b->d + (b->rest != 0);
            plain &= !b->rest;
        }
        if (branch_count == BRANCHES || slot_count + b->slots > SLOTS) return FULL;
        slot_count += b->slots;
        branch_count++;
        places = place + 1;
    }
    for (int i = 0; i < nodes; i++)
        if (n[i] > node_count) node_count = (int)n[i];
    return 0;
}

// ---- areas

// Not put into its caller, whose steps would take more instructions.
__attribute__((noinline)) static void find_areas(void) {
    int lowest[NODES + 1];
    bool changed = true;
    for (int n = 0; n <= node_count; n++) lowest[n] = n;
    while (changed) {
        changed = false;
        for (int b = 0; b < places; b++) {
            int from = branches[b].from, to = branches[b].to;
            if (branches[b].kind == LINE || !from || !to || lowest[from] == lowest[to]) continue;
            lowest[from] = lowest[to] = lowest[from] < lowest[to] ? lowest[from] : lowest[to];
            changed = true;
        }
    }
    row_of[0] = -1;
    area_count = 0;
    for (int n = 1; n <= node_count; n++) {
        uint64_t bit = UINT64_C(1) << n;
        area_of[n] = lowest[n] == n ? area_count++ : area_of[lowest[n]];
        struct area *a = &areas[area_of[n]];
        if (lowest[n] == n) {
            a->nodes = 0, a->held = 1;
            a->free_count = a->lumped_count = a->end_count = a->source_count = a->switch_count = 0;
        }
        a->nodes |= bit;
        row_of[n] = fixed[n] ? -1 : a->free_count;
        if (fixed[n]) a->held |= bit;
        else a->free[a->free_count++] = n;
    }
    for (int b = 0; b < places; b++) {
        int nodes[2] = {branches[b].from, branches[b].to}, node = nodes[0] ? nodes[0] : nodes[1];
        struct area *a = &areas[area_of[node]];
        if (branches[b].kind == LINE) {
            for (int side = 0; side < 2; side++) {
                a = &areas[area_of[nodes[side]]];
                a->held |= UINT64_C(1) << nodes[side];
                a->ends[a->end_count++] = (struct end){b, side, nodes[side]};
            }
        } else if (node) {
            a->lumped[a->lumped_count++] = b;
            if (is_switch(branches[b].kind)) a->switches[a->switch_count++] = b;
        }
    }
    for (int s = 0; s < source_count; s++) {
        struct area *a = &areas[area_of[sources[s].node]];
        a->sources[a->source_count++] = s;
    }
}

// ---- one step of one area

static whole source_value(const struct source *s, whole k) {
    whole n = k - s->start;
    return n < 0 ? 0 : n < s->rise ? s->peak * n / s->rise : s->peak;
}

static whole swung(const struct source *s, whole k) {
    whole n = k - s->start;
    if (n < 0) return 0;
    int i = (int)(PARTS * (n * s->pace % TURN) / TURN), half = i <= 2 * QUARTER ? i : PARTS - i;
    whole cosine = half <= QUARTER ? cosines[half] : -cosines[2 * QUARTER - half];
    return s->peak * cosine / (1 << 30);
}

static bool timed(const struct branch *b, whole k) { return b->kind != SWT || (b->close <= k && k < b->open); }

// An SW stays closed until it has parted.
static bool conducts(int place, whole k) {
    const struct branch *b = &branches[place];
    return b->kind == SW ? b->close <= k && (!latch[place] || k <= latch[place]) : timed(b, k);
}

ALWAYS bool timed_changes(const struct area *a, whole k) {
    for (int i = 0; i < a->switch_count; i++)
        if (branches[a->switches[i]].close == k || branches[a->switches[i]].open == k) return true;
    return false;
}

ALWAYS bool switch_changes(const struct area *a, whole k) {
    for (int i = 0; i < a->switch_count; i++) {
        const struct branch *b = &branches[a->switches[i]];
        if (b->close == k || (b->kind == SW ? k > 1 && latch[a->switches[i]] == k - 1 : b->open == k)) return true;
    }
    return false;
}

// An SW parts after a step at which its current is zero or of opposite sign to that of the step before; zero has no opposite sign.
static bool parts(const struct branch *b, whole k, whole now, whole before) {
    return b->kind == SW && k >= b->open - 1 && k > b->close && (now == 0 || (now < 0 && before > 0) || (now > 0 && before < 0));
}

// What an end receives: of a line between steps a part of the way from the newer sent value to the older, rounded down; values before step 1 are 0.
static whole received(const struct branch *b, const whole *sent, whole k) {
    if (k <= b->d) return 0;
    whole newer = sent[b->slot + ((uint32_t)k - b->d) % b->slots];
    if (!b->rest) return newer;
    whole gap = (k - 1 > b->d ? sent[b->slot + ((uint32_t)k - 1 - b->d) % b->slots] : 0) - newer, part = gap % step_length * b->rest;
    return newer + gap / step_length * b->rest + part / step_length - (part % step_length < 0);
}

// The lowest free node without a path of conducting branches to ground, a fixed node or a line end; or 0.
ALWAYS int floating(const struct area *a, const int *conducting, int count) {
    uint64_t reached = a->held, before;
    do {
        before = reached;
        for (int i = 0; i < count; i++) {
            const struct branch *b = &branches[conducting[i]];
            if ((reached >> b->from | reached >> b->to) & 1) reached |= UINT64_C(1) << b->from | UINT64_C(1) << b->to;
        }
    } while (reached != before && (a->nodes & ~reached));
    uint64_t lost = a->nodes & ~reached;
    return lost ? __builtin_ctzll(lost) : 0;
}

ALWAYS void assemble(const struct area *a, const int *conducting, int count, double m[][NODES]) {
    for (int p = 0; p < a->free_count; p++) memset(m[p], 0, (size_t)a->free_count * sizeof(double));
    for (int i = 0; i < count; i++) {
        const struct branch *b = &branches[conducting[i]];
        int p = row_of[b->from], q = row_of[b->to];
        double g = (double)b->g;
        if (p >= 0) m[p][p] += g;
        if (q >= 0) m[q][q] += g;
        if (p >= 0 && q >= 0) {
            m[p][q] -= g;
            m[q][p] -= g;
        }
    }
    for (int i = 0; i < a->end_count; i++) {
        int p = row_of[a->ends[i].node];
        if (p >= 0) m[p][p] += (double)branches[a->ends[i].branch].g;
    }
}

// The elimination; each row's factors are left below its pivot.
ALWAYS void eliminate(double m[][NODES], double *right, int n) {
    for (int p = 0; p < n; p++)
        for (int q = p + 1; q < n; q++) {
            double f = m[q][p] / m[p][p];
            const double *restrict above = m[p];
            double *restrict row = m[q];
            for (int c = p + 1; c < n; c++) row[c] = row[c] - f * above[c];
            right[q] = right[q] - f * right[p];
            row[p] = f;
        }
}

// What the elimination does to the right sides, by kept factors: the same operations in the same order, so the same bits.
ALWAYS void eliminate_kept(const double m[][NODES], double *right, int n) {
    for (int p = 0; p < n; p++)
        for (int q = p + 1; q < n; q++) right[q] = right[q] - m[q][p] * right[p];
}

ALWAYS void substitute(const double m[][NODES], const double *right, double *x, int n) {
    for (int p = n - 1; p >= 0; p--) {
        double t = right[p];
        for (int c = p + 1; c < n; c++) t = t - m[p][c] * x[c];
        x[p] = t / m[p][p];
    }
}

static whole nearest_away(double x) {
    whole v = (whole)x;
    double rest = x - (double)v;
    return v + (rest >= 0.5) - (rest <= -0.5);
}

static bool beyond(whole x, whole end) { return x > end || x < -end; }

// A step of one area, which writes the state where it is accepted; the place of HISTORY is the branch's. It is compiled twice: for plain networks, which have no
// line between steps, no VC and no SW, and for any.
ALWAYS struct answer advance_by(bool is_plain, struct area *a, whole k) {
    int n = a->free_count, conducting[BRANCHES], count = 0;
    for (int i = 0; i < a->lumped_count; i++)
        if (is_plain ? timed(&branches[a->lumped[i]], k) : conducts(a->lumped[i], k)) conducting[count++] = a->lumped[i];

    bool fresh = !keep || k == 1 || (is_plain ? timed_changes(a, k) : switch_changes(a, k));
    if (fresh) {
        int lost = floating(a, conducting, count);
        if (lost) return (struct answer){FLOATING, lost};
    }

    // sources, arriving values and right sides
    whole v[NODES + 1], sum[NODES + 1], injection[NODES + 1], right[NODES];
    v[0] = sum[0] = 0;
    for (int i = 0; i < n; i++) injection[a->free[i]] = 0;
    for (int i = 0; i < a->source_count; i++) {
        const struct source *s = &sources[a->sources[i]];
        whole value = is_plain || s->kind != VC ? source_value(s, k) : swung(s, k);
        if (s->kind == VS || (!is_plain && s->kind == VC)) v[s->node] = value, sum[s->node] = 0;
        else if (!fixed[s->node]) injection[s->node] += value;
    }
    for (int i = 0; i < n; i++) right[i] = injection[a->free[i]];
    for (int i = 0; i < count; i++) {
        const struct branch *b = &branches[conducting[i]];
        int p = row_of[b->from], q = row_of[b->to];
        whole h = history[conducting[i]]; // 0 but for L and C
        if (p >= 0) right[p] += (q < 0 ? b->g * v[b->to] : 0) - h;
        if (q >= 0) right[q] += (p < 0 ? b->g * v[b->from] : 0) + h;
    }
    whole arriving[2 * BRANCHES];
    for (int i = 0; i < a->end_count; i++) {
        struct end e = a->ends[i];
        const struct branch *b = &branches[e.branch];
        if (is_plain) arriving[i] = k > b->d ? store[1 - e.side][b->slot + ((uint32_t)k - b->d) % (2 * b->d)] : 0;
        else arriving[i] = received(b, store[1 - e.side], k);
        if (row_of[e.node] >= 0) right[row_of[e.node]] -= arriving[i];
    }

    // voltages
    double once[NODES][NODES], b[NODES], x[NODES];
    double(*m)[NODES] = keep ? a->kept : once;
    for (int i = 0; i < n; i++) b[i] = (double)right[i];
    if (fresh) {
        assemble(a, conducting, count, m);
        eliminate(m, b, n);
    } else {
        eliminate_kept(m, b, n);
    }
    substitute(m, b, x, n);
    for (int i = 0; i < n; i++) {
        if (!(x[i] >= -(double)HIGHEST && x[i] <= (double)HIGHEST)) return (struct answer){RANGE, a->free[i]};
        v[a->free[i]] = nearest_away(x[i]);
    }

    // currents and balance; sums at ground and fixed nodes are not used
    whole through[BRANCHES], end_through[2 * BRANCHES];
    for (int i = 0; i < n; i++) sum[a->free[i]] = -injection[a->free[i]];
    for (int i = 0; i < count; i++) {
        const struct branch *br = &branches[conducting[i]];
        through[i] = br->g * (v[br->from] - v[br->to]);
        whole now = through[i] + history[conducting[i]];
        sum[br->from] += now;
        sum[br->to] -= now;
    }
    for (int i = 0; i < a->end_count; i++) {
        end_through[i] = branches[a->ends[i].branch].g * v[a->ends[i].node];
        sum[a->ends[i].node] += end_through[i] + arriving[i];
    }
    for (int i = 0; i < n; i++)
        if (beyond(sum[a->free[i]], limit)) return (struct answer){UNBALANCED, a->free[i]};

    // next histories and sent values
    whole next[BRANCHES], sent[2 * BRANCHES];
    int over = ROWS;
    for (int i = 0; i < count; i++) {
        enum kind kind = branches[conducting[i]].kind;
        whole twice = 2 * through[i] + history[conducting[i]];
        next[i] = kind == L ? twice : kind == C ? -twice : 0;
        if (beyond(next[i], FAR) && conducting[i] < over) over = conducting[i];
    }
    for (int i = 0; i < a->end_count; i++) {
        sent[i] = -(2 * end_through[i] + arriving[i]);
        if (beyond(sent[i], FAR) && a->ends[i].branch < over) over = a->ends[i].branch;
    }
    if (over < ROWS) return (struct answer){HISTORY, over};

    // accepted: write
    for (uint64_t left = a->nodes; left; left &= left - 1) volt[__builtin_ctzll(left)] = v[__builtin_ctzll(left)];
    whole before[BRANCHES];
    if (!is_plain)
        for (int i = 0; i < a->switch_count; i++) before[i] = current[0][a->switches[i]];
    for (int i = 0; i < a->switch_count; i++) current[0][a->switches[i]] = 0;
    for (int i = 0; i < count; i++) {
        current[0][conducting[i]] = through[i] + history[conducting[i]];
        history[conducting[i]] = next[i];
    }
    for (int i = 0; i < a->end_count; i++) {
        struct end e = a->ends[i];
        const struct branch *br = &branches[e.branch];
        current[e.side][e.branch] = end_through[i] + arriving[i];
        store[e.side][br->slot + (uint32_t)k % (is_plain ? 2 * br->d : br->slots)] = sent[i];
    }
    if (!is_plain)
        for (int i = 0; i < a->switch_count; i++) {
            int p = a->switches[i];
            if (!latch[p] && parts(&branches[p], k, current[0][p], before[i])) latch[p] = k;
        }
    return (struct answer){0, 0};
}
