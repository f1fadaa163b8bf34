// How a network is laid out: emt_areas, emt_area and emt_row, as include/emt.h says of them. Each is asked on a network between words that nobody may change, for an answer between two
// more: a call writes its one answer and nothing else, and 0 where it refuses. What they tell is also held to what the other calls do with areas, nodes and branches.
// Closing line: N passed, M failed.
#include <emt.h>
#include <inttypes.h>
#include <stdio.h>
#include <string.h>

enum { GUARDS = 16, LENT = 2 * EMT_NETWORK_WORDS };
static const uint64_t MARK = UINT64_C(0xDEADBEEFDEADBEEF);

static struct {
    int64_t before[GUARDS], network[LENT], after[GUARDS];
} lent, kept;
static size_t words = EMT_NETWORK_WORDS; // what is stated as the network's length
static int64_t records[EMT_RECORD_WORDS], froms[EMT_STORE_WORDS], tos[EMT_STORE_WORDS];
static int passed, failed;

static void expect(const char *what, uint64_t asked, uint64_t got, uint64_t wanted) {
    if (got == wanted) passed++;
    else failed++, printf("%s, %" PRIu64 ": %" PRIu64 ", not %" PRIu64 "\n", what, asked, got, wanted);
}

// ---- one call: its answer, and what it tells

enum call { AREAS, AREA, ROW };
static const char *const names[] = {"emt_areas", "emt_area", "emt_row"};

struct told {
    uint64_t answer, number;
};

static struct told ask(enum call call, uint64_t asked) {
    uint64_t answer, told[3] = {MARK, MARK, MARK};
    kept = lent;
    if (call == AREAS) answer = emt_areas(lent.network, words, &told[1]);
    else if (call == AREA) answer = emt_area(lent.network, words, asked, &told[1]);
    else answer = emt_row(lent.network, words, asked, &told[1]);
    if (memcmp(&kept, &lent, sizeof lent) || told[0] != MARK || told[2] != MARK) failed++, printf("%s writes what is not its own\n", names[call]);
    return (struct told){answer, told[1]};
}

static void tells(const char *what, enum call call, uint64_t asked, uint64_t number) {
    struct told told = ask(call, asked);
    expect(what, asked, told.answer, EMT_ACCEPTED);
    expect(what, asked, told.number, number);
}

static void refuses(const char *what, enum call call, uint64_t asked, uint64_t answer) {
    struct told told = ask(call, asked);
    expect(what, asked, told.answer, answer);
    expect(what, asked, told.number, 0);
}

static void all_refuse(const char *what, uint64_t asked, uint64_t answer) {
    for (enum call call = AREAS; call <= ROW; call++) refuses(what, call, asked, answer);
}

// Numbers that are none: 0, the next after the last, those past every network's end, and some that have the low bits of one.
static void no_such(const char *what, enum call call, uint64_t last) {
    const uint64_t high = UINT64_C(1) << 32, highest = UINT64_C(1) << 63;
    const uint64_t none[] = {0, last + 1, last + 2, EMT_NODES + 1, EMT_BRANCHES + 1, EMT_ROWS + 1, 256, 257, high, high + 1, highest, highest + 1, UINT64_MAX};
    for (size_t k = 0; k < sizeof none / sizeof *none; k++)
        if (none[k] == 0 || none[k] > last) refuses(what, call, none[k], EMT_NODE);
}

// ---- networks

static void read_study(const char *text) {
    uint64_t line;
    memset(&lent, 0x5A, sizeof lent);
    words = EMT_NETWORK_WORDS;
    expect(text, 0, emt_read((const uint8_t *)text, strlen(text), lent.network, words, &line), EMT_ACCEPTED);
}

// All that can be asked of a study: the area of each node, the row of each branch; and numbers that are none.
static void laid_out(const char *what, const char *text, uint64_t areas, int nodes, const uint64_t *area, int branches, const uint64_t *row) {
    read_study(text);
    tells(what, AREAS, 0, areas);
    for (int n = 1; n <= nodes; n++) tells(what, AREA, (uint64_t)n, area[n - 1]);
    for (int b = 1; b <= branches; b++) tells(what, ROW, (uint64_t)b, row[b - 1]);
    no_such(what, AREA, (uint64_t)nodes);
    no_such(what, ROW, (uint64_t)branches);
}
#define NUMBERS(...) (int)(sizeof((uint64_t[]){__VA_ARGS__}) / sizeof(uint64_t)), (uint64_t[]){__VA_ARGS__}

static const char between[] = "study\t1000\t3\t1000000000\nVS\t1\t1000\t1\t0\nR\t1\t2\t2000\nIS\t2\t7\t1\t0\nC\t2\t0\t1000\n"
                              "LINE\t2\t3\t400000\t2000\nVC\t4\t50\t1\t50000\nIS\t3\t9\t1\t0\nR\t3\t0\t5000\nL\t3\t4\t700000\n";

static void good(void) {
    laid_out("E5", "study\t1000\t8\t0\nVS\t1\t1000\t1\t0\nLINE\t1\t2\t400000\t2000\n", 2, NUMBERS(1, 2), NUMBERS(2));
    laid_out("sources between branches", between, 2, NUMBERS(1, 1, 2, 2), NUMBERS(2, 4, 5, 8, 9));
    laid_out("no row", "study\t1000\t1\t0\n", 0, 0, NULL, 0, NULL);
    laid_out("sources alone", "study\t1000\t1\t0\nVS\t2\t1\t1\t0\nIS\t2\t1\t1\t0\n", 2, NUMBERS(1, 2), 0, NULL);
    laid_out("ground and a gap join nothing", "study\t1000\t1\t0\nR\t5\t0\t1000\nR\t3\t0\t1000\n", 5, NUMBERS(1, 2, 3, 4, 5), NUMBERS(1, 2));
    laid_out("a switch joins while it is open, a line never", "study\t1000\t1\t0\nSW\t4\t1\t1000\t500\t600\nLINE\t1\t2\t400000\t1000\nR\t3\t2\t1000\n", 2, NUMBERS(1, 2, 2, 1), NUMBERS(1, 2, 3));
    laid_out("areas by their lowest node", "study\t1000\t1\t0\nR\t6\t3\t1000\nR\t5\t2\t1000\nR\t4\t6\t1000\nR\t5\t1\t1000\n", 2, NUMBERS(1, 1, 2, 2, 1, 2), NUMBERS(1, 2, 3, 4));
}

// 80 rows, a source before every fourth branch, and a node for each of 32 areas, the highest named first.
static void largest(void) {
    static char text[8192];
    char *end = text + sprintf(text, "study\t1000\t1\t0\n");
    for (int b = 1; b <= EMT_BRANCHES; b++) {
        if (b % 4 == 1) end += sprintf(end, "IS\t%d\t5\t1\t0\n", EMT_NODES - b / 4);
        end += sprintf(end, "R\t%d\t0\t%d\n", 1 + (EMT_BRANCHES - b) % EMT_NODES, 1000 + b);
    }
    read_study(text);
    tells("the largest", AREAS, 0, EMT_NODES);
    for (uint64_t n = 1; n <= EMT_NODES; n++) tells("the largest, area", AREA, n, n);
    for (uint64_t b = 1; b <= EMT_BRANCHES; b++) {
        struct told row = ask(ROW, b);
        expect("the largest, row", b, row.number, b + (b + 3) / 4);
        expect("the largest, its value", b, (uint64_t)lent.network[EMT_NETWORK_ROW(row.number - 1) + 3], 1000 + b);
    }
    no_such("the largest, area", AREA, EMT_NODES);
    no_such("the largest, row", ROW, EMT_BRANCHES);
}

// ---- what they tell is what the other calls go by

static uint64_t advance(uint64_t area) {
    uint64_t place;
    return emt_advance(lent.network, words, records, EMT_RECORD_WORDS, froms, EMT_STORE_WORDS, tos, EMT_STORE_WORDS, area, &place);
}

static uint64_t reset(void) { return emt_reset(lent.network, words, records, EMT_RECORD_WORDS, froms, EMT_STORE_WORDS, tos, EMT_STORE_WORDS); }

// Each `i` line of a listing, of this branch, has the current of the row that is told.
static void listed_currents(void) {
    static uint8_t out[1 << 14];
    uint64_t written, area, number, place;
    uint64_t answer = emt_list(lent.network, words, records, EMT_RECORD_WORDS, froms, EMT_STORE_WORDS, tos, EMT_STORE_WORDS, out, sizeof out - 1, &written, &area, &number, &place);
    expect("listed", 0, answer, EMT_ACCEPTED);
    out[written] = 0;
    for (const char *line = strstr((const char *)out, "\ni\t3\t"); line; line = strstr(line + 1, "\ni\t3\t")) {
        uint64_t branch;
        int64_t current;
        expect("listed: a line", 0, (uint64_t)sscanf(line, "\ni\t3\t%" SCNu64 "\t%" SCNd64, &branch, &current), 2);
        struct told row = ask(ROW, branch);
        expect("listed: a row", branch, row.answer, EMT_ACCEPTED);
        expect("listed: its current", branch, (uint64_t)records[EMT_CURRENT(row.number - 1)], (uint64_t)current);
        expect("listed: is a branch", branch, EMT_IS_SOURCE(lent.network[EMT_NETWORK_ROW(row.number - 1)]), 0);
    }
}

static void agrees(void) {
    read_study(between);
    expect("agrees", 0, reset(), EMT_ACCEPTED);
    uint64_t areas = ask(AREAS, 0).number;
    for (uint64_t area = 0; area <= EMT_NODES + 1; area++) expect("advance knows the area", area, advance(area) != EMT_AREA, area >= 1 && area <= areas);
    for (uint64_t node = 0; node <= EMT_NODES + 1; node++) {
        int64_t voltage;
        uint64_t peak, step;
        expect("the same nodes as emt_node's", node, ask(AREA, node).answer, emt_node(lent.network, words, records, EMT_RECORD_WORDS, node, &voltage, &peak, &step));
    }
    expect("agrees", 0, reset(), EMT_ACCEPTED);
    listed_currents();
}

// ---- refusals: 9 before 8, 8 before 2

static void wrong_lengths(void) {
    static const size_t lengths[] = {0, 1, 512, EMT_NETWORK_WORDS - 1, EMT_NETWORK_WORDS + 1, LENT};
    for (int damaged = 0; damaged <= 1; damaged++)
        for (size_t k = 0; k < sizeof lengths / sizeof *lengths; k++) {
            read_study(between);
            if (damaged) lent.network[4] = 1;
            words = lengths[k];
            all_refuse("a wrong length", 1, EMT_STORE);
            all_refuse("a wrong length, and no such number", 99, EMT_STORE);
        }
}

static void damaged(void) {
    static const struct {
        const char *what;
        int place;
        int64_t word;
    } damages[] = {{"a step length of 0", EMT_NETWORK_STEP_LENGTH, 0}, {"a row fewer", EMT_NETWORK_ROWS, 8},     {"a row more", EMT_NETWORK_ROWS, 10},
                   {"a word that is unused", 4, 1},                   {"a kind of none", EMT_NETWORK_ROW(1), 0}, {"a node over 32", EMT_NETWORK_ROW(1) + 2, 33},
                   {"equal ends", EMT_NETWORK_ROW(1) + 2, 1},         {"a second VS", EMT_NETWORK_ROW(5) + 1, 1}, {"the last word", EMT_NETWORK_WORDS - 1, 1}};
    for (size_t k = 0; k < sizeof damages / sizeof *damages; k++) {
        read_study(between);
        lent.network[damages[k].place] = damages[k].word;
        all_refuse(damages[k].what, 1, EMT_NETWORK);
        all_refuse(damages[k].what, 0, EMT_NETWORK);
        all_refuse(damages[k].what, 99, EMT_NETWORK);
    }
    read_study(between);
    memset(lent.network, 0, 8 * EMT_NETWORK_WORDS);
    all_refuse("records at rest in place of a network", 1, EMT_NETWORK);
}

// Each of the 1,024 words changed in turn: the three judge a network as emt_reset does.
static void every_word(void) {
    static const int64_t changes[] = {1, -1, 32, INT64_MIN};
    int differ = 0, met[2] = {0, 0};
    read_study(between);
    for (int place = 0; place < EMT_NETWORK_WORDS; place++)
        for (size_t k = 0; k < sizeof changes / sizeof *changes; k++) {
            int64_t was = lent.network[place];
            lent.network[place] = (int64_t)((uint64_t)was + (uint64_t)changes[k]);
            uint64_t judged = reset();
            met[judged == EMT_NETWORK]++;
            for (enum call call = AREAS; call <= ROW; call++) {
                struct told told = ask(call, 1);
                differ += told.answer != judged || (judged ? told.number != 0 : told.number == 0);
            }
            lent.network[place] = was;
        }
    expect("changed words judged otherwise", 0, (uint64_t)differ, 0);
    expect("changed words: taken", 0, met[0] > 10, 1);
    expect("changed words: refused", 0, met[1] > 4000, 1);
}

int main(void) {
    good();
    largest();
    agrees();
    wrong_lengths();
    damaged();
    every_word();
    printf("%d passed, %d failed\n", passed, failed);
    return failed != 0;
}
