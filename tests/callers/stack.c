// emt_advance_in on little stack, beside emt_advance: each call is made by both, on memory of its own, and answer, place and every lent word must be the same.
//   stack FILE..    the bytes of stack that the two touch on the studies of the files, on the largest networks and on refused calls; then E1 to E10 and a
//                   study of 32 free nodes to their ends on a stack of 8,192 bytes with a page below it that may not be touched.
// A stack is a context's own: all that it holds is this program's small frame and the call. What a table of symbols needs at its first use is
// not the call's: one call of each is made before. Closing line: N passed, M failed.
#define _GNU_SOURCE
#include <emt.h>
#include <stdio.h>
#include <stdlib.h>
#include <string.h>
#include <sys/mman.h>
#include <ucontext.h>

enum { LITTLE = 8192, PAGE = 4096, PAINTED = 1 << 17, PAINT = 0xA5, GUARDS = 16, ROUNDS = 200 };

struct lent {
    int64_t network[EMT_NETWORK_WORDS], records[EMT_RECORD_WORDS], froms[EMT_STORE_WORDS], tos[EMT_STORE_WORDS];
};
static struct lent ours, theirs;
static struct {
    uint64_t before[GUARDS];
    struct emt_room room;
    uint64_t after[GUARDS];
} lent_room;
static size_t record_words = EMT_RECORD_WORDS, room_bytes = sizeof(struct emt_room);
static uint64_t area, answers[2], places[2];
static unsigned char painted[2][PAINTED], *little;
static int passed, failed;

static void expect(const char *what, const char *which, int64_t got, int64_t wanted) {
    if (got == wanted) passed++;
    else failed++, printf("%s: %s is %lld, not %lld\n", what, which, (long long)got, (long long)wanted);
}

// ---- stacks

static ucontext_t home, away;

static void on(unsigned char *stack, size_t bytes, void (*what)(void)) {
    getcontext(&away);
    away.uc_stack.ss_sp = stack;
    away.uc_stack.ss_size = bytes;
    away.uc_link = &home;
    makecontext(&away, what, 0);
    swapcontext(&home, &away);
}

static size_t touched(const unsigned char *stack) {
    size_t left = 0;
    while (left < PAINTED && stack[left] == PAINT) left++;
    return PAINTED - left;
}

static void with_room(void) {
    answers[0] = emt_advance_in(ours.network, EMT_NETWORK_WORDS, ours.records, record_words, ours.froms, EMT_STORE_WORDS, ours.tos, EMT_STORE_WORDS, area, &places[0], &lent_room.room,
                                room_bytes);
}

static void without(void) {
    answers[1] =
        emt_advance(theirs.network, EMT_NETWORK_WORDS, theirs.records, record_words, theirs.froms, EMT_STORE_WORDS, theirs.tos, EMT_STORE_WORDS, area, &places[1]);
}

// ---- calls

static void fill_room(void) {
    uint64_t word = 88172645463325252u; // any words at all: each bit pattern of a double comes up too
    unsigned char *byte = (unsigned char *)&lent_room;
    for (size_t k = 0; k < sizeof lent_room; k++) {
        word ^= word << 13, word ^= word >> 7, word ^= word << 17;
        byte[k] = (unsigned char)word;
    }
}

// One call by both; whether all that they leave is the same, and nothing around the room has changed.
static int same(unsigned char *stack, size_t bytes) {
    static uint64_t before[GUARDS], after[GUARDS];
    memcpy(before, lent_room.before, sizeof before);
    memcpy(after, lent_room.after, sizeof after);
    places[0] = places[1] = ~0u;
    on(stack, bytes, with_room);
    on(painted[1], PAINTED, without);
    return answers[0] == answers[1] && places[0] == places[1] && !memcmp(&ours, &theirs, sizeof ours) && !memcmp(before, lent_room.before, sizeof before) &&
           !memcmp(after, lent_room.after, sizeof after);
}

static uint64_t start(const char *text, size_t bytes) {
    uint64_t line, answer = emt_read((const uint8_t *)text, bytes, ours.network, EMT_NETWORK_WORDS, &line);
    if (!answer) answer = emt_reset(ours.network, EMT_NETWORK_WORDS, ours.records, EMT_RECORD_WORDS, ours.froms, EMT_STORE_WORDS, ours.tos, EMT_STORE_WORDS);
    memcpy(&theirs, &ours, sizeof ours);
    fill_room();
    return answer;
}

// Round after round of all areas, until no area is accepted or so many rounds are made; the numbers that were answered are told bit by bit.
static uint64_t all_rounds(const char *what, int rounds, unsigned char *stack, size_t bytes) {
    uint64_t met = 0;
    int64_t calls = 0, alike = 0;
    for (int more = 1, round = 0; more && round < rounds; round++) {
        more = 0;
        for (area = 1;; area++) {
            calls++, alike += same(stack, bytes);
            met |= UINT64_C(1) << answers[0];
            if (answers[0] == EMT_AREA) break;
            more |= answers[0] == EMT_ACCEPTED;
        }
    }
    expect(what, "calls alike", alike, calls);
    return met;
}

// ---- what is measured

static void paint(void) { memset(painted, PAINT, sizeof painted); }

static void tell(const char *what) {
    size_t in_room = touched(painted[0]), own = touched(painted[1]);
    if (own) printf("| %s | %zu | %zu |\n", what, own, in_room);
    else printf("| %s | – | %zu |\n", what, in_room);
    expect(what, "over 8,192 bytes", in_room > LITTLE, 0);
}

static void study(const char *what, const char *text, size_t bytes) {
    expect(what, "reading", (int64_t)start(text, bytes), 0);
    paint();
    expect(what, "accepted", all_rounds(what, ROUNDS, painted[0], PAINTED) & 1, 1);
    tell(what);
}

// One call on the state that stands, whose answer must be this number.
static void refused(const char *what, uint64_t a, uint64_t number) {
    memcpy(&theirs, &ours, sizeof ours);
    paint();
    area = a;
    expect(what, "alike", same(painted[0], PAINTED), 1);
    expect(what, "answer", (int64_t)answers[0], (int64_t)number);
    tell(what);
}

static void refused_study(const char *what, const char *text, int steps, uint64_t number) {
    start(text, strlen(text));
    for (area = 1; steps > 0; steps--) expect(what, "step", same(painted[0], PAINTED), 1);
    refused(what, 1, number);
}

static const char e1[] = "study\t1000\t1\t0\nVS\t1\t1000\t1\t0\nR\t1\t2\t2000\nR\t2\t0\t2000\n",
                  e5[] = "study\t1000\t8\t0\nVS\t1\t1000\t1\t0\nLINE\t1\t2\t400000\t2000\n",
                  e7[] = "study\t1000\t9\t0\nVS\t1\t1000\t1\t0\nSW\t1\t2\t1000\t5\t9\n",
                  e10[] = "study\t1000\t3\t0\nVS\t1\t20000000\t1\t0\nL\t1\t0\t500\n",
                  far_off[] = "study\t1000\t1\t0\nIS\t1\t2000000000000000\t1\t0\nR\t1\t0\t1000000000000\n",
                  unbalanced[] = "study\t1000\t1\t499999999\nVS\t1\t1000\t1\t0\nR\t1\t2\t1000\nR\t2\t0\t2000\n";

// 80 rows: 32 nodes, 64 branches and 16 sources, in one area of 32 free nodes, or in 32 areas behind lines.
static size_t largest(char *text, int apart) {
    char *end = text + sprintf(text, "study\t1000\t300\t1000000000000\n");
    for (int n = 1; n <= EMT_NODES; n++) {
        int next = n % EMT_NODES + 1;
        end += sprintf(end, "%s\t%d\t0\t%d\n", n % 2 ? "R" : "C", n, 1000 * n);
        end += apart ? sprintf(end, "LINE\t%d\t%d\t400000\t%d\n", n, next, 1000 * (1 + n % 3)) : sprintf(end, "SW\t%d\t%d\t2000\t%d\t%d\n", n, next, n, 100 + n);
    }
    for (int n = 1; n <= EMT_SOURCES; n++) end += sprintf(end, "%s\t%d\t1000\t%d\t3\n", apart ? "VS" : "IS", 2 * n, n);
    return (size_t)(end - text);
}

static void refusals(void) {
    static char text[8192];
    size_t bytes = largest(text, 0);
    start(text, bytes);
    refused("refused by 11", 33, EMT_AREA);
    record_words--;
    refused("refused by 9, a length", 1, EMT_STORE);
    record_words++;
    ours.records[EMT_CURRENT(79)] = 1;
    refused("refused by 10", 1, EMT_STATE);
    ours.records[EMT_CURRENT(79)] = 0;
    ours.network[EMT_NETWORK_ROW(79) + 1] = EMT_NODES + 1;
    refused("refused by 8", 1, EMT_NETWORK);
    refused_study("refused by 12", e1, 1, EMT_DONE);
    refused_study("refused by 13", e5, 2, EMT_WAIT);
    refused_study("refused by 14", e7, 0, EMT_FLOATING);
    refused_study("refused by 15", far_off, 0, EMT_RANGE);
    refused_study("refused by 16", unbalanced, 0, EMT_UNBALANCED);
    refused_study("refused by 17", e10, 2, EMT_HISTORY);
}

// A room of another size is 9, and neither it nor any other lent word is touched.
static void other_rooms(void) {
    static unsigned char before[sizeof lent_room];
    static const size_t sizes[] = {0, 8, EMT_ROOM_BYTES - 1, EMT_ROOM_BYTES + 1, 2 * EMT_ROOM_BYTES, SIZE_MAX};
    for (size_t k = 0; k < sizeof sizes / sizeof *sizes; k++) {
        start(e1, strlen(e1));
        memcpy(before, &lent_room, sizeof before);
        paint();
        room_bytes = sizes[k];
        area = 1, places[0] = 7;
        on(painted[0], PAINTED, with_room);
        expect("room of another size", "answer", (int64_t)answers[0], EMT_STORE);
        expect("room of another size", "place", (int64_t)places[0], 0);
        expect("room of another size", "a word changed", memcmp(before, &lent_room, sizeof before) || memcmp(&ours, &theirs, sizeof ours), 0);
    }
    tell("refused by 9, the room");
    room_bytes = sizeof(struct emt_room);
}

// The other calls, on a network of 80 rows: a reset needs little; reading a text has a network of its own on the stack, and listing the tables of all areas.
// They are told; only the reset is held to 8,192 bytes.
static char widest[8192];
static size_t widest_bytes;
static uint8_t listed[1 << 16];

static void only_reset(void) {
    answers[0] = emt_reset(ours.network, EMT_NETWORK_WORDS, ours.records, EMT_RECORD_WORDS, ours.froms, EMT_STORE_WORDS, ours.tos, EMT_STORE_WORDS);
}

static void only_read(void) { answers[0] = emt_read((const uint8_t *)widest, widest_bytes, ours.network, EMT_NETWORK_WORDS, &places[0]); }

static void only_list(void) {
    uint64_t written, stopped, number;
    answers[0] = emt_list(ours.network, EMT_NETWORK_WORDS, ours.records, EMT_RECORD_WORDS, ours.froms, EMT_STORE_WORDS, ours.tos, EMT_STORE_WORDS, listed, sizeof listed, &written, &stopped,
                          &number, &places[0]);
}

static void only_write(void) { answers[0] = emt_write(ours.network, EMT_NETWORK_WORDS, listed, sizeof listed, &places[0]); }

static void only_node(void) {
    int64_t voltage;
    uint64_t peak;
    answers[0] = emt_node(ours.network, EMT_NETWORK_WORDS, ours.records, EMT_RECORD_WORDS, 32, &voltage, &peak, &places[0]);
}

static void only_areas(void) { answers[0] = emt_areas(ours.network, EMT_NETWORK_WORDS, &places[0]); }

static void only_area(void) { answers[0] = emt_area(ours.network, EMT_NETWORK_WORDS, 32, &places[0]); }

static void only_row(void) { answers[0] = emt_row(ours.network, EMT_NETWORK_WORDS, 64, &places[0]); }

static void other_calls(void) {
    static const struct {
        const char *name;
        void (*call)(void);
        uint64_t answer;
    } calls[] = {{"emt_read", only_read, 0}, {"emt_reset", only_reset, 0}, {"emt_list", only_list, EMT_MORE}, {"emt_write", only_write, 0},
                 {"emt_node", only_node, 0}, {"emt_areas", only_areas, 0}, {"emt_area", only_area, 0},        {"emt_row", only_row, 0}};
    widest_bytes = largest(widest, 1);
    start(widest, widest_bytes);
    for (size_t k = 0; k < sizeof calls / sizeof *calls; k++) {
        calls[k].call();
        paint();
        on(painted[0], PAINTED, calls[k].call);
        expect(calls[k].name, "answer", (int64_t)answers[0], (int64_t)calls[k].answer);
        printf("%s touches %zu bytes\n", calls[k].name, touched(painted[0]));
        if (calls[k].call == only_reset) expect("emt_reset", "over 8,192 bytes", touched(painted[0]) > LITTLE, 0);
    }
}

// ---- 8,192 bytes

static void to_the_end(const char *what, const char *text, size_t bytes, uint64_t last) {
    expect(what, "reading", (int64_t)start(text, bytes), 0);
    expect(what, "last answer met", (int64_t)(all_rounds(what, 1 << 20, little, LITTLE) >> last & 1), 1);
}

static void on_little(void) {
    static const char e9[] = "study\t1000\t8\t0\nVS\t1\t1000\t1\t0\nLINE\t1\t2\t400000\t2500\n";
    static char text[8192];
    to_the_end("E1", e1, strlen(e1), EMT_DONE);
    to_the_end("E2", unbalanced, strlen(unbalanced), EMT_UNBALANCED);
#define STUDY(what, last, text) to_the_end(what, text, strlen(text), last)
    STUDY("E3", EMT_DONE, "study\t1000\t2\t0\nVS\t1\t1000\t1\t0\nL\t1\t0\t1000000\n");
    STUDY("E4", EMT_DONE, "study\t1000\t3\t0\nVS\t1\t1000\t1\t0\nC\t1\t0\t1000\n");
    STUDY("E5, E6", EMT_DONE, e5);
    STUDY("E7", EMT_FLOATING, e7);
    STUDY("E8", EMT_UNBALANCED, "study\t1000\t9\t0\nVS\t1\t1000\t1\t0\nSW\t1\t2\t1000\t5\t9\nC\t2\t0\t1000\n");
    STUDY("E9", EMT_DONE, e9);
    STUDY("E10", EMT_HISTORY, e10);
    to_the_end("32 free nodes", text, largest(text, 0), EMT_DONE);
}

int main(int count, char **files) {
    static char text[EMT_TEXT_BYTES];
    unsigned char *pages = mmap(NULL, PAGE + LITTLE, PROT_READ | PROT_WRITE, MAP_PRIVATE | MAP_ANONYMOUS, -1, 0);
    if (pages == MAP_FAILED || mprotect(pages, PAGE, PROT_NONE)) return 1;
    little = pages + PAGE;
    start(e1, strlen(e1));
    area = 1;
    with_room(), without();
    puts("| study | emt_advance | emt_advance_in |\n|---|---|---|");
    for (int k = 1; k < count; k++) {
        FILE *file = fopen(files[k], "r");
        if (!file) return 1;
        size_t bytes = fread(text, 1, sizeof text, file);
        fclose(file);
        study(files[k], text, bytes);
    }
    study("one area of 80 rows", text, largest(text, 0));
    study("32 areas of 80 rows", text, largest(text, 1));
    refusals();
    other_rooms();
    other_calls();
    on_little();
    printf("%d passed, %d failed\n", passed, failed);
    return failed != 0;
}
