// What include/emt.h says a call takes for granted, tried: lengths that count bytes, calls at once on separate memory, the floating-point mode, and a refused
// call made again.
//   stated FILE    a study, listed by several threads at once
// Closing line: N passed, M failed.
#define _GNU_SOURCE
#include <emt.h>
#include <pthread.h>
#include <signal.h>
#include <stdio.h>
#include <string.h>
#include <sys/wait.h>
#include <unistd.h>
#include <xmmintrin.h>

enum { THREADS = 8, LISTED = 1 << 22 };

struct lent {
    int64_t records[EMT_RECORD_WORDS], froms[EMT_STORE_WORDS], tos[EMT_STORE_WORDS];
};
static int64_t network[EMT_NETWORK_WORDS];
static struct lent lent[THREADS + 1];
static uint8_t listed[THREADS + 1][LISTED];
static uint64_t bytes[THREADS + 1];
static int passed, failed;

static void expect(const char *what, uint64_t got, uint64_t wanted) {
    if (got == wanted) passed++;
    else failed++, printf("%s: %llu, not %llu\n", what, (unsigned long long)got, (unsigned long long)wanted);
}

static uint64_t read_network(const char *text, size_t length) {
    uint64_t line;
    return emt_read((const uint8_t *)text, length, network, EMT_NETWORK_WORDS, &line);
}

static uint64_t reset(struct lent *m) {
    return emt_reset(network, EMT_NETWORK_WORDS, m->records, EMT_RECORD_WORDS, m->froms, EMT_STORE_WORDS, m->tos, EMT_STORE_WORDS);
}

static uint64_t advance(struct lent *m, uint64_t area, uint64_t *place) {
    return emt_advance(network, EMT_NETWORK_WORDS, m->records, EMT_RECORD_WORDS, m->froms, EMT_STORE_WORDS, m->tos, EMT_STORE_WORDS, area, place);
}

static void start(const char *text) {
    expect(text, read_network(text, strlen(text)), EMT_ACCEPTED);
    expect(text, reset(lent), EMT_ACCEPTED);
}

// ---- lengths

static void lengths(void) {
    static const char text[] = "study\t1000\t1\t0\nR\t1\t0\t1000\n";
    uint64_t line = 9;
    expect("a length in bytes", emt_read((const uint8_t *)text, strlen(text), network, sizeof network, &line), EMT_STORE);
    expect("a length in bytes: line", line, 0);
}

// ---- threads: one network for all, all else is each thread's own

static void *list(void *number) {
    int t = *(int *)number;
    uint64_t written, area, refusal, place, answer = EMT_MORE;
    reset(&lent[t]);
    while (answer == EMT_MORE && bytes[t] + EMT_LIST_BYTES <= LISTED) {
        answer = emt_list(network, EMT_NETWORK_WORDS, lent[t].records, EMT_RECORD_WORDS, lent[t].froms, EMT_STORE_WORDS, lent[t].tos, EMT_STORE_WORDS,
                          listed[t] + bytes[t], EMT_LIST_BYTES, &written, &area, &refusal, &place);
        bytes[t] += written;
    }
    return NULL;
}

static void at_once(const char *file) {
    static char text[EMT_TEXT_BYTES];
    FILE *study = fopen(file, "r");
    expect(file, study != NULL, 1);
    if (!study) return;
    expect(file, read_network(text, fread(text, 1, sizeof text, study)), EMT_ACCEPTED);
    fclose(study);
    pthread_t thread[THREADS + 1];
    int number[THREADS + 1];
    for (int t = 0; t <= THREADS; t++) number[t] = t;
    list(&number[0]);
    expect("a listing by one", bytes[0] > 5 && !memcmp(listed[0] + bytes[0] - 5, "3000\n", 5), 1);
    for (int t = 1; t <= THREADS; t++) pthread_create(&thread[t], NULL, list, &number[t]);
    for (int t = 1; t <= THREADS; t++) pthread_join(thread[t], NULL);
    for (int t = 1; t <= THREADS; t++) expect("a listing by one of many", bytes[t] == bytes[0] && !memcmp(listed[t], listed[0], bytes[0]), 1);
}

// ---- the floating-point mode. Node 2 has half of 0.3 V, and the factor of the elimination is 2/3: to nearest its voltage is 0.2 V, toward zero 0.1 V.
// The mode is set in the processor's own word: on Arm, where this is compiled for x86-64, the numbers in fenv.h are those of Arm.

enum { STARTS = 0x1f80, TOWARD_ZERO = 0x6000, INEXACT_MASKED = 0x1000, FLAGS = 0x3f };

static const char half[] = "study\t1000\t1\t1000000000\nVS\t1\t3\t1\t0\nR\t1\t2\t8000\nR\t2\t3\t4000\nR\t3\t0\t4000\n";

static uint64_t solved_by(unsigned mode) {
    uint64_t place, answer;
    reset(lent);
    _mm_setcsr(mode);
    answer = advance(lent, 1, &place);
    expect("the mode after a call", _mm_getcsr() & ~(unsigned)FLAGS, mode);
    _mm_setcsr(STARTS);
    expect("a step in another mode", answer, EMT_ACCEPTED);
    return (uint64_t)lent->records[EMT_VOLTAGE(2)];
}

// Whether a process that unmasks exceptions and then does this dies of SIGFPE.
static int dies(void (*what)(void)) {
    int status;
    fflush(stdout);
    pid_t child = fork();
    if (child == 0) {
        _mm_setcsr(STARTS & ~INEXACT_MASKED);
        what();
        _exit(0);
    }
    return waitpid(child, &status, 0) == child && WIFSIGNALED(status) && WTERMSIG(status) == SIGFPE;
}

static void third(void) {
    volatile double one = 1, three = 3, quotient = one / three;
    (void)quotient;
}

static void step(void) {
    uint64_t place;
    advance(lent, 1, &place);
}

static void modes(void) {
    start(half);
    expect("the mode that a program starts with", _mm_getcsr() & ~(unsigned)FLAGS, STARTS);
    expect("to nearest", solved_by(STARTS), 2);
    expect("toward zero", solved_by(STARTS | TOWARD_ZERO), 1);
    reset(lent);
    if (dies(third)) expect("exceptions not masked: the call dies", (uint64_t)dies(step), 1);
    else puts("exceptions that are not masked are left out: this processor, or its emulator, does not stop at them");
    step();
    expect("exceptions masked: the step is taken", (uint64_t)lent->records[EMT_COUNT(1)], 1);
}

// ---- a refused call again: area 1 floats, area 2 goes on, area 1 floats as before

static void again(void) {
    start("study\t1000\t5\t0\nSW\t1\t0\t1000\t3\t5\nVS\t2\t7\t1\t0\n");
    struct lent before;
    for (int k = 0; k < 3; k++) {
        uint64_t place = 99;
        memcpy(&before, lent, sizeof before);
        expect("refused", advance(lent, 1, &place), EMT_FLOATING);
        expect("refused: place", place, 1);
        expect("refused: memory", memcmp(&before, lent, sizeof before) == 0, 1);
        expect("another area", advance(lent, 2, &place), EMT_ACCEPTED);
        expect("another area: count", place, (uint64_t)k + 1);
    }
}

int main(int words, char **word) {
    lengths();
    if (words > 1) at_once(word[1]);
    modes();
    again();
    printf("%d passed, %d failed\n", passed, failed);
    return failed != 0;
}
