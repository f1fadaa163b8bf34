// emt_read and the plain C reader on the same texts: full, long or wide; and kinds, for their answers alone.
//   reading TEXT agree COPIES        the answers and all words compared, of the text and of so many damaged copies
//   reading TEXT ours|plain TIMES    one of the two reads the text so often, for the count; prints its bytes
#include <stdio.h>
#include <stdlib.h>
#include <string.h>

#include "emt.h"

uint64_t plain_read(const uint8_t *text, size_t length, int64_t *network, size_t words, uint64_t *line);

static uint8_t text[EMT_TEXT_BYTES + 2];
static size_t length;
static int64_t ours[EMT_NETWORK_WORDS], theirs[EMT_NETWORK_WORDS];

static void put(const char *s) { length += (size_t)sprintf((char *)text + length, "%s", s); }

// 64 branches and 16 sources, most numbers long.
static void full(void) {
    put("study\t1000\t1000000\t1000000000000000\n");
    for (int i = 0; i < 64; i++) {
        char s[96];
        int from = 1 + i % 31, to = from + 1;
        switch (i % 5) {
        case 0: sprintf(s, "R\t%d\t%d\t%d\n", from, to, 100000000 + i); break;
        case 1: sprintf(s, "L\t%d\t%d\t%d\n", from, to, 100000000 + i); break;
        case 2: sprintf(s, "C\t%d\t%d\t%d\n", from, 0, 100000 + i); break;
        case 3: sprintf(s, "LINE\t%d\t%d\t%d\t%d\n", from, to, 400000, 150000); break;
        default: sprintf(s, "SW\t%d\t%d\t%d\t%d\t%d\n", from, to, 100000, 1000 + i, 999999); break;
        }
        put(s);
    }
    for (int i = 1; i <= 16; i++) {
        char s[96];
        sprintf(s, "%s\t%d\t%d\t%d\t%d\n", i & 1 ? "VS" : "IS", i, i & 2 ? -19999999 : 19999999, 100000, 999);
        put(s);
    }
}

// Each word that a line may have, and travel times between steps.
static void every_kind(void) {
    put("study\t1000\t100\t1000\n");
    put("VC\t1\t-20000\t10\t50000\nVS\t2\t-20000\t10\t50\nIS\t1\t5\t1\t0\n");
    put("SW\t1\t3\t1000\t5\t50\nSWT\t3\t4\t1000\t5\t50\nR\t3\t0\t2000\nL\t4\t0\t2000\nC\t4\t0\t2000\n");
    put("LINE\t2\t5\t400000\t2500\nLINE\t5\t6\t400000\t1000\nLINE\t5\t6\t400000\t2040001\n");
    put("VC\t6\t1\t1\t100000\nVC\t7\t0\t1000000\t1\n");
}

// The same as the full one, and a last line whose number takes it to the longest text.
static void wide(void) {
    full();
    put("R\t1\t2\t");
    while (length < EMT_TEXT_BYTES - 1) text[length++] = '7';
    text[length++] = '\n';
}

// 60,000 digits in the second line.
static void longest(void) {
    put("study\t1000\t10\t0\nR\t");
    memset(text + length, '9', 60000);
    length += 60000;
    put("\t2\t1000\n");
}

static void compare(const uint8_t *t, size_t n, size_t words) {
    uint64_t line, other;
    for (int i = 0; i < EMT_NETWORK_WORDS; i++) ours[i] = theirs[i] = 7 - i;
    uint64_t a = emt_read(t, n, ours, words, &line), b = plain_read(t, n, theirs, words, &other);
    if (a != b || line != other || memcmp(ours, theirs, sizeof ours)) {
        printf("differ: %zu bytes, %llu %llu and %llu %llu\n%.*s", n, (unsigned long long)a, (unsigned long long)line, (unsigned long long)b, (unsigned long long)other, (int)(n < 3000 ? n : 3000), t);
        exit(1);
    }
}

static uint64_t seed = 88172645463325252u;
static uint64_t chance(uint64_t below) {
    seed ^= seed << 13, seed ^= seed >> 7, seed ^= seed << 17;
    return seed % below;
}

int main(int count, char **words) {
    if (count < 4) return 2;
    const char *name = words[1];
    int times = atoi(words[3]);
    if (!strcmp(name, "full")) full();
    else if (!strcmp(name, "wide")) wide();
    else if (!strcmp(name, "kinds")) every_kind();
    else longest();
    if (!strcmp(words[2], "agree")) {
        static const char bytes[] = "0123456789\t\n-RLCSVIWENTstudy 9990001";
        static uint8_t copy[sizeof text];
        compare(text, length, EMT_NETWORK_WORDS);
        compare(text, length, 1023);
        for (int i = 0; i < times; i++) {
            size_t n = length;
            memcpy(copy, text, length);
            for (uint64_t k = 1 + chance(3); k; k--) {
                size_t at = chance(n < 4000 ? n : 4000);
                switch (chance(4)) {
                case 0: copy[at] = (uint8_t)bytes[chance(sizeof bytes - 1)]; break;
                case 1: memmove(copy + at, copy + at + 1, --n - at); break;
                case 2: if (n < EMT_TEXT_BYTES) memmove(copy + at + 1, copy + at, n++ - at), copy[at] = (uint8_t)bytes[chance(sizeof bytes - 1)]; break;
                default: if (chance(8) == 0) n = at + 1;
                }
            }
            compare(copy, n, EMT_NETWORK_WORDS);
        }
        printf("%s: %d damaged copies agree\n", name, times);
        return 0;
    }
    uint64_t (*reader)(const uint8_t *, size_t, int64_t *, size_t, uint64_t *) = strcmp(words[2], "ours") ? plain_read : emt_read;
    uint64_t line;
    for (int i = 0; i < times; i++) reader(text, length, ours, EMT_NETWORK_WORDS, &line);
    printf("%zu\n", length);
    return 0;
}
