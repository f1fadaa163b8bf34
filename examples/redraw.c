// redraw BRANCH MILLIOHM [STUDY]: gives a resistor of a study another value and writes the study out again, as a drawing tool saves its network. The study is read from
// the file, or else from standard input; branches are counted as in a listing, from 1 in the order of the text and without the sources.
// Build: cc -Iinclude examples/redraw.c target/staticlib/libemt.a -o redraw
//
// All other lines come out as they were, byte for byte: a network has one spelling. What the tool has set is judged before anything is written: a network that
// could not be read again is not saved.
#include <emt.h>
#include <inttypes.h>
#include <stdio.h>
#include <stdlib.h>

static uint8_t text[EMT_TEXT_BYTES + 1]; // a byte more, so that a text that is too long shows
static int64_t network[EMT_NETWORK_WORDS];

// The row of the record with the branch of this number; NULL where there is none.
static int64_t *branch_row(uint64_t branch) {
    uint64_t place;
    if (emt_row(network, EMT_NETWORK_WORDS, branch, &place) != EMT_ACCEPTED) return NULL;
    return network + EMT_NETWORK_ROW(place - 1);
}

int main(int words, char **word) {
    if (words != 3 && words != 4) return fprintf(stderr, "usage: redraw BRANCH MILLIOHM [STUDY]\n"), 2;
    FILE *study = words == 4 ? fopen(word[3], "rb") : stdin;
    if (!study) return perror(word[3]), 1;
    size_t bytes = fread(text, 1, sizeof text, study);
    if (ferror(study)) return perror("the study is not read"), 1;

    uint64_t line, written;
    uint64_t answer = emt_read(text, bytes, network, EMT_NETWORK_WORDS, &line);
    if (answer != EMT_ACCEPTED) return fprintf(stderr, "line %" PRIu64 " is refused by %" PRIu64 "\n", line, answer), 1;

    int64_t *row = branch_row(strtoull(word[1], NULL, 10));
    if (!row || row[0] != EMT_R) return fprintf(stderr, "branch %s is no resistor\n", word[1]), 1;
    row[3] = atoll(word[2]); // kind, from, to, mΩ

    answer = emt_write(network, EMT_NETWORK_WORDS, text, EMT_WRITE_BYTES, &written);
    if (answer != EMT_ACCEPTED) return fprintf(stderr, "%s mΩ is not saved: refused by %" PRIu64 "\n", word[2], answer), 1;
    if (fwrite(text, 1, written, stdout) != written || fflush(stdout)) return perror("the study is not written"), 1;
    return 0;
}
