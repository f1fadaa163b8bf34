// peaks < STUDY: runs a study to its end and tells of each node its largest voltage, without sign, and the first step where it came.
// Build: cc -Iinclude examples/peaks.c target/staticlib/libemt.a -o peaks
//
// The peaks stand in the records beside the voltages, so the listing, which moves the run on, is thrown away. A run that stops has the peaks of all
// steps that were taken; how it stopped is said on standard error, and the status is then 1.
#include <emt.h>
#include <inttypes.h>
#include <stdio.h>

static uint8_t text[EMT_TEXT_BYTES + 1]; // a byte more, so that a text that is too long shows
static uint8_t listing[1 << 16];
static int64_t network[EMT_NETWORK_WORDS], records[EMT_RECORD_WORDS], froms[EMT_STORE_WORDS], tos[EMT_STORE_WORDS];

int main(void) {
    uint64_t line, written, area, number, place;
    uint64_t answer = emt_read(text, fread(text, 1, sizeof text, stdin), network, EMT_NETWORK_WORDS, &line);
    if (answer != EMT_ACCEPTED) return fprintf(stderr, "line %" PRIu64 " is refused by %" PRIu64 "\n", line, answer), 1;
    answer = emt_reset(network, EMT_NETWORK_WORDS, records, EMT_RECORD_WORDS, froms, EMT_STORE_WORDS, tos, EMT_STORE_WORDS);
    if (answer != EMT_ACCEPTED) return fprintf(stderr, "not reset: %" PRIu64 "\n", answer), 1;
    do
        answer = emt_list(network, EMT_NETWORK_WORDS, records, EMT_RECORD_WORDS, froms, EMT_STORE_WORDS, tos, EMT_STORE_WORDS, listing, sizeof listing,
                          &written, &area, &number, &place);
    while (answer == EMT_MORE);

    int64_t voltage;
    uint64_t peak, step;
    printf("node\tpeak, V\tstep\n");
    for (uint64_t node = 1; emt_node(network, EMT_NETWORK_WORDS, records, EMT_RECORD_WORDS, node, &voltage, &peak, &step) == EMT_ACCEPTED; node++)
        printf("%" PRIu64 "\t%" PRIu64 ".%" PRIu64 "\t%" PRIu64 "\n", node, peak / 10, peak % 10, step);
    if (answer != EMT_ACCEPTED) return fprintf(stderr, "area %" PRIu64 " is refused by %" PRIu64 " at %" PRIu64 "\n", area, number, place), 1;
    return 0;
}
