// Reads a study of two resistors, advances its one area by its one step and prints the voltage between them: 50.0 V.
// Build: cc -Iinclude examples/caller.c target/staticlib/libemt.a -o caller
#include <emt.h>
#include <inttypes.h>
#include <stdio.h>
#include <string.h>

static int64_t network[EMT_NETWORK_WORDS], records[EMT_RECORD_WORDS], froms[EMT_STORE_WORDS], tos[EMT_STORE_WORDS];

int main(void) {
    const char *text = "study\t1000\t1\t0\nVS\t1\t1000\t1\t0\nR\t1\t2\t2000\nR\t2\t0\t2000\n";
    uint64_t place;
    uint64_t answer = emt_read((const uint8_t *)text, strlen(text), network, EMT_NETWORK_WORDS, &place);
    if (answer == EMT_ACCEPTED)
        answer = emt_reset(network, EMT_NETWORK_WORDS, records, EMT_RECORD_WORDS, froms, EMT_STORE_WORDS, tos, EMT_STORE_WORDS);
    if (answer == EMT_ACCEPTED)
        answer = emt_advance(network, EMT_NETWORK_WORDS, records, EMT_RECORD_WORDS, froms, EMT_STORE_WORDS, tos, EMT_STORE_WORDS, 1, &place);
    if (answer != EMT_ACCEPTED) return fprintf(stderr, "refused by %" PRIu64 " at %" PRIu64 "\n", answer, place), 1;
    printf("node 2 after step %" PRIu64 ": %.1f V\n", place, (double)records[EMT_VOLTAGE(2)] / 10);
    return 0;
}
