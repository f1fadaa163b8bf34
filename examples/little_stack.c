// examples/caller.c for a controller with 8 KiB of stack: the tables of an advance are in a room that the caller lends, here a static one. Prints 50.0 V too.
// Build: cc -Iinclude examples/little_stack.c target/staticlib/libemt.a -o little_stack
#include <emt.h>
#include <inttypes.h>
#include <stdio.h>
#include <string.h>

static int64_t network[EMT_NETWORK_WORDS], records[EMT_RECORD_WORDS], froms[EMT_STORE_WORDS], tos[EMT_STORE_WORDS];
static struct emt_room room; // one for all calls that are made one after the other; threads have one each

int main(void) {
    const char *text = "study\t1000\t1\t0\nVS\t1\t1000\t1\t0\nR\t1\t2\t2000\nR\t2\t0\t2000\n";
    uint64_t place;
    uint64_t answer = emt_read((const uint8_t *)text, strlen(text), network, EMT_NETWORK_WORDS, &place);
    if (answer == EMT_ACCEPTED)
        answer = emt_reset(network, EMT_NETWORK_WORDS, records, EMT_RECORD_WORDS, froms, EMT_STORE_WORDS, tos, EMT_STORE_WORDS);
    if (answer == EMT_ACCEPTED)
        answer = emt_advance_in(network, EMT_NETWORK_WORDS, records, EMT_RECORD_WORDS, froms, EMT_STORE_WORDS, tos, EMT_STORE_WORDS, 1, &place, &room, sizeof room);
    if (answer != EMT_ACCEPTED) return fprintf(stderr, "refused by %" PRIu64 " at %" PRIu64 "\n", answer, place), 1;
    printf("node 2 after step %" PRIu64 ": %.1f V\n", place, (double)records[EMT_VOLTAGE(2)] / 10);
    return 0;
}
