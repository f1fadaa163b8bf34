// table < STUDY: runs a study as far as it goes, and then does what stands in the file TABLE: tests/callers.sh puts README.md's three lines on peaks there.
#include <emt.h>
#include <stdio.h>

static uint8_t text[EMT_TEXT_BYTES + 1], listing[1 << 16];
static int64_t network[EMT_NETWORK_WORDS], records[EMT_RECORD_WORDS], froms[EMT_STORE_WORDS], tos[EMT_STORE_WORDS];

int main(void) {
    uint64_t line, written, area, number, place;
    if (emt_read(text, fread(text, 1, sizeof text, stdin), network, EMT_NETWORK_WORDS, &line) != EMT_ACCEPTED) return 1;
    if (emt_reset(network, EMT_NETWORK_WORDS, records, EMT_RECORD_WORDS, froms, EMT_STORE_WORDS, tos, EMT_STORE_WORDS) != EMT_ACCEPTED) return 1;
    while (emt_list(network, EMT_NETWORK_WORDS, records, EMT_RECORD_WORDS, froms, EMT_STORE_WORDS, tos, EMT_STORE_WORDS, listing, sizeof listing, &written, &area,
                    &number, &place) == EMT_MORE)
        continue;
    {
#include TABLE
    }
    return 0;
}
