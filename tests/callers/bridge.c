// The compiled calls for a program that cannot link them. It writes a block of 64-bit words to standard input, their number before it, and the block
// comes back from standard output as the call has left it. Word 0 is the call, numbered from 0 in the order of emt.h, and afterwards its answer; word 1
// the area, node or branch; word 2 the second answer; words 3 to 5 area, number and place of a stop, or words 2 to 4 a node's voltage, peak and step; from word 6 on stand place and length of the
// network, the records, the two line stores, and the text or buffer, whose length is in bytes. What is lent lies behind these, with words between that no call may change. The number after
// the last call's lists a text whole: in place of the block come back the number of bytes of its listing, and the listing. An advance is made twice, by emt_advance and, on a copy of the
// block, by emt_advance_in in a room that holds anything: where the two differ in a word, the copy's guards among them, or one around the room has changed, the answer is one that no call gives.
#include <emt.h>
#include <inttypes.h>
#include <stdio.h>
#include <stdlib.h>
#include <string.h>
#include <unistd.h>

enum { GUARDS = 16 };
static const uint64_t TWO_ANSWERS = 999999998;
static int64_t *block;
static uint64_t words;

static int64_t *at(int which) { return block + block[6 + 2 * which]; }
static size_t length(int which) { return (size_t)block[7 + 2 * which]; }

static int get(void *to, size_t bytes) {
    for (size_t done = 0; done < bytes;) {
        ssize_t more = read(0, (char *)to + done, bytes - done);
        if (more <= 0) return 0;
        done += (size_t)more;
    }
    return 1;
}

static int put(const void *from, size_t bytes) {
    for (size_t done = 0; done < bytes;) {
        ssize_t more = write(1, (const char *)from + done, bytes - done);
        if (more <= 0) return 0;
        done += (size_t)more;
    }
    return 1;
}

// Words that no two calls have alike: also doubles of each kind come up.
static void fill(uint64_t *from, uint64_t *to) {
    static uint64_t word = 88172645463325252u;
    for (; from < to; from++) word ^= word << 13, word ^= word >> 7, word ^= word << 17, *from = word;
}

static uint64_t advance_twice(void) {
    static struct {
        uint64_t before[GUARDS];
        struct emt_room room;
        uint64_t after[GUARDS];
    } lent;
    static uint64_t before[GUARDS], after[GUARDS];
    int64_t *first = block, *second = malloc(8 * words);
    uint64_t answers[2];
    if (!second) exit(1);
    memcpy(second, first, 8 * words);
    fill(lent.before, (uint64_t *)(&lent + 1));
    memcpy(before, lent.before, sizeof before);
    memcpy(after, lent.after, sizeof after);
    answers[0] = emt_advance(at(0), length(0), at(1), length(1), at(2), length(2), at(3), length(3), (uint64_t)block[1], (uint64_t *)block + 2);
    block = second;
    answers[1] = emt_advance_in(at(0), length(0), at(1), length(1), at(2), length(2), at(3), length(3), (uint64_t)block[1], (uint64_t *)block + 2, &lent.room, sizeof lent.room);
    block = first;
    int same = answers[0] == answers[1] && !memcmp(first, second, 8 * words) && !memcmp(before, lent.before, sizeof before) && !memcmp(after, lent.after, sizeof after);
    free(second);
    return same ? answers[0] : TWO_ANSWERS;
}

static uint64_t call(void) {
    int64_t *network = at(0), *records = at(1), *froms = at(2), *tos = at(3);
    size_t n = length(0), r = length(1), f = length(2), t = length(3);
    uint8_t *bytes = (uint8_t *)at(4);
    uint64_t *second = (uint64_t *)block + 2;
    switch (block[0]) {
    case 0: return emt_read(bytes, length(4), network, n, second);
    case 1: return emt_reset(network, n, records, r, froms, f, tos, t);
    case 2: return advance_twice();
    case 3: return emt_node(network, n, records, r, (uint64_t)block[1], block + 2, second + 1, second + 2);
    case 4: return emt_areas(network, n, second);
    case 5: return emt_area(network, n, (uint64_t)block[1], second);
    case 6: return emt_row(network, n, (uint64_t)block[1], second);
    case 7: return emt_list(network, n, records, r, froms, f, tos, t, bytes, length(4), second, second + 1, second + 2, second + 3);
    case 8: return emt_write(network, n, bytes, length(4), second);
    default: exit(1);
    }
}

// The listing of a text behind its own length, with room for one piece more; pieces are as long as emtrun's.
enum { PIECE = 65536 };
static uint8_t *listing;

static uint8_t *piece_at(uint64_t end) {
    static uint64_t room;
    if (room < end + PIECE) listing = realloc(listing, room = 2 * (end + PIECE));
    if (!listing) exit(1);
    return listing + end;
}

// What emtrun does. No call spells the `bad` line: it is spelled here. Memory is lent as the last text left it.
static int list_text(void) {
    static int64_t network[EMT_NETWORK_WORDS], records[EMT_RECORD_WORDS], froms[EMT_STORE_WORDS], tos[EMT_STORE_WORDS];
    uint64_t end = sizeof end, line, written, area, refusal, place;
    uint64_t number = emt_read((uint8_t *)at(4), length(4), network, EMT_NETWORK_WORDS, &line);
    if (number != EMT_ACCEPTED)
        end += (uint64_t)sprintf((char *)piece_at(end), "bad\t%" PRIu64 "\t%" PRIu64 "\n", line, number);
    else if (emt_reset(network, EMT_NETWORK_WORDS, records, EMT_RECORD_WORDS, froms, EMT_STORE_WORDS, tos, EMT_STORE_WORDS) != EMT_ACCEPTED)
        return 0;
    else
        do {
            number = emt_list(network, EMT_NETWORK_WORDS, records, EMT_RECORD_WORDS, froms, EMT_STORE_WORDS, tos, EMT_STORE_WORDS, piece_at(end), PIECE, &written, &area, &refusal,
                              &place);
            end += written;
        } while (number == EMT_MORE);
    *(uint64_t *)listing = end - sizeof end;
    return put(listing, end);
}

int main(void) {
    while (get(&words, sizeof words)) {
        block = realloc(block, 8 * words);
        if (!block || !get(block, 8 * words)) return 1;
        if (block[0] == 9) {
            if (!list_text()) return 1;
            continue;
        }
        block[0] = (int64_t)call();
        if (!put(block, 8 * words)) return 1;
    }
    return 0;
}
