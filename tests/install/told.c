// Built from an installed library: a study that is refused, told by its name and words.
#include <emt.h>
#include <emt_words.h>
#include <stdio.h>
#include <string.h>

static int64_t network[EMT_NETWORK_WORDS];

int main(void) {
    const char *text = "study\t1000\t1\t0\nC\t1\t0\t13370000\n"; // 13.37 µF at 1 µs
    uint64_t line;
    uint64_t answer = emt_read((const uint8_t *)text, strlen(text), network, EMT_NETWORK_WORDS, &line);
    if (strcmp(emt_version(), EMT_VERSION)) return 1;
    printf("%s %d: %s (%d), %s\n", emt_answer_place(answer), (int)line, emt_answer_name(answer), (int)answer, emt_answer_words(answer));
    return 0;
}
