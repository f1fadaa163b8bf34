/* Names and words for the answers of emt.h, for messages that a person reads. A table in plain C, emt_words.c: no part of what is proved, and no call
 * of the library needs it. Compile emt_words.c with your program, or link the installed library, which has it. */
#ifndef EMT_WORDS_H
#define EMT_WORDS_H

#include <stdint.h>

#ifdef __cplusplus
extern "C" {
#endif

/* The name of an answer: "FORM" for 1, "ACCEPTED" for 0; "UNKNOWN" for a number that no call answers. Never null, and never to be freed. */
const char *emt_answer_name(uint64_t answer);

/* What is wrong, in one line without a full stop: "the travel time is shorter than the step" for 4. Never null. */
const char *emt_answer_words(uint64_t answer);

/* What the number beside a refusal is, *line or *place: "line", "node", "branch", or "" where it is 0. (2 of emt_node, emt_area and emt_row has none.) Never null. */
const char *emt_answer_place(uint64_t answer);

/* The version that this table, and an installed library with it, was made with: EMT_VERSION of then. */
const char *emt_version(void);

#ifdef __cplusplus
}
#endif
#endif
