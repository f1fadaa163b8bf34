/* The words of emt_words.h: a line for each answer. tests/words.sh holds names, numbers and places to the definitions. */
#include "emt_words.h"

#include "emt.h"

struct words {
    uint64_t answer;
    const char *name, *place, *words;
};

static const struct words table[] = {
    {EMT_ACCEPTED, "ACCEPTED", "", "accepted"},
    {EMT_FORM, "FORM", "line", "the line is not spelt as a study's: its word, the number of its fields, or one field's spelling"},
    {EMT_NODE, "NODE", "line", "a node over 32, a branch from a node to itself, or a source or a line's end on ground"},
    {EMT_VALUE, "VALUE", "line", "a value is out of its range, or the conductance that it gives is below 1 nS or over 1 S"},
    {EMT_TRAVEL, "TRAVEL", "line", "the travel time is shorter than the step"},
    {EMT_DOUBLE, "DOUBLE", "line", "the node has a voltage source already"},
    {EMT_FULL, "FULL", "line", "more than 64 branches or 16 sources, or lines with more than 4,096 slots for this step"},
    {EMT_SIZE, "SIZE", "", "the text is longer than 65,536 bytes"},
    {EMT_NETWORK, "NETWORK", "", "the lent network is not one that the reader writes"},
    {EMT_STORE, "STORE", "", "a lent length is wrong"},
    {EMT_STATE, "STATE", "", "the lent records or line stores hold what no run can"},
    {EMT_AREA, "AREA", "", "there is no area of this number"},
    {EMT_DONE, "DONE", "", "the area has taken all its steps"},
    {EMT_WAIT, "WAIT", "branch", "the area needs what the far end of this line has not sent yet: another area must advance first"},
    {EMT_FLOATING, "FLOATING", "node", "nothing that conducts leads from this node to ground, to a source or to a line"},
    {EMT_RANGE, "RANGE", "node", "the voltage of this node would be beyond 2 MV"},
    {EMT_UNBALANCED, "UNBALANCED", "node", "the currents at this node do not add up within the balance limit"},
    {EMT_HISTORY, "HISTORY", "branch", "this inductor, capacitor or line would carry more than 10 MA"},
    {EMT_MORE, "MORE", "", "the buffer is full, and more is to be listed"},
    {EMT_STOPPED, "STOPPED", "", "an area was refused its step, and the run has stopped"},
};

static const struct words unknown = {0, "UNKNOWN", "", "no call answers this number"};

static const struct words *find(uint64_t answer) {
    for (unsigned k = 0; k < sizeof table / sizeof *table; k++)
        if (table[k].answer == answer) return &table[k];
    return &unknown;
}

const char *emt_answer_name(uint64_t answer) { return find(answer)->name; }

const char *emt_answer_words(uint64_t answer) { return find(answer)->words; }

const char *emt_answer_place(uint64_t answer) { return find(answer)->place; }

const char *emt_version(void) { return EMT_VERSION; }
