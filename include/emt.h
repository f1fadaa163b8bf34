/* Zanguremi: the calls of the proved library (rt staticlib emt -> target/staticlib/libemt.a; installed: cc .. $(pkg-config --cflags --libs emt)).
 *
 * The caller lends all memory; the library allocates nothing and keeps nothing between calls. Lent pieces must not overlap.
 * Every call settles its answer and every lent word on all inputs: a wrong length, a damaged record or a damaged text is refused by a
 * number, and a refused call leaves all lent memory as it was. One lent thing is left open, the room of emt_advance_in. What is answered beside
 * the number (*line, *place, *voltage, *peak, *step, *count, *written, *area, *number) is always written.
 *
 * Units: voltage 0.1 V, current 0.1 nA, conductance nS, time ns.
 *
 * What a call takes for granted, since it cannot see it:
 * - Lengths count words of 8 bytes: EMT_NETWORK_WORDS, and not sizeof network, which is EMT_STORE. Three count bytes: text_len, out_len and
 *   room_bytes.
 * - Pointers: none may be null, whatever its length, and each leads to as much memory as its length says (one word for what is answered).
 *   Words stand at multiples of 8 bytes, as arrays of int64_t do.
 * - Threads: the library has no memory of its own, so calls that are lent separate memory may run at once. A network, which no call but emt_read
 *   writes, may be lent to many at a time. Records, line stores, room, buffer and what is answered are one call's alone until it returns:
 *   two calls on one state go one after the other (examples/scheduler.c).
 * - Stack: emt_advance touches some 34 KB, emt_advance_in under 8 KB; docs/BENCHMARK.md has every call's bytes. They are measured, not proved.
 * - Doubles: the floating-point mode is the one that a C program starts with: rounding to nearest, subnormal numbers kept, exceptions
 *   masked. In another mode results may differ, or the call dies of SIGFPE. A call never sets the mode; it raises flags.
 * - Processor: x86-64 with its C calling convention of Linux.
 *
 * A second call: a refusal changes nothing, so the same call on the same memory is refused by the same number again, as often as it is made.
 * An area that one of 14 to 17 has stopped stays stopped, whatever the others do; emt_reset starts the study again. After EMT_STOPPED see emt_list. */
#ifndef EMT_H
#define EMT_H

#include <stddef.h>
#include <stdint.h>

#ifdef __cplusplus
extern "C" {
#endif

/* ---- Version. A program may be linked to a library of another version if the first two numbers are those of the header it was compiled with. The
 * first is 0 while lent words may still move; the second goes up where a length, a word's place, a kind of row, a call or an answer changes, the third for
 * all else. 0.6: an SW parts at a current zero and has a latch; EMT_SWT is the switch that SW was.
 * (A length that has changed is refused by EMT_STORE.) */
#define EMT_VERSION_MAJOR 0
#define EMT_VERSION_MINOR 6
#define EMT_VERSION_PATCH 0
#define EMT_VERSION "0.6.0"

/* ---- Lengths of lent memory; another length is refused by EMT_STORE */
#define EMT_NETWORK_WORDS 1024 /* a network, as emt_read writes it */
#define EMT_RECORD_WORDS 1024  /* counts, voltages, currents, histories, peaks, latches; as long as a network, so that the two exchanged are EMT_NETWORK */
#define EMT_STORE_WORDS 4096   /* what the from ends of all lines sent; as many for the to ends */
#define EMT_TEXT_BYTES 65536   /* the longest study text; a longer one is EMT_SIZE */
#define EMT_LIST_BYTES 4160    /* the shortest buffer that emt_list takes; a longer one means fewer calls */
#define EMT_WRITE_BYTES 8192   /* the shortest area that emt_write takes: no study's text is longer */

/* ---- Ends of each quantity */
#define EMT_NODES 32 /* 0 is ground */
#define EMT_BRANCHES 64
#define EMT_SOURCES 16
#define EMT_ROWS (EMT_BRANCHES + EMT_SOURCES)
#define EMT_VOLTAGE_MOST INT64_C(20000000)                /* 2 MV, either sign */
#define EMT_CONDUCTANCE_MOST INT64_C(1000000000)          /* of one branch; the least is 1 */
#define EMT_HISTORY_MOST INT64_C(100000000000000000)      /* history or sent line value, either sign */
#define EMT_CURRENT_MOST INT64_C(140000000000000000)      /* recorded current, either sign */
#define EMT_INJECTION_MOST INT64_C(2000000000000000)      /* peak of an IS, either sign */
#define EMT_STEP_LENGTH_MOST INT64_C(1000000)             /* ns; the least is 1 */
#define EMT_STEPS_MOST INT64_C(1000000)                   /* the least is 1 */
#define EMT_LIMIT_MOST INT64_C(1000000000000000)          /* balance limit; the least is 0 */
#define EMT_MILLIOHM_LEAST INT64_C(1000)                  /* R, SW, SWT, LINE */
#define EMT_MILLIOHM_MOST INT64_C(1000000000000)
#define EMT_NANOHENRY_MOST INT64_C(1000000000000)         /* the least is 1 */
#define EMT_PICOFARAD_MOST INT64_C(1000000000)            /* the least is 1 */
#define EMT_TRAVEL_MOST INT64_C(1000000000)               /* ns; the least is 1 */
#define EMT_OPEN_MOST INT64_C(1000001)                    /* an SW or SWT that stays closed to the last step */
#define EMT_RISE_MOST INT64_C(1000)                       /* steps */
#define EMT_FREQUENCY_MOST INT64_C(100000)                /* mHz, of a VC; from 1 */

/* ---- Words of a network */
#define EMT_NETWORK_STEP_LENGTH 0
#define EMT_NETWORK_STEPS 1
#define EMT_NETWORK_LIMIT 2
#define EMT_NETWORK_ROWS 3                /* how many rows; words 4 to 7 are 0 */
#define EMT_NETWORK_ROW(r) (8 + 8 * (r))  /* r from 0: kind, then the fields as in the text */
enum { EMT_R = 1, EMT_L = 2, EMT_C = 3, EMT_LINE = 4, EMT_SW = 5, EMT_VS = 6, EMT_IS = 7, EMT_VC = 8, EMT_SWT = 9 };
#define EMT_IS_SOURCE(kind) ((kind) == EMT_VS || (kind) == EMT_IS || (kind) == EMT_VC) /* any other is a branch */

/* ---- Words of the records. Rows count from 0 in the order of the text, sources among them. */
#define EMT_COUNT(area) ((area) - 1)         /* steps that the area has taken; areas from 1 */
#define EMT_VOLTAGE(node) (32 + (node) - 1)  /* nodes from 1 */
#define EMT_CURRENT(row) (64 + (row))        /* leaves the from node */
#define EMT_TO_CURRENT(row) (144 + (row))    /* of a line: leaves the to node */
#define EMT_HISTORY_OF(row) (224 + (row))    /* of L and C */
#define EMT_PEAK(node) (304 + (node) - 1)    /* the voltage's largest magnitude over all steps of the node's area */
#define EMT_PEAK_STEP(node) (336 + (node) - 1) /* the first step where it came; 0 before any step */
#define EMT_LATCH(r) (368 + (r))             /* of an SW the step after which it parted, 0 while it has not; 0 of any other row */

/* ---- Answers. Reading: 9, 7, then 1 to 6; resetting: 9, 8; advancing: 9, 8, then 10 to 17; listing: 9, 8, 10; writing: 9, 8; asking
 * for a node: 9, 8, 10, 2; asking how a network is laid out: 9, 8, 2. */
enum {
    EMT_ACCEPTED = 0,
    EMT_FORM = 1,        /* a line's word, fields or spelling */
    EMT_NODE = 2,        /* node over 32, both ends equal, source or line end on ground; asking: no such node or branch */
    EMT_VALUE = 3,       /* a field, or the conductance it gives, out of range */
    EMT_TRAVEL = 4,      /* travel time shorter than the step */
    EMT_DOUBLE = 5,      /* a second VS or VC on a node */
    EMT_FULL = 6,        /* too many branches, sources or slots of lines */
    EMT_SIZE = 7,        /* text too long */
    EMT_NETWORK = 8,     /* lent network is not one that emt_read writes */
    EMT_STORE = 9,       /* a lent length is wrong */
    EMT_STATE = 10,      /* lent records or line stores are not well formed; listing: areas at different steps */
    EMT_AREA = 11,       /* no such area */
    EMT_DONE = 12,       /* the area has taken all steps */
    EMT_WAIT = 13,       /* a far area must advance first; place: the line */
    EMT_FLOATING = 14,   /* place: the node without a path */
    EMT_RANGE = 15,      /* place: the node beyond the voltage range */
    EMT_UNBALANCED = 16, /* place: the node where the limit is passed */
    EMT_HISTORY = 17,    /* place: the branch whose next history or sent value is too large */
    EMT_MORE = 100,      /* emt_list: the buffer is full, more is to be listed */
    EMT_STOPPED = 101    /* emt_list: an area refused its step; *area, *number and *place say which and why, and so does the last line listed */
};

/* Reads a study text into a network. Answers 0, or 1 to 7 or 9; *line is the faulty line from 1 (0 with 0, 7 and 9). */
uint64_t emt_read(const uint8_t *text, size_t text_len, int64_t *network, size_t network_len, uint64_t *line);

/* Puts a network at rest: records and both line stores all zero. Answers 0, 8 or 9. */
uint64_t emt_reset(const int64_t *network, size_t network_len, int64_t *records, size_t records_len, int64_t *froms,
                   size_t froms_len, int64_t *tos, size_t tos_len);

/* Advances one area (from 1) by one step. Answers 0 and in *place the area's new count, or 8 to 17 and in *place the node, branch or 0.
 * Areas may advance in any order: what each has after so many steps does not depend on it. */
uint64_t emt_advance(const int64_t *network, size_t network_len, int64_t *records, size_t records_len, int64_t *froms,
                     size_t froms_len, int64_t *tos, size_t tos_len, uint64_t area, uint64_t *place);

/* Working room for emt_advance_in. Its words may hold anything before a call and are left open after it, whatever the answer. */
struct emt_room {
    uint64_t plan[EMT_ROWS][14];
    int64_t legs[2 * EMT_ROWS][9];
    double factors[EMT_NODES][EMT_NODES];
};
#define EMT_ROOM_BYTES 28672 /* its size; another that is stated is refused by EMT_STORE, and the room is not touched */

/* What emt_advance_in calls. */
uint64_t emt_advance_in_tables(const int64_t *network, size_t network_len, int64_t *records, size_t records_len, int64_t *froms,
                               size_t froms_len, int64_t *tos, size_t tos_len, uint64_t area, uint64_t *place, uint64_t plan[EMT_ROWS][14],
                               int64_t legs[2 * EMT_ROWS][9], double factors[EMT_NODES][EMT_NODES], size_t room_bytes);

/* emt_advance for a caller with little stack: the tables that it would have there are in a lent room, sizeof *room bytes. The same answers,
 * the same *place and the same lent words but the room's; it may be lent again to any call. docs/BENCHMARK.md has the bytes of stack. */
static inline uint64_t emt_advance_in(const int64_t *network, size_t network_len, int64_t *records, size_t records_len, int64_t *froms,
                                      size_t froms_len, int64_t *tos, size_t tos_len, uint64_t area, uint64_t *place,
                                      struct emt_room *room, size_t room_bytes) {
    return emt_advance_in_tables(network, network_len, records, records_len, froms, froms_len, tos, tos_len, area, place, room->plan,
                                 room->legs, room->factors, room_bytes);
}

/* Tells of a node (from 1) its voltage, its peak, that is the largest magnitude of its voltage over all steps of its area, and the first step
 * where it came: both 0 before any step. Answers 0, or 9, 8, 10 of the records alone, or 2 for no such node; then all three are 0. */
uint64_t emt_node(const int64_t *network, size_t network_len, const int64_t *records, size_t records_len, uint64_t node,
                  int64_t *voltage, uint64_t *peak, uint64_t *step);

/* How a network is laid out. Each answers 0, or 9, 8, or 2 for no such node or branch; what is told is 0 then. *count areas, numbered from 1; the
 * area of a node; the row of a branch (both from 1) in the network, which EMT_NETWORK_ROW(*place - 1) begins and whose current is
 * EMT_CURRENT(*place - 1); line *place + 1 of the text gave it. */
uint64_t emt_areas(const int64_t *network, size_t network_len, uint64_t *count);
uint64_t emt_area(const int64_t *network, size_t network_len, uint64_t node, uint64_t *number);
uint64_t emt_row(const int64_t *network, size_t network_len, uint64_t branch, uint64_t *place);

/* Advances all areas in rising order, full step after full step, and lists each into out: the lines of emtrun. *written bytes
 * of out are written. Answers 0 when done, EMT_MORE, EMT_STOPPED, or 8 to 10. With EMT_STOPPED *area is the area that was refused its
 * step, *number the refusal, 14 to 17, and *place its node or branch; with any other answer the three are 0.
 * After EMT_STOPPED nothing is undone: the areas before *area have taken the step. So where *area is 1 a further call answers the same
 * again, lists the stop line alone and changes no lent word; else it answers EMT_STATE. emt_reset starts the study again. */
uint64_t emt_list(const int64_t *network, size_t network_len, int64_t *records, size_t records_len, int64_t *froms,
                  size_t froms_len, int64_t *tos, size_t tos_len, uint8_t *out, size_t out_len, uint64_t *written,
                  uint64_t *area, uint64_t *number, uint64_t *place);

/* Writes a network out as the study text it was read from, its lines in the order of its rows. Answers 0, and *written bytes of out are
 * written, the rest left as it was; or 8 or 9, *written 0 and no byte changed. emt_read of these bytes gives the same network, every word;
 * and a network that emt_read gave is written as the bytes it was read from. */
uint64_t emt_write(const int64_t *network, size_t network_len, uint8_t *out, size_t out_len, uint64_t *written);

#ifdef __cplusplus
}
#endif
#endif
