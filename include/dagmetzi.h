/* Dagmetzi: the smallest first stage of a two-stage converter.
 *
 * Each call returns 0, or the number of its refusal (below; docs/FORMATS.md has them with their order), and leaves
 * DAGMETZI_NUMBERS numbers in `reply`. A refused call changes nothing that is lent but `reply`: `buffer` and `tables` are as they were, and `reply`
 * has the outcome, the place, and 0 for the cells, the floor, the visits and the length.
 *
 * What a caller owes: no pointer is null, not even beside a length of 0, and each is aligned for what it points to. All
 * that is lent can be read, and `buffer`, `tables` and `reply` can be written. These three share no byte with each
 * other or with the rest of what is lent, and nothing else reads or writes them, or writes the rest, until the call
 * returns. Any bytes, sizes, sets and budgets are taken. Nothing is kept between calls, so threads may call at once.
 *
 * The archive is for x86-64 Linux.
 */
#ifndef DAGMETZI_H
#define DAGMETZI_H

#include <stddef.h>
#include <stdint.h>

#ifdef __cplusplus
extern "C" {
#endif

/* The numbers of a reply, by index. */
enum {
    DAGMETZI_OUTCOME = 0, /* one of the outcomes below */
    DAGMETZI_CELLS = 1,   /* cells of the stage: found, written, or audited; 0 for a copy */
    DAGMETZI_FLOOR = 2,   /* no stage has fewer cells than this; 0 in an audit and for a copy */
    DAGMETZI_VISITS = 3,  /* parts expanded by the search, at most the budget; 0 in an audit and for a copy */
    DAGMETZI_LENGTH = 4,  /* bytes written at the start of `buffer`; 0 in a search and in an audit */
    DAGMETZI_PLACE = 5,   /* the place that a refusal names */
    DAGMETZI_NUMBERS = 6
};

/* The outcomes. */
enum {
    DAGMETZI_BEST = 0,         /* search, quote: no stage has fewer cells */
    DAGMETZI_STOPPED = 1,      /* search, quote: the budget was used up first */
    DAGMETZI_FITS = 0,         /* audit: the stage keeps to the sheet */
    DAGMETZI_DIFFERS = 1,      /* audit: on some pattern it does not */
    DAGMETZI_WRITTEN = 0,      /* clean: the copy was written */
    DAGMETZI_REFUSED = 2,      /* the sheet, the relation or the buffer is refused */
    DAGMETZI_STAGE_REFUSED = 3 /* audit: the stage is refused */
};

/* The refusals. Where no place is named below, it is where the command at fault begins; in a stage that shares selectors
 * each entry of a list, and its top, counts as a command of its own. */
enum {
    DAGMETZI_CUT_SHORT = 1,      /* the bytes end inside a command, or where one is due */
    DAGMETZI_UNKNOWN = 2,        /* no command begins with this byte */
    DAGMETZI_OUT_OF_RANGE = 3,   /* an operand; of a relation: its sizes (place 0), or a set (place: the pattern) */
    DAGMETZI_TRAILING = 4,       /* something stands behind the end; place: there */
    DAGMETZI_OUT_OF_TURN = 5,    /* a command, or a stage's wire, where another is due */
    DAGMETZI_NO_SIGNAL = 6,      /* a signal that is not made yet; of a list: an entry or the top names a number that is not there */
    DAGMETZI_REPEATED = 7,       /* the pattern has a value already, or is impossible already */
    DAGMETZI_TOO_MANY = 8,       /* the 33rd gate or the 9th output */
    DAGMETZI_MISSING_ROW = 9,    /* a pattern with no value that is not impossible; place: the lowest */
    DAGMETZI_EMPTY = 10,         /* no value is left for a pattern; place: the lowest */
    DAGMETZI_NOT_ASCENDING = 11, /* a selector input that is not above its parent's; of a list: an entry names one whose input is not above its own */
    DAGMETZI_SHORT_BUFFER = 12,  /* the buffer is shorter than the stage or the copy; place: the length needed */
    DAGMETZI_SIZES_DIFFER = 13,  /* audit: the stage has another n or m than the sheet; place 0 */
    DAGMETZI_TOO_WIDE = 15       /* sharing quote: the sheet has more than DAGMETZI_SHARED_INPUTS inputs; place 0 */
};

/* A sheet has at most so many inputs, and what the board that shares selectors takes at most so many; a relation is handed
 * in with so many sets, one for each pattern of the most inputs; a stage has at most so many wires. */
#define DAGMETZI_INPUTS 6
#define DAGMETZI_SHARED_INPUTS 4
#define DAGMETZI_PATTERNS 64
#define DAGMETZI_WIRES 4

/* No stage of trees has more bytes than this: the buffer of a tree quote is never too short at this length. */
#define DAGMETZI_LONGEST_STAGE 772

/* No sharing quote writes more bytes. A stage handed to the sharing audit may be longer: none that it takes has more bytes
 * than the second number. */
#define DAGMETZI_LONGEST_SHARED 200
#define DAGMETZI_LONGEST_LISTS 3056

/* No clean copy of a sheet has more bytes than this. */
#define DAGMETZI_LONGEST_COPY 596

/* The smallest stage of a unit sheet, or the best found under the budget, written at the start of `buffer`; later bytes
 * stay. */
uint32_t dagmetzi_quote(const uint8_t *sheet, size_t sheet_length, uint32_t budget, uint8_t *buffer,
                        size_t buffer_length, uint64_t reply[DAGMETZI_NUMBERS]);

/* Whether a stage keeps to a unit sheet, and its cells: its selectors, but for those with the constants 0 and 1 for
 * their trees, in this order, which are soldered through. Where both are at fault, the unit sheet is told. */
uint32_t dagmetzi_audit(const uint8_t *sheet, size_t sheet_length, const uint8_t *stage, size_t stage_length,
                        uint64_t reply[DAGMETZI_NUMBERS]);

/* The smallest stage of a relation of n inputs (1 to DAGMETZI_INPUTS) and m wires (1 to DAGMETZI_WIRES), or the best found
 * under the budget. Bit v of sets[p] says that the wires may have value v on pattern p; the sets from 2 to the power n up
 * are not read. `tables` is given a table for each wire, and 0 past the last: bit p of a table is the wire on pattern p. A
 * refusal leaves it as it was. */
uint32_t dagmetzi_search(uint8_t n, uint8_t m, const uint16_t sets[DAGMETZI_PATTERNS], uint32_t budget,
                         uint64_t tables[DAGMETZI_WIRES], uint64_t reply[DAGMETZI_NUMBERS]);

/* The same three for the board where what one selector yields can drive more than one other of its wire: a wire is a list
 * of entries, a decision diagram, and each entry is a cell but for one that goes on to the constants 0 and 1, in this
 * order. The stage sheets are this board's own (docs/FORMATS.md), and the audit counts every other entry, also one that
 * repeats another or is never reached. This board has DAGMETZI_SHARED_INPUTS inputs at most: a relation or a stage with
 * more is refused with DAGMETZI_OUT_OF_RANGE, and the quote of a sheet with more with DAGMETZI_TOO_WIDE, after
 * DAGMETZI_EMPTY and before DAGMETZI_SHORT_BUFFER. Other sizes, refusals and replies are as above. */
uint32_t dagmetzi_quote_shared(const uint8_t *sheet, size_t sheet_length, uint32_t budget, uint8_t *buffer,
                               size_t buffer_length, uint64_t reply[DAGMETZI_NUMBERS]);

uint32_t dagmetzi_audit_shared(const uint8_t *sheet, size_t sheet_length, const uint8_t *stage, size_t stage_length,
                               uint64_t reply[DAGMETZI_NUMBERS]);

uint32_t dagmetzi_search_shared(uint8_t n, uint8_t m, const uint16_t sets[DAGMETZI_PATTERNS], uint32_t budget,
                                uint64_t tables[DAGMETZI_WIRES], uint64_t reply[DAGMETZI_NUMBERS]);

/* The clean copy of a unit sheet, written to the front of `buffer`; what is behind it stays. It says what the sheet says,
 * in one order: two sheets that say the same have the same copy, and a copy is its own copy. Refused are sheets that
 * cannot be read (1 to 9), then a buffer that is too short (12). A sheet for which no stage is possible (10 in a quote)
 * is copied like any other. */
uint32_t dagmetzi_clean(const uint8_t *sheet, size_t sheet_length, uint8_t *buffer, size_t buffer_length,
                        uint64_t reply[DAGMETZI_NUMBERS]);

/* The smallest stage that serves two unit sheets at once, or the best found under the budget, written at the start of
 * `buffer`; later bytes stay. Refused are the first sheet, which reading refuses (1 to 9), with the outcome
 * DAGMETZI_REFUSED; else the second (1 to 9); else the two together: sheets of other sizes (13, place 0), a pattern that
 * both leave no value (10; place: the lowest), a buffer that is too short (12). All but the first's have the outcome
 * DAGMETZI_SECOND_REFUSED. The two sheets may be one. */
enum { DAGMETZI_SECOND_REFUSED = 3 };

uint32_t dagmetzi_quote_joined(const uint8_t *first, size_t first_length, const uint8_t *second, size_t second_length,
                               uint32_t budget, uint8_t *buffer, size_t buffer_length,
                               uint64_t reply[DAGMETZI_NUMBERS]);

#ifdef __cplusplus
}
#endif

#endif
