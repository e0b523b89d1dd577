/* A caller in C: the constants of the header; then sheet A quoted, its stage audited, its relation searched, the same for
 * the board that shares selectors, its clean copy written, a sheet of five inputs refused by that board, and a relation of
 * six inputs searched, as the header declares the calls. Prints the constants, what each call returns and the numbers of
 * its reply, then the stages, the tables and the copy. */
#include "../../include/dagmetzi.h"
#include <stdio.h>

enum { BUDGET = 10000, FIVE_INPUTS = 5, FIVE_PATTERNS = 1 << FIVE_INPUTS };

static void print_numbers(const int *numbers, size_t count) {
    for (size_t i = 0; i < count; i++) {
        printf(i == 0 ? "%d" : " %d", numbers[i]);
    }
    printf("\n");
}

static void print_constants(void) {
    const int places[] = {DAGMETZI_OUTCOME, DAGMETZI_CELLS, DAGMETZI_FLOOR, DAGMETZI_VISITS,
                          DAGMETZI_LENGTH,  DAGMETZI_PLACE, DAGMETZI_NUMBERS};
    const int outcomes[] = {DAGMETZI_BEST,    DAGMETZI_STOPPED, DAGMETZI_FITS,         DAGMETZI_DIFFERS,
                            DAGMETZI_WRITTEN, DAGMETZI_REFUSED, DAGMETZI_STAGE_REFUSED};
    const int refusals[] = {DAGMETZI_CUT_SHORT,     DAGMETZI_UNKNOWN,      DAGMETZI_OUT_OF_RANGE, DAGMETZI_TRAILING,
                            DAGMETZI_OUT_OF_TURN,   DAGMETZI_NO_SIGNAL,    DAGMETZI_REPEATED,     DAGMETZI_TOO_MANY,
                            DAGMETZI_MISSING_ROW,   DAGMETZI_EMPTY,        DAGMETZI_NOT_ASCENDING,
                            DAGMETZI_SHORT_BUFFER,  DAGMETZI_SIZES_DIFFER, DAGMETZI_TOO_WIDE};
    const int sizes[] = {DAGMETZI_INPUTS,        DAGMETZI_SHARED_INPUTS,  DAGMETZI_PATTERNS,      DAGMETZI_WIRES,
                         DAGMETZI_LONGEST_STAGE, DAGMETZI_LONGEST_SHARED, DAGMETZI_LONGEST_LISTS, DAGMETZI_LONGEST_COPY};

    print_numbers(places, sizeof places / sizeof *places);
    print_numbers(outcomes, sizeof outcomes / sizeof *outcomes);
    print_numbers(refusals, sizeof refusals / sizeof *refusals);
    print_numbers(sizes, sizeof sizes / sizeof *sizes);
}

static void print_reply(uint32_t refusal, const uint64_t reply[DAGMETZI_NUMBERS]) {
    printf("%u", (unsigned)refusal);
    for (int i = 0; i < DAGMETZI_NUMBERS; i++) {
        printf(" %llu", (unsigned long long)reply[i]);
    }
    printf("\n");
}

static void print_bytes(const uint8_t *bytes, uint64_t length) {
    for (uint64_t i = 0; i < length; i++) {
        printf("%02x ", bytes[i]);
    }
    printf("\n");
}

static void print_tables(const uint64_t tables[DAGMETZI_WIRES]) {
    for (int j = 0; j < DAGMETZI_WIRES; j++) {
        printf(j == 0 ? "%llu" : " %llu", (unsigned long long)tables[j]);
    }
    printf("\n");
}

/* Five inputs and one wire, with every pattern impossible: only the board can have something against it. */
static void quote_five(void) {
    uint8_t sheet[3 + 2 * FIVE_PATTERNS + 1] = {0x01, FIVE_INPUTS, 0x01};
    uint8_t buffer[DAGMETZI_LONGEST_SHARED] = {0};
    uint64_t reply[DAGMETZI_NUMBERS];

    for (int p = 0; p < FIVE_PATTERNS; p++) {
        sheet[3 + 2 * p] = 0x03;
        sheet[4 + 2 * p] = (uint8_t)p;
    }
    print_reply(dagmetzi_quote_shared(sheet, sizeof sheet, BUDGET, buffer, sizeof buffer, reply), reply);
}

int main(void) {
    const uint8_t sheet[] = {0x01, 0x02, 0x02, 0x02, 0x00, 0x01, 0x02, 0x01, 0x00, 0x02, 0x02, 0x00, 0x02, 0x03,
                             0x02, 0x04, 0x02, 0x00, 0x01, 0x04, 0x00, 0x02, 0x01, 0x05, 0x02, 0x05, 0x03, 0x00};
    const uint16_t sets[DAGMETZI_PATTERNS] = {2, 9, 9, 4};
    uint8_t stage[DAGMETZI_LONGEST_STAGE] = {0};
    uint8_t shared[DAGMETZI_LONGEST_SHARED] = {0};
    uint8_t copy[DAGMETZI_LONGEST_COPY] = {0};
    uint16_t wide[DAGMETZI_PATTERNS];
    uint64_t tables[DAGMETZI_WIRES];
    uint64_t shared_tables[DAGMETZI_WIRES];
    uint64_t wide_tables[DAGMETZI_WIRES];
    uint64_t reply[DAGMETZI_NUMBERS];
    uint64_t stage_length;
    uint64_t shared_length;
    uint64_t copy_length;

    for (int p = 0; p < DAGMETZI_PATTERNS; p++) {
        wide[p] = p == DAGMETZI_PATTERNS - 1 ? 2 : 1;
    }
    print_constants();
    print_reply(dagmetzi_quote(sheet, sizeof sheet, BUDGET, stage, sizeof stage, reply), reply);
    stage_length = reply[DAGMETZI_LENGTH];
    print_reply(dagmetzi_audit(sheet, sizeof sheet, stage, (size_t)stage_length, reply), reply);
    print_reply(dagmetzi_search(2, 2, sets, BUDGET, tables, reply), reply);
    print_reply(dagmetzi_quote_shared(sheet, sizeof sheet, BUDGET, shared, sizeof shared, reply), reply);
    shared_length = reply[DAGMETZI_LENGTH];
    print_reply(dagmetzi_audit_shared(sheet, sizeof sheet, shared, (size_t)shared_length, reply), reply);
    print_reply(dagmetzi_search_shared(2, 2, sets, BUDGET, shared_tables, reply), reply);
    print_reply(dagmetzi_clean(sheet, sizeof sheet, copy, sizeof copy, reply), reply);
    copy_length = reply[DAGMETZI_LENGTH];
    quote_five();
    print_reply(dagmetzi_search(DAGMETZI_INPUTS, 1, wide, BUDGET, wide_tables, reply), reply);
    print_bytes(stage, stage_length);
    print_tables(tables);
    print_bytes(shared, shared_length);
    print_tables(shared_tables);
    print_bytes(copy, copy_length);
    print_tables(wide_tables);
    return reply[DAGMETZI_OUTCOME] != DAGMETZI_BEST;
}
