/* A caller in C of the joint quote: sheet A's clean copy written, a sheet of five inputs refused beside A, and A quoted
 * together with its copy, as the header declares the calls. Prints the outcome that names the second sheet, what each call
 * returns and the numbers of its reply, then the copy and the stage. */
#include "../../include/dagmetzi.h"
#include <stdio.h>

enum { BUDGET = 10000, FIVE_INPUTS = 5, FIVE_PATTERNS = 1 << FIVE_INPUTS };

static void print_reply(uint32_t refusal, const uint64_t reply[DAGMETZI_NUMBERS]) {
    printf("%u", (unsigned)refusal);
    for (int i = 0; i < DAGMETZI_NUMBERS; i++) {
        printf(" %llu", (unsigned long long)reply[i]);
    }
    printf("\n");
}

static void print_bytes(const uint8_t *bytes, uint64_t length) {
    for (uint64_t i = 0; i < length; i++) {
        printf("%02x ", bytes[i]);
    }
    printf("\n");
}

/* Five inputs and one wire, with every pattern impossible: only a second sheet can have something against it. */
static void quote_five(const uint8_t *other, size_t other_length) {
    uint8_t sheet[3 + 2 * FIVE_PATTERNS + 1] = {0x01, FIVE_INPUTS, 0x01};
    uint8_t buffer[DAGMETZI_LONGEST_STAGE] = {0};
    uint64_t reply[DAGMETZI_NUMBERS];

    for (int p = 0; p < FIVE_PATTERNS; p++) {
        sheet[3 + 2 * p] = 0x03;
        sheet[4 + 2 * p] = (uint8_t)p;
    }
    print_reply(dagmetzi_quote_joined(sheet, sizeof sheet, other, other_length, BUDGET, buffer, sizeof buffer, reply),
                reply);
}

int main(void) {
    const uint8_t sheet[] = {0x01, 0x02, 0x02, 0x02, 0x00, 0x01, 0x02, 0x01, 0x00, 0x02, 0x02, 0x00, 0x02, 0x03,
                             0x02, 0x04, 0x02, 0x00, 0x01, 0x04, 0x00, 0x02, 0x01, 0x05, 0x02, 0x05, 0x03, 0x00};
    uint8_t copy[DAGMETZI_LONGEST_COPY] = {0};
    uint8_t joined[DAGMETZI_LONGEST_STAGE] = {0};
    uint64_t reply[DAGMETZI_NUMBERS];
    uint64_t copy_length;

    printf("%d\n", DAGMETZI_SECOND_REFUSED);
    print_reply(dagmetzi_clean(sheet, sizeof sheet, copy, sizeof copy, reply), reply);
    copy_length = reply[DAGMETZI_LENGTH];
    quote_five(sheet, sizeof sheet);
    print_reply(dagmetzi_quote_joined(sheet, sizeof sheet, copy, (size_t)copy_length, BUDGET, joined, sizeof joined,
                                      reply),
                reply);
    print_bytes(copy, copy_length);
    print_bytes(joined, reply[DAGMETZI_LENGTH]);
    return reply[DAGMETZI_OUTCOME] != DAGMETZI_BEST;
}
