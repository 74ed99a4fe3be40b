/*
 * Builds the records of two functions' block counts, appends them to a drawer, takes one out again and asks where the
 * cheapest block stands, plainly and quickly.
 *
 *   bin/archive
 *   cc -Iinclude examples/cheapest.c target/archive/libstayharrow.a -o cheapest && ./cheapest
 */
#include <stdio.h>
#include <stdlib.h>

#include "stayharrow.h"

/* An answer, or the end of the program with the refusal's number. */
static uint64_t must(const char *what, uint64_t answer) {
    if (stayharrow_is_refusal(answer)) {
        fprintf(stderr, "%s: refused %d\n", what, stayharrow_refusal(answer));
        exit(1);
    }
    return answer;
}

int main(void) {
    static const uint32_t counts[] = {4, 2, 4, 2, 9};
    static const uint32_t loop[] = {100, 7, 7, 350, 12, 3, 90};
    uint16_t work[STAYHARROW_MOST_ENTRIES];
    uint16_t summary[STAYHARROW_SUMMARY_NUMBERS];
    uint8_t record[64], drawer[256];

    /* A record of its own. */
    uint64_t length = must("build", stayharrow_build(counts, 5, work, 5, record, sizeof record));
    printf("record");
    for (uint64_t k = 0; k < length; k++) printf(" %02X", record[k]);
    printf("\n");
    must("check", stayharrow_check(record, length));
    printf("cheapest of 0..4: %d\n", (int)must("ask", stayharrow_ask(record, length, 0, 4)));

    /* Two records in a drawer. */
    uint64_t used = 0;
    used = must("append", stayharrow_append(drawer, sizeof drawer, used, counts, 5, work, 5));
    used = must("append", stayharrow_append(drawer, sizeof drawer, used, loop, 7, work, 7));
    printf("drawer of %d bytes\n", (int)used);

    /* The second one, with a summary beside it. */
    uint64_t found = must("find", stayharrow_find(drawer, used, 1));
    const uint8_t *second = drawer + stayharrow_found_place(found);
    size_t size = stayharrow_found_length(found);
    must("fill", stayharrow_fill(second, size, summary, STAYHARROW_SUMMARY_NUMBERS));
    for (size_t j = 1; j < 7; j++) {
        uint64_t place = must("quick ask", stayharrow_quick_ask(second, size, summary, STAYHARROW_SUMMARY_NUMBERS, 0, j));
        printf("cheapest of 0..%d: %d\n", (int)j, (int)place);
    }

    /* A refusal is an ordinary answer. */
    printf("record 2: refused %d\n", stayharrow_refusal(stayharrow_find(drawer, used, 2)));
    return 0;
}
