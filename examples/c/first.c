/*
 * The sample of README.md: four notices, three sales, and the notice of each sale.
 *
 *     cc -Iinclude examples/c/first.c build/librowkeeper.a -o first
 *
 * examples/c/check compiles and runs it, and compares the lines between the two marks and what is printed with README.md.
 */
#include <inttypes.h>
#include <stdio.h>

#include "rowkeeper.h"

int main(void) {
    /* README begins */
    int64_t left[64], right[64], out[16];
    int64_t notices[] = {4, 1, 10, 20, 20, 30, 1, 1, 1, 1}; /* 4 rows, 1 column: the keys, then the marks */
    int64_t sales[] = {3, 1, 5, 20, 25, 1, 1, 1};           /* 3 rows, 1 column */
    rowkeeper_options options = {.strategy = ROWKEEPER_BACKWARD, .allow_eq = 1, .tolerance = ROWKEEPER_NO_TOLERANCE};
    rowkeeper_join join = rowkeeper_open(options).join;
    join = rowkeeper_right(join, left, 64, right, 64, notices, 10).join;
    join = rowkeeper_left(join, left, 64, right, 64, sales, 8).join;
    join = rowkeeper_end_right(join, left, 64, right, 64).join;
    rowkeeper_turned turned = rowkeeper_turn(join, left, 64, right, 64, out, 16); /* out: 3, 1, 0, 2, 2, 0, 1, 1 */
    /* README ends */
    if (turned.answer != ROWKEEPER_WROTE) {
        fprintf(stderr, "first: refused by %" PRIu64 "\n", turned.refusal);
        return 1;
    }
    for (int64_t row = 0; row < out[0]; row++) {
        if (out[2 + out[0] + row] == 0) {
            printf("sale %" PRId64 ": no notice\n", row);
        } else {
            printf("sale %" PRId64 ": notice %" PRId64 "\n", row, out[2 + row]);
        }
    }
    return 0;
}
