/*
 * A small host for an installed library, in the C99 that is also C++98: the sample of README, a refused call and its text.
 * install/check compiles it with what pkg-config says, static and shared.
 */
#include <stdio.h>
#include <string.h>

#include <rowkeeper.h>

static int64_t left[64], right[64], out[16];

/* Ends with a status if something is not so. */
static int want(int holds, const char *what) {
    if (!holds) printf("FAIL host: %s\n", what);
    return holds;
}

int main(void) {
    static const int64_t notices[] = {4, 1, 10, 20, 20, 30, 1, 1, 1, 1}, sales[] = {3, 1, 5, 20, 25, 1, 1, 1};
    static const int64_t matches[] = {3, 1, 0, 2, 2, 0, 1, 1};
    rowkeeper_options options;
    rowkeeper_took took;
    rowkeeper_turned turned;
    memset(&options, 0, sizeof options);
    options.strategy = ROWKEEPER_BACKWARD;
    options.allow_eq = 1;
    options.tolerance = ROWKEEPER_NO_TOLERANCE;
    took = rowkeeper_open(options);
    took = rowkeeper_right(took.join, left, 64, right, 64, notices, 10);
    took = rowkeeper_left(took.join, left, 64, right, 64, sales, 8);
    took = rowkeeper_end_right(took.join, left, 64, right, 64);
    turned = rowkeeper_turn(took.join, left, 64, right, 64, out, 16);
    if (!want(turned.answer == ROWKEEPER_WROTE && memcmp(out, matches, sizeof matches) == 0, "the matches")) return 1;
    took = rowkeeper_end_right(turned.join, left, 64, right, 64);
    if (!want(took.refusal == ROWKEEPER_CLOSED, "the refusal")) return 1;
    if (!want(strcmp(rowkeeper_refusal_text(took.refusal), "the call comes at the wrong time") == 0, "its text")) return 1;
    if (!want(strcmp(rowkeeper_refusal_text(0), "accepted") == 0, "the text of 0")) return 1;
    if (!want(strstr(rowkeeper_refusal_text(ROWKEEPER_LAST_REFUSAL + 1), "no refusal") != NULL, "the text of none")) return 1;
    printf("%s %d\n", ROWKEEPER_VERSION, ROWKEEPER_VERSION_NUMBER);
    return 0;
}
