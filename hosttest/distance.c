/*
 * The distance as the last column of an answer (SCOPE 3.11, 12.5), through the C calls, by cases whose words were worked out by
 * hand: no match, with nothing carried and with 8 columns, both ends of the 64-bit range, an output that is one word too short, a
 * run, a join that was stored and taken up again, and a flag that is none. `distance`: prints how many answers it looked at.
 */
#include <inttypes.h>
#include <stdio.h>
#include <stdlib.h>
#include <string.h>

#include "rowkeeper.h"

enum { AREA = 64, OUT = 64 };

/* A host: its join and areas, and an output whose words are all -9 before a call. */
static rowkeeper_join join;
static int64_t left[AREA], right[AREA], out[OUT];
static int answers;

/* Ends the program where something does not hold. */
static void due(int holds, const char *what) {
    answers++;
    if (holds) return;
    printf("FAIL %s\n", what);
    exit(1);
}

/* Options with the distance, Backward with equality, the check on, that carry so many columns. */
static rowkeeper_options with_distance(uint64_t strategy, uint64_t carried) {
    rowkeeper_options o;
    memset(&o, 0, sizeof o);
    o.strategy = strategy;
    o.allow_eq = 1;
    o.tolerance = ROWKEEPER_NO_TOLERANCE;
    o.check = ROWKEEPER_CHECK_ON;
    o.carried = carried;
    o.with_distance = 1;
    return o;
}

/* Opens a join over these right rows, right ended, and hands in a left frame. */
static void open_over(rowkeeper_options o, const int64_t *rights, size_t right_words, const int64_t *lefts, size_t left_words) {
    rowkeeper_took t = rowkeeper_open(o);
    due(t.refusal == 0, "a join is opened");
    t = rowkeeper_right(t.join, left, AREA, right, AREA, rights, right_words);
    due(t.refusal == 0, "the right frame is taken");
    t = rowkeeper_end_right(t.join, left, AREA, right, AREA);
    due(t.refusal == 0, "right ends");
    t = rowkeeper_left(t.join, left, AREA, right, AREA, lefts, left_words);
    due(t.refusal == 0, "the left frame is taken");
    join = t.join;
}

/* Whether the output begins with these words and is untouched behind them. */
static int is_written(const int64_t *words, size_t count) {
    size_t i;
    for (i = count; i < OUT; i++)
        if (out[i] != -9) return 0;
    return memcmp(out, words, count * sizeof *words) == 0;
}

/* A turn with an output of so many words, all -9 before. */
static rowkeeper_turned turn(size_t words) {
    size_t i;
    for (i = 0; i < OUT; i++) out[i] = -9;
    return rowkeeper_turn(join, left, AREA, right, AREA, out, words);
}

/* A turn writes these words, and is refused by 6 with one word less; the join goes on from it. */
static void writes(const int64_t *words, size_t count, const char *what) {
    rowkeeper_turned t = turn(count - 1);
    due(t.answer == ROWKEEPER_REFUSED && t.refusal == ROWKEEPER_NO_ROOM && is_written(words, 0), "one word too short is 6");
    due(memcmp(&t.join, &join, sizeof join) == 0, "a refused turn changes nothing");
    t = turn(OUT);
    due(t.answer == ROWKEEPER_WROTE && is_written(words, count), what);
    join = t.join;
}

/* SCOPE 21.1: no match, an equal key, a key 5 before. */
static void plain(void) {
    static const int64_t notices[] = {4, 1, 10, 20, 20, 30, 1, 1, 1, 1}, sales[] = {3, 1, 5, 20, 25, 1, 1, 1};
    static const int64_t backward[] = {3, 2, 0, 0, 2, 0, 2, 5, 0, 0, 1, 1, 1, 1};
    static const int64_t forward[] = {3, 2, 0, 5, 1, 0, 3, 5, 1, 1, 1, 1, 1, 1};
    static const int64_t nearest[] = {3, 2, 0, 5, 2, 0, 3, 5, 1, 1, 1, 1, 1, 1};
    open_over(with_distance(ROWKEEPER_BACKWARD, 0), notices, 10, sales, 8);
    writes(backward, ROWKEEPER_DISTANCE_WORDS(3, 0), "Backward");
    open_over(with_distance(ROWKEEPER_FORWARD, 0), notices, 10, sales, 8);
    writes(forward, ROWKEEPER_DISTANCE_WORDS(3, 0), "Forward");
    open_over(with_distance(ROWKEEPER_NEAREST, 0), notices, 10, sales, 8);
    writes(nearest, ROWKEEPER_DISTANCE_WORDS(3, 0), "Nearest");
}

/* A by-column and eight carried ones, a null among them: the distance is that of the keys, in the tenth column. The first sale has no
   match. */
static void eight_carried(void) {
    static const int64_t notice[] = {1, 10, 7, 10, 1, 2, 3, 4, 5, 6, 7, 0, 1, 1, 1, 1, 1, 1, 1, 1, 1, 0};
    static const int64_t sales[] = {2, 2, 7, 4, 7, 13, 1, 1, 1, 1};
    rowkeeper_options o = with_distance(ROWKEEPER_BACKWARD, 8);
    static const int64_t words[] = {2, 10, 0, 0, 0, 0, 0, 0, 0, 0, 0, 0, 0, 1, 2, 3, 4, 5, 6, 7, 0, 3,
                                    0, 0,  0, 0, 0, 0, 0, 0, 0, 0, 1, 1, 1, 1, 1, 1, 1, 1, 0, 1};
    o.by = 1;
    open_over(o, notice, 22, sales, 10);
    writes(words, ROWKEEPER_DISTANCE_WORDS(2, 8), "eight carried columns");
}

/* 2^63 - 1 is the greatest distance that is written; 2^63 and 2^64 - 1 are null beside the number of a row. */
static void ends_of_the_range(void) {
    static const int64_t notice[] = {1, 1, INT64_MIN, 1}, sales[] = {3, 1, -1, 0, INT64_MAX, 1, 1, 1};
    static const int64_t words[] = {3, 2, 0, INT64_MAX, 0, 0, 0, 0, 1, 1, 1, 0, 1, 0};
    static const int64_t within[] = {3, 2, 0, INT64_MAX, 0, 0, 0, 0, 1, 1, 0, 0, 0, 0};
    rowkeeper_options o = with_distance(ROWKEEPER_BACKWARD, 0);
    open_over(o, notice, 4, sales, 8);
    writes(words, ROWKEEPER_DISTANCE_WORDS(3, 0), "the ends of the range");
    o.tolerance = INT64_MAX;
    open_over(o, notice, 4, sales, 8);
    writes(within, ROWKEEPER_DISTANCE_WORDS(3, 0), "the ends of the range within the greatest tolerance");
}

/* A run: each turn's part has the column, and one word less than both need stops it at the second. */
static void run(void) {
    static const int64_t notices[] = {2, 2, 10, 7, 20, 8, 1, 1, 1, 1}, sales[] = {1, 1, 15, 1}, more[] = {2, 1, 25, 27, 1, 1};
    static const int64_t words[] = {1, 3, 0, 7, 5, 1, 1, 1, 2, 3, 1, 8, 5, 1, 8, 7, 1, 1, 1, 1, 1, 1};
    size_t both = ROWKEEPER_DISTANCE_WORDS(1, 1) + ROWKEEPER_DISTANCE_WORDS(2, 1), i;
    rowkeeper_ran r;
    open_over(with_distance(ROWKEEPER_BACKWARD, 1), notices, 10, sales, 4);
    join = rowkeeper_left(join, left, AREA, right, AREA, more, 6).join;
    for (i = 0; i < OUT; i++) out[i] = -9;
    r = rowkeeper_run(join, 9, left, AREA, right, AREA, out, both - 1);
    due(r.turns == 1 && r.words == 8 && r.stop == ROWKEEPER_REFUSED && r.refusal == ROWKEEPER_NO_ROOM, "a run that is too short");
    due(is_written(words, 8), "what it wrote before");
    r = rowkeeper_run(join, 9, left, AREA, right, AREA, out, both);
    due(r.turns == 2 && r.words == both && r.stop == ROWKEEPER_IDLE && is_written(words, both), "a run");
}

/* A join that is stored with its areas and taken up again goes on with the distance; one in which the host turned it off without. */
static void stored(void) {
    static const int64_t notice[] = {1, 1, 10, 1}, sales[] = {1, 1, 15, 1}, more[] = {1, 1, 17, 1};
    static const int64_t first[] = {1, 2, 0, 5, 1, 1}, second[] = {1, 2, 0, 7, 1, 1}, without[] = {1, 1, 0, 1};
    static unsigned char file[sizeof join + sizeof left + sizeof right];
    rowkeeper_turned t;
    open_over(with_distance(ROWKEEPER_BACKWARD, 0), notice, 4, sales, 4);
    join = rowkeeper_left(join, left, AREA, right, AREA, more, 4).join;
    writes(first, 6, "before a join is stored");
    memcpy(file, &join, sizeof join);
    memcpy(file + sizeof join, left, sizeof left);
    memcpy(file + sizeof join + sizeof left, right, sizeof right);
    memset(&join, 0xa5, sizeof join);
    memset(left, 0xa5, sizeof left);
    memset(right, 0xa5, sizeof right);
    memcpy(&join, file, sizeof join);
    memcpy(left, file + sizeof join, sizeof left);
    memcpy(right, file + sizeof join + sizeof left, sizeof right);
    due(join.layout == ROWKEEPER_LAYOUT && join.options.with_distance == 1, "the stored join");
    writes(second, 6, "a join that was taken up again");
    memcpy(&join, file, sizeof join);
    join.options.with_distance = 0;
    t = turn(4);
    due(t.answer == ROWKEEPER_WROTE && is_written(without, 4), "the distance turned off");
    join.options.with_distance = 2;
    t = turn(OUT);
    due(t.answer == ROWKEEPER_REFUSED && t.refusal == ROWKEEPER_BAD_JOIN && is_written(first, 0), "a flag of 2 in a join is 2");
    due(rowkeeper_run(join, 0, left, AREA, right, AREA, out, OUT).refusal == ROWKEEPER_BAD_JOIN, "in a run of no turns too");
}

/* At opening a flag that is none is 1, before 10 and 11; a merge refuses it too. */
static void no_flag(void) {
    static const int64_t empty[] = {0, 1};
    rowkeeper_options o = with_distance(ROWKEEPER_BACKWARD, 0);
    o.with_distance = 2;
    due(rowkeeper_open(o).refusal == ROWKEEPER_BAD_OPTIONS, "a flag of 2 is 1");
    due(rowkeeper_merge(o, empty, 2, empty, 2, out, OUT).refusal == ROWKEEPER_BAD_OPTIONS, "a flag of 2 is 1 in a merge");
    o.with_distance = UINT64_MAX;
    o.carried = 9;
    due(rowkeeper_open(o).refusal == ROWKEEPER_BAD_OPTIONS, "1 comes before 10");
    o.with_distance = 1;
    due(rowkeeper_open(o).refusal == ROWKEEPER_TOO_MANY_CARRIED, "9 carried columns are 10 with the distance too");
}

/* All cases. */
int main(void) {
    plain();
    eight_carried();
    ends_of_the_range();
    run();
    stored();
    no_flag();
    printf("distance: %d answers as they were worked out\n", answers);
    return 0;
}
