/*
 * The layout of the structs: sizes and offsets, told by the compiler, and what the archive reads where, told by its
 * answers. Compiles as C99 and as C++.
 */
#include <stdio.h>
#include <string.h>

#include "rowkeeper.h"

/* A fact that does not compile where it does not hold. */
#define HOLDS(name, fact) typedef char name[(fact) ? 1 : -1]
/* A member's place in words. */
#define AT(type, member) (offsetof(type, member) / 8)

/* ---- tools/interface writes: layout */
HOLDS(ranks_size, sizeof(rowkeeper_ranks) == 536);
HOLDS(ranks_given_at, AT(rowkeeper_ranks, given) == 0);
HOLDS(ranks_column_at, AT(rowkeeper_ranks, column) == 1);
HOLDS(ranks_count_at, AT(rowkeeper_ranks, count) == 2);
HOLDS(ranks_codes_at, AT(rowkeeper_ranks, codes) == 3);
HOLDS(options_size, sizeof(rowkeeper_options) == 656);
HOLDS(options_by_at, AT(rowkeeper_options, by) == 0);
HOLDS(options_strategy_at, AT(rowkeeper_options, strategy) == 1);
HOLDS(options_allow_eq_at, AT(rowkeeper_options, allow_eq) == 2);
HOLDS(options_tolerance_at, AT(rowkeeper_options, tolerance) == 3);
HOLDS(options_check_at, AT(rowkeeper_options, check) == 4);
HOLDS(options_descending_at, AT(rowkeeper_options, descending) == 5);
HOLDS(options_nulls_last_at, AT(rowkeeper_options, nulls_last) == 9);
HOLDS(options_carried_at, AT(rowkeeper_options, carried) == 13);
HOLDS(options_ranks_at, AT(rowkeeper_options, ranks) == 14);
HOLDS(options_with_distance_at, AT(rowkeeper_options, with_distance) == 81);
HOLDS(row_size, sizeof(rowkeeper_row) == 88);
HOLDS(row_some_at, AT(rowkeeper_row, some) == 0);
HOLDS(row_values_at, AT(rowkeeper_row, values) == 1);
HOLDS(row_marks_at, AT(rowkeeper_row, marks) == 6);
HOLDS(join_size, sizeof(rowkeeper_join) == 976);
HOLDS(join_layout_at, AT(rowkeeper_join, layout) == 0);
HOLDS(join_options_at, AT(rowkeeper_join, options) == 1);
HOLDS(join_rising_at, AT(rowkeeper_join, rising) == 83);
HOLDS(join_base_at, AT(rowkeeper_join, base) == 91);
HOLDS(join_held_at, AT(rowkeeper_join, held) == 92);
HOLDS(join_pruned_at, AT(rowkeeper_join, pruned) == 93);
HOLDS(join_queue_start_at, AT(rowkeeper_join, queue_start) == 94);
HOLDS(join_queue_words_at, AT(rowkeeper_join, queue_words) == 95);
HOLDS(join_state_at, AT(rowkeeper_join, state) == 96);
HOLDS(join_right_ended_at, AT(rowkeeper_join, right_ended) == 97);
HOLDS(join_failed_at, AT(rowkeeper_join, failed) == 98);
HOLDS(join_sequence_at, AT(rowkeeper_join, sequence) == 99);
HOLDS(join_last_left_at, AT(rowkeeper_join, last_left) == 100);
HOLDS(join_last_right_at, AT(rowkeeper_join, last_right) == 111);
HOLDS(took_size, sizeof(rowkeeper_took) == 984);
HOLDS(took_refusal_at, AT(rowkeeper_took, refusal) == 0);
HOLDS(took_join_at, AT(rowkeeper_took, join) == 1);
HOLDS(ported_size, sizeof(rowkeeper_ported) == 1008);
HOLDS(ported_refusal_at, AT(rowkeeper_ported, refusal) == 0);
HOLDS(ported_left_at, AT(rowkeeper_ported, left) == 1);
HOLDS(ported_right_at, AT(rowkeeper_ported, right) == 2);
HOLDS(ported_send_at, AT(rowkeeper_ported, send) == 3);
HOLDS(ported_join_at, AT(rowkeeper_ported, join) == 4);
HOLDS(turned_size, sizeof(rowkeeper_turned) == 1000);
HOLDS(turned_answer_at, AT(rowkeeper_turned, answer) == 0);
HOLDS(turned_refusal_at, AT(rowkeeper_turned, refusal) == 1);
HOLDS(turned_sequence_at, AT(rowkeeper_turned, sequence) == 2);
HOLDS(turned_join_at, AT(rowkeeper_turned, join) == 3);
HOLDS(ran_size, sizeof(rowkeeper_ran) == 1008);
HOLDS(ran_turns_at, AT(rowkeeper_ran, turns) == 0);
HOLDS(ran_words_at, AT(rowkeeper_ran, words) == 1);
HOLDS(ran_stop_at, AT(rowkeeper_ran, stop) == 2);
HOLDS(ran_refusal_at, AT(rowkeeper_ran, refusal) == 3);
HOLDS(ran_join_at, AT(rowkeeper_ran, join) == 4);
HOLDS(written_size, sizeof(rowkeeper_written) == 16);
HOLDS(written_refusal_at, AT(rowkeeper_written, refusal) == 0);
HOLDS(written_rows_at, AT(rowkeeper_written, rows) == 1);
HOLDS(viewed_size, sizeof(rowkeeper_viewed) == 24);
HOLDS(viewed_refusal_at, AT(rowkeeper_viewed, refusal) == 0);
HOLDS(viewed_rows_at, AT(rowkeeper_viewed, rows) == 1);
HOLDS(viewed_columns_at, AT(rowkeeper_viewed, columns) == 2);
HOLDS(cell_size, sizeof(rowkeeper_cell) == 16);
HOLDS(cell_value_at, AT(rowkeeper_cell, value) == 0);
HOLDS(cell_mark_at, AT(rowkeeper_cell, mark) == 1);
HOLDS(shown_size, sizeof(rowkeeper_shown) == 24);
HOLDS(shown_refusal_at, AT(rowkeeper_shown, refusal) == 0);
HOLDS(shown_value_at, AT(rowkeeper_shown, value) == 1);
HOLDS(shown_mark_at, AT(rowkeeper_shown, mark) == 2);
HOLDS(planned_size, sizeof(rowkeeper_planned) == 32);
HOLDS(planned_refusal_at, AT(rowkeeper_planned, refusal) == 0);
HOLDS(planned_rows_at, AT(rowkeeper_planned, rows) == 1);
HOLDS(planned_turns_at, AT(rowkeeper_planned, turns) == 2);
HOLDS(planned_rights_at, AT(rowkeeper_planned, rights) == 3);
HOLDS(taken_size, sizeof(rowkeeper_taken) == 24);
HOLDS(taken_refusal_at, AT(rowkeeper_taken, refusal) == 0);
HOLDS(taken_rows_at, AT(rowkeeper_taken, rows) == 1);
HOLDS(taken_number_at, AT(rowkeeper_taken, number) == 2);
/* ---- tools/interface: end of layout */

enum { WORDS = ROWKEEPER_JOIN_WORDS, LEFT = 20, RIGHT = 24, NO_WORD = WORDS };
static int64_t left[LEFT], right[RIGHT];
static int failed;

/* A field of a join: its first word, how many words it has, a value of each that is refused by 2 (0: they may be anything). */
typedef struct field {
    size_t first, words;
    uint64_t bad;
} field;
#define FIELD(member, bad) {AT(rowkeeper_join, member), sizeof(((rowkeeper_join *)0)->member) / 8, bad}

/* All fields of a join without a list of ranks. A word that no line is about fails the test. */
static const field FIELDS[] = {
    FIELD(layout, ROWKEEPER_LAYOUT + 1), FIELD(options.by, 5), FIELD(options.strategy, 3), FIELD(options.allow_eq, 2), FIELD(options.tolerance, (uint64_t)-2),
    FIELD(options.check, 3), FIELD(options.descending, 2), FIELD(options.nulls_last, 2), FIELD(options.carried, 9),
    FIELD(options.ranks.given, 2), FIELD(options.ranks.column, 0), FIELD(options.ranks.count, 0), FIELD(options.ranks.codes, 0),
    FIELD(options.with_distance, 2),
    FIELD(rising, 0), FIELD(base, 7), FIELD(held, 7), FIELD(pruned, (uint64_t)1 << 63), FIELD(queue_start, LEFT + 1), FIELD(queue_words, LEFT + 1),
    FIELD(state, 3), FIELD(right_ended, 2), FIELD(failed, 2), FIELD(sequence, 1),
    FIELD(last_left.some, 2), FIELD(last_left.values, 0), FIELD(last_left.marks, 0),
    FIELD(last_right.some, 2), FIELD(last_right.values, 0), FIELD(last_right.marks, 0),
};

/* Says what does not hold; word is NO_WORD where no word of a join is to blame. */
static void want(int holds, const char *what, size_t word) {
    if (holds) return;
    printf("FAIL layout: %s", what);
    if (word != NO_WORD) printf(" (word %lu of the join)", (unsigned long)word);
    printf("\n");
    failed = 1;
}

/* The answer to an end of right on this join, of which a word was altered; it must come back with that word. */
static uint64_t end_of(rowkeeper_join join, size_t word) {
    rowkeeper_took took = rowkeeper_end_right(join, left, LEFT, right, RIGHT);
    if (took.refusal == 0) join.right_ended = 1;
    want(memcmp(&join, &took.join, sizeof join) == 0, "the join does not come back", word);
    return took.refusal;
}

/* The same with one word altered first. */
static uint64_t end_with(rowkeeper_join join, size_t word, uint64_t value) {
    uint64_t words[WORDS];
    memcpy(words, &join, sizeof words);
    words[word] = value;
    memcpy(&join, words, sizeof words);
    return end_of(join, word);
}

/* Alters each word of a join in turn: the answer must be what its field gives. */
static void alter_words(rowkeeper_join join) {
    unsigned char seen[WORDS] = {0};
    size_t i, word;
    for (i = 0; i < sizeof FIELDS / sizeof *FIELDS; i++) {
        uint64_t bad = FIELDS[i].bad;
        for (word = FIELDS[i].first; word < FIELDS[i].first + FIELDS[i].words; word++) {
            want(end_with(join, word, bad != 0 ? bad : 77) == (bad != 0 ? 2u : 0u), "another answer than the field gives", word);
            seen[word] = 1;
        }
    }
    for (word = 0; word < WORDS; word++) want(seen[word], "no field has this word", word);
}

/* What each answer brings at its place, from one small join: a right row 4, a left row 5, a match, ports. */
static void answers(rowkeeper_join join) {
    static const int64_t FOUR[] = {1, 2, 9, 4, 1, 1}, FIVE[] = {1, 2, 9, 5, 1, 1};
    int64_t out[4] = {-1, -1, -1, -1};
    rowkeeper_took took = rowkeeper_right(join, left, LEFT, right, RIGHT, FOUR, 6);
    rowkeeper_turned turned;
    rowkeeper_ported ported;
    want(took.refusal == 0 && took.join.held == 1, "right", AT(rowkeeper_join, held));
    took = rowkeeper_left(took.join, left, LEFT, right, RIGHT, FIVE, 6);
    want(took.refusal == 0 && took.join.queue_words == 6, "left", AT(rowkeeper_join, queue_words));
    turned = rowkeeper_turn(took.join, left, LEFT, right, RIGHT, out, 4);
    want(turned.answer == ROWKEEPER_WANTS_RIGHT && turned.refusal == 0, "wants right", AT(rowkeeper_join, right_ended));
    took = rowkeeper_end_right(took.join, left, LEFT, right, RIGHT);
    turned = rowkeeper_turn(took.join, left, LEFT, right, RIGHT, out, 4);
    want(turned.answer == ROWKEEPER_WROTE && turned.sequence == 0 && turned.join.sequence == 2, "wrote", AT(rowkeeper_join, sequence));
    want(out[0] == 1 && out[1] == 1 && out[2] == 0 && out[3] == 1, "the output", NO_WORD);
    ported = rowkeeper_ports(turned.join, left, LEFT, right, RIGHT, ROWKEEPER_PORT_READY, ROWKEEPER_PORT_BLOCKED,
                             ROWKEEPER_PORT_READY);
    want(ported.refusal == 0 && ported.left == ROWKEEPER_PORT_BLOCKED && ported.right == ROWKEEPER_PORT_READY &&
             ported.send == ROWKEEPER_PORT_BLOCKED && ported.join.state == ROWKEEPER_RUNNING, "ports", AT(rowkeeper_join, state));
    turned = rowkeeper_turn(turned.join, left, LEFT, right, RIGHT, out, 4);
    want(turned.answer == ROWKEEPER_IDLE && turned.sequence == 0, "idle", AT(rowkeeper_join, queue_words));
}

/* Whether a run says this, and leaves so many words waiting. */
static int says(rowkeeper_ran ran, uint64_t turns, uint64_t words, uint64_t stop, uint64_t refusal, uint64_t waiting) {
    return ran.turns == turns && ran.words == words && ran.stop == stop && ran.refusal == refusal &&
           ran.join.queue_words == waiting && ran.join.sequence == 2 * turns;
}

/* What a run brings at its place, from one small join: a right row 4, left frames 5 and 6, each way to stop. */
static void runs(rowkeeper_join join) {
    static const int64_t FOUR[] = {1, 2, 9, 4, 1, 1}, FIVE[] = {1, 2, 9, 5, 1, 1}, SIX[] = {1, 2, 9, 6, 1, 1};
    static const int64_t BOTH[] = {1, 1, 0, 1, 1, 1, 0, 1, -1};
    int64_t out[9] = {-1, -1, -1, -1, -1, -1, -1, -1, -1};
    rowkeeper_ran ran;
    join = rowkeeper_right(join, left, LEFT, right, RIGHT, FOUR, 6).join;
    join = rowkeeper_left(join, left, LEFT, right, RIGHT, FIVE, 6).join;
    join = rowkeeper_left(join, left, LEFT, right, RIGHT, SIX, 6).join;
    ran = rowkeeper_run(join, 9, left, LEFT, right, RIGHT, out, 9);
    want(says(ran, 0, 0, ROWKEEPER_WANTS_RIGHT, 0, 12), "a run that wants right", AT(rowkeeper_join, right_ended));
    join = rowkeeper_end_right(join, left, LEFT, right, RIGHT).join;
    ran = rowkeeper_run(join, 0, left, LEFT, right, RIGHT, out, 9);
    want(says(ran, 0, 0, ROWKEEPER_TURNS_USED, 0, 12), "a run of no turns", AT(rowkeeper_join, queue_words));
    ran = rowkeeper_run(join, 1, left, LEFT, right, RIGHT, out, ROWKEEPER_RUN_WORDS(1, 1, 0));
    want(says(ran, 1, 4, ROWKEEPER_TURNS_USED, 0, 6), "a run of one turn", AT(rowkeeper_join, queue_words));
    ran = rowkeeper_run(join, 9, left, LEFT, right, RIGHT, out, ROWKEEPER_RUN_WORDS(2, 1, 0) - 1);
    want(says(ran, 1, 4, ROWKEEPER_REFUSED, ROWKEEPER_NO_ROOM, 6) && out[4] == -1, "a run without room", AT(rowkeeper_join, queue_words));
    ran = rowkeeper_run(join, 9, left, LEFT, right, RIGHT, out, 9);
    want(says(ran, 2, 8, ROWKEEPER_IDLE, 0, 0), "a run that is idle at last", AT(rowkeeper_join, queue_words));
    want(memcmp(out, BOTH, sizeof out) == 0, "a run's output", NO_WORD);
}

/* What carried columns bring at their places: two behind the key, one of them null, written behind the number of their row. */
static void carried(rowkeeper_options options) {
    static const int64_t FOUR[] = {1, 4, 9, 4, 70, 0, 1, 1, 1, 0}, FIVE[] = {1, 2, 9, 5, 1, 1}, WANT[] = {1, 3, 0, 70, 0, 1, 1, 0, -1};
    int64_t out[9] = {-1, -1, -1, -1, -1, -1, -1, -1, -1};
    rowkeeper_took took;
    rowkeeper_turned turned;
    options.carried = 2;
    took = rowkeeper_open(options);
    want(took.refusal == 0 && took.join.options.carried == 2, "opening with carried columns", AT(rowkeeper_join, options));
    took = rowkeeper_right(took.join, left, LEFT, right, RIGHT, FIVE, 6);
    want(took.refusal == ROWKEEPER_BAD_FRAME, "a right frame without carried columns", NO_WORD);
    took = rowkeeper_right(took.join, left, LEFT, right, RIGHT, FOUR, ROWKEEPER_RIGHT_FRAME_WORDS(1, 1, 2));
    want(took.refusal == 0 && took.join.held == 1, "a right frame with carried columns", AT(rowkeeper_join, held));
    took = rowkeeper_left(took.join, left, LEFT, right, RIGHT, FOUR, 10);
    want(took.refusal == ROWKEEPER_BAD_FRAME, "a left frame with carried columns", NO_WORD);
    took = rowkeeper_left(took.join, left, LEFT, right, RIGHT, FIVE, ROWKEEPER_FRAME_WORDS(1, 1));
    took = rowkeeper_end_right(took.join, left, LEFT, right, RIGHT);
    turned = rowkeeper_turn(took.join, left, LEFT, right, RIGHT, out, ROWKEEPER_OUTPUT_WORDS(1, 2) - 1);
    want(turned.refusal == ROWKEEPER_NO_ROOM && out[0] == -1, "an output one word short of carried cells", NO_WORD);
    turned = rowkeeper_turn(took.join, left, LEFT, right, RIGHT, out, ROWKEEPER_OUTPUT_WORDS(1, 2));
    want(turned.answer == ROWKEEPER_WROTE && memcmp(out, WANT, sizeof out) == 0, "an output with carried cells", NO_WORD);
    want(ROWKEEPER_RIGHT_WORDS(3, 1, 2) == RIGHT && ROWKEEPER_RUN_WORDS(2, 1, 2) == 16, "lengths with carried columns", NO_WORD);
    for (options.carried = ROWKEEPER_MOST_CARRIED; options.carried <= ROWKEEPER_MOST_CARRIED + 1; options.carried++)
        want(rowkeeper_open(options).refusal == (options.carried > ROWKEEPER_MOST_CARRIED ? ROWKEEPER_TOO_MANY_CARRIED : 0),
             "opening with the most carried columns, and with one more", NO_WORD);
    options.carried = UINT64_MAX;
    took = rowkeeper_open(options);
    want(took.refusal == ROWKEEPER_TOO_MANY_CARRIED && took.join.layout == ROWKEEPER_LAYOUT, "a refused opening", NO_WORD);
    took = rowkeeper_end_right(took.join, left, LEFT, right, RIGHT);
    want(took.refusal == ROWKEEPER_BAD_JOIN, "the join of a refused opening", NO_WORD);
}

/* Options with one by-column that is sorted by a list of three codes: stalls 30, circle 10, gods 20. The words behind them
   are 10, which is no second code. */
static rowkeeper_options with_list(rowkeeper_options options) {
    size_t i;
    options.by = 1;
    options.ranks.given = 1;
    options.ranks.column = 0;
    options.ranks.count = 3;
    for (i = 0; i < ROWKEEPER_MOST_RANKS; i++) options.ranks.codes[i] = 10;
    options.ranks.codes[0] = 30;
    options.ranks.codes[2] = 20;
    return options;
}

/* A word of a join's list with another value, and the answer that is due to an end of right. */
typedef struct alteration {
    size_t word;
    uint64_t value, refusal;
} alteration;
#define LIST(member) AT(rowkeeper_join, options.ranks.member)

/* What the archive reads of a list, by each of its words: the flag, the column, the count, the codes up to the count. */
static void list_words(rowkeeper_join join) {
    static const alteration CASES[] = {
        {LIST(given), 0, 0}, {LIST(given), 2, 2}, {LIST(column), 1, 2}, {LIST(column), UINT64_MAX, 2}, {LIST(count), 0, 2},
        {LIST(count), 2, 2}, {LIST(count), 4, 2}, {LIST(count), ROWKEEPER_MOST_RANKS, 2}, {LIST(count), ROWKEEPER_MOST_RANKS + 1, 2},
        {LIST(count), UINT64_MAX, 2}, {LIST(codes), 31, 0}, {LIST(codes), 21, 0}, {LIST(codes), 20, 2}, {LIST(codes), 19, 2},
        {LIST(codes) + 1, 19, 0}, {LIST(codes) + 1, (uint64_t)-7, 0}, {LIST(codes) + 1, 40, 2}, {LIST(codes) + 2, 11, 0},
        {LIST(codes) + 2, 9, 2}, {LIST(codes) + 3, 30, 0}, {LIST(codes) + ROWKEEPER_MOST_RANKS - 1, 30, 0},
    };
    size_t i;
    for (i = 0; i < sizeof CASES / sizeof *CASES; i++)
        want(end_with(join, CASES[i].word, CASES[i].value) == CASES[i].refusal, "another answer than the list gives", CASES[i].word);
}

/* The places of the codes by rising code: found at opening, and held to the list in every call, up to its count. */
static void list_places(rowkeeper_join join) {
    static const uint8_t PLACES[ROWKEEPER_MOST_RANKS] = {1, 2, 0};
    size_t i, value;
    want(memcmp(join.rising, PLACES, sizeof PLACES) == 0, "the places of a list", AT(rowkeeper_join, rising));
    for (i = 0; i < ROWKEEPER_MOST_RANKS; i++) {
        for (value = 0; value < 256; value++) {
            rowkeeper_join other = join;
            other.rising[i] = (uint8_t)value;
            want(end_of(other, AT(rowkeeper_join, rising) + i / 8) == (i < 3 && value != PLACES[i] ? 2u : 0u),
                 "another answer than the places give", AT(rowkeeper_join, rising) + i / 8);
        }
    }
}

/* Openings that refuse a list by 11, and those that are refused by an earlier number. */
static void bad_lists(rowkeeper_options options) {
    rowkeeper_options other = options;
    rowkeeper_took took;
    int64_t i;
    for (i = 0; i < ROWKEEPER_MOST_RANKS; i++) other.ranks.codes[i] = 31 - i;
    other.ranks.count = ROWKEEPER_MOST_RANKS;
    took = rowkeeper_open(other);
    want(took.refusal == 0 && took.join.rising[0] == 63 && took.join.rising[63] == 0, "opening with the longest list",
         AT(rowkeeper_join, rising));
    other = options;
    other.ranks.count = 0;
    want(rowkeeper_open(other).refusal == ROWKEEPER_BAD_RANKS, "opening with an empty list", NO_WORD);
    other.carried = ROWKEEPER_MOST_CARRIED + 1;
    want(rowkeeper_open(other).refusal == ROWKEEPER_TOO_MANY_CARRIED, "10 comes before 11", NO_WORD);
    other.by = ROWKEEPER_MOST_BY + 1;
    want(rowkeeper_open(other).refusal == ROWKEEPER_BAD_OPTIONS, "1 comes before 10 and 11", NO_WORD);
    other = options;
    other.ranks.count = ROWKEEPER_MOST_RANKS + 1;
    want(rowkeeper_open(other).refusal == ROWKEEPER_BAD_RANKS, "opening with a list that is too long", NO_WORD);
    other.ranks.count = 4;
    took = rowkeeper_open(other);
    want(took.refusal == ROWKEEPER_BAD_RANKS && took.join.layout == ROWKEEPER_LAYOUT, "opening with a code twice", NO_WORD);
    want(memcmp(&took.join.options, &other, sizeof other) == 0, "the options of a refused opening", AT(rowkeeper_join, options));
    took = rowkeeper_end_right(took.join, left, LEFT, right, RIGHT);
    want(took.refusal == ROWKEEPER_BAD_JOIN, "the join of a refused opening", NO_WORD);
    other = options;
    other.ranks.column = 1;
    want(rowkeeper_open(other).refusal == ROWKEEPER_BAD_RANKS, "opening with a list for the key", NO_WORD);
    other.by = 2;
    want(rowkeeper_open(other).refusal == 0, "opening with a list for the second by-column", NO_WORD);
    other = options;
    other.by = 0;
    want(rowkeeper_open(other).refusal == ROWKEEPER_BAD_RANKS, "opening with a list and no by-column", NO_WORD);
    other.ranks.given = 0;
    want(rowkeeper_open(other).refusal == 0, "opening with words of a list that is not given", NO_WORD);
    other.ranks.given = 2;
    want(rowkeeper_open(other).refusal == ROWKEEPER_BAD_OPTIONS, "opening with a flag that is none", NO_WORD);
}

/* Frames in the order of the list: they are sorted, and are not if the list is not given or its column descends. */
static void list_order(rowkeeper_options options) {
    static const int64_t FRAME[] = {3, 2, 30, 5, 10, 5, 20, 5, 1, 1, 1, 1, 1, 1};
    static const int64_t WANT[] = {3, 1, 0, 1, 2, 1, 1, 1};
    int given, down;
    for (given = 0; given < 2; given++) {
        for (down = 0; down < 2; down++) {
            int64_t out[8] = {0};
            rowkeeper_join join;
            rowkeeper_turned turned;
            options.ranks.given = (uint64_t)given;
            options.descending[0] = (uint64_t)down;
            join = rowkeeper_open(options).join;
            join = rowkeeper_right(join, left, LEFT, right, RIGHT, FRAME, 14).join;
            join = rowkeeper_left(join, left, LEFT, right, RIGHT, FRAME, 14).join;
            join = rowkeeper_end_right(join, left, LEFT, right, RIGHT).join;
            turned = rowkeeper_turn(join, left, LEFT, right, RIGHT, out, 8);
            want(turned.refusal == (given && !down ? 0 : ROWKEEPER_LEFT_ORDER), "the order of a list", LIST(given));
            want(!given || down || memcmp(out, WANT, sizeof out) == 0, "the matches of a list", NO_WORD);
        }
    }
}

/* Values that the list lacks: 12 behind 5 and before 6, in the list's own column alone, and nothing is altered. */
static void unlisted(rowkeeper_options options) {
    static const int64_t FORTY[] = {1, 2, 40, 10, 1, 1}, NULLS[] = {1, 2, 0, 40, 0, 1}, SHORT[] = {1, 2, 40, 10, 1};
    int64_t out[8] = {-1, -1, -1, -1, -1, -1, -1, -1};
    rowkeeper_join join = rowkeeper_open(options).join, before;
    rowkeeper_took took;
    rowkeeper_turned turned;
    rowkeeper_ran ran;
    memset(left, 0, sizeof left);
    took = rowkeeper_left(join, left, 5, right, RIGHT, FORTY, 6);
    want(took.refusal == ROWKEEPER_UNKNOWN_CODE && memcmp(&took.join, &join, sizeof join) == 0 && left[0] == 0,
         "a left frame with an unknown code, and no room for it", NO_WORD);
    took = rowkeeper_right(join, left, LEFT, right, 3, FORTY, 6);
    want(took.refusal == ROWKEEPER_UNKNOWN_CODE && memcmp(&took.join, &join, sizeof join) == 0,
         "a right frame with an unknown code, and no room for it", NO_WORD);
    want(rowkeeper_left(join, left, LEFT, right, RIGHT, SHORT, 5).refusal == ROWKEEPER_BAD_FRAME, "5 comes before 12", NO_WORD);
    took = rowkeeper_left(join, left, LEFT, right, RIGHT, NULLS, 6);
    want(took.refusal == 0, "a null is no unknown code, and neither is a key", NO_WORD);
    before = took.join;
    memcpy(left, FORTY, sizeof FORTY);
    turned = rowkeeper_turn(before, left, LEFT, right, RIGHT, out, 0);
    want(turned.answer == ROWKEEPER_REFUSED && turned.refusal == ROWKEEPER_UNKNOWN_CODE, "a turn over an unknown code", NO_WORD);
    want(memcmp(&turned.join, &before, sizeof before) == 0 && left[2] == 40 && out[0] == -1, "what 12 leaves", NO_WORD);
    ran = rowkeeper_run(before, 9, left, LEFT, right, RIGHT, out, 8);
    want(ran.turns == 0 && ran.refusal == ROWKEEPER_UNKNOWN_CODE && out[0] == -1, "a run over an unknown code", NO_WORD);
}

/* Held rows that the host itself has altered: a value that the list lacks stands behind the listed ones, by number. */
static void altered_rows(rowkeeper_options options) {
    static const int64_t ROWS[] = {3, 2, 30, 1, 10, 1, 20, 1, 1, 1, 1, 1, 1, 1}, LAST[] = {1, 2, 20, 1, 1, 1};
    static const int64_t CASES[][3] = {{30, 10, 20}, {30, 41, 42}, {30, 42, 41}, {40, 10, 20}, {30, 20, -5}, {30, -5, 20}};
    static const int SORTED[] = {1, 1, 0, 0, 1, 0};
    size_t i, j;
    for (i = 0; i < sizeof SORTED / sizeof *SORTED; i++) {
        int64_t out[4];
        rowkeeper_join join = rowkeeper_open(options).join;
        join = rowkeeper_right(join, left, LEFT, right, RIGHT, ROWS, 14).join;
        join = rowkeeper_left(join, left, LEFT, right, RIGHT, LAST, 6).join;
        join = rowkeeper_end_right(join, left, LEFT, right, RIGHT).join;
        for (j = 0; j < 3; j++) right[2 * j] = CASES[i][j];
        want(rowkeeper_turn(join, left, LEFT, right, RIGHT, out, 4).refusal == (SORTED[i] ? 0 : ROWKEEPER_RIGHT_ORDER),
             "held values that the list lacks", NO_WORD);
    }
}

/* A list of ranks: where its words are read, when it is refused, and what it does. */
static void ranked(rowkeeper_options options) {
    rowkeeper_took took;
    options = with_list(options);
    options.check = ROWKEEPER_CHECK_ON;
    took = rowkeeper_open(options);
    want(took.refusal == 0 && memcmp(&took.join.options, &options, sizeof options) == 0, "opening with a list",
         AT(rowkeeper_join, options));
    list_words(took.join);
    list_places(took.join);
    bad_lists(options);
    list_order(options);
    unlisted(options);
    altered_rows(options);
}

/* What a join of another layout gets: 2 from every call, a run of no turns too, and itself as it came. The first word of
   joins from before there was a layout word is `by`; the last word here has the bytes of the layout in the other order. */
static void other_layouts(rowkeeper_join join) {
    static const uint64_t OTHER[] = {0, 1, 4, ROWKEEPER_LAYOUT - 1, ROWKEEPER_LAYOUT + 1, UINT64_MAX, 0x037065656b776f72u};
    static const int64_t NONE[] = {0, 2};
    int64_t out[2] = {-1, -1};
    size_t i;
    for (i = 0; i < sizeof OTHER / sizeof *OTHER; i++) {
        rowkeeper_took took;
        rowkeeper_turned turned;
        rowkeeper_ported ported;
        rowkeeper_ran ran;
        join.layout = OTHER[i];
        took = rowkeeper_left(join, left, LEFT, right, RIGHT, NONE, 2);
        want(took.refusal == 2 && memcmp(&took.join, &join, sizeof join) == 0, "left of another layout", AT(rowkeeper_join, layout));
        took = rowkeeper_right(join, left, LEFT, right, RIGHT, NONE, 2);
        want(took.refusal == 2 && memcmp(&took.join, &join, sizeof join) == 0, "right of another layout", AT(rowkeeper_join, layout));
        took = rowkeeper_end_right(join, left, LEFT, right, RIGHT);
        want(took.refusal == 2 && memcmp(&took.join, &join, sizeof join) == 0, "the end of another layout", AT(rowkeeper_join, layout));
        ported = rowkeeper_ports(join, left, LEFT, right, RIGHT, 1, 1, 1);
        want(ported.refusal == 2 && memcmp(&ported.join, &join, sizeof join) == 0, "ports of another layout", AT(rowkeeper_join, layout));
        turned = rowkeeper_turn(join, left, LEFT, right, RIGHT, out, 2);
        want(turned.refusal == 2 && memcmp(&turned.join, &join, sizeof join) == 0, "a turn of another layout", AT(rowkeeper_join, layout));
        ran = rowkeeper_run(join, 0, left, LEFT, right, RIGHT, out, 2);
        want(ran.refusal == 2 && memcmp(&ran.join, &join, sizeof join) == 0, "a run of another layout", AT(rowkeeper_join, layout));
    }
    want(out[0] == -1 && out[1] == -1, "the output of a refused call", NO_WORD);
}

/* Whether spans answer so, over the points 10, 20, 30 and a pass from 10 to 30; a refused call must leave the output. */
static int covers(uint64_t lower, uint64_t upper, size_t room, uint64_t refusal, uint64_t rows) {
    static const int64_t POINTS[] = {3, 1, 10, 20, 30, 1, 1, 1}, PASS[] = {1, 2, 10, 30, 1, 1};
    int64_t out[14] = {-1, -1, -1, -1, -1, -1, -1, -1, -1, -1, -1, -1, -1, -1};
    rowkeeper_written written = rowkeeper_spans(POINTS, 8, PASS, 6, lower, upper, out, room);
    uint64_t i, first = lower == 0;
    if (written.refusal != refusal || written.rows != rows) return 0;
    if (refusal != 0) return out[0] == -1 && out[1] == -1;
    for (i = 0; i < 2 * rows; i++)
        if (out[2 + i] != (i % 2 == 0 ? 0 : (int64_t)(first + i / 2)) || out[2 + 2 * rows + i] != 1) return 0;
    return out[0] == (int64_t)rows && out[1] == 2 && (rows == 3 || out[ROWKEEPER_SPANS_WORDS(rows)] == -1);
}

/* What spans bring at their place: each flag at its own, each refusal, an output that is full and one that is a word short. */
static void spans(void) {
    static const int64_t NULL_POINT[] = {1, 1, 0, 0}, NONE[] = {0, 2};
    int64_t out[2] = {-1, -1};
    want(covers(1, 1, 14, ROWKEEPER_ACCEPTED, 3), "spans, both bounds inclusive", NO_WORD);
    want(covers(1, 0, 14, ROWKEEPER_ACCEPTED, 2), "spans, the lower bound inclusive", NO_WORD);
    want(covers(0, 1, 14, ROWKEEPER_ACCEPTED, 2), "spans, the upper bound inclusive", NO_WORD);
    want(covers(0, 0, 6, ROWKEEPER_ACCEPTED, 1), "spans, no bound inclusive, a full output", NO_WORD);
    want(covers(0, 0, 5, ROWKEEPER_NO_ROOM, 0), "spans, an output one word short", NO_WORD);
    want(covers(2, 1, 14, ROWKEEPER_BAD_OPTIONS, 0), "spans, no flag for the lower bound", NO_WORD);
    want(covers(1, UINT64_MAX, 14, ROWKEEPER_BAD_OPTIONS, 0), "spans, no flag for the upper bound", NO_WORD);
    want(rowkeeper_spans(NONE, 2, NONE, 2, 1, 1, out, 2).refusal == ROWKEEPER_BAD_FRAME, "spans, two columns", NO_WORD);
    want(rowkeeper_spans(NULL_POINT, 4, NONE, 2, 1, 1, out, 0).refusal == ROWKEEPER_BAD_POINTS, "spans, a null", NO_WORD);
    want(out[0] == -1 && out[1] == -1, "spans, the output of a refused call", NO_WORD);
}

/* Whether a merge answers so: the header's two books, under these options, with so much room; a refused call must leave the output. */
static int merges(rowkeeper_options options, size_t room, uint64_t refusal) {
    static const int64_t HOUSE[] = {2, 2, 10, 1800, 30, 2500, 1, 1, 1, 1}, FESTIVAL[] = {1, 2, 20, 2200, 1, 1};
    static const int64_t SEASON[] = {3, 2, 10, 1800, 20, 2200, 30, 2500, 1, 1, 1, 1, 1, 1};
    int64_t out[15];
    rowkeeper_written written;
    memset(out, -1, sizeof out);
    written = rowkeeper_merge(options, HOUSE, 10, FESTIVAL, 6, out, room);
    if (written.refusal != refusal || written.rows != (refusal == 0 ? 3u : 0u)) return 0;
    if (refusal != 0) return out[0] == -1 && out[1] == -1;
    return memcmp(out, SEASON, sizeof SEASON) == 0 && out[14] == -1;
}

/* What a merge brings at its place: the options, each book, an output that is full and one that is a word short. */
static void merge(void) {
    static const int64_t FALLS[] = {2, 2, 2, 0, 1, 0, 1, 1, 1, 1}, NONE[] = {0, 2};
    rowkeeper_options options, other;
    int64_t out[2] = {-1, -1};
    memset(&options, 0, sizeof options);
    options.tolerance = ROWKEEPER_NO_TOLERANCE;
    options.carried = 1;
    want(merges(options, 14, ROWKEEPER_ACCEPTED), "a merge, a full output", NO_WORD);
    want(merges(options, 15, ROWKEEPER_ACCEPTED), "a merge, a word more", NO_WORD);
    want(merges(options, 13, ROWKEEPER_NO_ROOM), "a merge, an output one word short", NO_WORD);
    other = options;
    other.strategy = 3;
    want(merges(other, 14, ROWKEEPER_BAD_OPTIONS), "a merge, no strategy", NO_WORD);
    other = options;
    other.carried = 9;
    want(merges(other, 14, ROWKEEPER_TOO_MANY_CARRIED), "a merge, nine carried columns", NO_WORD);
    other = options;
    other.ranks.given = 1;
    want(merges(other, 14, ROWKEEPER_BAD_RANKS), "a merge, an empty list", NO_WORD);
    other = options;
    other.carried = 0;
    want(merges(other, 14, ROWKEEPER_BAD_FRAME), "a merge, other columns", NO_WORD);
    want(rowkeeper_merge(options, NONE, 2, FALLS, 10, out, 2).refusal == ROWKEEPER_UNSORTED, "a merge, out of order", NO_WORD);
    want(out[0] == -1 && out[1] == -1, "a merge, the output of a refused call", NO_WORD);
}

/* Whether standing answers so: the header's book, under these options, with this place and so much room. */
static int stands(rowkeeper_options options, uint64_t place, size_t room, uint64_t refusal) {
    static const int64_t BOOK[] = {3, 2, 10, 0, 10, 0, 20, 1, 1, 1, 1, 1, 1, 1};
    static const int64_t NOTICES[] = {3, 2, 0, 1, 1, 0, 0, 2, 1, 1, 1, 0, 1, 1};
    int64_t out[15];
    rowkeeper_written written;
    memset(out, -1, sizeof out);
    written = rowkeeper_standing(options, BOOK, 14, place, out, room);
    if (written.refusal != refusal || written.rows != (refusal == 0 ? 3u : 0u)) return 0;
    if (refusal != 0) return out[0] == -1 && out[1] == -1;
    return memcmp(out, NOTICES, sizeof NOTICES) == 0 && out[14] == -1;
}

/* What standing brings at its place: the options, the book, the column, an output that is full and one that is a word short. */
static void standing(void) {
    static const int64_t FALLS[] = {2, 2, 2, 0, 1, 0, 1, 1, 1, 1};
    rowkeeper_options options, other;
    int64_t out[2] = {-1, -1};
    memset(&options, 0, sizeof options);
    options.tolerance = ROWKEEPER_NO_TOLERANCE;
    options.carried = 1;
    want(stands(options, 0, 14, ROWKEEPER_ACCEPTED), "standing, a full output", NO_WORD);
    want(stands(options, 0, 15, ROWKEEPER_ACCEPTED), "standing, a word more", NO_WORD);
    want(stands(options, 0, 13, ROWKEEPER_NO_ROOM), "standing, an output one word short", NO_WORD);
    want(stands(options, 1, 14, ROWKEEPER_BAD_COLUMNS), "standing, no such column", NO_WORD);
    want(stands(options, UINT64_MAX, 14, ROWKEEPER_BAD_COLUMNS), "standing, no such column at all", NO_WORD);
    other = options;
    other.by = 5;
    want(stands(other, 0, 14, ROWKEEPER_BAD_OPTIONS), "standing, five by-columns", NO_WORD);
    other = options;
    other.carried = 2;
    want(stands(other, 0, 14, ROWKEEPER_BAD_FRAME), "standing, other columns", NO_WORD);
    want(rowkeeper_standing(options, FALLS, 10, 0, out, 2).refusal == ROWKEEPER_UNSORTED, "standing, out of order", NO_WORD);
    want(out[0] == -1 && out[1] == -1, "standing, the output of a refused call", NO_WORD);
}

/* Whether a cell has this value and mark. */
static int is_cell(rowkeeper_cell cell, int64_t value, int64_t mark) {
    return cell.value == value && cell.mark == mark;
}

/* Whether a reader shows this, in the three words of its answer. */
static int shows(rowkeeper_shown shown, uint64_t refusal, int64_t value, int64_t mark) {
    return shown.refusal == refusal && shown.value == value && shown.mark == mark;
}

/* Whether a view tells this, in the three words of its answer. */
static int views(rowkeeper_viewed viewed, uint64_t refusal, uint64_t rows, uint64_t columns) {
    return viewed.refusal == refusal && viewed.rows == rows && viewed.columns == columns;
}

/* What the readers bring at their place: p, the frame, the row and the column of each call, and each word of each answer. */
static void readers(void) {
    static const int64_t PRICED[] = {2, 2, 7, 1800, 9, 0, 1, 1, 1, 0}, FAR[] = {2, 3, 7, 1800, 5, 9, 0, 6, 1, 1, 1, 1, 0, 1};
    want(views(rowkeeper_view_plain(1, PRICED, 10), 0, 2, 2), "the plain reader's view", NO_WORD);
    want(views(rowkeeper_view_plain(1, FAR, 14), ROWKEEPER_BAD_COLUMNS, 0, 0), "the plain reader's view of a distance", NO_WORD);
    want(views(rowkeeper_view_plain(1, PRICED, 9), ROWKEEPER_BAD_FRAME, 0, 0), "the plain reader's view, a word short", NO_WORD);
    want(views(rowkeeper_view_plain(9, PRICED, 9), ROWKEEPER_TOO_MANY_CARRIED, 0, 0), "the plain reader's view, p 9", NO_WORD);
    want(views(rowkeeper_view_distance(1, FAR, 14), 0, 2, 3), "the distance reader's view", NO_WORD);
    want(views(rowkeeper_view_distance(1, PRICED, 10), 0, 2, 2), "the distance reader's view without one", NO_WORD);
    want(views(rowkeeper_view_distance(2, PRICED, 10), ROWKEEPER_BAD_COLUMNS, 0, 0), "the distance reader's view, p 2", NO_WORD);
    want(is_cell(rowkeeper_view_cell(2, 3, FAR, 14, 0, 1), 1800, 1), "a cell, row 0, column 1", NO_WORD);
    want(is_cell(rowkeeper_view_cell(2, 3, FAR, 14, 1, 0), 9, 1), "a cell, row 1, column 0", NO_WORD);
    want(is_cell(rowkeeper_view_cell(2, 3, FAR, 14, 1, 1), 0, 0), "a cell that is null", NO_WORD);
    want(is_cell(rowkeeper_view_cell(2, 3, FAR, 14, 2, 1), 0, 0), "a cell below the last row", NO_WORD);
    want(is_cell(rowkeeper_view_cell(2, 3, FAR, 14, 1, 3), 0, 0), "a cell beside the last column", NO_WORD);
    want(is_cell(rowkeeper_view_cell(2, 3, FAR, 13, 0, 0), 0, 0), "a cell of words that are too short", NO_WORD);
    want(is_cell(rowkeeper_view_cell((uint64_t)1 << 63, 2, FAR, 14, 0, 0), 0, 0), "a cell of counts that wrap", NO_WORD);
    want(shows(rowkeeper_read_plain(1, PRICED, 10, 0, 1), 0, 1800, 1), "the plain reader", NO_WORD);
    want(shows(rowkeeper_read_plain(1, PRICED, 10, 1, 0), 0, 9, 1), "the plain reader, row 1", NO_WORD);
    want(shows(rowkeeper_read_plain(1, FAR, 14, 0, 1), ROWKEEPER_BAD_COLUMNS, 0, 0), "the plain reader of a distance", NO_WORD);
    want(shows(rowkeeper_read_distance(1, FAR, 14, 0, 2), 0, 5, 1), "the distance reader", NO_WORD);
    want(shows(rowkeeper_read_distance(1, FAR, 14, 1, 2), 0, 6, 1), "the distance reader, row 1", NO_WORD);
    want(shows(rowkeeper_read_distance(1, PRICED, 10, 0, 2), 0, 0, 0), "the distance reader without one", NO_WORD);
    want(shows(rowkeeper_read_distance(9, FAR, 14, 0, 2), ROWKEEPER_TOO_MANY_CARRIED, 0, 0), "the distance reader, p 9", NO_WORD);
}

/* What the readers show of what a turn wrote: sales 5, 20 and 25 over notices 10, 20 and 30 with a price each, with the distance and without. */
static void read_turns(void) {
    static const int64_t NOTICES[] = {3, 2, 10, 1800, 20, 2200, 30, 2500, 1, 1, 1, 1, 1, 1}, SALES[] = {3, 1, 5, 20, 25, 1, 1, 1};
    static const int64_t NUMBERS[] = {0, 1, 1}, PRICES[] = {0, 2200, 2200}, DISTANCES[] = {0, 0, 5};
    uint64_t i, distance;
    for (distance = 0; distance < 2; distance++) {
        rowkeeper_options options;
        rowkeeper_join join;
        int64_t out[20];
        size_t words = 2 + 2 * 3 * (2 + (size_t)distance);
        memset(&options, 0, sizeof options);
        options.allow_eq = 1;
        options.tolerance = ROWKEEPER_NO_TOLERANCE;
        options.carried = 1;
        options.with_distance = distance;
        join = rowkeeper_open(options).join;
        join = rowkeeper_right(join, left, LEFT, right, RIGHT, NOTICES, 14).join;
        join = rowkeeper_left(join, left, LEFT, right, RIGHT, SALES, 8).join;
        join = rowkeeper_end_right(join, left, LEFT, right, RIGHT).join;
        want(rowkeeper_turn(join, left, LEFT, right, RIGHT, out, words).answer == ROWKEEPER_WROTE, "a turn that is read", NO_WORD);
        want(views(rowkeeper_view_distance(1, out, words), 0, 3, 2 + distance), "the distance reader's view of a turn", NO_WORD);
        want(views(rowkeeper_view_plain(1, out, words), distance ? ROWKEEPER_BAD_COLUMNS : 0, distance ? 0 : 3, distance ? 0 : 2),
             "the plain reader's view of a turn", NO_WORD);
        for (i = 0; i < 3; i++) {
            want(shows(rowkeeper_read_distance(1, out, words, i, 0), 0, NUMBERS[i], i > 0), "the number of a turn's match", NO_WORD);
            want(shows(rowkeeper_read_distance(1, out, words, i, 1), 0, PRICES[i], i > 0), "the price of a turn's match", NO_WORD);
            want(shows(rowkeeper_read_distance(1, out, words, i, 2), 0, distance ? DISTANCES[i] : 0, distance && i > 0),
                 "the distance of a turn's match", NO_WORD);
            want(shows(rowkeeper_read_plain(1, out, words, i, 1), distance ? ROWKEEPER_BAD_COLUMNS : 0, distance ? 0 : PRICES[i], !distance && i > 0),
                 "the price of a turn's match, by the plain reader", NO_WORD);
        }
    }
}

/* Alters each word of a fresh join in turn, then looks at each kind of answer; at last at the calls that have no join. */
int main(void) {
    rowkeeper_options options;
    rowkeeper_took took;
    memset(&options, 0, sizeof options);
    options.by = 1;
    options.strategy = ROWKEEPER_BACKWARD;
    options.allow_eq = 1;
    options.tolerance = ROWKEEPER_NO_TOLERANCE;
    took = rowkeeper_open(options);
    want(took.refusal == 0, "opening", NO_WORD);
    alter_words(took.join);
    want(end_with(took.join, AT(rowkeeper_join, failed), 1) == ROWKEEPER_FAILED, "failed", AT(rowkeeper_join, failed));
    want(end_with(took.join, AT(rowkeeper_join, right_ended), 1) == ROWKEEPER_CLOSED, "right_ended", AT(rowkeeper_join, right_ended));
    want(end_with(took.join, AT(rowkeeper_join, state), ROWKEEPER_DONE) == ROWKEEPER_CLOSED, "state", AT(rowkeeper_join, state));
    other_layouts(took.join);
    answers(took.join);
    runs(took.join);
    carried(options);
    ranked(options);
    spans();
    merge();
    standing();
    readers();
    read_turns();
    options.by = 5;
    took = rowkeeper_open(options);
    want(took.refusal == 1 && took.join.layout == ROWKEEPER_LAYOUT, "a refused opening", AT(rowkeeper_join, layout));
    want(rowkeeper_version() == ROWKEEPER_VERSION_NUMBER, "the library has another version than the header", NO_WORD);
    if (!failed) printf("sizes, offsets, each field of a join where the archive reads it, and each answer\n");
    return failed;
}
