/*
 * What a list of ranks costs, over the C interface: whole joins of two tables of 4,096 rows, and calls of one row.
 *
 *     ranks            makes every call below once and checks its answer
 *
 * Under `valgrind --tool=callgrind --toggle-collect=…` (bench/run ranks does that) the instructions of each of these calls are
 * dumped by themselves, under a label: CALL ROWS BY SIZE CODES LIST CHECK, where CALL is open, right, left, end or turn.
 *
 * Both tables have ROWS rows and are the same. The last of BY by-columns, 1 or 2, has CODES codes. With one by-column the rows are
 * cut into as many groups; with two they are in groups of SIZE rows, which go through the codes again and again, and the first
 * by-column counts how often. LIST 0: no list, and the codes are numbers that rise. LIST 1: a list of codes that do not. CHECK is
 * that of the options. Each left row takes the right row of its own place.
 */
#include "counted.h"
#include "rowkeeper.h"

enum { MOST = ROWKEEPER_MOST_ROWS, MOST_WORDS = 2 + 2 * MOST * 3, OUT_WORDS = 2 + 2 * MOST };

/* The tables of a join and how they are joined. */
typedef struct shape {
    size_t rows, by, size, codes;
    int list;
    uint64_t check;
} shape;

static int64_t left[MOST_WORDS], right[MOST_WORDS], frame[MOST_WORDS], out[OUT_WORDS];

/* The code at a place: the place itself, or one of 64 numbers that do not follow it. */
static int64_t code_at(const shape *s, size_t place) {
    return s->list ? (int64_t)((37 * place + 11) % ROWKEEPER_MOST_RANKS) : (int64_t)place;
}

/* The table as a frame; how many words it is. */
static size_t make_frame(const shape *s) {
    size_t c = s->by + 1, cells = s->rows * c, i;
    frame[0] = (int64_t)s->rows;
    frame[1] = (int64_t)c;
    for (i = 0; i < s->rows; i++) {
        int64_t *row = frame + 2 + i * c;
        row[0] = (int64_t)(i / (s->size * s->codes));
        row[s->by - 1] = code_at(s, i / s->size % s->codes);
        row[s->by] = (int64_t)i;
    }
    for (i = 0; i < cells; i++) frame[2 + cells + i] = 1;
    return 2 + 2 * cells;
}

/* What the join is opened with. */
static rowkeeper_options options_of(const shape *s) {
    rowkeeper_options o = {.by = s->by, .allow_eq = 1, .tolerance = ROWKEEPER_NO_TOLERANCE, .check = s->check};
    size_t place;
    if (!s->list) return o;
    o.ranks.given = 1;
    o.ranks.column = s->by - 1;
    o.ranks.count = s->codes;
    for (place = 0; place < s->codes; place++) o.ranks.codes[place] = code_at(s, place);
    return o;
}

/* Ends a count under the name of a call. */
static void dump(const shape *s, const char *call) {
    char label[100];
    snprintf(label, sizeof label, "%s %zu %zu %zu %zu %d %d", call, s->rows, s->by, s->size, s->codes, s->list, (int)s->check);
    CALLGRIND_DUMP_STATS_AT(label);
}

/* The join of a call that must be accepted. */
static rowkeeper_join accepted(rowkeeper_took t) {
    due(t.refusal == 0, "a call is refused");
    return t.join;
}

/* A whole join, each of its calls counted: both tables in one frame each. */
static void count_join(const shape *s) {
    rowkeeper_options o = options_of(s);
    rowkeeper_took t;
    rowkeeper_turned w;
    size_t words = make_frame(s), i;
    CALLGRIND_ZERO_STATS;
    t = rowkeeper_open(o);
    dump(s, "open");
    CALLGRIND_ZERO_STATS;
    t = rowkeeper_right(accepted(t), left, MOST_WORDS, right, MOST_WORDS, frame, words);
    dump(s, "right");
    CALLGRIND_ZERO_STATS;
    t = rowkeeper_left(accepted(t), left, MOST_WORDS, right, MOST_WORDS, frame, words);
    dump(s, "left");
    CALLGRIND_ZERO_STATS;
    t = rowkeeper_end_right(accepted(t), left, MOST_WORDS, right, MOST_WORDS);
    dump(s, "end");
    CALLGRIND_ZERO_STATS;
    w = rowkeeper_turn(accepted(t), left, MOST_WORDS, right, MOST_WORDS, out, OUT_WORDS);
    dump(s, "turn");
    due(w.answer == ROWKEEPER_WROTE, "the turn does not write");
    for (i = 0; i < s->rows; i++) due(out[2 + i] == (int64_t)i && out[2 + s->rows + i] == 1, "a row takes another row than its own");
}

/* The same without a list and with one. */
static void count_both(shape s) {
    for (s.list = 0; s.list <= 1; s.list++) count_join(&s);
}

/* Every join that is counted. */
int main(void) {
    static const size_t CODES[] = {3, 16, 64}, SIZES[] = {1, 4, 64};
    static const uint64_t CHECKS[] = {ROWKEEPER_CHECK_OFF, ROWKEEPER_CHECK_ON};
    size_t i, j, k;
    for (k = 0; k < 2; k++) {
        for (i = 0; i < 3; i++) {
            count_both((shape){MOST, 1, (MOST + CODES[i] - 1) / CODES[i], CODES[i], 0, CHECKS[k]});
            for (j = 0; j < 3; j++) count_both((shape){MOST, 2, SIZES[j], CODES[i], 0, CHECKS[k]});
        }
    }
    for (i = 0; i < 3; i++) count_both((shape){1, 1, 1, CODES[i], 0, ROWKEEPER_CHECK_OFF});
    puts("every counted call gave the answer that is due");
    return 0;
}
