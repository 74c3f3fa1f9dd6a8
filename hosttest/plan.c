/*
 * A hostile host of rowkeeper_plan. Hands in tables and heights that are mostly in order, altered in some words, of another length
 * or random words throughout, between guard words and pages that cannot be touched. What is due of a refusal is told by looking at
 * the words; the figures by making the schedule: all left frames wait, a right frame is handed in when a turn wants one. A join
 * with room for as many rows as the first figure says must come to these figures, and one with a row less must meet refusal 6.
 *
 *     plan SEED CALLS     prints how often each answer and each case was met; status 1 at the first fault
 */
#include "tables.h"

/* How many heights a list has at most, but for a word that is added; what an area has at most. */
enum { MOST_HEIGHTS = 64, AREA_WORDS = TABLE_WORDS + 2 * MOST_HEIGHTS + 64 };

/* Cases that a run must have met; those of options are in the order of rules.h. */
enum {
    PLANNED, NO_ROWS, NONE_TAKEN, SOME_UNTAKEN, FEWER_HELD, LONG_TABLE, EMPTY_FRAME, WITH_CARRIED, WITH_LIST, DESCENDING, BAD_OPTIONS,
    BAD_FLAG, TOO_MANY_CARRIED, BAD_RANKS, BAD_LEFT, BAD_RIGHT, LEFT_CODE, RIGHT_CODE, UNSORTED_LEFT, UNSORTED_RIGHT, HEIGHT_BELOW,
    HEIGHT_ABOVE, OTHER_SUM, CASES
};
static const char *const CASE_NAMES[CASES] = {
    "planned", "planned, no row held", "planned, no right frame taken", "planned, some right frames never taken",
    "planned, fewer rows held than taken", "planned, more rows than a frame has", "planned, a frame without rows",
    "planned, with carried columns", "planned, with a list", "planned, a descending column", "1: options", "1: a flag",
    "10: carried columns", "11: a list", "5: the left table", "5: the right table alone", "12: the left table",
    "12: the right table alone", "14: the left table", "14: the right table alone", "17: a height below 0", "17: a height above 4,096",
    "17: another sum"};

static slice tables[2], heights[2];
static lend lends[4];
static int64_t left_area[AREA_WORDS], right_area[AREA_WORDS], out[AREA_WORDS];
static rowkeeper_options options;
static uint64_t met[CASES];

/* ---- what is due, told from what came in */

/* The columns of the left table, 0, and of the right one, 1. */
static size_t columns(int side) {
    return (size_t)(options.by + 1 + (side ? options.carried : 0));
}

/* The case of heights that are refused; CASES for none. */
static int bad_heights(int side) {
    size_t i;
    int64_t sum = 0;
    for (i = 0; i < heights[side].len; i++) {
        int64_t h = heights[side].words[i];
        if (h < 0) return HEIGHT_BELOW;
        if (h > ROWKEEPER_MOST_ROWS) return HEIGHT_ABOVE;
        sum += h;
    }
    return sum == tables[side].words[0] ? CASES : OTHER_SUM;
}

/* The case that is due, PLANNED or that of a refusal, and its number. */
static int due_case(uint64_t *refusal) {
    int wrong = judge_options(&options, refusal), bad[2], side;
    if (wrong != FINE_OPTIONS) return BAD_OPTIONS + wrong;
    *refusal = ROWKEEPER_BAD_FRAME;
    for (side = 0; side < 2; side++)
        if (!is_table(&tables[side], columns(side), TABLE_WORDS)) return side ? BAD_RIGHT : BAD_LEFT;
    *refusal = ROWKEEPER_UNKNOWN_CODE;
    for (side = 0; side < 2; side++)
        if (lacks_code(&options, tables[side].words)) return side ? RIGHT_CODE : LEFT_CODE;
    *refusal = ROWKEEPER_UNSORTED;
    for (side = 0; side < 2; side++)
        if (!is_sorted(&options, &tables[side])) return side ? UNSORTED_RIGHT : UNSORTED_LEFT;
    *refusal = ROWKEEPER_BAD_HEIGHTS;
    for (side = 0; side < 2; side++) bad[side] = bad_heights(side);
    if (bad[0] != CASES || bad[1] != CASES) return bad[0] != CASES ? bad[0] : bad[1];
    *refusal = 0;
    return PLANNED;
}

/* Frame k of a table, in `frame`; its words. */
static size_t frame_of(int side, size_t k, int64_t *frame) {
    const int64_t *w = tables[side].words;
    size_t c = columns(side), cells = (size_t)w[0] * c, at = 0, n = (size_t)heights[side].words[k] * c, i;
    for (i = 0; i < k; i++) at += (size_t)heights[side].words[i] * c;
    frame[0] = heights[side].words[k];
    frame[1] = (int64_t)c;
    memcpy(frame + 2, w + 2 + at, n * sizeof *w);
    memcpy(frame + 2 + n, w + 2 + cells + at, n * sizeof *w);
    return 2 + 2 * n;
}

/* Makes the schedule with a right area for so many rows; whether no right frame met a refusal 6. Its figures are told. */
static int schedule(uint64_t held, rowkeeper_planned *told) {
    static int64_t frame[AREA_WORDS];
    size_t lefts = heights[0].len, rights = heights[1].len, right_words = ROWKEEPER_RIGHT_WORDS(held, options.by, options.carried), k;
    uint64_t written = 0;
    rowkeeper_took took = rowkeeper_open(options);
    memset(told, 0, sizeof *told);
    for (k = 0; k < lefts; k++) {
        size_t len = frame_of(0, k, frame);
        took = rowkeeper_left(took.join, left_area, AREA_WORDS, right_area, right_words, frame, len);
    }
    if (rights == 0) took = rowkeeper_end_right(took.join, left_area, AREA_WORDS, right_area, right_words);
    while (written < lefts) {
        rowkeeper_turned turned = rowkeeper_turn(took.join, left_area, AREA_WORDS, right_area, right_words, out, sizeof out / sizeof *out);
        took.join = turned.join;
        told->turns++;
        if (turned.answer == ROWKEEPER_WROTE) {
            written++;
        } else if (turned.answer == ROWKEEPER_WANTS_RIGHT && told->rights < rights) {
            size_t len = frame_of(1, (size_t)told->rights, frame);
            took = rowkeeper_right(took.join, left_area, AREA_WORDS, right_area, right_words, frame, len);
            if (took.refusal != 0) return took.refusal != ROWKEEPER_NO_ROOM;
            told->rights++;
            if (took.join.held > told->rows) told->rows = took.join.held;
            if (told->rights == rights) took = rowkeeper_end_right(took.join, left_area, AREA_WORDS, right_area, right_words);
        } else {
            told->refusal = UINT64_MAX;
            return 1;
        }
    }
    return 1;
}

/* ---- what is handed in */

/* Heights that cut n rows. */
static void cut(int side, size_t n) {
    size_t left = n, most = n > SHORT_ROWS ? ROWKEEPER_MOST_ROWS : 1 + below(6);
    slice *h = &heights[side];
    h->len = 0;
    while (h->len < MOST_HEIGHTS && (left > 0 || mille(100))) {
        size_t height = n > SHORT_ROWS ? (left < most ? left : most) : below((left < most ? left : most) + 1);
        h->words[h->len++] = (int64_t)height;
        left -= height;
    }
}

/* The next call. */
static void next(void) {
    int side, longer = mille(4);
    uint64_t most = mille(500) ? 4 : 30;
    options = any_options();
    if (longer) make_plain(&options, 0);
    for (side = 0; side < 2; side++) {
        size_t n = longer && side ? LONG_ROWS : below(SHORT_ROWS + 1);
        any_table(&options, &tables[side], n, columns(side), most);
        cut(side, n);
        if (mille(25)) alter(&tables[side]);
        if (mille(40)) alter(&heights[side]);
    }
    if (mille(50)) spoil_options(&options);
}

/* ---- calls */

/* Ends the run with what was found and with what it takes to see it again. */
static void fault(const char *why) {
    printf("FAIL seed %" PRIu64 ", call %" PRIu64 ", rowkeeper_plan: %s\n", seed, made, why);
    exit(1);
}

/* Judges the figures by the schedule, and counts what was met. */
static void judge_figures(rowkeeper_planned p) {
    rowkeeper_planned told;
    size_t i;
    if (!schedule(p.rows, &told) || memcmp(&told, &p, sizeof p) != 0) fault("the schedule comes to other figures");
    if (p.rows > 0 && schedule(p.rows - 1, &told)) fault("the schedule meets no 6 with one row less");
    met[NO_ROWS] += p.rows == 0;
    met[NONE_TAKEN] += p.rights == 0 && heights[1].len > 0;
    met[SOME_UNTAKEN] += p.rights < heights[1].len;
    met[FEWER_HELD] += p.rights == heights[1].len && p.rows < (uint64_t)tables[1].words[0];
    met[LONG_TABLE] += tables[1].words[0] > ROWKEEPER_MOST_ROWS;
    met[WITH_CARRIED] += options.carried > 0;
    met[WITH_LIST] += options.ranks.given;
    met[DESCENDING] += options.by > 0 && options.descending[0];
    for (i = 0; i < heights[1].len; i++) met[EMPTY_FRAME] += heights[1].words[i] == 0;
}

/* Makes a call over slices that are lent for it alone, and judges it. */
static void try_call(void) {
    const int64_t *l = lent(&lends[0], tables[0].words, tables[0].len), *r = lent(&lends[1], tables[1].words, tables[1].len);
    const int64_t *hl = lent(&lends[2], heights[0].words, heights[0].len), *hr = lent(&lends[3], heights[1].words, heights[1].len);
    rowkeeper_planned p;
    uint64_t refusal;
    int due, k;
    made++;
    p = rowkeeper_plan(options, l, tables[0].len, r, tables[1].len, hl, heights[0].len, hr, heights[1].len);
    for (k = 0; k < 4; k++) {
        const slice *s = k < 2 ? &tables[k] : &heights[k - 2];
        if (!lend_intact(&lends[k])) fault("a guard word was altered");
        if (!lend_same(&lends[k], s->words, 0)) fault("a word was altered");
    }
    due = due_case(&refusal);
    if (p.refusal != refusal) fault("another answer than is due");
    met[due]++;
    if (refusal == 0) judge_figures(p);
    else if (p.rows != 0 || p.turns != 0 || p.rights != 0) fault("a refused call told figures");
}

/* Makes calls until there were enough. */
int main(int argc, char **argv) {
    uint64_t calls = begin(argc, argv, "plan");
    int k, all;
    for (k = 0; k < 4; k++) lend_init(&lends[k], TABLE_WORDS);
    while (made < calls) {
        next();
        try_call();
    }
    all = report_cases(met, CASE_NAMES, CASES);
    printf("plan: seed %" PRIu64 ", %" PRIu64 " calls, %" PRIu64 " of them planned; no fault\n", seed, made, met[PLANNED]);
    return all ? 0 : 1;
}
