/*
 * A hostile host of the answer readers. Hands in answer frames that are mostly right, altered in some words, of another length or
 * random words throughout, with any p and any place, between guard words and pages that cannot be touched. What is due is told by
 * a walk over the frame's words, one by one, that counts rows and columns and never multiplies. View and reader are asked the same
 * place, and view_cell is asked with counts that no view told, too.
 *
 *     readers SEED CALLS     prints how often each answer and each case was met; status 1 at the first fault
 */
#include "tables.h"

/* The columns that a frame has at most. */
enum { MOST_COLUMNS = 11 };

/* A call: the frame's words, which reader, p, a place, and counts for view_cell that no view told. */
typedef struct attempt {
    slice frame;
    int distance;
    uint64_t carried, row, column, rows, columns;
} attempt;

/* Cases that a run must have met. */
enum {
    VALUE, NULL_INSIDE, BELOW, BESIDE, DISTANCE, NO_DISTANCE, LONG_FRAME, EMPTY_FRAME, TOO_MANY_CARRIED, NO_WORDS, OTHER_WORDS, TOO_MANY_ROWS,
    NO_COLUMNS, UNKNOWN, PLAIN_OF_DISTANCE, OWN_COUNTS_INSIDE, OWN_COUNTS_OUTSIDE, OWN_COUNTS_BEYOND, CASES
};
static const char *const CASE_NAMES[CASES] = {
    "a value", "a null", "a row below the last", "a column beside the last", "a distance", "column 1 + p of a frame without it",
    "a frame of 4,096 rows", "a frame of no rows", "10", "5: fewer than two words", "5: other words", "5: 4,097 rows", "13: no columns at all",
    "13: another column count", "13: a distance for the plain reader", "view_cell, other counts, inside", "view_cell, other counts, outside",
    "view_cell, counts beyond all words"};

static attempt now;
static lend frame_lend;
static uint64_t met[CASES];

/* ---- what is due, told from what came in */

/* Whether the words are a frame of as many columns as they tell: a walk over all its cells, values and marks together. */
static int is_frame(const attempt *a) {
    const int64_t *w = a->frame.words;
    int64_t row, column;
    size_t half = (a->frame.len - 2) / 2, at = 0;
    if (a->frame.len < 2 || w[0] < 0 || w[0] > ROWKEEPER_MOST_ROWS || w[1] < 0 || a->frame.len % 2 != 0) return 0;
    for (row = 0; row < w[0]; row++)
        for (column = 0; column < w[1]; column++, at++) {
            if (at == half) return 0;
            if (!(w[2 + half + at] == 1 || (w[2 + half + at] == 0 && w[2 + at] == 0))) return 0;
        }
    return at == half;
}

/* The refusal of this reader, or 0. */
static uint64_t refusal_of(const attempt *a) {
    uint64_t c;
    if (a->carried > ROWKEEPER_MOST_CARRIED) return ROWKEEPER_TOO_MANY_CARRIED;
    if (!is_frame(a)) return ROWKEEPER_BAD_FRAME;
    c = (uint64_t)a->frame.words[1];
    return c == a->carried + 1 || (a->distance && c == a->carried + 2) ? 0 : ROWKEEPER_BAD_COLUMNS;
}

/* The cell at this place of a frame: found by counting on from its first, or null. */
static rowkeeper_cell cell_of(const attempt *a) {
    rowkeeper_cell none = {0, 0}, found;
    uint64_t row, column;
    size_t half = (a->frame.len - 2) / 2, at = 2;
    for (row = 0; row < (uint64_t)a->frame.words[0]; row++)
        for (column = 0; column < (uint64_t)a->frame.words[1]; column++, at++)
            if (row == a->row && column == a->column) {
                found.value = a->frame.words[at];
                found.mark = a->frame.words[at + half];
                return found;
            }
    return none;
}

/* The cell that view_cell owes for counts that no view told: the words where a frame of so many rows and columns has them. */
static rowkeeper_cell cell_by_counts(const attempt *a) {
    rowkeeper_cell none = {0, 0}, found;
    size_t cells, at;
    if (a->row >= a->rows || a->column >= a->columns) return none;
    if (a->rows > TABLE_WORDS || a->columns > TABLE_WORDS) return none;
    cells = (size_t)a->rows * (size_t)a->columns;
    if (2 + 2 * cells > a->frame.len) return none;
    at = 2 + (size_t)a->row * (size_t)a->columns + (size_t)a->column;
    found.value = a->frame.words[at];
    found.mark = a->frame.words[at + cells];
    return found;
}

/* ---- what is handed in */

/* A place below a count most often, at it, or far outside. */
static uint64_t any_place(uint64_t count) {
    static const uint64_t FAR[] = {(uint64_t)1 << 32, (uint64_t)1 << 63, UINT64_MAX, UINT64_MAX - 1};
    if (mille(80)) return FAR[below(4)];
    if (mille(100)) return count + below(2);
    return count == 0 ? 0 : below(count);
}

/* A count that no view told: small most often, or such that a product with another wraps. */
static uint64_t any_count(void) {
    static const uint64_t LARGE[] = {(uint64_t)1 << 32, ((uint64_t)1 << 32) + 1, (uint64_t)1 << 62, (uint64_t)1 << 63, UINT64_MAX};
    return mille(200) ? LARGE[below(5)] : below(12);
}

/* A frame of n rows of c columns, some cells null. */
static void any_frame(slice *s, size_t n, size_t c) {
    size_t i;
    shape(s, n, c);
    for (i = 2; i < 2 + n * c; i++) {
        int null = mille(200);
        s->words[i] = null ? 0 : any_word();
        s->words[n * c + i] = !null;
    }
}

/* The next call. */
static void any_attempt(attempt *a) {
    size_t p = mille(900) ? below(3) : below(9), c = mille(600) ? p + 1 : mille(800) ? p + 2 : below(MOST_COLUMNS + 1), n = below(8);
    if (mille(10)) {
        p = below(2);
        c = p + 1 + below(2);
        n = ROWKEEPER_MOST_ROWS + mille(300);
    }
    any_frame(&a->frame, n, c);
    if (mille(100)) alter(&a->frame);
    if (mille(10)) a->frame.words[1] = any_word();
    a->distance = mille(500);
    a->carried = mille(960) ? p : mille(500) ? 9 : any();
    a->row = any_place(n);
    a->column = mille(150) ? p + 1 : any_place(c);
    a->rows = any_count();
    a->columns = any_count();
}

/* ---- calls */

/* Ends the run with what was found and with what it takes to see it again. */
static void fault(const attempt *a, const char *why) {
    printf("FAIL seed %" PRIu64 ", call %" PRIu64 ", %s reader: %s\n", seed, made, a->distance ? "distance" : "plain", why);
    printf("words %zu, p %" PRIu64 ", row %" PRIu64 ", column %" PRIu64 ", rows %" PRIu64 ", columns %" PRIu64 "\n", a->frame.len,
           a->carried, a->row, a->column, a->rows, a->columns);
    exit(1);
}

/* Counts what was met of a frame that is shown. */
static void count_shown(const attempt *a, rowkeeper_cell due) {
    int below_last = a->row >= (uint64_t)a->frame.words[0], beside = a->column >= (uint64_t)a->frame.words[1];
    met[VALUE] += due.mark == 1;
    met[NULL_INSIDE] += !below_last && !beside && due.mark == 0;
    met[BELOW] += below_last;
    met[BESIDE] += !below_last && beside;
    met[DISTANCE] += due.mark == 1 && a->column == a->carried + 1;
    met[NO_DISTANCE] += a->distance && !below_last && beside && a->column == a->carried + 1;
    met[LONG_FRAME] += a->frame.words[0] == ROWKEEPER_MOST_ROWS;
    met[EMPTY_FRAME] += a->frame.words[0] == 0;
}

/* Counts what was met. */
static void count(const attempt *a, uint64_t refusal, rowkeeper_cell due) {
    uint64_t c = a->frame.len > 1 ? (uint64_t)a->frame.words[1] : 0;
    int more = a->frame.len > 1 && a->frame.words[0] == ROWKEEPER_MOST_ROWS + 1, beyond = a->rows > TABLE_WORDS || a->columns > TABLE_WORDS;
    switch (refusal) {
    case 0: count_shown(a, due); break;
    case ROWKEEPER_TOO_MANY_CARRIED: met[TOO_MANY_CARRIED]++; break;
    case ROWKEEPER_BAD_FRAME: met[a->frame.len < 2 ? NO_WORDS : more ? TOO_MANY_ROWS : OTHER_WORDS]++; break;
    default: met[c == 0 ? NO_COLUMNS : !a->distance && c == a->carried + 2 ? PLAIN_OF_DISTANCE : UNKNOWN]++; break;
    }
    met[beyond ? OWN_COUNTS_BEYOND : a->row < a->rows && a->column < a->columns ? OWN_COUNTS_INSIDE : OWN_COUNTS_OUTSIDE]++;
}

/* The place through the view. */
static rowkeeper_shown by_view(const attempt *a, const int64_t *f) {
    size_t len = a->frame.len;
    rowkeeper_viewed v = a->distance ? rowkeeper_view_distance(a->carried, f, len) : rowkeeper_view_plain(a->carried, f, len);
    rowkeeper_cell cell = {0, 0};
    rowkeeper_shown shown;
    if (v.refusal != 0 && (v.rows != 0 || v.columns != 0)) fault(a, "a refused view told rows or columns");
    if (v.refusal == 0 && (v.rows != rows(&a->frame) || v.columns != (uint64_t)a->frame.words[1])) fault(a, "a view told other counts");
    if (v.refusal == 0) cell = rowkeeper_view_cell(v.rows, v.columns, f, len, a->row, a->column);
    shown.refusal = v.refusal;
    shown.value = cell.value;
    shown.mark = cell.mark;
    return shown;
}

/* Makes the calls over a slice that is lent for them alone, and judges them. */
static void try_calls(const attempt *a) {
    rowkeeper_cell due = {0, 0}, counts = cell_by_counts(a), cell;
    uint64_t refusal = refusal_of(a);
    int64_t *f = lent(&frame_lend, a->frame.words, a->frame.len);
    rowkeeper_shown r, v;
    made++;
    if (refusal == 0) due = cell_of(a);
    r = a->distance ? rowkeeper_read_distance(a->carried, f, a->frame.len, a->row, a->column)
                    : rowkeeper_read_plain(a->carried, f, a->frame.len, a->row, a->column);
    v = by_view(a, f);
    cell = rowkeeper_view_cell(a->rows, a->columns, f, a->frame.len, a->row, a->column);
    if (!lend_intact(&frame_lend)) fault(a, "a guard word was altered");
    if (!lend_same(&frame_lend, a->frame.words, 0)) fault(a, "the frame was altered");
    if (r.refusal != refusal) fault(a, "another answer than is due");
    if (r.value != due.value || r.mark != due.mark) fault(a, "another cell than is due");
    if (v.refusal != refusal || v.value != due.value || v.mark != due.mark) fault(a, "the view tells another cell than is due");
    if (cell.value != counts.value || cell.mark != counts.mark) fault(a, "view_cell, with other counts, tells another cell than is due");
    count(a, refusal, due);
}

/* Makes calls until there were enough. */
int main(int argc, char **argv) {
    uint64_t calls = begin(argc, argv, "readers");
    int all;
    lend_init(&frame_lend, TABLE_WORDS);
    while (made < calls) {
        any_attempt(&now);
        try_calls(&now);
    }
    all = report_cases(met, CASE_NAMES, CASES);
    printf("readers: seed %" PRIu64 ", %" PRIu64 " places, each by reader and view; no fault\n", seed, made);
    return all ? 0 : 1;
}
