/*
 * A hostile host of rowkeeper_spans. Hands in points and intervals that are mostly in order, altered in some words, of
 * another length or random words throughout, with any flags, and lends outputs of any length, above all those that are just
 * full or a word short; all between guard words and pages that cannot be touched. What is due is told by two plain loops over
 * all intervals and all points; the answer and every word afterwards must be that.
 *
 *     spans SEED CALLS     prints how often each answer and each case was met; status 1 at the first fault
 */
#include "tables.h"

/* The rows that are handed in at most (one more than a frame may have), and the pairs that are asked for at most. */
enum { MOST_ROWS = ROWKEEPER_MOST_ROWS + 1, MOST_PAIRS = 1 << 17, OUT_WORDS = 2 + 4 * MOST_PAIRS + 64 };

/* A call: its flags, and the length of its output. */
typedef struct attempt {
    uint64_t lower, upper;
    size_t out_words;
} attempt;

/* Cases that a run must have met. */
enum {
    WROTE, WROTE_NONE, BAD_FLAG, TOO_MANY_POINTS, TOO_MANY_INTERVALS, OTHER_COLUMNS, OTHER_WORDS, NULL_POINT, UNSORTED,
    NO_ROOM, ONE_SHORT, JUST_FULL, NO_OUTPUT, NULL_BOUND, TURNED_BOUNDS, EQUAL_POINTS, AT_A_BOUND, MOST_POINTS,
    MOST_INTERVALS, CASES
};
static const char *const CASE_NAMES[CASES] = {
    "written", "no pair", "1: a flag", "5: 4,097 points", "5: 4,097 intervals", "5: another column count",
    "5: other words", "16: a null point", "16: points out of order", "6: no room", "6: one word short",
    "written, output just full", "6: no output at all", "written, a null bound", "written, lower above upper",
    "written, equal points", "written, a point at a bound", "written, 4,096 points", "written, 4,096 intervals"};

static slice points, intervals;
static int64_t out[OUT_WORDS], due[OUT_WORDS];
static lend point_lend, interval_lend, out_lend;
static uint64_t met[CASES];

/* ---- what is due, told from what came in */

/* The first place at which the points cannot be searched: a null, or one that is greater than the next; n where there is none. */
static size_t bad_point(void) {
    size_t n = rows(&points), i;
    int64_t v, next;
    for (i = 0; i < n; i++)
        if (!cell(&points, i, 0, &v) || (i + 1 < n && cell(&points, i + 1, 0, &next) && v > next)) return i;
    return n;
}

/* Whether interval i has point j inside its bounds. */
static int inside(const attempt *a, size_t i, size_t j) {
    int64_t v, lower, upper;
    cell(&points, j, 0, &v);
    if (!cell(&intervals, i, 0, &lower) || !cell(&intervals, i, 1, &upper)) return 0;
    if (a->lower == 1 ? v < lower : v <= lower) return 0;
    return a->upper == 1 ? v <= upper : v < upper;
}

/* How many pairs there are. */
static size_t pairs(const attempt *a) {
    size_t n = rows(&points), m = rows(&intervals), i, j, k = 0;
    for (i = 0; i < m; i++)
        for (j = 0; j < n; j++) k += (size_t)inside(a, i, j);
    return k;
}

/* Writes the table of these k pairs over the front of `due`. */
static void write_due(const attempt *a, size_t k) {
    size_t n = rows(&points), m = rows(&intervals), i, j, at = 2;
    due[0] = (int64_t)k;
    due[1] = 2;
    for (i = 0; i < m; i++)
        for (j = 0; j < n; j++)
            if (inside(a, i, j)) {
                due[at++] = (int64_t)i;
                due[at++] = (int64_t)j;
            }
    for (i = 0; i < 2 * k; i++) due[at++] = 1;
}

/* Whether the frames can be searched at all; else the refusal that is due. */
static uint64_t refusal_of(const attempt *a) {
    if (a->lower > 1 || a->upper > 1) return ROWKEEPER_BAD_OPTIONS;
    if (!is_table(&points, 1, ROWKEEPER_MOST_ROWS) || !is_table(&intervals, 2, ROWKEEPER_MOST_ROWS)) return ROWKEEPER_BAD_FRAME;
    return bad_point() < rows(&points) ? ROWKEEPER_BAD_POINTS : 0;
}

/* The answer that is due; `due` becomes the output that is due. */
static rowkeeper_written judge(const attempt *a) {
    rowkeeper_written w = {0, 0};
    memcpy(due, out, a->out_words * sizeof *due);
    w.refusal = refusal_of(a);
    if (w.refusal != 0) return w;
    w.rows = pairs(a);
    if (a->out_words < ROWKEEPER_SPANS_WORDS(w.rows)) {
        w.refusal = ROWKEEPER_NO_ROOM;
        w.rows = 0;
    } else {
        write_due(a, w.rows);
    }
    return w;
}

/* ---- what is handed in */

/* A point near those before it, at times one end of all numbers. */
static int64_t any_value(int64_t most) {
    switch (below(40)) {
    case 0: return INT64_MIN + (int64_t)below(2);
    case 1: return INT64_MAX - (int64_t)below(2);
    default: return (int64_t)below((uint64_t)most + 1) - most / 4;
    }
}

/* How two numbers compare, for qsort. */
static int by_size(const void *a, const void *b) {
    int64_t x = *(const int64_t *)a, y = *(const int64_t *)b;
    return (x > y) - (x < y);
}

/* A frame of n rows and c columns, all present, its values those of any_value. */
static void any_frame(slice *s, size_t n, size_t c, int64_t most) {
    size_t i;
    shape(s, n, c);
    for (i = 2; i < 2 + n * c; i++) {
        s->words[i] = any_value(most);
        s->words[n * c + i] = 1;
    }
}

/* Makes cell i null, counted over all rows. */
static void make_null(slice *s, size_t i) {
    s->words[2 + i] = 0;
    s->words[2 + rows(s) * (size_t)s->words[1] + i] = 0;
}

/* Numbers of rows: mostly few; at times as many as a frame may have, or one more, on one side. */
static void any_rows(size_t *n, size_t *m) {
    *n = below(mille(900) ? 8 : 60);
    *m = below(mille(900) ? 8 : 60);
    if (!mille(6)) return;
    if (mille(500)) {
        *n = MOST_ROWS - below(2);
        *m = below(12);
    } else {
        *m = MOST_ROWS - below(2);
        *n = below(12);
    }
}

/* Points in order, or now and then with a null or two of them changed for each other. */
static void any_points(size_t n, int64_t most) {
    any_frame(&points, n, 1, most);
    qsort(points.words + 2, n, sizeof *points.words, by_size);
    if (n > 0 && mille(40)) make_null(&points, below(n));
    if (n > 1 && mille(40)) exchange(&points, below(n), below(n));
    if (mille(30)) alter(&points);
}

/* Intervals: the lower bound mostly not above the upper, some bounds null. */
static void any_intervals(size_t m, int64_t most) {
    size_t i;
    any_frame(&intervals, m, 2, most);
    for (i = 0; i < m; i++) {
        int64_t *bounds = intervals.words + 2 + 2 * i;
        if (mille(800)) qsort(bounds, 2, sizeof *bounds, by_size);
        if (mille(80)) make_null(&intervals, 2 * i + below(2));
    }
    if (mille(30)) alter(&intervals);
}

/* The output's length: above all just what the pairs take, a word less or a few more. */
static size_t any_output(const attempt *a) {
    size_t k = refusal_of(a) == 0 ? pairs(a) : below(6);
    return any_room(ROWKEEPER_SPANS_WORDS(k > MOST_PAIRS ? MOST_PAIRS : k));
}

/* A flag, now and then none. */
static uint64_t any_flag(void) {
    return mille(985) ? below(2) : (uint64_t)any_word();
}

/* The next call. */
static attempt any_attempt(void) {
    attempt a;
    size_t n, m;
    int64_t most = mille(800) ? 12 : 100;
    any_rows(&n, &m);
    any_points(n, most);
    any_intervals(m, most);
    a.lower = any_flag();
    a.upper = any_flag();
    a.out_words = any_output(&a);
    fill_blank(out, a.out_words);
    return a;
}

/* ---- calls */

/* Ends the run with what was found and with what it takes to see it again. */
static void fault(const attempt *a, const char *why) {
    printf("FAIL seed %" PRIu64 ", call %" PRIu64 ", rowkeeper_spans: %s\n", seed, made, why);
    printf("words: points %zu, intervals %zu, output %zu; flags %" PRIu64 ", %" PRIu64 "\n", points.len, intervals.len,
           a->out_words, a->lower, a->upper);
    exit(1);
}

/* Which cases a refusal by 5 was. */
static void count_bad_frame(void) {
    int columns = (points.len > 1 && points.words[1] != 1) || (intervals.len > 1 && intervals.words[1] != 2);
    int more_points = is_table(&points, 1, MOST_ROWS) && rows(&points) == MOST_ROWS;
    int more_intervals = is_table(&intervals, 2, MOST_ROWS) && rows(&intervals) == MOST_ROWS;
    met[TOO_MANY_POINTS] += (uint64_t)more_points;
    met[TOO_MANY_INTERVALS] += (uint64_t)more_intervals;
    met[OTHER_COLUMNS] += (uint64_t)columns;
    met[OTHER_WORDS] += !columns && !more_points && !more_intervals;
}

/* Which cases written pairs were. */
static void count_written(const attempt *a, size_t k) {
    size_t n = rows(&points), m = rows(&intervals), i;
    const int64_t *bounds = intervals.words + 2, *p = points.words;
    met[k > 0 ? WROTE : WROTE_NONE]++;
    met[JUST_FULL] += k > 0 && a->out_words == ROWKEEPER_SPANS_WORDS(k);
    met[MOST_POINTS] += n == ROWKEEPER_MOST_ROWS;
    met[MOST_INTERVALS] += m == ROWKEEPER_MOST_ROWS;
    for (i = 0; i < m; i++) {
        int null = bounds[2 * m + 2 * i] == 0 || bounds[2 * m + 2 * i + 1] == 0;
        met[NULL_BOUND] += (uint64_t)null;
        met[TURNED_BOUNDS] += !null && bounds[2 * i] > bounds[2 * i + 1];
        met[AT_A_BOUND] += !null && n > 0 && (bounds[2 * i] == p[2] || bounds[2 * i + 1] == p[2]);
    }
    for (i = 1; i < n; i++) met[EQUAL_POINTS] += p[1 + i] == p[2 + i];
}

/* Counts what was met. */
static void count(const attempt *a, rowkeeper_written w) {
    int64_t v;
    switch (w.refusal) {
    case 0: count_written(a, (size_t)w.rows); break;
    case ROWKEEPER_BAD_OPTIONS: met[BAD_FLAG]++; break;
    case ROWKEEPER_BAD_FRAME: count_bad_frame(); break;
    case ROWKEEPER_BAD_POINTS: met[cell(&points, bad_point(), 0, &v) ? UNSORTED : NULL_POINT]++; break;
    default:
        met[NO_ROOM]++;
        met[NO_OUTPUT] += a->out_words == 0;
        met[ONE_SHORT] += a->out_words + 1 == ROWKEEPER_SPANS_WORDS(pairs(a));
        break;
    }
}

/* Makes a call over slices that are lent for it alone, and judges it. */
static void try_call(const attempt *a) {
    int64_t *p = lent(&point_lend, points.words, points.len), *i = lent(&interval_lend, intervals.words, intervals.len);
    int64_t *o = lent(&out_lend, out, a->out_words);
    rowkeeper_written w, want;
    int intact;
    made++;
    w = rowkeeper_spans(p, points.len, i, intervals.len, a->lower, a->upper, o, a->out_words);
    intact = lend_intact(&point_lend) & lend_intact(&interval_lend) & lend_intact(&out_lend);
    want = judge(a);
    if (!intact) fault(a, "a guard word was altered");
    if (!lend_same(&point_lend, points.words, 0)) fault(a, "the points were altered");
    if (!lend_same(&interval_lend, intervals.words, 0)) fault(a, "the intervals were altered");
    if (w.refusal != want.refusal) fault(a, "another answer than is due");
    if (w.rows != want.rows) fault(a, "another number of rows than is due");
    if (!lend_same(&out_lend, due, 0)) fault(a, want.refusal == 0 ? "other words than the pairs" : "a refused call wrote");
    count(a, want);
}

/* Makes calls until there were enough. */
int main(int argc, char **argv) {
    uint64_t calls = begin(argc, argv, "spans");
    int all;
    lend_init(&point_lend, TABLE_WORDS);
    lend_init(&interval_lend, TABLE_WORDS);
    lend_init(&out_lend, OUT_WORDS);
    while (made < calls) {
        attempt a = any_attempt();
        try_call(&a);
    }
    all = report_cases(met, CASE_NAMES, CASES);
    printf("spans: seed %" PRIu64 ", %" PRIu64 " calls, %" PRIu64 " of them written; no fault\n", seed, made,
           met[WROTE] + met[WROTE_NONE]);
    return all ? 0 : 1;
}
