/*
 * A hostile host of rowkeeper_cut. Hands in tables and boundaries that are mostly in order, altered in some words, of another length or
 * random words throughout, under any options and for any side, and lends outputs of any length, above all those that are just full or a
 * word short; all between guard words and pages that cannot be touched. What is due is told by looking at the rows from the first on, for
 * each boundary. The answer and every word afterwards must be that.
 *
 *     cut SEED CALLS     prints how often each answer and each case was met; status 1 at the first fault
 */
#include "groups.h"

/* What is written at most, and behind it. */
enum { OUT_WORDS = 200 };

/* A call: its options, its side, and the length of its output. */
typedef struct attempt {
    rowkeeper_options options;
    uint64_t right;
    size_t out_words;
} attempt;

/* Cases that a run must have met; those of options and of 18 are in the order of rules.h and groups.h. */
enum {
    WROTE, LEFT_ROWS, RIGHT_ROWS, THERE, BETWEEN, BEFORE, BEHIND, NO_ROWS, NO_COLUMNS, NO_BOUNDARY, ALL_BOUNDARIES, LONG_TABLE,
    WITH_LIST, WITH_CARRIED, DESCENDING, NULLS_LAST, JUST_FULL, BAD_OPTIONS, BAD_FLAG, TOO_MANY_CARRIED, BAD_RANKS, BAD_SIDE, BAD_TABLE,
    BAD_GROUPS, TABLE_CODE, GROUP_CODE, UNSORTED, TOO_MANY, NONE_TAKEN, NULL_GROUP, EQUAL_GROUPS, FALLING_GROUPS, NO_ROOM, ONE_SHORT,
    NO_OUTPUT, CASES
};
static const char *const CASE_NAMES[CASES] = {
    "cut", "cut, left rows", "cut, right rows", "a boundary whose group is there", "a boundary that is absent between two rows",
    "a boundary before the first row", "a boundary behind the last row", "cut, no rows", "cut, no by-columns",
    "cut, by-columns and no boundary", "cut, 16 boundaries", "cut, more rows than a frame has", "cut, with a list",
    "cut, with carried columns", "cut, a descending column", "cut, a null group last", "cut, output just full", "1: options",
    "1: a flag", "10: carried columns", "11: a list", "1: a side that is none", "5: the table", "5: the boundaries alone",
    "12: the table", "12: a boundary alone", "14: the table", "18: more than 16", "18: no by-columns", "18: a null",
    "18: equal neighbours", "18: a boundary below the one before", "6: no room", "6: one word short", "6: no output at all"};

static slice table, groups;
static int64_t out[OUT_WORDS], due[OUT_WORDS];
static lend table_lend, groups_lend, out_lend;
static uint64_t met[CASES];

/* ---- what is due, told from what came in */

/* The columns of a table of this side. */
static size_t columns(const attempt *a) {
    return (size_t)(a->options.by + 1 + (a->right == 1 ? a->options.carried : 0));
}

/* The case that is due before the output is looked at, WROTE or that of a refusal, and its number. */
static int due_case(const attempt *a, uint64_t *refusal) {
    const rowkeeper_options *o = &a->options;
    int bad = judge_options(o, refusal);
    if (bad > WRONG_FLAG && a->right > 1) {
        *refusal = ROWKEEPER_BAD_OPTIONS;
        return BAD_SIDE;
    }
    if (bad != FINE_OPTIONS) return BAD_OPTIONS + bad;
    *refusal = ROWKEEPER_BAD_FRAME;
    if (!is_table(&table, columns(a), TABLE_WORDS)) return BAD_TABLE;
    if (!is_table(&groups, (size_t)o->by, ROWKEEPER_MOST_ROWS)) return BAD_GROUPS;
    *refusal = ROWKEEPER_UNKNOWN_CODE;
    if (lacks_code(o, table.words)) return TABLE_CODE;
    if (lacks_code(o, groups.words)) return GROUP_CODE;
    *refusal = ROWKEEPER_UNSORTED;
    if (!is_sorted(o, &table)) return UNSORTED;
    *refusal = ROWKEEPER_BAD_BOUNDARIES;
    bad = judge_groups(o, &groups);
    if (bad != FINE_GROUPS) return TOO_MANY + bad;
    *refusal = 0;
    return WROTE;
}

/* The case that is due and the answer; `due` becomes the output that is due. */
static int judge(const attempt *a, rowkeeper_written *want) {
    size_t k, n;
    int told = due_case(a, &want->refusal);
    want->rows = 0;
    memcpy(due, out, a->out_words * sizeof *due);
    if (told != WROTE) return told;
    n = rows(&groups);
    if (a->out_words < ROWKEEPER_CUT_WORDS(n)) {
        want->refusal = ROWKEEPER_NO_ROOM;
        return NO_ROOM;
    }
    want->rows = n;
    due[0] = (int64_t)n;
    due[1] = 1;
    for (k = 0; k < n; k++) {
        due[2 + k] = (int64_t)cut_at(&a->options, &table, &groups, k);
        due[2 + n + k] = 1;
    }
    return WROTE;
}

/* ---- what is handed in */

/* The output's length: above all just what the places take, a word less or a few more. */
static size_t any_output(const attempt *a) {
    uint64_t refusal;
    size_t full = due_case(a, &refusal) == WROTE ? ROWKEEPER_CUT_WORDS(rows(&groups)) : ROWKEEPER_CUT_WORDS(below(6));
    return any_room(full);
}

/* The next call. */
static attempt any_attempt(void) {
    attempt a;
    size_t n = mille(100) ? 0 : below(mille(800) ? 8 : SHORT_ROWS + 1);
    a.options = any_options();
    a.right = below(2);
    if (mille(8)) {
        make_plain(&a.options, 1);
        n = LONG_ROWS;
    }
    any_table(&a.options, &table, n, columns(&a), 8);
    any_groups(&a.options, &groups);
    if (mille(25)) alter(&table);
    if (mille(20)) a.right = mille(500) ? 2 + below(9) : any() | 2;
    if (mille(30)) spoil_options(&a.options);
    a.out_words = any_output(&a);
    fill_blank(out, a.out_words);
    return a;
}

/* ---- calls */

/* Ends the run with what was found and with what it takes to see it again. */
static void fault(const attempt *a, const char *why) {
    printf("FAIL seed %" PRIu64 ", call %" PRIu64 ", rowkeeper_cut: %s\n", seed, made, why);
    printf("words: table %zu, boundaries %zu, output %zu; by %" PRIu64 ", carried %" PRIu64 ", right %" PRIu64 "\n", table.len,
           groups.len, a->out_words, a->options.by, a->options.carried, a->right);
    exit(1);
}

/* Which cases a table that was cut, and its places, were. */
static void count_cut(const attempt *a) {
    const rowkeeper_options *o = &a->options;
    size_t n = rows(&table), k, many = rows(&groups), j;
    int64_t v;
    met[a->right ? RIGHT_ROWS : LEFT_ROWS]++;
    met[NO_ROWS] += n == 0;
    met[NO_COLUMNS] += o->by == 0;
    met[NO_BOUNDARY] += o->by > 0 && many == 0;
    met[ALL_BOUNDARIES] += many == MOST_BOUNDARIES;
    met[LONG_TABLE] += n > ROWKEEPER_MOST_ROWS && many > 0;
    met[WITH_LIST] += o->ranks.given && many > 0;
    met[WITH_CARRIED] += a->right && o->carried > 0 && many > 0;
    met[NULLS_LAST] += o->by > 0 && n > 0 && many > 0 && o->nulls_last[0] && !cell(&table, n - 1, 0, &v);
    met[JUST_FULL] += a->out_words == ROWKEEPER_CUT_WORDS(many);
    for (j = 0; j < o->by; j++) met[DESCENDING] += o->descending[j] && many > 0;
    for (k = 0; k < many && n > 0; k++) {
        size_t at = cut_at(o, &table, &groups, k);
        int there = at < n && compare(o, (size_t)o->by, &table, at, &groups, k) == 0;
        met[there ? THERE : at == 0 ? BEFORE : at == n ? BEHIND : BETWEEN]++;
    }
}

/* Makes a call over slices that are lent for it alone, and judges it. */
static void try_call(const attempt *a) {
    int64_t *t = lent(&table_lend, table.words, table.len), *g = lent(&groups_lend, groups.words, groups.len);
    int64_t *o = lent(&out_lend, out, a->out_words);
    rowkeeper_written w, want;
    int told;
    made++;
    w = rowkeeper_cut(a->options, a->right, t, table.len, g, groups.len, o, a->out_words);
    told = judge(a, &want);
    if (!lend_intact(&table_lend) || !lend_intact(&groups_lend) || !lend_intact(&out_lend)) fault(a, "a guard word was altered");
    if (!lend_same(&table_lend, table.words, 0)) fault(a, "the table was altered");
    if (!lend_same(&groups_lend, groups.words, 0)) fault(a, "the boundaries were altered");
    if (w.refusal != want.refusal) fault(a, "another answer than is due");
    if (w.rows != want.rows) fault(a, "another number of places than is due");
    if (!lend_same(&out_lend, due, 0)) fault(a, want.refusal == 0 ? "other words than the places" : "a refused call wrote");
    met[told]++;
    if (told == WROTE) count_cut(a);
    met[ONE_SHORT] += told == NO_ROOM && a->out_words + 1 == ROWKEEPER_CUT_WORDS(rows(&groups));
    met[NO_OUTPUT] += told == NO_ROOM && a->out_words == 0;
}

/* Makes calls until there were enough. */
int main(int argc, char **argv) {
    uint64_t calls = begin(argc, argv, "cut");
    int all;
    lend_init(&table_lend, TABLE_WORDS);
    lend_init(&groups_lend, TABLE_WORDS);
    lend_init(&out_lend, OUT_WORDS);
    while (made < calls) {
        attempt a = any_attempt();
        try_call(&a);
    }
    all = report_cases(met, CASE_NAMES, CASES);
    printf("cut: seed %" PRIu64 ", %" PRIu64 " calls, %" PRIu64 " of them cut; no fault\n", seed, made, met[WROTE]);
    return all ? 0 : 1;
}
