/*
 * A hostile host of rowkeeper_join_cut. Hands in two tables and boundaries that are mostly in order, altered in some words, of another
 * length or random words throughout, under any options, and lends areas and outputs of any length, above all those that are just enough or
 * a word short; all between guard words and pages that cannot be touched. The areas themselves lie on such pages now and then, since the
 * call is to look at their lengths alone. What is due is told by the whole-table rule, each left row against all right rows; what the areas
 * need by counting the rows that the schedule of each pair holds. The answer and every word afterwards must be that.
 *
 *     joincut SEED CALLS     prints how often each answer and each case was met; status 1 at the first fault
 */

#include "groups.h"

/* What an area and the output have at most. */
enum { AREA_WORDS = TABLE_WORDS + 200, OUT_WORDS = TABLE_WORDS + 200 };

/* What is lent to be used: the left area, the right one, the output. */
enum { LEFT_AREA, RIGHT_AREA, OUTPUT, ROOMS };

/* A call: its options, the lengths of what is lent to be used, and whether the areas lie where no word can be touched. */
typedef struct attempt {
    rowkeeper_options options;
    size_t words[ROOMS];
    int closed;
} attempt;

/* Cases that a run must have met; those of options and of 18 are in the order of rules.h and groups.h. */
enum {
    JOINED, MATCHED, BACKWARD, FORWARD, NEAREST, COUNTED_ON, CARRIED_CELL, DISTANCE, FAR_AWAY, WITH_LIST, DESCENDING, NULLS_LAST,
    NO_COLUMNS, NO_BOUNDARY, ALL_BOUNDARIES, ABSENT, LEFT_EMPTY, RIGHT_EMPTY, BOTH_EMPTY, LEFT_FRAMES, RIGHT_FRAMES, MORE_HELD,
    FEWER_HELD, JUST_FULL, CLOSED, BAD_OPTIONS, BAD_FLAG, TOO_MANY_CARRIED, BAD_RANKS, BAD_LEFT, BAD_RIGHT, BAD_GROUPS, LEFT_CODE,
    RIGHT_CODE, GROUP_CODE, UNSORTED_LEFT, UNSORTED_RIGHT, TOO_MANY, NONE_TAKEN, NULL_GROUP, EQUAL_GROUPS, FALLING_GROUPS, LEFT_SHORT,
    RIGHT_SHORT, NO_ROOM, LEFT_ONE_SHORT, RIGHT_ONE_SHORT, ONE_SHORT, NO_LEFT_AREA, NO_RIGHT_AREA, NO_OUTPUT, CASES
};
static const char *const CASE_NAMES[CASES] = {
    "joined", "a match", "joined, Backward", "joined, Forward", "joined, Nearest", "a match whose number is counted on", "a carried cell",
    "a distance", "a distance that is null", "joined, with a list", "joined, a descending column", "joined, a null group last",
    "joined, no by-columns", "joined, by-columns and no boundary", "joined, 16 boundaries", "a boundary that both tables lack",
    "a pair without left rows", "a pair without right rows", "a pair without rows", "a pair with more than one left frame",
    "a pair with more than one right frame", "a pair that holds more rows than a frame has", "a pair that holds fewer rows than it has",
    "joined, areas and output just full", "joined, areas that cannot be touched", "1: options", "1: a flag", "10: carried columns",
    "11: a list", "5: the left table", "5: the right table alone", "5: the boundaries alone", "12: the left table",
    "12: the right table alone", "12: a boundary alone", "14: the left table", "14: the right table alone", "18: more than 16",
    "18: no by-columns", "18: a null", "18: equal neighbours", "18: a boundary below the one before", "6: the left area",
    "6: the right area alone", "6: the output alone", "6: a left area one word short", "6: a right area one word short",
    "6: an output one word short", "6: no left area at all", "6: no right area at all", "6: no output at all"};

static slice tables[2], groups;
static int64_t areas[2][AREA_WORDS], out[OUT_WORDS], due[OUT_WORDS];
static int64_t *closed_areas;
static lend table_lends[2], groups_lend, area_lends[2], out_lend;
static uint64_t met[CASES];

/* The first rows of each pair, left and right, and behind the last pair the rows of the tables. */
static size_t places[2][MOST_BOUNDARIES + 2];

/* ---- what is due, told from what came in */

/* The columns of the left table, 0, and of the right one, 1. */
static size_t columns(const rowkeeper_options *o, int side) {
    return (size_t)(o->by + 1 + (side ? o->carried : 0));
}

/* The columns of the answer. */
static size_t answer_columns(const rowkeeper_options *o) {
    return (size_t)(1 + o->carried + o->with_distance);
}

/* The case of tables and boundaries that are refused by 5, 12 or 14; CASES for none. */
static int bad_words(const rowkeeper_options *o, uint64_t *refusal) {
    int side;
    *refusal = ROWKEEPER_BAD_FRAME;
    for (side = 0; side < 2; side++)
        if (!is_table(&tables[side], columns(o, side), TABLE_WORDS)) return side ? BAD_RIGHT : BAD_LEFT;
    if (!is_table(&groups, (size_t)o->by, ROWKEEPER_MOST_ROWS)) return BAD_GROUPS;
    *refusal = ROWKEEPER_UNKNOWN_CODE;
    for (side = 0; side < 2; side++)
        if (lacks_code(o, tables[side].words)) return side ? RIGHT_CODE : LEFT_CODE;
    if (lacks_code(o, groups.words)) return GROUP_CODE;
    *refusal = ROWKEEPER_UNSORTED;
    for (side = 0; side < 2; side++)
        if (!is_sorted(o, &tables[side])) return side ? UNSORTED_RIGHT : UNSORTED_LEFT;
    return CASES;
}

/* The case that is due before any length is looked at, JOINED or that of a refusal, and its number. */
static int due_case(const rowkeeper_options *o, uint64_t *refusal) {
    int bad = judge_options(o, refusal);
    if (bad != FINE_OPTIONS) return BAD_OPTIONS + bad;
    bad = bad_words(o, refusal);
    if (bad != CASES) return bad;
    *refusal = ROWKEEPER_BAD_BOUNDARIES;
    bad = judge_groups(o, &groups);
    if (bad != FINE_GROUPS) return TOO_MANY + bad;
    *refusal = 0;
    return JOINED;
}

/* Cuts both tables; how many pairs there are. */
static size_t cut_tables(const rowkeeper_options *o) {
    size_t many = rows(&groups), k;
    int side;
    for (side = 0; side < 2; side++) {
        places[side][0] = 0;
        for (k = 0; k < many; k++) places[side][k + 1] = cut_at(o, &tables[side], &groups, k);
        places[side][many + 1] = rows(&tables[side]);
    }
    return many + 1;
}

/* How a right row compares with a left one. */
static int against(const rowkeeper_options *o, size_t cells, size_t right, size_t left) {
    return compare(o, cells, &tables[1], right, &tables[0], left);
}

/* Whether a turn whose frame ends with this left row wants more right rows than are held, from one to before another: unless a row of a
   later group is held, or a key of its group behind which none can match. Nearest wants a key behind the first greater one. */
static int wants(const rowkeeper_options *o, size_t left, size_t from, size_t to) {
    size_t by = (size_t)o->by;
    int way, reach;
    if (from == to) return 1;
    way = against(o, by, to - 1, left);
    if (way != 0) return way < 0;
    if (o->strategy == ROWKEEPER_NEAREST) {
        while (from < to && against(o, by + 1, from, left) <= 0) from++;
        return from == to || compare(o, by + 1, &tables[1], to - 1, &tables[1], from) <= 0;
    }
    reach = (o->strategy == ROWKEEPER_BACKWARD) == (o->allow_eq == 1);
    return against(o, by + 1, to - 1, left) < reach;
}

/* How many held rows a turn drops whose frame ends with this left row: those before it, of which Backward and Nearest keep the last of its
   group. */
static size_t drops(const rowkeeper_options *o, size_t left, size_t from, size_t to) {
    size_t by = (size_t)o->by, earlier = 0, before = 0, k;
    for (k = from; k < to && against(o, by + 1, k, left) < 0; k++) {
        before++;
        earlier += against(o, by, k, left) < 0;
    }
    return o->strategy == ROWKEEPER_FORWARD || before == earlier ? before : before - 1;
}

/* The most right rows that the schedule of pair k holds, in full frames. */
static size_t most_held(const rowkeeper_options *o, size_t k) {
    size_t left = places[0][k], end = places[0][k + 1], from = places[1][k], to = from, last = places[1][k + 1], most = 0;
    while (left < end) {
        left = end - left > ROWKEEPER_MOST_ROWS ? left + ROWKEEPER_MOST_ROWS : end;
        while (to < last && wants(o, left - 1, from, to)) {
            to = last - to > ROWKEEPER_MOST_ROWS ? to + ROWKEEPER_MOST_ROWS : last;
            most = to - from > most ? to - from : most;
        }
        from += drops(o, left - 1, from, to);
    }
    return most;
}

/* The words that so many left rows take in full frames. */
static size_t frame_words(const rowkeeper_options *o, size_t n) {
    return 2 * ((n + ROWKEEPER_MOST_ROWS - 1) / ROWKEEPER_MOST_ROWS) + 2 * n * columns(o, 0);
}

/* The words that the call needs of each area and of the output. The tables are cut. */
static void needs(const rowkeeper_options *o, size_t *need) {
    size_t pairs = cut_tables(o), k;
    need[LEFT_AREA] = need[RIGHT_AREA] = 0;
    need[OUTPUT] = 2 + 2 * rows(&tables[0]) * answer_columns(o);
    for (k = 0; k < pairs; k++) {
        size_t left = frame_words(o, places[0][k + 1] - places[0][k]), right = 2 * columns(o, 1) * most_held(o, k);
        if (left > need[LEFT_AREA]) need[LEFT_AREA] = left;
        if (right > need[RIGHT_AREA]) need[RIGHT_AREA] = right;
    }
}

/* Whether a right row qualifies for a left one, and how far it is. */
static int qualifies(const rowkeeper_options *o, size_t left, size_t right, uint64_t *far) {
    int64_t x, y;
    if (against(o, (size_t)o->by, right, left) != 0 || has_null(o, &tables[0], left) || has_null(o, &tables[1], right)) return 0;
    cell(&tables[0], left, (size_t)o->by, &x);
    cell(&tables[1], right, (size_t)o->by, &y);
    *far = x > y ? (uint64_t)x - (uint64_t)y : (uint64_t)y - (uint64_t)x;
    if (x == y && !o->allow_eq) return 0;
    if (o->strategy == ROWKEEPER_BACKWARD && y > x) return 0;
    if (o->strategy == ROWKEEPER_FORWARD && y < x) return 0;
    return o->tolerance < 0 || *far <= (uint64_t)o->tolerance;
}

/* The match of a left row among all right rows, and how far it is; as many as there are right rows for none. Backward takes the last that
   qualifies, Forward the first, Nearest the nearest, of these the greatest key, of these the last: keys rise with the rows. */
static size_t match(const rowkeeper_options *o, size_t left, uint64_t *far) {
    size_t found = rows(&tables[1]), k;
    uint64_t next;
    for (k = 0; k < rows(&tables[1]); k++) {
        if (!qualifies(o, left, k, &next)) continue;
        if (o->strategy == ROWKEEPER_NEAREST && found < k && next > *far) continue;
        if (o->strategy == ROWKEEPER_FORWARD && found < k) continue;
        found = k;
        *far = next;
    }
    return found;
}

/* Writes a cell of the answer over `due`. */
static void write_cell(const rowkeeper_options *o, size_t row, size_t column, int some, int64_t value) {
    size_t c = answer_columns(o), at = 2 + row * c + column;
    due[at] = some ? value : 0;
    due[at + rows(&tables[0]) * c] = some;
}

/* Writes the answer of a left row over `due`, and counts what it is. */
static void write_row(const rowkeeper_options *o, size_t row) {
    uint64_t far = 0;
    size_t found = match(o, row, &far), j;
    int some = found < rows(&tables[1]);
    write_cell(o, row, 0, some, (int64_t)found);
    for (j = 0; j < o->carried; j++) {
        int64_t v = 0;
        int full = some && cell(&tables[1], found, (size_t)o->by + 1 + j, &v);
        write_cell(o, row, 1 + j, full, v);
        met[CARRIED_CELL] += full;
    }
    if (o->with_distance) write_cell(o, row, 1 + (size_t)o->carried, some && far <= INT64_MAX, (int64_t)far);
    met[MATCHED] += some;
    met[COUNTED_ON] += some && rows(&groups) > 0 && places[1][1] > 0 && found >= places[1][1];
    met[DISTANCE] += some && o->with_distance && far <= INT64_MAX;
    met[FAR_AWAY] += some && o->with_distance && far > INT64_MAX;
}

/* The case that is due and the answer; `due` becomes the output that is due. */
static int judge(const attempt *a, rowkeeper_written *want, size_t *need) {
    const rowkeeper_options *o = &a->options;
    size_t i;
    int told = due_case(o, &want->refusal), k;
    want->rows = 0;
    memcpy(due, out, a->words[OUTPUT] * sizeof *due);
    if (told != JOINED) return told;
    needs(o, need);
    want->refusal = ROWKEEPER_NO_ROOM;
    for (k = 0; k < ROOMS; k++)
        if (a->words[k] < need[k]) return LEFT_SHORT + k;
    want->refusal = 0;
    want->rows = rows(&tables[0]);
    due[0] = (int64_t)rows(&tables[0]);
    due[1] = (int64_t)answer_columns(o);
    for (i = 0; i < rows(&tables[0]); i++) write_row(o, i);
    return JOINED;
}

/* ---- what is handed in */

/* Puts keys at both ends of their range into a short table, and sorts it again. */
static void far_keys(const rowkeeper_options *o, slice *s) {
    size_t c = (size_t)s->words[1], i;
    for (i = 0; i < rows(s); i++) {
        int64_t *key = &s->words[2 + i * c + o->by];
        if (key[rows(s) * c] == 1 && mille(600)) *key = mille(500) ? INT64_MIN + (int64_t)below(2) : INT64_MAX - (int64_t)below(2);
    }
    sort(o, (size_t)o->by + 1, s);
}

/* Both tables: mostly few rows, now and then one of them, seldom both, with just a frame or more than that. A long table has a group in
   each row, and the short one beside it groups from all of its range, or from behind it too. */
static void any_tables(rowkeeper_options *o) {
    size_t n[2];
    uint64_t most = mille(700) ? 4 : 8;
    int side, longer = mille(12), far = !longer && mille(100);
    for (side = 0; side < 2; side++) n[side] = mille(100) ? 0 : below(mille(600) ? 8 : SHORT_ROWS + 1);
    if (longer) {
        make_plain(o, below(2));
        side = (int)below(2);
        n[side] = LONG_ROWS - (mille(200) ? 3 : below(3));
        if (mille(30)) n[1 - side] = LONG_ROWS;
        most = mille(500) ? LONG_ROWS : 2 * LONG_ROWS;
    }
    for (side = 0; side < 2; side++) {
        any_table(o, &tables[side], n[side], columns(o, side), most);
        if (far) far_keys(o, &tables[side]);
    }
}

/* The lengths of the areas and of the output. */
static void any_lengths(attempt *a) {
    uint64_t refusal;
    size_t need[ROOMS];
    int k, fine = due_case(&a->options, &refusal) == JOINED, exact = mille(300);
    if (fine) needs(&a->options, need);
    for (k = 0; k < ROOMS; k++) {
        size_t full = fine ? need[k] : below(60);
        a->words[k] = exact ? full : any_room(full);
    }
}

/* The next call. */
static attempt any_attempt(void) {
    attempt a;
    int side;
    a.options = any_options();
    any_tables(&a.options);
    any_groups(&a.options, &groups);
    for (side = 0; side < 2; side++)
        if (mille(20)) alter(&tables[side]);
    if (mille(30)) spoil_options(&a.options);
    any_lengths(&a);
    a.closed = mille(200);
    fill_blank(areas[0], a.words[LEFT_AREA]);
    fill_blank(areas[1], a.words[RIGHT_AREA]);
    fill_blank(out, a.words[OUTPUT]);
    return a;
}

/* ---- calls */

/* Ends the run with what was found and with what it takes to see it again. */
static void fault(const attempt *a, const char *why) {
    printf("FAIL seed %" PRIu64 ", call %" PRIu64 ", rowkeeper_join_cut: %s\n", seed, made, why);
    printf("words: left %zu, right %zu, boundaries %zu, left area %zu, right area %zu, output %zu; by %" PRIu64 ", carried %" PRIu64 "\n",
           tables[0].len, tables[1].len, groups.len, a->words[LEFT_AREA], a->words[RIGHT_AREA], a->words[OUTPUT], a->options.by,
           a->options.carried);
    exit(1);
}

/* Whether both tables lack the group of boundary k, which cuts them before pair k + 1. */
static int is_absent(const rowkeeper_options *o, size_t k) {
    int side;
    for (side = 0; side < 2; side++) {
        size_t at = places[side][k + 1];
        if (at < rows(&tables[side]) && compare(o, (size_t)o->by, &tables[side], at, &groups, k) == 0) return 0;
    }
    return 1;
}

/* Which cases the pairs of a call were. */
static void count_pairs(const rowkeeper_options *o) {
    size_t many = rows(&groups), k;
    for (k = 0; k <= many; k++) {
        size_t left = places[0][k + 1] - places[0][k], right = places[1][k + 1] - places[1][k], held = most_held(o, k);
        met[LEFT_EMPTY] += left == 0 && right > 0;
        met[RIGHT_EMPTY] += left > 0 && right == 0;
        met[BOTH_EMPTY] += left == 0 && right == 0 && many > 0;
        met[LEFT_FRAMES] += left > ROWKEEPER_MOST_ROWS;
        met[RIGHT_FRAMES] += right > ROWKEEPER_MOST_ROWS;
        met[MORE_HELD] += held > ROWKEEPER_MOST_ROWS;
        met[FEWER_HELD] += left > 0 && held < right;
        met[ABSENT] += k < many && is_absent(o, k);
    }
}

/* Which cases a call that was answered was. */
static void count_joined(const attempt *a, const size_t *need) {
    const rowkeeper_options *o = &a->options;
    size_t many = rows(&groups), n = rows(&tables[0]), j;
    int64_t v;
    met[BACKWARD + (int)o->strategy]++;
    met[WITH_LIST] += o->ranks.given && many > 0;
    met[NULLS_LAST] += o->by > 0 && n > 0 && many > 0 && o->nulls_last[0] && !cell(&tables[0], n - 1, 0, &v);
    met[NO_COLUMNS] += o->by == 0;
    met[NO_BOUNDARY] += o->by > 0 && many == 0;
    met[ALL_BOUNDARIES] += many == MOST_BOUNDARIES;
    met[JUST_FULL] += memcmp(a->words, need, sizeof a->words) == 0;
    met[CLOSED] += a->closed;
    for (j = 0; j < o->by; j++) met[DESCENDING] += o->descending[j] && many > 0;
    count_pairs(o);
}

/* Counts a call. */
static void count(const attempt *a, int told, const size_t *need) {
    int short_of = told - LEFT_SHORT;
    met[told]++;
    if (told == JOINED) count_joined(a, need);
    if (short_of < 0 || short_of >= ROOMS) return;
    met[LEFT_ONE_SHORT + short_of] += a->words[short_of] + 1 == need[short_of];
    met[NO_LEFT_AREA + short_of] += a->words[short_of] == 0;
}

/* Makes the call over slices that are lent for it alone. */
static rowkeeper_written make_call(const attempt *a) {
    const int64_t *left = lent(&table_lends[0], tables[0].words, tables[0].len);
    const int64_t *right = lent(&table_lends[1], tables[1].words, tables[1].len);
    const int64_t *at = lent(&groups_lend, groups.words, groups.len);
    const int64_t *left_area = lent(&area_lends[0], areas[0], a->words[LEFT_AREA]);
    const int64_t *right_area = lent(&area_lends[1], areas[1], a->words[RIGHT_AREA]);
    int64_t *to = lent(&out_lend, out, a->words[OUTPUT]);
    if (a->closed) left_area = right_area = closed_areas;
    return rowkeeper_join_cut(a->options, left, tables[0].len, right, tables[1].len, at, groups.len, left_area, a->words[LEFT_AREA],
                              right_area, a->words[RIGHT_AREA], to, a->words[OUTPUT]);
}

/* Makes a call and judges it. */
static void try_call(const attempt *a) {
    rowkeeper_written w = make_call(a), want;
    size_t need[ROOMS] = {0, 0, 0};
    int told, side;
    made++;
    for (side = 0; side < 2; side++) {
        if (!lend_intact(&table_lends[side]) || !lend_intact(&area_lends[side])) fault(a, "a guard word was altered");
        if (!lend_same(&table_lends[side], tables[side].words, 0)) fault(a, "a table was altered");
        if (!lend_same(&area_lends[side], areas[side], 0)) fault(a, "an area was altered");
    }
    if (!lend_intact(&groups_lend) || !lend_intact(&out_lend)) fault(a, "a guard word was altered");
    if (!lend_same(&groups_lend, groups.words, 0)) fault(a, "the boundaries were altered");
    told = judge(a, &want, need);
    if (w.refusal != want.refusal) fault(a, "another answer than is due");
    if (w.rows != want.rows) fault(a, "another number of rows than is due");
    if (!lend_same(&out_lend, due, 0)) fault(a, want.refusal == 0 ? "other words than the answer" : "a refused call wrote");
    count(a, told, need);
}

/* Makes calls until there were enough. */
int main(int argc, char **argv) {
    uint64_t calls = begin(argc, argv, "joincut");
    int side, all;
    for (side = 0; side < 2; side++) {
        lend_init(&table_lends[side], TABLE_WORDS);
        lend_init(&area_lends[side], AREA_WORDS);
    }
    lend_init(&groups_lend, TABLE_WORDS);
    lend_init(&out_lend, OUT_WORDS);
    closed_areas = lend_closed(AREA_WORDS);
    while (made < calls) {
        attempt a = any_attempt();
        try_call(&a);
    }
    all = report_cases(met, CASE_NAMES, CASES);
    printf("joincut: seed %" PRIu64 ", %" PRIu64 " calls, %" PRIu64 " of them joined; no fault\n", seed, made, met[JOINED]);
    return all ? 0 : 1;
}
