/* See ranked.h. A listed code becomes its place above the least number; a value that the list lacks stays, and so stands behind
   all of them, by number. No by-value is ever subtracted or written, so the turn must answer, write and leave the same. */
#include "ranked.h"

#include <string.h>

#include "lend.h"
#include "rules.h"

uint64_t ranked_turns, ranked_unlisted;

static int64_t left[LEND_MOST], right[LEND_MOST], out[LEND_MOST];
/* Whether a value that the list lacks was met, and whether one is among the numbers that codes become. */
static int lacked, taken;

/* A value of the list's column as a number. */
static int64_t as_number(const rowkeeper_ranks *k, int64_t value) {
    uint64_t at = place(k, value);
    if (at < k->count) return INT64_MIN + (int64_t)at;
    lacked = 1;
    taken |= value < INT64_MIN + ROWKEEPER_MOST_RANKS;
    return value;
}

/* A present value of a row, some words apart, as a number; a null's word stays. */
static void renumber(const rowkeeper_ranks *k, int64_t *values, const int64_t *marks, size_t rows, size_t apart) {
    size_t i;
    for (i = k->column; i < rows * apart; i += apart)
        if (marks[i] != 0) values[i] = as_number(k, values[i]);
}

/* The same of a row that is remembered, or of one that may be: its words come along either way. */
static void renumber_row(const rowkeeper_ranks *k, rowkeeper_row *row) {
    renumber(k, row->values, row->marks, 1, sizeof row->values / sizeof *row->values);
}

/* A join as it is without its list. */
static rowkeeper_join without_list(rowkeeper_join join) {
    rowkeeper_ranks k = join.options.ranks;
    renumber_row(&k, &join.last_left);
    renumber_row(&k, &join.last_right);
    memset(&join.options.ranks, 0, sizeof join.options.ranks);
    memset(join.rising, 0, sizeof join.rising);
    return join;
}

/* The areas as they are without the list: the frame that waits first, and the held rows. */
static void renumber_areas(const attempt *a) {
    const rowkeeper_ranks *k = &a->join.options.ranks;
    size_t c = judge_right_columns(&a->join.options), by = a->join.options.by, half = a->right_len / (2 * c) * c;
    int64_t *front = left + a->join.queue_start, *held = right + a->join.base * c;
    memcpy(left, a->left, a->left_len * sizeof *left);
    memcpy(right, a->right, a->right_len * sizeof *right);
    renumber(k, front + 2, front + 2 + (size_t)front[0] * (by + 1), (size_t)front[0], by + 1);
    renumber(k, held, held + half, a->join.held, c);
}

const char *ranked_by_number(const attempt *a, const outcome *o) {
    rowkeeper_join join, want;
    rowkeeper_turned t;
    uint64_t refusal = o->answer < ANSWER_WANTS ? (uint64_t)o->answer : 0;
    lacked = taken = 0;
    renumber_areas(a);
    join = without_list(a->join);
    want = without_list(o->join);
    if (taken) return NULL;
    memcpy(out, a->out, a->out_len * sizeof *out);
    t = rowkeeper_turn(join, left, a->left_len, right, a->right_len, out, a->out_len);
    ranked_turns++;
    ranked_unlisted += (uint64_t)lacked;
    if (t.refusal != refusal || (t.answer == ROWKEEPER_WANTS_RIGHT) != (o->answer == ANSWER_WANTS))
        return "a turn over numbers answers otherwise";
    if (memcmp(&t.join, &want, sizeof want) != 0) return "a turn over numbers leaves another join";
    return memcmp(out, o->out, a->out_len * sizeof *out) == 0 ? NULL : "a turn over numbers writes otherwise";
}
