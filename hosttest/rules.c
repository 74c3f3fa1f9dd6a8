/* See rules.h. */
#include "rules.h"

int strange_flags(const rowkeeper_options *o) {
    int j, strange = o->allow_eq > 1 || o->ranks.given > 1 || o->check > 2 || o->with_distance > 1;
    for (j = 0; j < 4; j++) strange |= o->descending[j] > 1 || o->nulls_last[j] > 1;
    return strange;
}

uint64_t place(const rowkeeper_ranks *k, int64_t code) {
    uint64_t i = 0;
    while (i < k->count && k->codes[i] != code) i++;
    return i;
}

/* Whether the options have a list that is refused: a code that stands in it before has the place of that one. */
static int bad_ranks(const rowkeeper_options *o) {
    const rowkeeper_ranks *k = &o->ranks;
    uint64_t i;
    if (k->given == 0) return 0;
    if (k->count == 0 || k->count > ROWKEEPER_MOST_RANKS || k->column >= o->by) return 1;
    for (i = 0; i < k->count; i++)
        if (place(k, k->codes[i]) < i) return 1;
    return 0;
}

int judge_options(const rowkeeper_options *o, uint64_t *refusal) {
    *refusal = ROWKEEPER_BAD_OPTIONS;
    if (o->by > 4 || o->strategy > 2 || o->tolerance < -1) return WRONG_NUMBER;
    if (strange_flags(o) || (o->strategy == ROWKEEPER_NEAREST && o->allow_eq == 0)) return WRONG_FLAG;
    *refusal = ROWKEEPER_TOO_MANY_CARRIED;
    if (o->carried > ROWKEEPER_MOST_CARRIED) return MANY_CARRIED;
    *refusal = ROWKEEPER_BAD_RANKS;
    if (bad_ranks(o)) return WRONG_LIST;
    *refusal = 0;
    return FINE_OPTIONS;
}

/* No product wraps: rows of more columns than there are words are none. */
int holds_table(const int64_t *w, size_t len, size_t c, int64_t most) {
    size_t cells, i;
    if (len < 2 || w[0] < 0 || w[0] > most || w[1] != (int64_t)c || (w[0] > 0 && c > len)) return 0;
    cells = (size_t)w[0] * c;
    if (len != 2 + 2 * cells) return 0;
    for (i = 2; i < 2 + cells; i++)
        if (!(w[i + cells] == 1 || (w[i + cells] == 0 && w[i] == 0))) return 0;
    return 1;
}

int is_table(const slice *s, size_t c, int64_t most) {
    return holds_table(s->words, s->len, c, most);
}

size_t rows(const slice *s) {
    return (size_t)s->words[0];
}

int cell(const slice *s, size_t row, size_t column, int64_t *value) {
    size_t c = (size_t)s->words[1], at = 2 + row * c + column;
    *value = s->words[at];
    return s->words[at + rows(s) * c] == 1;
}

int lacks_code(const rowkeeper_options *o, const int64_t *w) {
    size_t c = (size_t)w[1], cells = (size_t)w[0] * c, i;
    if (o->ranks.given == 0) return 0;
    for (i = 2 + (size_t)o->ranks.column; i < 2 + cells; i += c)
        if (w[i + cells] == 1 && place(&o->ranks, w[i]) == o->ranks.count) return 1;
    return 0;
}

int compare_cells(const rowkeeper_options *o, size_t j, int some_x, int64_t x, int some_y, int64_t y) {
    int by = j < o->by, falls = by && o->descending[j], last = by && o->nulls_last[j], sign;
    if (!some_x || !some_y) return some_x == some_y ? 0 : some_x == last ? -1 : 1;
    if (by && o->ranks.given && j == o->ranks.column) {
        x = (int64_t)place(&o->ranks, x);
        y = (int64_t)place(&o->ranks, y);
    }
    sign = (x > y) - (x < y);
    return falls ? -sign : sign;
}

int compare(const rowkeeper_options *o, size_t cells, const slice *a, size_t i, const slice *b, size_t k) {
    size_t j;
    for (j = 0; j < cells; j++) {
        int64_t x, y;
        int some_x = cell(a, i, j, &x), some_y = cell(b, k, j, &y), way = compare_cells(o, j, some_x, x, some_y, y);
        if (way != 0) return way;
    }
    return 0;
}

int is_sorted(const rowkeeper_options *o, const slice *table) {
    size_t i;
    for (i = 1; i < rows(table); i++)
        if (compare(o, (size_t)o->by + 1, table, i - 1, table, i) > 0) return 0;
    return 1;
}

int has_null(const rowkeeper_options *o, const slice *s, size_t row) {
    size_t j;
    int64_t v;
    for (j = 0; j <= o->by; j++)
        if (!cell(s, row, j, &v)) return 1;
    return 0;
}
