/* See groups.h. */
#include "groups.h"

int judge_groups(const rowkeeper_options *o, const slice *groups) {
    size_t i, j;
    int64_t v;
    if (rows(groups) > MOST_BOUNDARIES) return MANY_GROUPS;
    if (o->by == 0 && rows(groups) > 0) return GROUPS_WITHOUT_COLUMNS;
    for (i = 0; i < rows(groups); i++)
        for (j = 0; j < o->by; j++)
            if (!cell(groups, i, j, &v)) return NULL_AMONG_GROUPS;
    for (i = 1; i < rows(groups); i++) {
        int way = compare(o, (size_t)o->by, groups, i - 1, groups, i);
        if (way >= 0) return way == 0 ? EQUAL_NEIGHBOURS : FALLING_NEIGHBOURS;
    }
    return FINE_GROUPS;
}

size_t cut_at(const rowkeeper_options *o, const slice *table, const slice *groups, size_t k) {
    size_t i = 0;
    while (i < rows(table) && compare(o, (size_t)o->by, table, i, groups, k) < 0) i++;
    return i;
}

void any_groups(const rowkeeper_options *o, slice *groups) {
    size_t n = mille(100) ? 0 : mille(150) ? MOST_BOUNDARIES + below(2) : below(mille(800) ? 5 : SHORT_ROWS), at;
    if (o->by == 0 && mille(800)) n = 0;
    fill(o, groups, n, (size_t)o->by, mille(60) ? 300 : 0, mille(300) ? 400 : 12);
    sort(o, (size_t)o->by, groups);
    if (o->by > 0 && mille(960)) thin(o, groups);
    n = rows(groups);
    if (n > 1 && mille(40)) exchange(groups, below(n), below(n));
    at = n > 0 && o->by > 0 ? 2 + below(n) * (size_t)o->by : 0;
    if (at > 0 && o->ranks.given && mille(60)) groups->words[at + o->ranks.column] = any_word();
    if (mille(25)) alter(groups);
}
