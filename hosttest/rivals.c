/*
 * A rival's notices do not move a company's matches: two seasons through the C calls that agree in one group's sales and
 * notices and differ in everything else, notices and sales of other groups, frames, order of the calls. The matches of that
 * group, each counted by its place among the group's own notices, must agree. `rivals SEED SEASONS`.
 */
#include <stdio.h>
#include <stdlib.h>
#include <string.h>

#include "rowkeeper.h"

enum { OWN = 3, GROUPS = 7, MOST = 400, FRAME = 64, AREA = 8 * MOST };

typedef struct {
    int64_t group[MOST], key[MOST];
    int count;
} table;

static uint64_t state;

/* A random number below n. */
static int64_t below(int64_t n) {
    state ^= state << 13;
    state ^= state >> 7;
    state ^= state << 17;
    return (int64_t)(state % (uint64_t)n);
}

/* Appends up to `most` rows of a group, their keys rising from row to row or equal. */
static void grow(table *t, int64_t group, int most) {
    int64_t key = below(20);
    int rows = (int)below(most + 1);
    for (int i = 0; i < rows; i++) {
        t->group[t->count] = group;
        t->key[t->count++] = key;
        key += below(4);
    }
}

/* A table of all groups in order, in which the rows of OWN are those of `own`. */
static void with_rivals(table *t, const table *own) {
    t->count = 0;
    for (int64_t group = 0; group < GROUPS; group++) {
        if (group != OWN) {
            grow(t, group, 40);
            continue;
        }
        for (int i = 0; i < own->count; i++) {
            t->group[t->count] = OWN;
            t->key[t->count++] = own->key[i];
        }
    }
}

/* A frame of some of a table's rows from `from` on; how many. */
static int cut(const table *t, int from, int64_t *frame, size_t *words) {
    int rows = (int)below(FRAME) + 1;
    if (rows > t->count - from) rows = t->count - from;
    frame[0] = rows;
    frame[1] = 2;
    for (int i = 0; i < rows; i++) {
        frame[2 + 2 * i] = t->group[from + i];
        frame[3 + 2 * i] = t->key[from + i];
    }
    for (int i = 0; i < 2 * rows; i++) frame[2 + 2 * rows + i] = 1;
    *words = (size_t)(2 + 4 * rows);
    return rows;
}

/* The place of a right row among the group's own notices; -2 where it is none of them. */
static int64_t place(const table *rights, int64_t number) {
    int64_t before = 0;
    if (number < 0 || number >= rights->count || rights->group[number] != OWN) return -2;
    for (int64_t i = 0; i < number; i++) before += rights->group[i] == OWN;
    return before;
}

static int64_t left_area[AREA], right_area[AREA], out[2 + 2 * FRAME];

/* Whether a call was accepted; a refusal ends the program. */
static rowkeeper_join taken(rowkeeper_took took) {
    if (took.refusal != 0) {
        printf("FAIL rivals: refused by %llu\n", (unsigned long long)took.refusal);
        exit(1);
    }
    return took.join;
}

/* The next right frame, or the end of right where there is none. */
static rowkeeper_join more_right(rowkeeper_join join, const table *rights, int *given) {
    int64_t frame[2 + 4 * FRAME];
    size_t words;
    if (*given == rights->count) return taken(rowkeeper_end_right(join, left_area, AREA, right_area, AREA));
    *given += cut(rights, *given, frame, &words);
    return taken(rowkeeper_right(join, left_area, AREA, right_area, AREA, frame, words));
}

/* A whole season: what each left row gets goes to `matches`, -1 for none. */
static void season(rowkeeper_options options, const table *lefts, const table *rights, int64_t *matches) {
    rowkeeper_join join = taken(rowkeeper_open(options));
    int waiting = 0, given = 0, written = 0;
    while (written < lefts->count) {
        if (waiting < lefts->count && below(2) == 0) {
            int64_t frame[2 + 4 * FRAME];
            size_t words;
            waiting += cut(lefts, waiting, frame, &words);
            join = taken(rowkeeper_left(join, left_area, AREA, right_area, AREA, frame, words));
        }
        rowkeeper_turned turned = rowkeeper_turn(join, left_area, AREA, right_area, AREA, out, sizeof out / sizeof out[0]);
        join = turned.join;
        if (turned.refusal != 0) {
            printf("FAIL rivals: a turn is refused by %llu\n", (unsigned long long)turned.refusal);
            exit(1);
        }
        if (turned.answer == ROWKEEPER_WANTS_RIGHT) join = more_right(join, rights, &given);
        if (turned.answer != ROWKEEPER_WROTE) continue;
        for (int64_t i = 0; i < out[0]; i++) matches[written++] = out[2 + out[0] + i] ? out[2 + i] : -1;
    }
}

/* The matches of OWN's sales, each by its place; how many. */
static int own_matches(rowkeeper_options options, const table *lefts, const table *rights, int64_t *places) {
    int64_t matches[MOST];
    int count = 0;
    season(options, lefts, rights, matches);
    for (int i = 0; i < lefts->count; i++)
        if (lefts->group[i] == OWN) places[count++] = matches[i] < 0 ? -1 : place(rights, matches[i]);
    return count;
}

int main(int words, char **word) {
    long seasons = words == 3 ? strtol(word[2], NULL, 10) : 0;
    if (seasons <= 0) {
        fprintf(stderr, "rivals: wants a seed and a number of seasons\n");
        return 2;
    }
    state = strtoull(word[1], NULL, 10) * 2 + 88172645463325252u;
    long compared = 0, matched = 0;
    for (long i = 0; i < seasons; i++) {
        table own_left = {{0}, {0}, 0}, own_right = {{0}, {0}, 0}, lefts, rights;
        int64_t first[MOST], second[MOST];
        rowkeeper_options options = {0};
        options.by = 1;
        options.strategy = (uint64_t)below(3);
        options.allow_eq = options.strategy == 2 || below(2);
        options.tolerance = below(3) ? -1 : below(6);
        options.check = (uint64_t)below(2);
        grow(&own_left, OWN, 60);
        grow(&own_right, OWN, 60);
        with_rivals(&lefts, &own_left);
        with_rivals(&rights, &own_right);
        int count = own_matches(options, &lefts, &rights, first);
        with_rivals(&lefts, &own_left);
        with_rivals(&rights, &own_right);
        if (own_matches(options, &lefts, &rights, second) != count || memcmp(first, second, (size_t)count * sizeof first[0]) != 0) {
            printf("FAIL rivals: season %ld: a rival moved a match\n", i);
            return 1;
        }
        for (int k = 0; k < count; k++) {
            compared++;
            matched += first[k] >= 0;
            if (first[k] == -2) {
                printf("FAIL rivals: season %ld: a match is a rival's notice\n", i);
                return 1;
            }
        }
    }
    printf("%ld pairs of seasons: %ld sales, %ld with a notice, the same whatever the rivals do\n", seasons, compared, matched);
    return 0;
}
