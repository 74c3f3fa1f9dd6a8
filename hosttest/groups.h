/* Boundaries, for hostile hosts of calls that cut tables (cut.c, joincut.c): their rule, the places of their cuts, and random ones. */
#ifndef GROUPS_H
#define GROUPS_H

#include "tables.h"

/* The boundaries that are taken at most. */
enum { MOST_BOUNDARIES = 16 };

/* What boundaries are refused for by 18, in the order in which it is looked for. */
enum { MANY_GROUPS, GROUPS_WITHOUT_COLUMNS, NULL_AMONG_GROUPS, EQUAL_NEIGHBOURS, FALLING_NEIGHBOURS, FINE_GROUPS };

/* What boundaries are refused for by 18; FINE_GROUPS for nothing. */
int judge_groups(const rowkeeper_options *o, const slice *groups);

/* The place of the cut of a table for boundary k. */
size_t cut_at(const rowkeeper_options *o, const slice *table, const slice *groups, size_t k);

/* Boundaries: mostly strictly ascending, now and then with two exchanged, one twice, a null, a strange code or other words. */
void any_groups(const rowkeeper_options *o, slice *groups);

#endif
