/* The rules of options, tables and order, told from the words that came in: the one reading of them for all hostile hosts. */
#ifndef RULES_H
#define RULES_H

#include <stddef.h>
#include <stdint.h>

#include "rowkeeper.h"

/* The rows of a short table and of a long one, more than a frame may have; what a table has at most. */
enum { SHORT_ROWS = 24, LONG_ROWS = ROWKEEPER_MOST_ROWS + 3, TABLE_WORDS = 2 + 2 * LONG_ROWS * 3 + 2 };

/* Words that are handed in: a table, a frame, boundaries or heights. */
typedef struct slice {
    int64_t words[TABLE_WORDS];
    size_t len;
} slice;

/* What options are refused for, in the order in which it is looked for: 1 for a number, 1 for a flag, 10, 11. */
enum { WRONG_NUMBER, WRONG_FLAG, MANY_CARRIED, WRONG_LIST, FINE_OPTIONS };

/* Whether a flag of the options is none. */
int strange_flags(const rowkeeper_options *o);

/* What options are refused for, and the refusal; FINE_OPTIONS and 0 for nothing. */
int judge_options(const rowkeeper_options *o, uint64_t *refusal);

/* The place of a code in a list; its count where it lacks the code. */
uint64_t place(const rowkeeper_ranks *k, int64_t code);

/* Whether so many words are a table of c columns and at most so many rows. */
int holds_table(const int64_t *w, size_t len, size_t c, int64_t most);

/* The same of a slice. */
int is_table(const slice *s, size_t c, int64_t most);

/* The rows of a table. */
size_t rows(const slice *s);

/* The value of a cell, and whether it has one. */
int cell(const slice *s, size_t row, size_t column, int64_t *value);

/* Whether some row of a table, given by its words, has a value that the list lacks. */
int lacks_code(const rowkeeper_options *o, const int64_t *w);

/* How two cells of column j compare: below 0, 0 or above 0. */
int compare_cells(const rowkeeper_options *o, size_t j, int some_x, int64_t x, int some_y, int64_t y);

/* How two rows compare by their first cells, so many of them. */
int compare(const rowkeeper_options *o, size_t cells, const slice *a, size_t i, const slice *b, size_t k);

/* Whether no row of a table is greater than the next. */
int is_sorted(const rowkeeper_options *o, const slice *table);

/* Whether the group or the key of a row is null. */
int has_null(const rowkeeper_options *o, const slice *s, size_t row);

#endif
