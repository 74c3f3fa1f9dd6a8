/* Memory that is lent to a call, so that a touch outside of it is noticed. */
#ifndef LEND_H
#define LEND_H

#include <stddef.h>
#include <stdint.h>

/* The longest slice that the calls of a join are lent, in words. */
#define LEND_MOST 9000

/* Where a slice lies: between guard words, against the pages before it, or against the pages behind it. */
enum { LEND_MIDDLE, LEND_START, LEND_END, LEND_PLACES };

/* Pages for one slice, with pages on both sides that cannot be touched at all. */
typedef struct lend {
    int64_t *pages; /* the words that can be touched */
    size_t room;    /* how many there are */
    int64_t *at;    /* the slice */
    size_t len;     /* its length */
} lend;

/* Pages for this many words that cannot be touched at all; ends the program if there are none. */
int64_t *lend_closed(size_t words);

/* Makes the pages for slices of at most so many words; ends the program where there are none. */
void lend_init(lend *a, size_t most);

/* Lays these words down at a place, guard words on both sides, and gives their address; null for no words if so wished. */
int64_t *lend_words(lend *a, const int64_t *words, size_t len, int place, int null_if_empty);

/* Whether all guard words are as they were. */
int lend_intact(lend *a);

/* Whether the slice has these words, from the word `from` on. */
int lend_same(const lend *a, const int64_t *words, size_t from);

#endif
