/* Random options and tables for hostile hosts: mostly such as are accepted, and what spoils them. */
#ifndef TABLES_H
#define TABLES_H

#include "host.h"
#include "rules.h"

/* Options, mostly such as are accepted. */
rowkeeper_options any_options(void);

/* Makes something of them that opening refuses, or a flag that is none. */
void spoil_options(rowkeeper_options *o);

/* Makes them such that the rows of a long table are in order: so many by-columns that ascend, no list, at most one column carried. */
void make_plain(rowkeeper_options *o, uint64_t by);

/* Makes a slice one of n rows of c columns; its cells are still to be written. */
void shape(slice *s, size_t n, size_t c);

/* Fills a slice with n rows of c columns, so many of a thousand cells null, its values `most` numbers about 0; in a long table a row has
   its number in group and key, and no cell is null. */
void fill(const rowkeeper_options *o, slice *s, size_t n, size_t c, unsigned nulls, uint64_t most);

/* Exchanges two rows. */
void exchange(slice *s, size_t i, size_t k);

/* Sorts short rows by their first cells, so many of them. */
void sort(const rowkeeper_options *o, size_t cells, slice *s);

/* Takes rows whose group is that of the row before out of a short sorted table. */
void thin(const rowkeeper_options *o, slice *s);

/* A sorted table of n rows of c columns; now and then with two rows exchanged or a strange code. */
void any_table(const rowkeeper_options *o, slice *s, size_t n, size_t c, uint64_t most);

/* Alters a slice: another length, other words, another column count, or random words throughout. */
void alter(slice *s);

#endif
