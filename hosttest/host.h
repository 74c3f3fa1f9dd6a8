/* What every hostile host needs: random numbers and words, slices that are lent between guard words, and the frame of a run. */
#ifndef HOST_H
#define HOST_H

#include <inttypes.h>
#include <stdio.h>
#include <stdlib.h>
#include <string.h>

#include "lend.h"

/* The seed of the run, and how many calls were made. */
extern uint64_t seed, made;

/* Any 64 bits. */
uint64_t any(void);

/* A number below n. */
uint64_t below(uint64_t n);

/* Yes in so many of a thousand cases. */
int mille(unsigned n);

/* A word at which something might go wrong. */
int64_t any_word(void);

/* A length to lend where so many words are needed: above all just these, a word less or a few more; now and then none. */
size_t any_room(size_t full);

/* Fills words that are lent to be written, or not to be touched, with what is visibly not zero. */
void fill_blank(int64_t *words, size_t len);

/* Lays a slice down at some place. */
int64_t *lent(lend *a, const int64_t *words, size_t len);

/* Begins a run with the seed of the command line; how many calls it is to make. Ends the program with one line where there is none. */
uint64_t begin(int argc, char **argv, const char *program);

/* Prints how often each case was met; whether every one was. */
int report_cases(const uint64_t *met, const char *const *names, int cases);

#endif
