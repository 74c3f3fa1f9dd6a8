/* A turn with a list of ranks beside one without: the codes of the list's column written as numbers that rise as the list has
   them. */
#ifndef RANKED_H
#define RANKED_H

#include "judge.h"

/* How many turns were compared so, and how many of them had held or remembered values that the list lacks. */
extern uint64_t ranked_turns, ranked_unlisted;

/* What is different about the turn over such numbers, or null. For a turn with a list whose answer depends on its rows. */
const char *ranked_by_number(const attempt *a, const outcome *o);

#endif
