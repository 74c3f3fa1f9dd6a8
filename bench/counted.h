/* Calls that are counted by themselves: under `valgrind --tool=callgrind --toggle-collect=…` the instructions since the last
   start are dumped under a label. Without valgrind's header nothing is counted. */
#ifndef COUNTED_H
#define COUNTED_H

#include <stdio.h>
#include <stdlib.h>

#if defined(__has_include)
#if __has_include(<valgrind/callgrind.h>)
#include <valgrind/callgrind.h>
#endif
#endif
#ifndef CALLGRIND_ZERO_STATS
#define CALLGRIND_ZERO_STATS ((void)0)
#define CALLGRIND_DUMP_STATS_AT(label) ((void)(label))
#endif

/* Ends the program where an answer is not the one that is due: a count of another call would be told then. */
static void due(int is_so, const char *what) {
    if (is_so) return;
    fprintf(stderr, "bench: %s\n", what);
    exit(1);
}

#endif
