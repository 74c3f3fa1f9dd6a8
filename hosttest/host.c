/* See host.h. */
#include "host.h"

#if defined(__SANITIZE_ADDRESS__)
#include <sanitizer/common_interface_defs.h>
#endif

uint64_t seed, made;
static uint64_t state;

/* By splitmix64. */
uint64_t any(void) {
    uint64_t z = state += 0x9e3779b97f4a7c15u;
    z = (z ^ (z >> 30)) * 0xbf58476d1ce4e5b9u;
    z = (z ^ (z >> 27)) * 0x94d049bb133111ebu;
    return z ^ (z >> 31);
}

uint64_t below(uint64_t n) {
    return (any() >> 11) % n;
}

int mille(unsigned n) {
    return below(1000) < n;
}

/* One at an edge of some rule, among them those of boundaries, frames, amounts and sales; any; or a small one. */
int64_t any_word(void) {
    static const int64_t EDGES[] = {INT64_MIN, INT64_MIN + 1, INT64_MAX, INT64_MAX - 1, INT64_MAX - 3, -1, -2, -4, 2, 16, 17, 4096, 4097,
                                    INT64_C(1000000001), (INT64_C(1) << 31) + 1};
    uint64_t kind = below(8);
    return kind < 3 ? EDGES[below(sizeof EDGES / sizeof *EDGES)] : kind < 5 ? (int64_t)any() : (int64_t)below(8) - 1;
}

size_t any_room(size_t full) {
    switch (below(8)) {
    case 0: return full - (full > 0);
    case 1: return below(full + 1);
    case 2: return full + below(60);
    case 3: return mille(300) ? 0 : full;
    default: return full;
    }
}

void fill_blank(int64_t *words, size_t len) {
    size_t i;
    for (i = 0; i < len; i++) words[i] = (int64_t)(3 * i % 7) - 9;
}

int64_t *lent(lend *a, const int64_t *words, size_t len) {
    return lend_words(a, words, len, (int)below(LEND_PLACES), mille(300));
}

#if defined(__SANITIZE_ADDRESS__)
/* Told where the sanitizer ends the run. */
static void at_death(void) {
    fprintf(stderr, "FAIL seed %" PRIu64 ", call %" PRIu64 "\n", seed, made);
}
#endif

/* A number of the command line, or the end of the program with one line. */
static uint64_t number(const char *program, const char *word) {
    char *end;
    unsigned long long n = strtoull(word, &end, 10);
    if (*word < '0' || *word > '9' || *end != '\0') {
        fprintf(stderr, "%s: %s is no number\n", program, word);
        exit(2);
    }
    return n;
}

uint64_t begin(int argc, char **argv, const char *program) {
    if (argc != 3) {
        fprintf(stderr, "%s: wants a seed and a number of calls\n", program);
        exit(2);
    }
    seed = state = number(program, argv[1]);
#if defined(__SANITIZE_ADDRESS__)
    __sanitizer_set_death_callback(at_death);
#endif
    return number(program, argv[2]);
}

int report_cases(const uint64_t *met, const char *const *names, int cases) {
    int i, all = 1;
    for (i = 0; i < cases; i++) {
        printf("%9" PRIu64 "  %s\n", met[i], names[i]);
        all &= met[i] > 0;
    }
    if (!all) printf("FAIL a case was never met\n");
    return all;
}
