/* See lend.h. */
#include "lend.h"

#include <stdio.h>
#include <stdlib.h>
#include <string.h>

#if defined(_WIN32)
#include <windows.h>
#else
#include <sys/mman.h>
#include <unistd.h>
#endif

#if defined(__SANITIZE_ADDRESS__)
#include <sanitizer/asan_interface.h>
#else
#define ASAN_POISON_MEMORY_REGION(at, size) ((void)(at), (void)(size))
#define ASAN_UNPOISON_MEMORY_REGION(at, size) ((void)(at), (void)(size))
#endif

/* How many guard words stand on a side, where no page is there, and what they say. */
#define GUARDS 16
#define GUARD ((int64_t)0x5a5ac3c30f0f9696)

#if defined(_WIN32)
/* The size of a page. */
static size_t page_size(void) {
    SYSTEM_INFO info;
    GetSystemInfo(&info);
    return info.dwPageSize;
}

/* Pages that cannot be touched, or null. */
static char *closed_pages(size_t bytes) { return VirtualAlloc(NULL, bytes, MEM_RESERVE, PAGE_NOACCESS); }

/* Opens pages for reading and writing; whether that was possible. */
static int open_pages(char *at, size_t bytes) { return VirtualAlloc(at, bytes, MEM_COMMIT, PAGE_READWRITE) != NULL; }
#else
/* The size of a page. */
static size_t page_size(void) { return (size_t)sysconf(_SC_PAGESIZE); }

/* Pages that cannot be touched, or null. */
static char *closed_pages(size_t bytes) {
    char *all = mmap(NULL, bytes, PROT_NONE, MAP_PRIVATE | MAP_ANONYMOUS, -1, 0);
    return all == MAP_FAILED ? NULL : all;
}

/* Opens pages for reading and writing; whether that was possible. */
static int open_pages(char *at, size_t bytes) { return mprotect(at, bytes, PROT_READ | PROT_WRITE) == 0; }
#endif

/* Ends the program. */
static void no_memory(void) {
    fprintf(stderr, "hosttest: no memory\n");
    exit(2);
}

int64_t *lend_closed(size_t words) {
    char *all = closed_pages(words * sizeof(int64_t));
    if (all == NULL) no_memory();
    return (int64_t *)(void *)all;
}

void lend_init(lend *a, size_t most) {
    size_t page = page_size();
    size_t inner = ((most + 2 * GUARDS) * sizeof(int64_t) + page - 1) / page * page;
    char *all = closed_pages(inner + 2 * page);
    if (all == NULL || !open_pages(all + page, inner)) no_memory();
    a->pages = (int64_t *)(void *)(all + page);
    a->room = inner / sizeof(int64_t);
    a->at = a->pages;
    a->len = 0;
}

/* The guard words before the slice: as many as there is room for. */
static size_t before(const lend *a) {
    size_t n = (size_t)(a->at - a->pages);
    return n < GUARDS ? n : GUARDS;
}

/* The guard words behind the slice. */
static size_t behind(const lend *a) {
    size_t n = a->room - (size_t)(a->at - a->pages) - a->len;
    return n < GUARDS ? n : GUARDS;
}

int64_t *lend_words(lend *a, const int64_t *words, size_t len, int place, int null_if_empty) {
    size_t i;
    ASAN_UNPOISON_MEMORY_REGION(a->pages, a->room * sizeof(int64_t));
    a->len = len;
    a->at = place == LEND_START ? a->pages : place == LEND_END ? a->pages + a->room - len : a->pages + GUARDS;
    for (i = 0; i < before(a); i++) a->at[-1 - (ptrdiff_t)i] = GUARD;
    for (i = 0; i < behind(a); i++) a->at[len + i] = GUARD;
    if (len > 0) memcpy(a->at, words, len * sizeof(int64_t));
    ASAN_POISON_MEMORY_REGION(a->at - before(a), before(a) * sizeof(int64_t));
    ASAN_POISON_MEMORY_REGION(a->at + len, behind(a) * sizeof(int64_t));
    return len == 0 && null_if_empty ? NULL : a->at;
}

int lend_intact(lend *a) {
    size_t i;
    int intact = 1;
    ASAN_UNPOISON_MEMORY_REGION(a->pages, a->room * sizeof(int64_t));
    for (i = 0; i < before(a); i++) intact &= a->at[-1 - (ptrdiff_t)i] == GUARD;
    for (i = 0; i < behind(a); i++) intact &= a->at[a->len + i] == GUARD;
    return intact;
}

int lend_same(const lend *a, const int64_t *words, size_t from) {
    return from >= a->len || memcmp(a->at + from, words + from, (a->len - from) * sizeof(int64_t)) == 0;
}
