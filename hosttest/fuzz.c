/*
 * All calls, driven by bytes: libFuzzer looks for bytes that reach further blocks of the library (hosttest/blocks counts them).
 * Each slice that a call gets lies between guard words or against a page that cannot be touched. After every call: no word
 * outside a slice and no word that the call may only read is another one; a call that is refused has altered nothing but the
 * join's flag `failed`; and no word behind those that the answer tells was written.
 */
#include <inttypes.h>
#include <stdio.h>
#include <stdlib.h>
#include <string.h>

#include "lend.h"
#include "rowkeeper.h"

/* The longest slice, and how many of them a call gets at most. */
enum { MOST = LEND_MOST, SLICES = 6, CALLS = 21 };

/* A slice that is lent, and its words before the call. */
typedef struct slice {
    lend pages;
    int64_t before[MOST];
    int64_t *at;
    size_t len;
} slice;

/* What is left of the input. */
static const uint8_t *input;
static size_t input_left;

static slice slices[SLICES];
static size_t used;
static int64_t left_area[MOST], right_area[MOST];
static size_t left_len, right_len;
static rowkeeper_join join;
static uint64_t calls, runs;

/* The blocks that a run has met (hosttest/blocks), and those that any has. */
extern uint8_t rowkeeper_blocks[];
extern const uint64_t rowkeeper_block_count;
static uint8_t *ever;

/* Ends the run: libFuzzer keeps its input. */
static void fail(const char *why, uint64_t call) {
    fprintf(stderr, "FAIL call %" PRIu64 ": %s\n", call, why);
    abort();
}

/* The next byte, 0 behind the last. */
static uint8_t byte(void) {
    if (input_left == 0) return 0;
    input_left--;
    return *input++;
}

/* The next word: mostly a small one, sometimes one at an edge of some rule, sometimes any. */
static int64_t word(void) {
    static const int64_t EDGES[] = {INT64_MIN, INT64_MIN + 1, INT64_MAX, INT64_MAX - 1, -1, -2, 16, 17, 64, 65, 4096, 4097,
                                    INT64_C(1000000000), INT64_C(1000000001), INT64_C(1) << 31, (INT64_C(1) << 31) + 1};
    uint8_t b = byte();
    uint64_t n = 0;
    int i;
    if (b < 224) return (int64_t)(b % 32) - 4;
    if (b < 248) return EDGES[b % (sizeof EDGES / sizeof *EDGES)];
    for (i = 0; i < 8; i++) n = n << 8 | byte();
    return (int64_t)n;
}

/* A number of an option or a port. */
static uint64_t number(uint64_t usual) {
    uint8_t b = byte();
    return b < 240 ? b % usual : (uint64_t)word();
}

/* A table of some rows and so many columns, mostly sorted and of a right form; how many words it is. */
static size_t table(int64_t *words, size_t columns) {
    uint8_t shape = byte();
    size_t rows = shape == 255 ? 4096 : shape == 254 ? 4097 : shape % 24, cells, i;
    if (columns == 0 || 2 + 2 * rows * columns > MOST) rows = 1, columns = columns == 0 ? 1 : columns % 13;
    cells = rows * columns;
    words[0] = (int64_t)rows;
    words[1] = (int64_t)columns;
    for (i = 0; i < cells; i++) {
        int64_t cell = rows > 24 ? (int64_t)(i / columns) : word();
        int up = i >= columns && shape % 4 != 3 && cell < words[2 + i - columns] && cell > -4 && cell < 64;
        words[2 + i] = up ? words[2 + i - columns] : cell;
        words[2 + cells + i] = cell != -4;
        if (cell == -4) words[2 + i] = 0;
    }
    if (shape % 16 == 13) words[byte() % (2 + 2 * cells)] = word();
    return 2 + 2 * cells - (shape % 32 == 9) + (shape % 32 == 21 && 2 + 2 * cells < MOST);
}

/* Lays words down as the next slice of the call, where the input says. */
static slice *lay(const int64_t *words, size_t len) {
    slice *s = &slices[used++];
    uint8_t how = byte();
    s->len = len;
    memcpy(s->before, words, len * sizeof *words);
    s->at = lend_words(&s->pages, words, len, how % LEND_PLACES, how >= 128);
    return s;
}

/* A table as the next slice. */
static slice *lay_table(size_t columns) {
    int64_t words[MOST];
    return lay(words, table(words, columns));
}

/* An output as the next slice: of a few words, of many, or of all. */
static slice *lay_output(void) {
    static int64_t words[MOST];
    uint8_t b = byte();
    size_t len = b < 200 ? (size_t)b * 3 : b < 250 ? (size_t)(b - 200) * 170 : MOST, i;
    for (i = 0; i < len; i++) words[i] = -9;
    return lay(words, len);
}

/* Options, mostly valid. */
static rowkeeper_options options(void) {
    rowkeeper_options o;
    size_t i;
    memset(&o, 0, sizeof o);
    o.by = number(4);
    o.strategy = number(3);
    o.allow_eq = number(8) != 0;
    o.tolerance = byte() < 128 ? ROWKEEPER_NO_TOLERANCE : word();
    o.check = number(3);
    o.carried = number(4);
    o.with_distance = number(2);
    for (i = 0; i < 4; i++) {
        uint8_t flags = byte();
        o.descending[i] = flags & 1;
        o.nulls_last[i] = flags == 255 ? 2 : flags >> 1 & 1;
    }
    if (byte() % 4 != 3) return o;
    o.ranks.given = number(2);
    o.ranks.column = number(2);
    o.ranks.count = number(9);
    for (i = 0; i < 9; i++) o.ranks.codes[i] = (int64_t)i * 5 % 9 + (byte() >= 250);
    return o;
}

/* How many columns a table of a side has under these options. */
static size_t columns(const rowkeeper_options *o, int right) {
    return (size_t)(o->by % 5 + 1 + (right ? o->carried % 9 : 0));
}

/* Alters a word of the join or of an area, as a host that stores them might. */
static void tamper(void) {
    uint8_t what = byte();
    int64_t w = word();
    if (what < 128) {
        size_t at = byte() % (sizeof join / sizeof w);
        memcpy((char *)&join + at * sizeof w, &w, sizeof w);
    } else if (what < 192 && left_len > 0) {
        left_area[byte() % left_len] = w;
    } else if (right_len > 0) {
        right_area[byte() % right_len] = w;
    }
}

/* Whether a join is another one than its calls' `failed` flag explains. */
static int other_join(rowkeeper_join after, uint64_t refusal) {
    if (refusal == ROWKEEPER_LEFT_ORDER || refusal == ROWKEEPER_RIGHT_ORDER) after.failed = join.failed;
    return memcmp(&after, &join, sizeof join) != 0;
}

/* Looks at every slice of the call. The slice `written`, if there is one, may be altered up to the word `end`; any word of a slice in
   `areas` (a bit each) may. */
static void judge(uint64_t call, const slice *written, size_t end, unsigned areas) {
    size_t i;
    for (i = 0; i < used; i++) {
        slice *s = &slices[i];
        if (!lend_intact(&s->pages)) fail("a word outside a slice was written", call);
        if (areas >> i & 1) continue;
        if (!lend_same(&s->pages, s->before, s == written ? end : 0)) fail("a word was written that must stay", call);
    }
}

/* Keeps what a call made of the two areas, the first two slices. */
static void keep_areas(void) {
    if (left_len > 0) memcpy(left_area, slices[0].at, left_len * sizeof *left_area);
    if (right_len > 0) memcpy(right_area, slices[1].at, right_len * sizeof *right_area);
}

/* The answer of a call that took a join: refused, it is the one that went in. */
static void took(uint64_t call, rowkeeper_took t, unsigned areas) {
    judge(call, NULL, 0, t.refusal ? 0 : areas);
    if (t.refusal && other_join(t.join, t.refusal)) fail("a refused call altered the join", call);
    keep_areas();
    join = t.join;
}

/* Calls of a join but turns and runs. */
static void feed(uint64_t call) {
    slice *l = lay(left_area, left_len), *r = lay(right_area, right_len), *f, *g;
    switch (call) {
    case 1:
        f = lay_table(columns(&join.options, 0));
        took(call, rowkeeper_left(join, l->at, l->len, r->at, r->len, f->at, f->len), 1);
        return;
    case 2:
        f = lay_table(columns(&join.options, 1));
        took(call, rowkeeper_right(join, l->at, l->len, r->at, r->len, f->at, f->len), 2);
        return;
    case 3:
        took(call, rowkeeper_end_right(join, l->at, l->len, r->at, r->len), 0);
        return;
    case 4: {
        rowkeeper_ported p = rowkeeper_ports(join, l->at, l->len, r->at, r->len, number(3), number(3), number(3));
        rowkeeper_took t = {p.refusal, p.join};
        took(call, t, 0);
        return;
    }
    default: {
        rowkeeper_took t;
        f = lay_output();
        g = lay_output();
        t = rowkeeper_move(join, l->at, l->len, r->at, r->len, f->at, f->len, g->at, g->len);
        took(call, t, 12);
        if (t.refusal) return;
        left_len = f->len;
        right_len = g->len;
        memcpy(left_area, f->at == NULL ? left_area : f->at, left_len * sizeof *left_area);
        memcpy(right_area, g->at == NULL ? right_area : g->at, right_len * sizeof *right_area);
    }
    }
}

/* How many words a table of so many rows and columns is. */
static size_t words_of(uint64_t rows, uint64_t wide) {
    return (size_t)(2 + 2 * rows * wide);
}

/* A turn or a run. */
static void turn(uint64_t call) {
    slice *l = lay(left_area, left_len), *r = lay(right_area, right_len), *out = lay_output();
    if (call == 6) {
        rowkeeper_turned t = rowkeeper_turn(join, l->at, l->len, r->at, r->len, out->at, out->len);
        judge(call, out, t.answer == ROWKEEPER_WROTE ? words_of((uint64_t)out->at[0], (uint64_t)out->at[1]) : 0, 0);
        if (t.answer != ROWKEEPER_WROTE && other_join(t.join, t.refusal)) fail("a turn that did not write altered the join", call);
        join = t.join;
    } else {
        rowkeeper_ran n = rowkeeper_run(join, number(5), l->at, l->len, r->at, r->len, out->at, out->len);
        judge(call, out, n.words, 0);
        if (n.turns == 0 && (n.words != 0 || other_join(n.join, n.refusal))) fail("a run of no turns altered the join", call);
        join = n.join;
    }
}

/* The answer of a call that wrote a table of so many columns. */
static void wrote(uint64_t call, rowkeeper_written w, const slice *out, uint64_t wide) {
    if (w.refusal && w.rows != 0) fail("a refused call tells rows", call);
    judge(call, out, w.refusal ? 0 : words_of(w.rows, wide), 0);
}

/* Calls over tables that write a table. */
static void over_tables(uint64_t call) {
    rowkeeper_options o = options();
    slice *a, *b, *c, *d, *e, *out;
    if (call == 8) {
        a = lay_table(1), b = lay_table(2), out = lay_output();
        wrote(call, rowkeeper_spans(a->at, a->len, b->at, b->len, number(2), number(2), out->at, out->len), out, 2);
        return;
    }
    a = lay_table(columns(&o, call == 9 || call == 10 || byte() % 2));
    if (call == 10) {
        out = lay_output();
        wrote(call, rowkeeper_standing(o, a->at, a->len, number(4), out->at, out->len), out, 2);
        return;
    }
    b = lay_table(call == 11 ? (size_t)(o.by % 5) : columns(&o, 1));
    if (call == 9) {
        out = lay_output();
        wrote(call, rowkeeper_merge(o, a->at, a->len, b->at, b->len, out->at, out->len), out, columns(&o, 1));
    } else if (call == 11) {
        out = lay_output();
        wrote(call, rowkeeper_cut(o, number(2), a->at, a->len, b->at, b->len, out->at, out->len), out, 1);
    } else {
        c = lay_table((size_t)(o.by % 5)), d = lay(left_area, left_len), e = lay(right_area, right_len), out = lay_output();
        wrote(call, rowkeeper_join_cut(o, a->at, a->len, b->at, b->len, c->at, c->len, d->at, d->len, e->at, e->len, out->at, out->len),
              out, 1 + o.carried % 9 + (o.with_distance == 1));
    }
}

/* Takings that are added or joined. */
static void takings(uint64_t call) {
    rowkeeper_options o = options();
    slice *a = lay_table((size_t)(o.by % 5 + 2)), *b, *c, *out;
    rowkeeper_taken t;
    if (call == 13) {
        b = lay_table(columns(&o, 0)), c = lay_table((size_t)(1 + o.carried % 9 + byte() % 2)), out = lay_output();
        t = rowkeeper_takings_add(o, a->at, a->len, word(), b->at, b->len, c->at, c->len, out->at, out->len);
    } else {
        b = lay_table((size_t)(o.by % 5 + 2)), out = lay_output();
        t = rowkeeper_takings_join(o, a->at, a->len, word(), b->at, b->len, word(), out->at, out->len);
    }
    judge(call, out, t.refusal ? 0 : words_of(t.rows, o.by + 2), 0);
}

/* Calls that only read. */
static void reading(uint64_t call) {
    rowkeeper_options o = options();
    uint64_t carried = number(9);
    slice *a = lay_table(call == 15 ? columns(&o, 0) : (size_t)(1 + carried % 9 + byte() % 2)), *b, *c, *d;
    int64_t heights[64];
    size_t i, count = byte() % 64;
    switch (call) {
    case 15:
        b = lay_table(columns(&o, 1));
        for (i = 0; i < count; i++) heights[i] = word();
        c = lay(heights, count), d = lay(heights, byte() % (count + 1));
        rowkeeper_plan(o, a->at, a->len, b->at, b->len, c->at, c->len, d->at, d->len);
        break;
    case 16: rowkeeper_view_plain(carried, a->at, a->len); break;
    case 17: rowkeeper_view_distance(carried, a->at, a->len); break;
    case 18: rowkeeper_view_cell(number(30), number(12), a->at, a->len, number(30), number(12)); break;
    case 19: rowkeeper_read_plain(carried, a->at, a->len, number(30), number(12)); break;
    default: rowkeeper_read_distance(carried, a->at, a->len, number(30), number(12));
    }
    judge(call, NULL, 0, 0);
}

/* Opens a join and lends it areas of other lengths and words. */
static void open_join(void) {
    size_t i;
    join = rowkeeper_open(options()).join;
    left_len = (size_t)byte() * (byte() >= 240 ? 34 : 2);
    right_len = (size_t)byte() * (byte() >= 240 ? 34 : 2);
    for (i = 0; i < left_len; i++) left_area[i] = (int64_t)(7 * i % 11) - 5;
    for (i = 0; i < right_len; i++) right_area[i] = (int64_t)(5 * i % 13) - 6;
}

/* Makes one call. */
static void make(uint64_t call) {
    used = 0;
    calls++;
    if (call == 0) open_join();
    else if (call <= 5) feed(call);
    else if (call <= 7) turn(call);
    else if (call <= 12) over_tables(call);
    else if (call <= 14) takings(call);
    else reading(call);
}

/* Tells, at the end, what was met. */
static void report(void) {
    uint64_t met = 0, i;
    for (i = 0; i < rowkeeper_block_count; i++) met += ever[i];
    fprintf(stderr, "fuzz: %" PRIu64 " inputs, %" PRIu64 " calls, %" PRIu64 " of %" PRIu64 " blocks met, no fault\n", runs, calls, met,
            rowkeeper_block_count);
}

/* Makes the pages once. */
static void begin(void) {
    size_t i;
    for (i = 0; i < SLICES; i++) lend_init(&slices[i].pages, MOST);
    ever = calloc((size_t)rowkeeper_block_count, 1);
    if (ever == NULL) abort();
    atexit(report);
}

/* Decodes and makes the calls of an input. */
int LLVMFuzzerTestOneInput(const uint8_t *data, size_t size) {
    uint64_t i;
    if (ever == NULL) begin();
    input = data;
    input_left = size;
    open_join();
    while (input_left > 0) {
        uint8_t b = byte();
        if (b >= 240) tamper();
        else make(b % CALLS);
    }
    for (i = 0; i < rowkeeper_block_count; i++) ever[i] |= rowkeeper_blocks[i];
    runs++;
    return 0;
}
