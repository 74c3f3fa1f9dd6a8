/*
 * What a push, a search, carried columns and the distance cost, over the C interface, in an area of 1,000,000 right rows.
 *
 *     buffer           makes every call below once and checks its answer
 *
 * Under `valgrind --tool=callgrind --toggle-collect=…` (bench/run buffer does that) the instructions of each of these calls
 * are dumped by themselves, under the label that stands in the dump's first lines. Counts do not depend on what else the
 * machine does.
 *
 *     push BY HELD ROWS     a right frame of ROWS rows where HELD are held and the end is not passed
 *     move BY HELD ROWS     the same where it is passed, so that the held rows move to the front
 *     next BY HELD ROWS     the same call again, right after the move
 *     want BY STRATEGY HELD LEFT   a turn over a waiting frame of LEFT rows that wants right rows
 *     right CARRIED ROWS    a right frame of ROWS rows in a fresh join whose right rows carry so many columns
 *     left CARRIED ROWS     a left frame of ROWS rows there
 *     wrote CARRIED ROWS    the turn that matches each of these left rows, with what its right row carries
 *     distance CARRIED ROWS the same turn in a join that tells the distance
 */
#include <inttypes.h>

#include "counted.h"
#include "rowkeeper.h"

/* The right area has room for so many rows, the left area for one frame. */
enum { CAPACITY = 1000000, CARRIED = 2, MOST_COLUMNS = ROWKEEPER_MOST_BY + 1 };
enum { FRAME_WORDS = 2 + 2 * ROWKEEPER_MOST_ROWS * MOST_COLUMNS, OUT_WORDS = 2 + 2 * ROWKEEPER_MOST_ROWS * (2 + CARRIED) };

/* A join with its areas, and the frame that is handed in next. */
typedef struct host {
    rowkeeper_join join;
    int64_t *right;
    size_t right_words, by, carried;
    uint64_t distance; /* whether joins are opened to tell it */
    int64_t left[FRAME_WORDS], frame[FRAME_WORDS], out[OUT_WORDS];
} host;

/* The words of a frame: every by-value 0, the keys `key` and so on, each one more than the last; what is carried is 0. */
static size_t make_frame(host *h, size_t carried, size_t rows, int64_t key) {
    size_t c = h->by + 1 + carried, cells = rows * c, i;
    h->frame[0] = (int64_t)rows;
    h->frame[1] = (int64_t)c;
    for (i = 0; i < cells; i++) h->frame[2 + i] = 0;
    for (i = 0; i < rows; i++) h->frame[2 + i * c + h->by] = key + (int64_t)i;
    for (i = 0; i < cells; i++) h->frame[2 + cells + i] = 1;
    return 2 + 2 * cells;
}

/* Opens a join with an empty right area for CAPACITY rows. The check is off: what it costs is told by bench/join. */
static void start(host *h, size_t by, size_t carried, uint64_t strategy) {
    rowkeeper_options o = {
        .by = by, .strategy = strategy, .allow_eq = 1, .tolerance = ROWKEEPER_NO_TOLERANCE, .carried = carried,
        .with_distance = h->distance};
    rowkeeper_took t = rowkeeper_open(o);
    due(t.refusal == 0, "the join is not opened");
    h->join = t.join;
    h->by = by;
    h->carried = carried;
    h->right_words = ROWKEEPER_RIGHT_WORDS(CAPACITY, by, carried);
}

/* Hands in the frame that was made as a right frame. */
static rowkeeper_took push(host *h, size_t words) {
    return rowkeeper_right(h->join, h->left, FRAME_WORDS, h->right, h->right_words, h->frame, words);
}

/* A turn. */
static rowkeeper_turned turn(host *h) {
    return rowkeeper_turn(h->join, h->left, FRAME_WORDS, h->right, h->right_words, h->out, OUT_WORDS);
}

/* Hands in right frames until `held` rows are held; row i has the key i. */
static void fill(host *h, size_t held) {
    while (h->join.held < held) {
        size_t rows = held - h->join.held;
        rowkeeper_took t;
        if (rows > ROWKEEPER_MOST_ROWS) rows = ROWKEEPER_MOST_ROWS;
        t = push(h, make_frame(h, h->carried, rows, (int64_t)h->join.held));
        due(t.refusal == 0, "a right frame is refused");
        h->join = t.join;
    }
}

/* Hands in a left frame whose first key is this one. */
static void queue_frame(host *h, size_t rows, int64_t key) {
    size_t words = make_frame(h, 0, rows, key);
    rowkeeper_took t = rowkeeper_left(h->join, h->left, FRAME_WORDS, h->right, h->right_words, h->frame, words);
    due(t.refusal == 0, "a left frame is refused");
    h->join = t.join;
}

/* A counted push of so many rows, which leaves the base and the held rows that are told. */
static rowkeeper_join counted_push(host *h, const char *what, size_t rows, uint64_t base) {
    char label[80];
    size_t words = make_frame(h, h->carried, rows, CAPACITY);
    uint64_t held = h->join.held;
    rowkeeper_took t;
    snprintf(label, sizeof label, "%s %zu %" PRIu64 " %zu", what, h->by, held, rows);
    CALLGRIND_DUMP_STATS_AT("before");
    t = push(h, words);
    CALLGRIND_DUMP_STATS_AT(label);
    due(t.refusal == 0 && t.join.held == held + rows && t.join.base == base, label);
    return t.join;
}

/* Pushes behind so many held rows. A join is a value, so each frame finds the same rows held. */
static void pushes(host *h, size_t by) {
    static const size_t held[] = {0, 1000, 100000, 900000}, rows[] = {1, 16, 256, 4096};
    size_t i, j;
    start(h, by, 0, ROWKEEPER_BACKWARD);
    for (i = 0; i < 4; i++) {
        fill(h, held[i]);
        for (j = 0; j < 4; j++) counted_push(h, "push", rows[j], 0);
    }
}

/* The area is filled to its end, then a turn drops all rows but `held`. The next push passes the end; the one after that
   does not. */
static void move(host *h, size_t by, size_t held, size_t rows) {
    rowkeeper_turned t;
    start(h, by, 0, ROWKEEPER_BACKWARD);
    fill(h, CAPACITY);
    queue_frame(h, 1, (int64_t)(CAPACITY - held + 1));
    t = turn(h);
    due(t.answer == ROWKEEPER_WROTE && t.join.base == CAPACITY - held && t.join.held == held, "the turn drops other rows");
    h->join = t.join;
    h->join = counted_push(h, "move", rows, 0);
    counted_push(h, "next", rows, 0);
}

/* A counted turn that wants right rows: the last left key lies beyond all held ones, so every search goes to its end. */
static void want(host *h, uint64_t strategy, size_t left) {
    char label[80];
    rowkeeper_turned t;
    snprintf(label, sizeof label, "want %zu %" PRIu64 " %" PRIu64 " %zu", h->by, strategy, h->join.held, left);
    CALLGRIND_DUMP_STATS_AT("before");
    t = turn(h);
    CALLGRIND_DUMP_STATS_AT(label);
    due(t.answer == ROWKEEPER_WANTS_RIGHT, label);
}

/* Turns that want right rows, over 1,000,000 held rows halved ten times and fewer halvings. */
static void wants(host *h, size_t by, uint64_t strategy, size_t left) {
    int halved;
    start(h, by, 0, strategy);
    queue_frame(h, left, CAPACITY);
    for (halved = 10; halved >= 0; halved--) {
        fill(h, (size_t)CAPACITY >> halved);
        want(h, strategy, left);
    }
}

/* Ends a count under the name of a call, with what is carried and the rows of its frame. */
static void dump(const host *h, const char *what, size_t rows) {
    char label[80];
    snprintf(label, sizeof label, "%s %zu %zu", what, h->carried, rows);
    CALLGRIND_DUMP_STATS_AT(label);
}

/* A right call, a left call and the turn that writes, each of so many rows, where so many columns are carried. */
static void carries(host *h, size_t carried, size_t rows) {
    size_t words;
    rowkeeper_took t;
    rowkeeper_turned w;
    start(h, 0, carried, ROWKEEPER_BACKWARD);
    words = make_frame(h, carried, rows, 0);
    CALLGRIND_DUMP_STATS_AT("before");
    t = push(h, words);
    dump(h, "right", rows);
    due(t.refusal == 0 && t.join.held == rows, "a right frame with carried columns is refused");
    h->join = rowkeeper_end_right(t.join, h->left, FRAME_WORDS, h->right, h->right_words).join;
    words = make_frame(h, 0, rows, 0);
    CALLGRIND_DUMP_STATS_AT("before");
    t = rowkeeper_left(h->join, h->left, FRAME_WORDS, h->right, h->right_words, h->frame, words);
    dump(h, "left", rows);
    due(t.refusal == 0, "a left frame beside carried columns is refused");
    h->join = t.join;
    CALLGRIND_DUMP_STATS_AT("before");
    w = turn(h);
    dump(h, h->distance ? "distance" : "wrote", rows);
    due(w.answer == ROWKEEPER_WROTE && h->out[1] == (int64_t)(1 + carried + h->distance) && h->out[2] == 0, "the turn does not write");
}

/* Every call that is counted. */
int main(void) {
    static host h;
    static const size_t held[] = {1000, 100000, 900000};
    size_t i;
    h.right = calloc(ROWKEEPER_RIGHT_WORDS(CAPACITY, ROWKEEPER_MOST_BY, 0), sizeof *h.right);
    due(h.right != NULL, "no memory");
    pushes(&h, 0);
    pushes(&h, ROWKEEPER_MOST_BY);
    for (i = 0; i < 3; i++) {
        move(&h, 0, held[i], 1);
        move(&h, 0, held[i], 4096);
    }
    wants(&h, 0, ROWKEEPER_BACKWARD, 1);
    wants(&h, 0, ROWKEEPER_NEAREST, 1);
    wants(&h, 1, ROWKEEPER_BACKWARD, 1);
    wants(&h, ROWKEEPER_MOST_BY, ROWKEEPER_BACKWARD, 1);
    wants(&h, 0, ROWKEEPER_BACKWARD, 4096);
    for (h.distance = 0; h.distance < 2; h.distance++) {
        for (i = 0; i <= CARRIED; i += CARRIED) {
            carries(&h, i, 1);
            carries(&h, i, ROWKEEPER_MOST_ROWS);
        }
    }
    puts("every counted call gave the answer that is due");
    return 0;
}
