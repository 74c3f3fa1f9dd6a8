/*
 * Joins a theatre's season: each sale takes the last price notice of its performance that was in force at its minute.
 *
 *     cc -Iinclude examples/c/season.c build/librowkeeper.a -o season
 *     season SEASON STATE MATCHES
 *
 * SEASON has a line for each notice and each sale, both sorted by performance, then minute ('#' starts a comment):
 *
 *     notice PERFORMANCE MINUTE PENCE
 *     sale PERFORMANCE MINUTE
 *
 * A line for each sale is written to MATCHES: performance, minute, and the price in pence or `none`.
 *
 * The program can be killed at any moment and started again: it goes on where it stopped. After each call it keeps the
 * join, both areas and its place in the season in STATE, by writing a new file, syncing it and renaming it. Matches are
 * written and synced before the state that counts them, and what the state does not count is cut off when the program
 * starts again: so no match is lost and none is written twice. A lock on STATE.lock, held until the program ends, keeps a
 * second run from the same files. A state in which a byte was altered is refused by its checksum. A checksum is no seal: who
 * writes a whole state with a checksum that fits can have wrong matches, but nothing worse, since the library judges the
 * join anew in every call.
 */
#include <errno.h>
#include <fcntl.h>
#include <inttypes.h>
#include <libgen.h>
#include <stdarg.h>
#include <stddef.h>
#include <stdio.h>
#include <stdlib.h>
#include <string.h>
#include <sys/file.h>
#include <sys/stat.h>
#include <unistd.h>

#include "rowkeeper.h"

/* One by-column, the performance; the key is the minute. Notices carry one column more, the price, which comes with the match. */
enum { BY = 1, CARRIED = 1, COLUMNS = BY + 1, NOTICE_COLUMNS = COLUMNS + CARRIED, MATCH_COLUMNS = 1 + CARRIED };
/* Rows are handed in by so many at once. One left frame waits at a time, so the left area has room for one. */
enum { FRAME_ROWS = 8 };
enum { FRAME_WORDS = 2 + 2 * FRAME_ROWS * NOTICE_COLUMNS, LEFT_WORDS = 2 + 2 * FRAME_ROWS * COLUMNS };
enum { OUT_WORDS = 2 + 2 * FRAME_ROWS * MATCH_COLUMNS };
/* The longest line of a season, in bytes, its end included. */
enum { LINE_BYTES = 200 };

/* A notice or a sale; a sale has no price. */
typedef struct row {
    int64_t performance, minute, pence;
} row;

/* The rows of one side. */
typedef struct table {
    row *rows;
    size_t count;
} table;

/* What is kept between calls, and written to STATE as it stands, followed by the words of the left and right areas. */
typedef struct kept {
    uint64_t mark;          /* says that a file is such a state */
    uint64_t checksum;      /* over all bytes of the file behind this word */
    uint64_t season;        /* a sum over the season's rows: a state goes on with its own season only */
    uint64_t notices, sales; /* rows that were handed in and accepted */
    uint64_t answered;      /* sales whose matches are written */
    uint64_t bytes;         /* the length of MATCHES that counts */
    rowkeeper_join join;
} kept;

static const uint64_t MARK = 0x344e4f5341455300u;

/* All that the program has. */
typedef struct till {
    const char *state_name;
    char *new_name, *folder_name;
    int lock, matches;
    table notices, sales;
    kept kept;
    int64_t left[LEFT_WORDS];
    int64_t *right;
    size_t right_words;
} till;

/* Ends the program with one line. */
static void die(const char *format, ...) {
    va_list words;
    va_start(words, format);
    fputs("season: ", stderr);
    vfprintf(stderr, format, words);
    fputc('\n', stderr);
    va_end(words);
    exit(2);
}

/* Adds a row to a table. */
static void add_row(table *t, row r) {
    if ((t->count & (t->count - 1)) == 0) {
        t->rows = realloc(t->rows, (t->count == 0 ? 1 : 2 * t->count) * sizeof *t->rows);
        if (t->rows == NULL) die("no memory");
    }
    t->rows[t->count++] = r;
}

/* Reads the next number of a line that strtok has begun; whether there is one, whole and of 64 bits. */
static int next_number(int64_t *number) {
    char *word = strtok(NULL, " \t\r"), *end;
    if (word == NULL) return 0;
    errno = 0;
    *number = strtoll(word, &end, 10);
    return errno == 0 && *end == '\0';
}

/* Reads a line of the season into its table; whether it is one. */
static int read_line(till *t, char *line) {
    row r = {0, 0, 0};
    char *word;
    int notice;
    line[strcspn(line, "#\n")] = '\0';
    word = strtok(line, " \t\r");
    if (word == NULL) return 1;
    notice = strcmp(word, "notice") == 0;
    if (!notice && strcmp(word, "sale") != 0) return 0;
    if (!next_number(&r.performance) || !next_number(&r.minute) || (notice && !next_number(&r.pence))) return 0;
    if (strtok(NULL, " \t\r") != NULL) return 0;
    add_row(notice ? &t->notices : &t->sales, r);
    return 1;
}

/* Reads the season. A line that does not fit is refused: the rest of it would be read as another. */
static void read_season(till *t, const char *name) {
    char line[LINE_BYTES + 1];
    size_t number = 0;
    FILE *file = fopen(name, "r");
    if (file == NULL) die("%s: %s", name, strerror(errno));
    while (fgets(line, sizeof line, file) != NULL) {
        number++;
        if (strchr(line, '\n') == NULL && !feof(file))
            die("%s: line %zu is longer than %d bytes, or has a zero byte", name, number, LINE_BYTES);
        if (!read_line(t, line)) die("%s: line %zu is neither a notice nor a sale of numbers of 64 bits", name, number);
    }
    if (ferror(file)) die("%s: %s", name, strerror(errno));
    fclose(file);
}

/* A sum over all rows of a side, beside what was summed before. */
static uint64_t sum_rows(const table *t, uint64_t sum) {
    size_t i;
    for (i = 0; i < t->count; i++) {
        const row *r = &t->rows[i];
        sum = (sum ^ (uint64_t)r->performance) * 0x100000001b3u;
        sum = (sum ^ (uint64_t)r->minute) * 0x100000001b3u;
        sum = (sum ^ (uint64_t)r->pence) * 0x100000001b3u;
    }
    return sum ^ t->count;
}

/* Writes all bytes to a file. */
static void write_all(int file, const void *from, size_t size, const char *name) {
    const char *at = from;
    while (size > 0) {
        ssize_t n = write(file, at, size);
        if (n < 0 && errno != EINTR) die("%s: %s", name, strerror(errno));
        if (n > 0) {
            at += n;
            size -= (size_t)n;
        }
    }
}

/* A sum over bytes, beside what was summed before: one altered byte always gives another (FNV-1a). */
static uint64_t sum_bytes(const void *from, size_t size, uint64_t sum) {
    const unsigned char *at = from;
    while (size-- > 0) sum = (sum ^ *at++) * 0x100000001b3u;
    return sum;
}

/* The checksum of the state as it would be written now. */
static uint64_t checksum(const till *t) {
    uint64_t sum = sum_bytes(&t->kept.season, sizeof t->kept - offsetof(kept, season), 0xcbf29ce484222325u);
    sum = sum_bytes(t->left, sizeof t->left, sum);
    return sum_bytes(t->right, t->right_words * sizeof *t->right, sum);
}

/* Keeps everything in STATE: a new file is written, synced and renamed, then its folder is synced. */
static void keep(till *t) {
    int file = open(t->new_name, O_WRONLY | O_CREAT | O_TRUNC, 0644), folder;
    if (file < 0) die("%s: %s", t->new_name, strerror(errno));
    t->kept.checksum = checksum(t);
    write_all(file, &t->kept, sizeof t->kept, t->new_name);
    write_all(file, t->left, sizeof t->left, t->new_name);
    write_all(file, t->right, t->right_words * sizeof *t->right, t->new_name);
    if (fsync(file) != 0 || close(file) != 0) die("%s: %s", t->new_name, strerror(errno));
    if (rename(t->new_name, t->state_name) != 0) die("%s: %s", t->state_name, strerror(errno));
    folder = open(t->folder_name, O_RDONLY);
    if (folder < 0 || fsync(folder) != 0 || close(folder) != 0) die("%s: %s", t->folder_name, strerror(errno));
}

/* Opens a join for a season that begins. */
static void begin(till *t) {
    rowkeeper_options options;
    rowkeeper_took took;
    memset(&options, 0, sizeof options);
    options.by = BY;
    options.strategy = ROWKEEPER_BACKWARD;
    options.allow_eq = 1;
    options.tolerance = ROWKEEPER_NO_TOLERANCE;
    options.check = 1;
    options.carried = CARRIED;
    took = rowkeeper_open(options);
    if (took.refusal != ROWKEEPER_ACCEPTED) die("opening is refused by %" PRIu64, took.refusal);
    t->kept.join = took.join;
}

/* Reads STATE, or begins where there is none. */
static void resume(till *t) {
    uint64_t season = sum_rows(&t->sales, sum_rows(&t->notices, 0));
    size_t right = t->right_words * sizeof *t->right;
    FILE *file = fopen(t->state_name, "rb");
    if (file == NULL && errno != ENOENT) die("%s: %s", t->state_name, strerror(errno));
    if (file == NULL) {
        t->kept.mark = MARK;
        t->kept.season = season;
        begin(t);
        return;
    }
    if (fread(&t->kept, sizeof t->kept, 1, file) != 1 || fread(t->left, sizeof t->left, 1, file) != 1 ||
        (right > 0 && fread(t->right, right, 1, file) != 1) || fgetc(file) != EOF || t->kept.mark != MARK)
        die("%s is no state of this program", t->state_name);
    fclose(file);
    if (t->kept.checksum != checksum(t)) die("%s was altered: its checksum is another", t->state_name);
    if (t->kept.season != season || t->kept.notices > t->notices.count || t->kept.sales > t->sales.count ||
        t->kept.answered > t->kept.sales)
        die("%s is the state of another season", t->state_name);
}

/* A name with something behind it. */
static char *name_with(const char *name, const char *end) {
    char *out = malloc(strlen(name) + strlen(end) + 1);
    if (out == NULL) die("no memory");
    strcpy(out, name);
    return strcat(out, end);
}

/* Takes the lock that keeps other runs from the state and the matches; it ends with the program, however that ends. */
static void take_lock(till *t) {
    char *name = name_with(t->state_name, ".lock");
    t->lock = open(name, O_RDWR | O_CREAT, 0644);
    if (t->lock < 0) die("%s: %s", name, strerror(errno));
    if (flock(t->lock, LOCK_EX | LOCK_NB) != 0)
        die(errno == EWOULDBLOCK ? "%s: another run works on this state" : "%s: cannot be locked", name);
    free(name);
}

/* Opens MATCHES and cuts off what the state does not count. */
static void open_matches(till *t, const char *name) {
    struct stat is;
    t->matches = open(name, O_WRONLY | O_CREAT, 0644);
    if (t->matches < 0 || fstat(t->matches, &is) != 0) die("%s: %s", name, strerror(errno));
    if ((uint64_t)is.st_size < t->kept.bytes) die("%s lacks matches that were written", name);
    if (ftruncate(t->matches, (off_t)t->kept.bytes) != 0 || lseek(t->matches, 0, SEEK_END) < 0)
        die("%s: %s", name, strerror(errno));
}

/* Lays the next rows of a side down as a frame of so many columns, the price where there is a third; how many rows they are. */
static size_t fill_frame(int64_t *frame, size_t columns, const table *from, size_t first) {
    size_t left = from->count - first, n = left < FRAME_ROWS ? left : FRAME_ROWS, i;
    int64_t *values = frame + 2, *marks = values + n * columns;
    frame[0] = (int64_t)n;
    frame[1] = (int64_t)columns;
    for (i = 0; i < n; i++) {
        const row *r = &from->rows[first + i];
        values[i * columns] = r->performance;
        values[i * columns + 1] = r->minute;
        if (columns == NOTICE_COLUMNS) values[i * columns + 2] = r->pence;
    }
    for (i = 0; i < n * columns; i++) marks[i] = 1;
    return n;
}

/* Goes on with the join of an accepted call. */
static void accept(till *t, rowkeeper_took took, const char *what) {
    if (took.refusal != ROWKEEPER_ACCEPTED) die("%s is refused by %" PRIu64, what, took.refusal);
    t->kept.join = took.join;
}

/* Hands in the next sales. */
static void hand_sales(till *t) {
    int64_t frame[FRAME_WORDS];
    size_t n = fill_frame(frame, COLUMNS, &t->sales, t->kept.sales);
    accept(t, rowkeeper_left(t->kept.join, t->left, LEFT_WORDS, t->right, t->right_words, frame,
                             ROWKEEPER_FRAME_WORDS(n, BY)), "a frame of sales");
    t->kept.sales += n;
}

/* Hands in the next notices, or says that there are no more. */
static void hand_notices(till *t) {
    int64_t frame[FRAME_WORDS];
    size_t n = fill_frame(frame, NOTICE_COLUMNS, &t->notices, t->kept.notices);
    if (n == 0) {
        accept(t, rowkeeper_end_right(t->kept.join, t->left, LEFT_WORDS, t->right, t->right_words), "the end of notices");
        return;
    }
    accept(t, rowkeeper_right(t->kept.join, t->left, LEFT_WORDS, t->right, t->right_words, frame,
                              ROWKEEPER_RIGHT_FRAME_WORDS(n, BY, CARRIED)), "a frame of notices");
    t->kept.notices += n;
}

/* The line of one sale and the price of its match. */
static size_t match_line(const till *t, char *line, size_t room, size_t sale, int64_t pence, int64_t matched) {
    const row *r = &t->sales.rows[sale];
    int n = matched ? snprintf(line, room, "%" PRId64 " %" PRId64 " %" PRId64 "\n", r->performance, r->minute, pence)
                    : snprintf(line, room, "%" PRId64 " %" PRId64 " none\n", r->performance, r->minute);
    return (size_t)n;
}

/* Writes a turn's matches behind those that are there, and syncs them. A row of the output is the number of a notice and its
   price; the number is not needed. */
static void write_matches(till *t, const int64_t *out) {
    size_t n = (size_t)out[0], i, length;
    char line[100];
    if (out[1] != MATCH_COLUMNS) die("%s is tampered with: matches without a price", t->state_name);
    if (n > t->sales.count - t->kept.answered) die("%s is tampered with: more matches than sales", t->state_name);
    for (i = 0; i < n; i++) {
        size_t price = i * MATCH_COLUMNS + 1;
        length = match_line(t, line, sizeof line, t->kept.answered + i, out[2 + price], out[2 + n * MATCH_COLUMNS + price]);
        write_all(t->matches, line, length, "matches");
        t->kept.bytes += length;
    }
    if (fsync(t->matches) != 0) die("matches: %s", strerror(errno));
    t->kept.answered += n;
}

/* One turn, and what it asks for; whether there is more to do. */
static int step(till *t) {
    int64_t out[OUT_WORDS];
    rowkeeper_turned turned =
        rowkeeper_turn(t->kept.join, t->left, LEFT_WORDS, t->right, t->right_words, out, OUT_WORDS);
    switch (turned.answer) {
    case ROWKEEPER_WROTE:
        t->kept.join = turned.join;
        write_matches(t, out);
        return 1;
    case ROWKEEPER_WANTS_RIGHT:
        hand_notices(t);
        return 1;
    case ROWKEEPER_IDLE:
        if (t->kept.sales == t->sales.count) return 0;
        hand_sales(t);
        return 1;
    default:
        die("a turn is refused by %" PRIu64, turned.refusal);
        return 0;
    }
}

/* Gives the till its names and areas. */
static void lay_out(till *t, const char *state_name) {
    char *copy = name_with(state_name, "");
    t->state_name = state_name;
    t->new_name = name_with(state_name, ".new");
    t->folder_name = name_with(dirname(copy), "");
    free(copy);
    t->right_words = ROWKEEPER_RIGHT_WORDS(t->notices.count, BY, CARRIED);
    t->right = calloc(t->right_words + 1, sizeof *t->right);
    if (t->right == NULL) die("no memory");
}

/* Goes on with the season until every sale is answered. */
int main(int argc, char **argv) {
    static till t;
    if (argc != 4) die("wants three files: the season, the state, the matches");
    read_season(&t, argv[1]);
    lay_out(&t, argv[2]);
    take_lock(&t);
    resume(&t);
    open_matches(&t, argv[3]);
    while (step(&t)) keep(&t);
    printf("%zu notices, %zu sales, %" PRIu64 " answered\n", t.notices.count, t.sales.count, t.kept.answered);
    close(t.matches);
    close(t.lock);
    free(t.right);
    free(t.new_name);
    free(t.folder_name);
    free(t.notices.rows);
    free(t.sales.rows);
    return 0;
}
