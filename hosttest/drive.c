/* Answers a call script of the oracle (oracle/README.md) on standard input: for machines on which the Rust host of oracle/port does
   not run. Guard words surround everything that a call is given; a call that alters one ends the program. */
#include <inttypes.h>
#include <stdio.h>
#include <stdlib.h>
#include <string.h>

#include "rowkeeper.h"

#define GUARD INT64_C(0x5a5ac3c30f0f9696)
enum { GUARDS = 4, MOST_PARTS = 8 };

/* Words between guard words. */
typedef struct area {
    int64_t *all;
    int64_t *at;
    size_t len;
} area;

/* The numbers of a line, cut where it has a bar: part 0 are those of the call, the others are tables. */
static int64_t *numbers;
static struct {
    int64_t *at;
    size_t len;
} parts[MOST_PARTS];
static int part_count;

static rowkeeper_options options;
static rowkeeper_join join;
static area left, right;
static int have_options, have_join;

/* Ends the program with a reason. */
static void die(const char *why) {
    fflush(stdout);
    fprintf(stderr, "drive: %s\n", why);
    exit(2);
}

/* ---- words */

/* Room for words, with its guard words. */
static area room_for(size_t len) {
    area a;
    size_t i;
    a.all = malloc((len + 2 * GUARDS) * sizeof *a.all);
    if (a.all == NULL) die("no memory");
    a.at = a.all + GUARDS;
    a.len = len;
    for (i = 0; i < GUARDS; i++) a.all[i] = a.at[len + i] = GUARD;
    return a;
}

/* Word i of an output before a call. */
static int64_t blank(size_t i) { return (int64_t)(3 * i % 7) - 9; }

/* Words that rise by a step and start again below a limit, as scripts begin areas. */
static area begun(size_t len, size_t step, size_t limit, int64_t less) {
    area a = room_for(len);
    size_t i;
    for (i = 0; i < len; i++) a.at[i] = (int64_t)(step * i % limit) - less;
    return a;
}

static area new_left(size_t len) { return begun(len, 7, 11, 5); }
static area new_right(size_t len) { return begun(len, 5, 13, 6); }
static area output(size_t len) { return begun(len, 3, 7, 9); }

/* A copy of a part of the line. */
static area copy_of(int part) {
    area a = room_for(parts[part].len);
    if (a.len > 0) memcpy(a.at, parts[part].at, a.len * sizeof *a.at);
    return a;
}

/* Ends the program unless all guard words are as they were. */
static void judge_guards(const area *a) {
    size_t i;
    for (i = 0; i < GUARDS; i++)
        if (a->all[i] != GUARD || a->at[a->len + i] != GUARD) die("a guard word was altered");
}

/* Judges words that a call only reads, and frees them. */
static void done_reading(area *a, int part) {
    judge_guards(a);
    if (a->len > 0 && memcmp(a->at, parts[part].at, a->len * sizeof *a->at) != 0) die("words that are only read were altered");
    free(a->all);
}

/* Prints the words that a call wrote, judges the rest of the output, and frees it. */
static void print_output(area *out, size_t written) {
    size_t i;
    judge_guards(out);
    for (i = 0; i < written && i < out->len; i++) printf(" %" PRId64, out->at[i]);
    for (; i < out->len; i++)
        if (out->at[i] != blank(i)) die("the output was altered behind what is written");
    puts("");
    free(out->all);
}

/* Judges an output that nothing was to be written to, and frees it. */
static void unwritten(area *out) {
    size_t i;
    judge_guards(out);
    for (i = 0; i < out->len; i++)
        if (out->at[i] != blank(i)) die("a refused call altered the output");
    free(out->all);
}

/* A length in the line. */
static size_t length(int64_t word) {
    if (word < 0 || (uint64_t)word > SIZE_MAX / 16) die("a length that is none");
    return (size_t)word;
}

static void print_refused(uint64_t number) { printf("refused %" PRIu64 "\n", number); }

/* ---- joins */

/* Goes on with the join that a call returned. */
static void took(rowkeeper_took t) {
    join = t.join;
    judge_guards(&left);
    judge_guards(&right);
    if (t.refusal != 0) print_refused(t.refusal);
    else puts("ok");
}

/* Opens a join with areas of these lengths. */
static void open_join(rowkeeper_options o, size_t left_words, size_t right_words) {
    rowkeeper_took t = rowkeeper_open(o);
    if (have_join) {
        free(left.all);
        free(right.all);
    }
    have_join = t.refusal == 0;
    if (!have_join) {
        print_refused(t.refusal);
        return;
    }
    join = t.join;
    left = new_left(left_words);
    right = new_right(right_words);
    puts("ok");
}

/* The options of a line; its flags begin at a place. */
static rowkeeper_options options_of(const int64_t *w, const int64_t *flags) {
    rowkeeper_options o;
    size_t i;
    memset(&o, 0, sizeof o);
    o.by = (uint64_t)w[0];
    o.strategy = (uint64_t)w[1];
    o.allow_eq = (uint64_t)w[2];
    o.tolerance = w[3];
    o.check = (uint64_t)w[4];
    for (i = 0; i < (size_t)o.by && i < 4; i++) {
        o.descending[i] = (uint64_t)flags[2 * i];
        o.nulls_last[i] = (uint64_t)flags[2 * i + 1];
    }
    return o;
}

static void do_open(const int64_t *w) {
    size_t n = parts[0].len;
    open_join(options_of(w, w + 5), length(w[n - 2]), length(w[n - 1]));
}

static void do_options(const int64_t *w) {
    size_t codes = (uint64_t)w[9] > 64 ? 64 : (size_t)w[9];
    options = options_of(w, w + 10 + codes);
    options.carried = (uint64_t)w[5];
    options.with_distance = (uint64_t)w[6];
    options.ranks.given = (uint64_t)w[7];
    options.ranks.column = (uint64_t)w[8];
    options.ranks.count = (uint64_t)w[9];
    if (codes > 0) memcpy(options.ranks.codes, w + 10, codes * sizeof *w);
    have_options = 1;
    puts("ok");
}

static void do_opens(const int64_t *w) { open_join(options, length(w[0]), length(w[1])); }

static void do_left(const int64_t *w) {
    area frame = copy_of(0);
    (void)w;
    took(rowkeeper_left(join, left.at, left.len, right.at, right.len, frame.at, frame.len));
    done_reading(&frame, 0);
}

static void do_right(const int64_t *w) {
    area frame = copy_of(0);
    (void)w;
    took(rowkeeper_right(join, left.at, left.len, right.at, right.len, frame.at, frame.len));
    done_reading(&frame, 0);
}

static void do_end(const int64_t *w) {
    (void)w;
    took(rowkeeper_end_right(join, left.at, left.len, right.at, right.len));
}

static void do_move(const int64_t *w) {
    area to_left = new_left(length(w[0])), to_right = new_right(length(w[1]));
    rowkeeper_took t = rowkeeper_move(join, left.at, left.len, right.at, right.len, to_left.at, to_left.len, to_right.at, to_right.len);
    judge_guards(&to_left);
    judge_guards(&to_right);
    if (t.refusal == 0) {
        area old_left = left, old_right = right;
        left = to_left;
        right = to_right;
        to_left = old_left;
        to_right = old_right;
    }
    free(to_left.all);
    free(to_right.all);
    took(t);
}

static void do_ports(const int64_t *w) {
    rowkeeper_ported p =
        rowkeeper_ports(join, left.at, left.len, right.at, right.len, (uint64_t)w[0], (uint64_t)w[1], (uint64_t)w[2]);
    join = p.join;
    if (p.refusal != 0) print_refused(p.refusal);
    else printf("ok %" PRIu64 " %" PRIu64 " %" PRIu64 " %" PRIu64 "\n", p.left, p.right, p.send, join.state);
}

static void do_turn(const int64_t *w) {
    area out = output(length(w[0]));
    rowkeeper_turned t = rowkeeper_turn(join, left.at, left.len, right.at, right.len, out.at, out.len);
    join = t.join;
    judge_guards(&left);
    judge_guards(&right);
    if (t.answer == ROWKEEPER_WROTE) {
        printf("wrote %" PRIu64, t.sequence);
        print_output(&out, 2 + 2 * (size_t)out.at[0] * (size_t)out.at[1]);
        return;
    }
    unwritten(&out);
    if (t.answer == ROWKEEPER_WANTS_RIGHT) puts("wants");
    else if (t.answer == ROWKEEPER_IDLE) puts("idle");
    else print_refused(t.refusal);
}

static void do_run(const int64_t *w) {
    static const char *const STOPS[] = { "k", "wants", "idle" };
    area out = output(length(w[1]));
    size_t turns = (uint64_t)w[0] > SIZE_MAX ? SIZE_MAX : (size_t)w[0];
    rowkeeper_ran t = rowkeeper_run(join, turns, left.at, left.len, right.at, right.len, out.at, out.len);
    join = t.join;
    judge_guards(&left);
    judge_guards(&right);
    printf("ran %" PRIu64 " %" PRIu64 " ", t.turns, t.words);
    if (t.stop < 3) printf("%s", STOPS[t.stop]);
    else printf("refused %" PRIu64, t.refusal);
    print_output(&out, (size_t)t.words);
}

/* Prints a remembered row. */
static void print_row(const rowkeeper_row *row) {
    uint64_t i;
    if (!row->some) printf("-");
    for (i = 0; row->some && i <= join.options.by && i < 5; i++) {
        if (i > 0) printf(",");
        if (row->marks[i]) printf("%" PRId64, row->values[i]);
        else printf("null");
    }
}

static void do_state(const int64_t *w) {
    (void)w;
    printf("base %" PRIu64 " held %" PRIu64 " pruned %" PRIu64 " queue %" PRIu64 " %" PRIu64 " state %" PRIu64, join.base, join.held,
           join.pruned, join.queue_start, join.queue_words, join.state);
    printf(" ended %" PRIu64 " failed %" PRIu64 " sequence %" PRIu64 " left ", join.right_ended, join.failed, join.sequence);
    print_row(&join.last_left);
    printf(" right ");
    print_row(&join.last_right);
    puts("");
}

/* Alters a word of the join. */
static void do_put(const int64_t *w) {
    memcpy((char *)&join + 8 * length(w[0]), &w[1], sizeof w[1]);
    puts("ok");
}

/* Alters a word of an area; nothing happens if it has no such word. */
static void put_word(area *a, const int64_t *w) {
    if (length(w[0]) < a->len) a->at[w[0]] = w[1];
    puts(length(w[0]) < a->len ? "ok" : "-");
}

static void do_put_left(const int64_t *w) { put_word(&left, w); }
static void do_put_right(const int64_t *w) { put_word(&right, w); }

/* ---- tables */

/* Prints what a call over tables wrote, of this many columns. */
static void print_table(area *out, uint64_t refusal, uint64_t rows, uint64_t columns, const int64_t *number) {
    if (refusal != 0) {
        unwritten(out);
        print_refused(refusal);
        return;
    }
    printf("ok");
    if (number != NULL) printf(" %" PRId64, *number);
    print_output(out, 2 + 2 * (size_t)rows * (size_t)columns);
}

static void do_spans(const int64_t *w) {
    area points = copy_of(1), intervals = copy_of(2), out = output(length(w[2]));
    rowkeeper_written t = rowkeeper_spans(points.at, points.len, intervals.at, intervals.len, (uint64_t)w[0], (uint64_t)w[1],
                                          out.at, out.len);
    print_table(&out, t.refusal, t.rows, 2, NULL);
    done_reading(&points, 1);
    done_reading(&intervals, 2);
}

static void do_merge(const int64_t *w) {
    area house = copy_of(1), festival = copy_of(2), out = output(length(w[0]));
    rowkeeper_written t = rowkeeper_merge(options, house.at, house.len, festival.at, festival.len, out.at, out.len);
    print_table(&out, t.refusal, t.rows, options.by + 1 + options.carried, NULL);
    done_reading(&house, 1);
    done_reading(&festival, 2);
}

static void do_standing(const int64_t *w) {
    area book = copy_of(1), out = output(length(w[1]));
    rowkeeper_written t = rowkeeper_standing(options, book.at, book.len, (uint64_t)w[0], out.at, out.len);
    print_table(&out, t.refusal, t.rows, 2, NULL);
    done_reading(&book, 1);
}

static void do_plan(const int64_t *w) {
    area a = copy_of(1), b = copy_of(2), c = copy_of(3), d = copy_of(4);
    rowkeeper_planned p = rowkeeper_plan(options, a.at, a.len, b.at, b.len, c.at, c.len, d.at, d.len);
    (void)w;
    if (p.refusal != 0) print_refused(p.refusal);
    else printf("ok %" PRIu64 " %" PRIu64 " %" PRIu64 "\n", p.rows, p.turns, p.rights);
    done_reading(&a, 1);
    done_reading(&b, 2);
    done_reading(&c, 3);
    done_reading(&d, 4);
}

static void do_place(const int64_t *w) {
    area table = copy_of(1), boundaries = copy_of(2), out = output(length(w[1]));
    rowkeeper_written t =
        rowkeeper_cut(options, (uint64_t)w[0], table.at, table.len, boundaries.at, boundaries.len, out.at, out.len);
    print_table(&out, t.refusal, t.rows, 1, NULL);
    done_reading(&table, 1);
    done_reading(&boundaries, 2);
}

static void do_cut(const int64_t *w) {
    area l = copy_of(1), r = copy_of(2), boundaries = copy_of(3), out = output(length(w[2]));
    area left_area = new_left(length(w[0])), right_area = new_right(length(w[1]));
    rowkeeper_written t = rowkeeper_join_cut(options, l.at, l.len, r.at, r.len, boundaries.at, boundaries.len, left_area.at,
                                             left_area.len, right_area.at, right_area.len, out.at, out.len);
    print_table(&out, t.refusal, t.rows, 1 + options.carried + options.with_distance, NULL);
    judge_guards(&left_area);
    judge_guards(&right_area);
    free(left_area.all);
    free(right_area.all);
    done_reading(&l, 1);
    done_reading(&r, 2);
    done_reading(&boundaries, 3);
}

static void do_takings_add(const int64_t *w) {
    area table = copy_of(1), sales = copy_of(2), answers = copy_of(3), out = output(length(w[0]));
    rowkeeper_taken t = rowkeeper_takings_add(options, table.at, table.len, w[1], sales.at, sales.len, answers.at, answers.len,
                                              out.at, out.len);
    print_table(&out, t.refusal, t.rows, options.by + 2, &t.number);
    done_reading(&table, 1);
    done_reading(&sales, 2);
    done_reading(&answers, 3);
}

static void do_takings_join(const int64_t *w) {
    area table = copy_of(1), other = copy_of(2), out = output(length(w[0]));
    rowkeeper_taken t = rowkeeper_takings_join(options, table.at, table.len, w[1], other.at, other.len, w[2], out.at, out.len);
    print_table(&out, t.refusal, t.rows, options.by + 2, &t.number);
    done_reading(&table, 1);
    done_reading(&other, 2);
}

/* A cell, by its reader and by a view, which must agree. */
static void read_cell(const int64_t *w, int distance) {
    area f = copy_of(1);
    uint64_t carried = (uint64_t)w[0], row = (uint64_t)w[1], column = (uint64_t)w[2];
    rowkeeper_shown s = distance ? rowkeeper_read_distance(carried, f.at, f.len, row, column)
                                 : rowkeeper_read_plain(carried, f.at, f.len, row, column);
    rowkeeper_viewed v = distance ? rowkeeper_view_distance(carried, f.at, f.len) : rowkeeper_view_plain(carried, f.at, f.len);
    if (v.refusal != s.refusal) die("the view is refused otherwise than the reader");
    if (v.refusal == 0) {
        rowkeeper_cell c = rowkeeper_view_cell(v.rows, v.columns, f.at, f.len, row, column);
        if (c.value != s.value || c.mark != s.mark) die("the view has another cell than the reader");
    }
    if (s.refusal != 0) print_refused(s.refusal);
    else printf("cell %" PRId64 " %" PRId64 "\n", s.value, s.mark);
    done_reading(&f, 1);
}

static void do_read_plain(const int64_t *w) { read_cell(w, 0); }
static void do_read_distance(const int64_t *w) { read_cell(w, 1); }

/* ---- lines */

enum { NEEDS_NOTHING, NEEDS_OPTIONS, NEEDS_JOIN };
static const struct {
    const char *name;
    int needs, tables;
    size_t least;
    void (*act)(const int64_t *w);
} CALLS[] = {
    { "open", NEEDS_NOTHING, 0, 7, do_open },          { "options", NEEDS_NOTHING, 0, 10, do_options },
    { "opens", NEEDS_OPTIONS, 0, 2, do_opens },        { "left", NEEDS_JOIN, 0, 0, do_left },
    { "right", NEEDS_JOIN, 0, 0, do_right },           { "end", NEEDS_JOIN, 0, 0, do_end },
    { "move", NEEDS_JOIN, 0, 2, do_move },             { "ports", NEEDS_JOIN, 0, 3, do_ports },
    { "turn", NEEDS_JOIN, 0, 1, do_turn },             { "run", NEEDS_JOIN, 0, 2, do_run },
    { "state", NEEDS_JOIN, 0, 0, do_state },           { "put", NEEDS_JOIN, 0, 2, do_put },
    { "put-left", NEEDS_JOIN, 0, 2, do_put_left },     { "put-right", NEEDS_JOIN, 0, 2, do_put_right },
    { "spans", NEEDS_NOTHING, 2, 3, do_spans },        { "merge", NEEDS_OPTIONS, 2, 1, do_merge },
    { "standing", NEEDS_OPTIONS, 1, 2, do_standing },  { "plan", NEEDS_OPTIONS, 4, 0, do_plan },
    { "place", NEEDS_OPTIONS, 2, 2, do_place },        { "cut", NEEDS_OPTIONS, 3, 3, do_cut },
    { "takings-add", NEEDS_OPTIONS, 3, 2, do_takings_add }, { "takings-join", NEEDS_OPTIONS, 2, 3, do_takings_join },
    { "read plain", NEEDS_NOTHING, 1, 3, do_read_plain },   { "read distance", NEEDS_NOTHING, 1, 3, do_read_distance },
};

/* Reads a line without its comment; null at the end. */
static char *read_line(void) {
    static char *line;
    static size_t room;
    size_t n = 0;
    int c;
    while ((c = getchar()) != EOF && c != '\n') {
        if (n + 2 > room) {
            room = 2 * room + 4096;
            line = realloc(line, room);
            if (line == NULL) die("no memory");
        }
        line[n++] = (char)c;
    }
    if (c == EOF && n == 0) return NULL;
    if (n == 0) return (char *)"";
    line[n] = 0;
    line[strcspn(line, "#\r")] = 0;
    return line;
}

/* Reads the numbers of a line, in parts. */
static void read_numbers(char *text) {
    size_t n = 0;
    numbers = realloc(numbers, (strlen(text) + 1) * sizeof *numbers);
    if (numbers == NULL) die("no memory");
    for (part_count = 1, parts[0].at = numbers, parts[0].len = 0; *(text += strspn(text, " \t")) != 0;) {
        if (*text == '|') {
            if (part_count == MOST_PARTS) die("too many tables");
            parts[part_count].at = numbers + n;
            parts[part_count++].len = 0;
            text++;
        } else {
            char *end;
            numbers[n++] = strtoll(text, &end, 10);
            if (end == text) die("a word that is no number");
            parts[part_count - 1].len++;
            text = end;
        }
    }
}

/* Answers one line, which begins with the name of a call. */
static void answer(char *line) {
    size_t i, n = 0;
    for (i = 0; i < sizeof CALLS / sizeof *CALLS; i++) {
        n = strlen(CALLS[i].name);
        if (strncmp(line, CALLS[i].name, n) == 0 && (line[n] == 0 || line[n] == ' ')) break;
    }
    if (i == sizeof CALLS / sizeof *CALLS) die("no such call");
    read_numbers(line + n);
    if (part_count != CALLS[i].tables + 1 || parts[0].len < CALLS[i].least) die("too few or too many words");
    if (CALLS[i].needs == NEEDS_OPTIONS && !have_options) puts("no options");
    else if (CALLS[i].needs == NEEDS_JOIN && !have_join) puts("no join");
    else CALLS[i].act(parts[0].at);
}

int main(void) {
    char *line;
    if (rowkeeper_version() != ROWKEEPER_VERSION_NUMBER) die("header and library have different versions");
    while ((line = read_line()) != NULL) {
        line += strspn(line, " \t");
        if (*line != 0) answer(line);
    }
    return 0;
}
