/*
 * A hostile host. Makes calls with joins, areas and frames that real calls left, that were altered in some words, or that
 * are random words, over slices of any length between guard words and pages that cannot be touched. Every answer, the join
 * and every word afterwards are judged (judge.c); a run is also made again by single turns, which must leave the same, and a
 * turn with a list of ranks by one over numbers without it (ranked.c).
 *
 *     hostile SEED CALLS     prints how often each call gave each answer; status 1 at the first fault
 */
#include "host.h"
#include "judge.h"
#include "ranked.h"
#include "rules.h"

static const char *const CALL_NAMES[CALLS] = {"open", "left", "right", "end_right", "ports", "turn", "run", "move"};

/* The answers that each call can give, and at the end no answer. The run fails if one was never met. */
enum { MOST_ANSWERS = 14, NO_ANSWER = -1 };
static const int POSSIBLE[CALLS][MOST_ANSWERS] = {
    {0, 1, 10, 11, NO_ANSWER},
    {0, 2, 3, 4, 5, 12, 6, NO_ANSWER},
    {0, 2, 3, 4, 5, 12, 6, 7, NO_ANSWER},
    {0, 2, 3, 4, NO_ANSWER},
    {0, 2, 3, NO_ANSWER},
    {0, 2, 3, 4, 5, 12, 6, 7, 8, 9, ANSWER_WANTS, ANSWER_IDLE, NO_ANSWER},
    {0, 2, 3, 4, 5, 12, 6, 7, 8, 9, ANSWER_WANTS, ANSWER_IDLE, NO_ANSWER},
    {0, 2, 6, NO_ANSWER},
};

/* The answers that must have stopped a run after a turn that wrote: those that a turn can change. 9 can too, if the host
   itself has altered the remembered row and the frame before had no row; it is not waited for. */
static const int POSSIBLE_AFTER[MOST_ANSWERS] = {0, 5, 12, 6, 7, 8, ANSWER_WANTS, ANSWER_IDLE, NO_ANSWER};

/* The counts of a call: one for each answer, known or not. */
enum { ANSWERS = ANSWER_UNKNOWN + 1 };

/* How many words a join is, and where the codes of its list begin. */
enum { JOIN_WORDS = sizeof(rowkeeper_join) / sizeof(int64_t), CODES_AT = offsetof(rowkeeper_join, options.ranks.codes) / 8 };

/* A host's join and areas, and where its tables stand, so that its frames are mostly in order. */
typedef struct host {
    rowkeeper_join join;
    size_t left_len, right_len;
    int64_t left[LEND_MOST], right[LEND_MOST];
    int64_t left_group, left_key, right_group, right_key;
    int gathers; /* whether it lets frames wait for a run */
} host;

static host now, before;
static int64_t frame[LEND_MOST], out[LEND_MOST], again[LEND_MOST], new_left[LEND_MOST], new_right[LEND_MOST];
static lend left_lend, right_lend, frame_lend, out_lend, new_left_lend, new_right_lend;
static uint64_t met[CALLS][ANSWERS], altered_joins, altered_past_2;
/* Of runs: the turns that they made, those of more than one, and what stopped those in which a turn wrote. */
static uint64_t run_turns, several, met_after[ANSWERS];
/* Of turns and runs that wrote: carried cells with a value, and null ones of matched rows. Of accepted right frames: those with
   carried columns. */
static uint64_t carried_values, carried_nulls, carried_frames;
/* Of turns and runs that wrote: distances with a value, those of 2^63 - 1 among them, and null ones of matched rows. */
static uint64_t distances, most_distances, null_distances;
/* Of accepted frames: those of a join with a list. Of joins whose list or places the host altered: those that were not refused. */
static uint64_t listed_frames, altered_lists;

/* Yes in so many of a hundred cases. */
static int percent(unsigned n) {
    return mille(10 * n);
}

/* A length: mostly short, at times some thousands. */
static size_t any_length(void) {
    static const size_t MOST[8] = {4, 16, 60, 60, 200, 200, 900, LEND_MOST};
    size_t most = MOST[below(8)];
    return most > 900 && percent(70) ? below(200) : below(most + 1);
}

/* A word's bits as a number that counts. */
static uint64_t any_count(uint64_t old, uint64_t limit) {
    switch (below(6)) {
    case 0: return (uint64_t)any_word();
    case 1: return limit - below(4);
    case 2: return old + 1;
    case 3: return old - 1;
    default: return below(limit + 2);
    }
}

/* How many columns are carried: mostly few; now and then too many, up to numbers that make no width. */
static uint64_t any_carried(void) {
    static const uint64_t MANY[] = {9, 10, 13, (uint64_t)1 << 32, INT64_MAX, UINT64_MAX - 8, UINT64_MAX - 4, UINT64_MAX};
    if (percent(3)) return MANY[below(sizeof MANY / sizeof *MANY)];
    return percent(85) ? below(4) : below(ROWKEEPER_MOST_CARRIED + 1);
}

/* How many codes a list has: mostly few, at times many; now and then none, or more than there can be. */
static uint64_t any_list_length(void) {
    static const uint64_t NONE[] = {0, 65, 66, 255, 256, (uint64_t)1 << 32, INT64_MAX, UINT64_MAX};
    if (percent(4)) return NONE[below(sizeof NONE / sizeof *NONE)];
    return 1 + below(percent(80) ? 6 : ROWKEEPER_MOST_RANKS);
}

/* A list for a join of so many by-columns, now and then one that is refused. Its codes are a number, an odd step further the
   next and so on, which are 64 different ones; behind its count stand any words. */
static rowkeeper_ranks any_ranks(uint64_t by) {
    rowkeeper_ranks k;
    uint64_t code = (uint64_t)any_word(), step = percent(50) ? 1 + 2 * below(40) : any() | 1;
    size_t i;
    k.given = percent(99) ? 1 : (uint64_t)any_word();
    k.column = by > 0 && percent(97) ? below(by) : below(by + 2);
    k.count = any_list_length();
    for (i = 0; i < ROWKEEPER_MOST_RANKS; i++, code += step) k.codes[i] = i < k.count ? (int64_t)code : any_word();
    if (percent(4)) k.codes[below(ROWKEEPER_MOST_RANKS)] = k.codes[below(ROWKEEPER_MOST_RANKS)];
    return k;
}

/* No list: zeros, or any words behind the flag. */
static rowkeeper_ranks no_ranks(uint64_t by) {
    rowkeeper_ranks k;
    memset(&k, 0, sizeof k);
    if (percent(20)) k = any_ranks(by);
    k.given = 0;
    return k;
}

/* Options, now and then refused ones. */
static rowkeeper_options any_options(void) {
    rowkeeper_options o;
    int j;
    o.by = percent(60) ? below(2) : below(5);
    o.strategy = below(3);
    o.allow_eq = o.strategy == 2 ? 1 : below(2);
    o.tolerance = percent(60) ? -1 : (int64_t)below(20);
    o.check = below(3);
    o.carried = any_carried();
    for (j = 0; j < 4; j++) {
        o.descending[j] = percent(15);
        o.nulls_last[j] = percent(15);
    }
    o.ranks = percent(o.by > 0 ? 45 : 2) ? any_ranks(o.by) : no_ranks(o.by);
    o.with_distance = percent(98) ? below(2) : (uint64_t)any_word();
    if (percent(4)) ((int64_t *)&o)[below(offsetof(rowkeeper_options, ranks.codes) / sizeof(int64_t))] = any_word();
    return o;
}

/* Whether the join has a list that opening takes. */
static int has_list(void) {
    uint64_t refusal;
    return now.join.options.ranks.given == 1 && judge_options(&now.join.options, &refusal) == FINE_OPTIONS;
}

/* Whether a side can go on to the next group: a list has no more groups than codes. */
static int has_next(int64_t group) {
    return !has_list() || group + 1 < (int64_t)now.join.options.ranks.count || percent(2);
}

/* The next row of a side: its group and key mostly do not go back. */
static void next_row(int64_t *group, int64_t *key) {
    if (percent(10) && has_next(*group)) {
        ++*group;
        *key = 0;
    }
    *key += (int64_t)below(3);
    if (percent(1)) *key -= 5;
}

/* The columns of a row without what it carries, also where no join has such options. */
static size_t keyed_columns(void) {
    return now.join.options.by > 4 ? 5 : (size_t)now.join.options.by + 1;
}

/* The columns that are carried, also where no join carries so many. */
static size_t carried_columns(void) {
    return now.join.options.carried > ROWKEEPER_MOST_CARRIED ? 9 : (size_t)now.join.options.carried;
}

/* The columns of an answer, also where no join has such options. */
static size_t answer_columns(void) {
    return 1 + carried_columns() + (now.join.options.with_distance == 1);
}

/* The place of a group's code in the list, which the join has; beyond the list any place, behind its count too. */
static size_t place_of(int64_t group) {
    const rowkeeper_ranks *k = &now.join.options.ranks;
    if (group < 0 || group >= (int64_t)k->count) return below(ROWKEEPER_MOST_RANKS);
    return (size_t)(now.join.options.descending[k->column] == 1 ? (int64_t)k->count - 1 - group : group);
}

/* A group as a value of a by-column: as it rises, or falls, by number or by place in the list. */
static int64_t by_value(size_t column, int64_t group) {
    const rowkeeper_ranks *k = &now.join.options.ranks;
    if (has_list() && k->column == column) return k->codes[place_of(group)];
    return now.join.options.descending[column] == 1 ? -group : group;
}

/* A cell of a row: its group, its key, or behind them anything that it carries. */
static int64_t next_cell(size_t column, int64_t group, int64_t key) {
    if (column >= keyed_columns()) return any_word();
    return column + 1 == keyed_columns() ? key : by_value(column, group);
}

/* A side's next frame of so many columns with at most this many rows; a row's by-values are alike, some cells are null. */
static size_t next_frame(size_t c, int64_t *group, int64_t *key, size_t most) {
    size_t n, i, j;
    if (most > (LEND_MOST - 2) / (2 * c)) most = (LEND_MOST - 2) / (2 * c);
    n = below(most + 1);
    frame[0] = (int64_t)n;
    frame[1] = (int64_t)c;
    for (i = 0; i < n; i++) {
        next_row(group, key);
        for (j = 0; j < c; j++) {
            int present = !percent(j < keyed_columns() ? 2 : 20);
            frame[2 + i * c + j] = present ? next_cell(j, *group, *key) : 0;
            frame[2 + n * c + i * c + j] = present;
        }
    }
    return 2 + 2 * n * c;
}

/* Alters the frame: another length, other words, or random words throughout. */
static size_t alter_frame(size_t len) {
    size_t i;
    switch (below(5)) {
    case 0: return below(len + 1);
    case 1: return len < LEND_MOST ? len + 1 : len;
    case 2:
        len = any_length();
        for (i = 0; i < len; i++) frame[i] = any_word();
        return len;
    default:
        for (i = 1 + below(3); i > 0; i--) frame[percent(40) ? below(2) : below(len)] = any_word();
        return len;
    }
}

/* The first word of a join of another layout: another version, the first word of joins that had none, any word. */
static uint64_t other_layout(void) {
    switch (below(3)) {
    case 0: return ROWKEEPER_LAYOUT - 1 + 2 * below(2);
    case 1: return below(5);
    default: return (uint64_t)any_word();
    }
}

/* Alters the list of the join, its places, or both: bytes that are no places, places the other way round, a list of the host's
   own with the places that are due. */
static void alter_list(rowkeeper_join *j) {
    rowkeeper_ranks *k = &j->options.ranks;
    size_t one = below(ROWKEEPER_MOST_RANKS), other = below(k->count > 1 && k->count <= ROWKEEPER_MOST_RANKS ? k->count : 8);
    uint8_t place = j->rising[one];
    switch (below(8)) {
    case 0: j->rising[other] = (uint8_t)any(); break;
    case 1: j->rising[one] = j->rising[other]; break;
    case 2: j->rising[one] = j->rising[other], j->rising[other] = place; break;
    case 3: k->codes[has_list() ? place_of(now.left_group) : other] = any_word(); break;
    case 4: k->count = any_count(k->count, ROWKEEPER_MOST_RANKS); break;
    case 5: k->column = percent(70) ? below(4) : any_count(k->column, ROWKEEPER_MOST_BY); break;
    case 6: k->given = percent(80) ? 1 - k->given : (uint64_t)any_word(); break;
    default: *k = any_ranks(j->options.by); break;
    }
    if (percent(50)) judge_places(k, j->rising);
}

/* The place of a word of a join, seldom of one of the list's codes: they are more than all others. */
static size_t any_place(void) {
    size_t at = below(JOIN_WORDS);
    return at < CODES_AT || at >= CODES_AT + ROWKEEPER_MOST_RANKS || percent(10) ? at : any_place();
}

/* Alters a word of the join so that it may still hold together. */
static void alter_join(void) {
    rowkeeper_join *j = &now.join;
    uint64_t capacity = now.right_len / (2 * (j->options.by % 8 + 1 + j->options.carried % 16));
    switch (below(19)) {
    case 0: j->base = any_count(j->base, capacity - j->held % (capacity + 1)); break;
    case 1: j->held = any_count(j->held, capacity - j->base % (capacity + 1)); break;
    case 2: j->pruned = percent(50) ? INT64_MAX - j->held - below(40) : any_count(j->pruned, INT64_MAX); break;
    case 3: j->queue_start = any_count(j->queue_start, now.left_len - j->queue_words % (now.left_len + 1)); break;
    case 4: j->queue_words = any_count(j->queue_words, now.left_len - j->queue_start % (now.left_len + 1)); break;
    case 5: j->state = below(percent(90) ? 3 : 9); break;
    case 6: j->right_ended = below(percent(90) ? 2 : 9); break;
    case 7: j->failed = percent(90) ? 0 : below(3); break;
    case 8: j->sequence = percent(50) ? UINT64_MAX - 1 - 2 * below(3) : any_count(j->sequence, 40); break;
    case 9: j->options = any_options(); break;
    case 10: ((int64_t *)&j->last_left)[below(11)] = percent(50) ? 1 : any_word(); break;
    case 11: ((int64_t *)&j->last_right)[below(11)] = percent(50) ? 1 : any_word(); break;
    case 12: j->layout = percent(50) ? ROWKEEPER_LAYOUT : other_layout(); break;
    case 13: j->options.carried = percent(50) ? any_carried() : any_count(j->options.carried, ROWKEEPER_MOST_CARRIED); break;
    case 14:
    case 15: alter_list(j); break;
    case 16: j->options.with_distance = percent(70) ? below(2) : (uint64_t)any_word(); break;
    default: ((int64_t *)j)[any_place()] = any_word(); break;
    }
}

/* Alters a word of an area, most often one that is live. */
static void alter_area(int64_t *area, size_t len, uint64_t first, uint64_t live) {
    if (len == 0) return;
    if (live > 0 && first < len && percent(70)) {
        area[first + below(live < len - first ? live : len - first)] = any_word();
    } else {
        area[below(len)] = any_word();
    }
}

/* Alters a value of the list's column in a frame that waits, often not the first. The join holds together. */
static void alter_waiting(void) {
    uint64_t at = now.join.queue_start, end = at + now.join.queue_words, c = now.join.options.by + 1;
    while (at + 2 + 2 * c <= end && now.left[at] > 0 && now.left[at + 1] == (int64_t)c) {
        uint64_t n = (uint64_t)now.left[at], length = 2 + 2 * n * c;
        if (n > ROWKEEPER_MOST_ROWS || length > end - at) return;
        if (percent(40) || at + length == end) {
            now.left[at + 2 + below(n) * c + now.join.options.ranks.column] = any_word();
            return;
        }
        at += length;
    }
}

/* Alters the host's words in one to three places; whether the join is among them. */
static int alter_host(void) {
    int n, joins = 0;
    for (n = 1 + (int)below(3); n > 0; n--) {
        switch (below(4)) {
        case 0:
            if (percent(40) && has_list() && !judge_bad_join(&now.join, now.left_len, now.right_len)) alter_waiting();
            else alter_area(now.left, now.left_len, now.join.queue_start, now.join.queue_words);
            break;
        case 1: alter_area(now.right, now.right_len, 0, 0); break;
        default: alter_join(); joins = 1; break;
        }
    }
    return joins;
}

/* Random words for join and areas; most joins have the layout that is read. */
static void random_host(void) {
    size_t i;
    now.left_len = any_length();
    now.right_len = any_length();
    for (i = 0; i < JOIN_WORDS; i++) ((int64_t *)&now.join)[i] = any_word();
    if (percent(80)) now.join.layout = ROWKEEPER_LAYOUT;
    for (i = 0; i < now.left_len; i++) now.left[i] = any_word();
    for (i = 0; i < now.right_len; i++) now.right[i] = any_word();
}

/* Copies a host, of its areas only what is used. */
static void copy_host(host *to, const host *from) {
    memcpy(to->left, from->left, from->left_len * sizeof *to->left);
    memcpy(to->right, from->right, from->right_len * sizeof *to->right);
    to->join = from->join;
    to->left_len = from->left_len;
    to->right_len = from->right_len;
    to->left_group = from->left_group;
    to->left_key = from->left_key;
    to->right_group = from->right_group;
    to->right_key = from->right_key;
    to->gathers = from->gathers;
}

/* Ends the run with what was found and with what it takes to see it again. */
static void fault(const attempt *a, const char *why) {
    size_t i;
    printf("FAIL seed %" PRIu64 ", call %" PRIu64 ", rowkeeper_%s: %s\n", seed, made, CALL_NAMES[a->call], why);
    printf("lengths: left %zu, right %zu, frame %zu, output %zu\n", a->left_len, a->right_len, a->frame_len, a->out_len);
    printf("turns of a run: %zu; new areas: %zu, %zu\njoin:", a->turns, a->new_left_len, a->new_right_len);
    for (i = 0; i < JOIN_WORDS; i++) printf(" %" PRId64, ((const int64_t *)&a->join)[i]);
    printf("\n");
    exit(1);
}

/* A refusal's answer: its number, if it is one. */
static int refusal_answer(uint64_t refusal) {
    return refusal > ROWKEEPER_LAST_REFUSAL ? ANSWER_UNKNOWN : (int)refusal;
}

/* Reads the answer of opening, left, right, the end of right and a move. */
static void took(outcome *o, rowkeeper_took t) {
    o->answer = refusal_answer(t.refusal);
    o->join = t.join;
}

/* Reads the answer of a port call. */
static void ported(outcome *o, rowkeeper_ported p) {
    o->answer = refusal_answer(p.refusal);
    o->told[0] = p.left;
    o->told[1] = p.right;
    o->told[2] = p.send;
    o->join = p.join;
}

/* The answer of a turn or of a run's last turn; one that does not exist becomes none of those known. */
static int turn_answer(uint64_t answer, uint64_t refusal) {
    static const int PLAIN[3] = {0, ANSWER_WANTS, ANSWER_IDLE};
    if (answer > ROWKEEPER_REFUSED || (answer == ROWKEEPER_REFUSED) != (refusal != 0)) return ANSWER_UNKNOWN;
    return answer == ROWKEEPER_REFUSED ? refusal_answer(refusal) : PLAIN[answer];
}

/* Reads the answer of a turn. */
static void turned(outcome *o, rowkeeper_turned t) {
    o->answer = turn_answer(t.answer, t.refusal);
    o->sequence = t.sequence;
    o->join = t.join;
}

/* Reads the answer of a run. */
static void ran(outcome *o, rowkeeper_ran r) {
    o->answer = turn_answer(r.stop, r.refusal);
    o->turns = r.turns;
    o->words = r.words;
    o->join = r.join;
}

/* Makes the call over slices that are lent for it alone. */
static void make(const attempt *a, outcome *o) {
    int64_t *l = lent(&left_lend, a->left, a->left_len), *r = lent(&right_lend, a->right, a->right_len);
    int64_t *f = lent(&frame_lend, a->frame, a->frame_len), *w = lent(&out_lend, a->out, a->out_len);
    int64_t *nl = lent(&new_left_lend, a->new_left, a->new_left_len);
    int64_t *nr = lent(&new_right_lend, a->new_right, a->new_right_len);
    size_t ln = a->left_len, rn = a->right_len;
    memset(o, 0, sizeof *o);
    switch (a->call) {
    case CALL_OPEN: took(o, rowkeeper_open(a->join.options)); break;
    case CALL_LEFT: took(o, rowkeeper_left(a->join, l, ln, r, rn, f, a->frame_len)); break;
    case CALL_RIGHT: took(o, rowkeeper_right(a->join, l, ln, r, rn, f, a->frame_len)); break;
    case CALL_END: took(o, rowkeeper_end_right(a->join, l, ln, r, rn)); break;
    case CALL_PORTS: ported(o, rowkeeper_ports(a->join, l, ln, r, rn, a->ports[0], a->ports[1], a->ports[2])); break;
    case CALL_RUN: ran(o, rowkeeper_run(a->join, a->turns, l, ln, r, rn, w, a->out_len)); break;
    case CALL_MOVE: took(o, rowkeeper_move(a->join, l, ln, r, rn, nl, a->new_left_len, nr, a->new_right_len)); break;
    default: turned(o, rowkeeper_turn(a->join, l, ln, r, rn, w, a->out_len)); break;
    }
    o->left = left_lend.at;
    o->right = right_lend.at;
    o->out = out_lend.at;
    o->new_left = new_left_lend.at;
    o->new_right = new_right_lend.at;
}

/* Whether guard words, the frame and what the call may only read are as they were. */
static const char *untouched(const attempt *a) {
    int intact = lend_intact(&left_lend) & lend_intact(&right_lend) & lend_intact(&frame_lend) & lend_intact(&out_lend) &
                 lend_intact(&new_left_lend) & lend_intact(&new_right_lend);
    if (!intact) return "a guard word was altered";
    if (!lend_same(&frame_lend, a->frame, 0)) return "the frame was altered";
    if (a->call != CALL_LEFT && !lend_same(&left_lend, a->left, 0)) return "the left area was altered";
    if (a->call != CALL_RIGHT && !lend_same(&right_lend, a->right, 0)) return "the right area was altered";
    return NULL;
}

/* Whether single turns over the same words make as many turns as the run did and leave the same join and output. A run of
   no turns has none to be compared with. */
static const char *same_by_turns(const attempt *a, const outcome *o) {
    rowkeeper_turned t;
    outcome last;
    uint64_t turns = 0;
    size_t at = 0;
    if (a->turns == 0) return NULL;
    memcpy(again, a->out, a->out_len * sizeof *again);
    memset(&last, 0, sizeof last);
    last.join = a->join;
    while (turns < a->turns && last.answer == 0) {
        t = rowkeeper_turn(last.join, a->left, a->left_len, a->right, a->right_len, again + at, a->out_len - at);
        turned(&last, t);
        if (last.answer == 0) {
            at += 2 + 2 * (size_t)again[at] * judge_answer_columns(&last.join.options);
            turns++;
        }
    }
    if (turns != o->turns || at != o->words || last.answer != o->answer) return "single turns answer otherwise";
    if (memcmp(&last.join, &o->join, sizeof last.join) != 0) return "single turns leave another join";
    return memcmp(again, o->out, a->out_len * sizeof *again) == 0 ? NULL : "single turns write otherwise";
}

/* Counts the distance of a match. */
static void count_distance(int64_t value, int64_t mark) {
    *(mark == 1 ? &distances : &null_distances) += 1;
    most_distances += mark == 1 && value == INT64_MAX;
}

/* Counts the carried cells and the distances of matches among these words, of so many carried columns. */
static void count_cells(const int64_t *words, size_t len, size_t carried) {
    size_t at, i, j;
    for (at = 0; at < len; at += 2 + 2 * (size_t)(words[at] * words[at + 1])) {
        size_t n = (size_t)words[at], c = (size_t)words[at + 1];
        for (i = 0; i < n; i++) {
            const int64_t *values = words + at + 2 + i * c, *marks = values + n * c;
            if (marks[0] != 1) continue;
            for (j = 1; j <= carried; j++) *(marks[j] == 1 ? &carried_values : &carried_nulls) += 1;
            if (c > 1 + carried) count_distance(values[c - 1], marks[c - 1]);
        }
    }
}

/* Counts an answer, what a run made, what was carried, and distances. */
static void count(const attempt *a, const outcome *o) {
    size_t carried = (size_t)a->join.options.carried;
    met[a->call][o->answer]++;
    carried_frames += a->call == CALL_RIGHT && o->answer == 0 && a->join.options.carried > 0;
    listed_frames += (a->call == CALL_LEFT || a->call == CALL_RIGHT) && o->answer == 0 && a->join.options.ranks.given == 1;
    if (a->call == CALL_TURN && o->answer == 0) count_cells(o->out, 1, carried);
    if (a->call != CALL_RUN) return;
    count_cells(o->out, (size_t)o->words, carried);
    run_turns += o->turns;
    several += o->turns > 1;
    met_after[o->answer] += o->turns > 0;
}

/* The host goes on with the areas that it moved to. */
static void go_on_there(const attempt *a) {
    now.left_len = a->new_left_len;
    now.right_len = a->new_right_len;
    memcpy(now.left, new_left_lend.at, now.left_len * sizeof *now.left);
    memcpy(now.right, new_right_lend.at, now.right_len * sizeof *now.right);
}

/* Makes a call, judges it, counts it; the answer. The host goes on with what it left. */
static int try_call(attempt *a) {
    outcome o;
    const char *why;
    made++;
    make(a, &o);
    why = untouched(a);
    if (why == NULL) why = o.answer == ANSWER_UNKNOWN ? "an answer that does not exist" : judge(a, &o);
    if (why == NULL && a->call == CALL_RUN) why = same_by_turns(a, &o);
    if (why == NULL && a->call == CALL_TURN && a->join.options.ranks.given == 1 && judge_known(a) < 0)
        why = ranked_by_number(a, &o);
    if (why != NULL) fault(a, why);
    count(a, &o);
    if (a->call == CALL_LEFT) memcpy(now.left, left_lend.at, now.left_len * sizeof *now.left);
    if (a->call == CALL_RIGHT) memcpy(now.right, right_lend.at, now.right_len * sizeof *now.right);
    if (a->call == CALL_MOVE && o.answer == 0) go_on_there(a);
    now.join = o.join;
    return o.answer;
}

/* A call on the host as it is. */
static attempt attempt_of(int call) {
    attempt a;
    memset(&a, 0, sizeof a);
    a.call = call;
    a.join = now.join;
    a.left = now.left;
    a.right = now.right;
    a.frame = frame;
    a.out = out;
    a.left_len = now.left_len;
    a.right_len = now.right_len;
    a.new_left = new_left;
    a.new_right = new_right;
    return a;
}

/* Which call comes next. */
static int any_call(void) {
    static const int OFTEN[16] = {CALL_LEFT, CALL_LEFT, CALL_LEFT, CALL_RIGHT, CALL_RIGHT, CALL_RIGHT, CALL_RIGHT, CALL_TURN,
                                  CALL_TURN, CALL_TURN, CALL_TURN, CALL_TURN, CALL_TURN, CALL_PORTS, CALL_TURN, CALL_END};
    int call = percent(4) ? CALL_MOVE : OFTEN[below(16)];
    if (call == CALL_END && !percent(30)) call = CALL_TURN;
    if (call == CALL_TURN && now.gathers) call = percent(30) ? CALL_RUN : CALL_LEFT;
    return call == CALL_TURN && percent(15) ? CALL_RUN : call;
}

/* How many turns a run may make: mostly few, at times none or more than there can be. */
static size_t any_turns(void) {
    switch (below(8)) {
    case 0: return below(2);
    case 1: return (size_t)any_word();
    default: return 1 + below(7);
    }
}

/* The length of a run's output: for all that waits, or too short for it, or any. */
static size_t run_output(void) {
    size_t waiting = now.join.queue_words < 4000 ? (size_t)now.join.queue_words : 4000;
    size_t enough = waiting * answer_columns() < 8000 ? waiting * answer_columns() : 8000;
    if (percent(10)) return any_length();
    return percent(40) ? below(enough + 1) : enough + below(30);
}

/* The length of an area to move to: just enough for so many words, more, less, or any. */
static size_t new_length(uint64_t words) {
    size_t enough = words < LEND_MOST - 400 ? (size_t)words : LEND_MOST - 400;
    switch (below(6)) {
    case 0: return enough;
    case 1: return enough > 0 ? below(enough) : 0;
    case 2: return any_length();
    default: return enough + below(400);
    }
}

/* Gives a move the areas that it goes to, with any words. */
static void equip_move(attempt *a) {
    uint64_t row = 2 * (keyed_columns() + carried_columns());
    size_t i;
    a->new_left_len = new_length(a->join.queue_words);
    a->new_right_len = new_length(a->join.held < LEND_MOST ? a->join.held * row : LEND_MOST);
    for (i = 0; i < a->new_left_len; i++) new_left[i] = any_word();
    for (i = 0; i < a->new_right_len; i++) new_right[i] = any_word();
}

/* Gives a call its frame, its output or its ports. */
static void equip(attempt *a) {
    size_t i, most = below(percent(3) ? 1200 : 12), left = keyed_columns(), right = left + carried_columns();
    size_t row = 2 * answer_columns(), enough = 2 + row * most + below(30);
    /* Now and then a frame as wide as those of the other side. */
    if (a->call == CALL_LEFT) a->frame_len = next_frame(percent(96) ? left : right, &now.left_group, &now.left_key, most);
    if (a->call == CALL_RIGHT) a->frame_len = next_frame(percent(96) ? right : left, &now.right_group, &now.right_key, most);
    if (a->call <= CALL_RIGHT && percent(12)) a->frame_len = alter_frame(a->frame_len);
    if (a->call == CALL_TURN) a->out_len = percent(10) ? any_length() : percent(95) && enough < LEND_MOST ? enough : LEND_MOST;
    if (a->call == CALL_RUN) a->out_len = run_output();
    if (a->call == CALL_RUN) a->turns = any_turns();
    if (a->call == CALL_MOVE) equip_move(a);
    fill_blank(out, a->out_len);
    for (i = 0; i < 3; i++) a->ports[i] = percent(97) ? percent(95) ? below(2) : 2 : (uint64_t)any_word();
}

/* Whether two joins have other lists. */
static int other_list(const rowkeeper_join *a, const rowkeeper_join *b) {
    return memcmp(&a->options.ranks, &b->options.ranks, sizeof a->options.ranks) != 0 ||
           memcmp(a->rising, b->rising, sizeof a->rising) != 0;
}

/* One call on the host, or on an altered one; after an altered one the host most often goes on as it was. */
static void step(void) {
    int altered = percent(45), joins = 0, answer;
    attempt a;
    if (altered) {
        copy_host(&before, &now);
        if (percent(4)) {
            random_host();
            joins = 1;
        } else {
            joins = alter_host();
        }
    }
    a = attempt_of(any_call());
    equip(&a);
    answer = try_call(&a);
    altered_joins += (uint64_t)joins;
    altered_past_2 += joins && answer != ROWKEEPER_BAD_JOIN;
    altered_lists += joins && answer != ROWKEEPER_BAD_JOIN && a.join.options.ranks.given == 1 && other_list(&a.join, &before.join);
    if (altered && (answer == ROWKEEPER_BAD_JOIN || percent(70))) copy_host(&now, &before);
}

/* Whether the host's join answers little else any more, so that another one is opened soon. */
static int spent(void) {
    return (now.join.state == ROWKEEPER_DONE || now.join.failed == 1) && percent(20);
}

/* The keys of both sides begin about 2^63 apart, the left ones before the right ones or behind them. */
static void start_apart(void) {
    now.left_key = 999 + (int64_t)below(2);
    now.right_key = INT64_MIN + 1000;
    if (percent(40)) {
        now.left_key = -1000 - (int64_t)below(2);
        now.right_key = INT64_MAX - 1000;
    }
}

/* Opens a join over areas of some length and any words; whether it was opened. */
static int open_host(void) {
    rowkeeper_options o = any_options();
    attempt a;
    size_t i;
    memset(&now.join, 0, sizeof now.join);
    now.join.layout = ROWKEEPER_LAYOUT;
    now.join.options = o;
    now.gathers = percent(40);
    now.left_len = now.gathers ? 60 + below(600) : any_length();
    now.right_len = any_length();
    for (i = 0; i < now.left_len; i++) now.left[i] = any_word();
    for (i = 0; i < now.right_len; i++) now.right[i] = any_word();
    now.left_group = now.left_key = now.right_group = now.right_key = 0;
    if (percent(30)) start_apart();
    a = attempt_of(CALL_OPEN);
    return try_call(&a) == 0;
}

/* Whether an answer is among those of a list. */
static int is_among(const int *answers, int answer) {
    while (*answers != NO_ANSWER && *answers != answer) answers++;
    return *answers == answer;
}

/* Prints one line of counts, a column for each answer that a turn or an opening can give; whether none is missing that can be
   there. */
static int report_line(const char *name, const uint64_t *counts, const int *possible) {
    int answer, all = 1;
    printf("%-10s", name);
    for (answer = 0; answer < ANSWERS; answer++) {
        if (is_among(POSSIBLE[CALL_OPEN], answer) || is_among(POSSIBLE[CALL_TURN], answer)) printf(" %9" PRIu64, counts[answer]);
        all &= !is_among(possible, answer) || counts[answer] > 0;
    }
    printf("\n");
    return all;
}

/* Prints the names of the columns. */
static void report_head(void) {
    int answer;
    printf("%-10s %9s", "call", "done");
    for (answer = 1; answer <= ROWKEEPER_LAST_REFUSAL; answer++)
        if (is_among(POSSIBLE[CALL_OPEN], answer) || is_among(POSSIBLE[CALL_TURN], answer)) printf(" %9d", answer);
    printf(" %9s %9s\n", "wants", "idle");
}

/* Prints the counts; whether every answer that a call can give was met. */
static int report(void) {
    int call, all = 1;
    report_head();
    for (call = 0; call < CALLS; call++) all &= report_line(CALL_NAMES[call], met[call], POSSIBLE[call]);
    all &= report_line("run, later", met_after, POSSIBLE_AFTER);
    printf("runs made %" PRIu64 " turns, %" PRIu64 " runs more than one; 'later' are runs in which a turn wrote\n", run_turns,
           several);
    printf("carried: %" PRIu64 " right frames accepted, %" PRIu64 " values and %" PRIu64 " nulls written with matches\n",
           carried_frames, carried_values, carried_nulls);
    printf("distances: %" PRIu64 " written with matches, %" PRIu64 " of them 2^63 - 1, %" PRIu64 " null\n", distances, most_distances,
           null_distances);
    printf("lists: %" PRIu64 " frames accepted, %" PRIu64 " turns made again over numbers, %" PRIu64
           " with values that the list lacks; %" PRIu64 " altered lists not refused\n", listed_frames, ranked_turns, ranked_unlisted,
           altered_lists);
    if (!all) printf("FAIL an answer that a call can give was never met\n");
    if (listed_frames == 0 || ranked_turns == 0 || ranked_unlisted == 0 || altered_lists == 0) {
        printf("FAIL no list was met, or none that was altered\n");
        all = 0;
    }
    if (carried_frames == 0 || carried_values == 0 || carried_nulls == 0) {
        printf("FAIL nothing was carried\n");
        all = 0;
    }
    if (distances == 0 || most_distances == 0 || null_distances == 0) {
        printf("FAIL no distance was met, or none of 2^63 - 1, or none above\n");
        all = 0;
    }
    printf("hostile: seed %" PRIu64 ", %" PRIu64 " calls, %" PRIu64 " on altered joins, %" PRIu64
           " of these not refused by 2; no fault\n", seed, made, altered_joins, altered_past_2);
    return all;
}

/* Opens joins and makes calls on them until there were enough. */
int main(int argc, char **argv) {
    uint64_t calls = begin(argc, argv, "hostile"), steps;
    lend_init(&left_lend, LEND_MOST);
    lend_init(&right_lend, LEND_MOST);
    lend_init(&frame_lend, LEND_MOST);
    lend_init(&out_lend, LEND_MOST);
    lend_init(&new_left_lend, LEND_MOST);
    lend_init(&new_right_lend, LEND_MOST);
    while (made < calls) {
        if (!open_host()) continue;
        for (steps = below(80); steps > 0 && made < calls && !spent(); steps--) step();
    }
    return report() ? 0 : 1;
}
