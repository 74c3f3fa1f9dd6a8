/* See judge.h. Left, right, end, ports and moves are told exactly; of a turn, and of each turn of a run, all
   that needs no look at the order of rows. */
#include "judge.h"

#include <string.h>

#include "rules.h"

/* Whether a + b is above the limit. */
static int above(uint64_t a, uint64_t b, uint64_t limit) {
    return a > limit || b > limit - a;
}

/* The refusal that these options meet at opening, or 0. */
static int options_refusal(const rowkeeper_options *o) {
    uint64_t refusal;
    judge_options(o, &refusal);
    return (int)refusal;
}

void judge_places(const rowkeeper_ranks *k, uint8_t *places) {
    size_t i, j, lesser;
    memset(places, 0, ROWKEEPER_MOST_RANKS);
    if (k->given != 1 || k->count > ROWKEEPER_MOST_RANKS) return;
    for (i = 0; i < k->count; i++) {
        for (j = 0, lesser = 0; j < k->count; j++) lesser += k->codes[j] < k->codes[i];
        places[lesser] = (uint8_t)i;
    }
}

/* Whether a join has other places than its list, which is one that opening takes; those behind the count may be anything. */
static int bad_places(const rowkeeper_join *j) {
    uint8_t places[ROWKEEPER_MOST_RANKS];
    if (j->options.ranks.given == 0) return 0;
    judge_places(&j->options.ranks, places);
    return memcmp(places, j->rising, j->options.ranks.count) != 0;
}

size_t judge_right_columns(const rowkeeper_options *o) {
    return (size_t)(o->by + 1 + o->carried);
}

size_t judge_answer_columns(const rowkeeper_options *o) {
    return (size_t)(1 + o->carried + o->with_distance);
}

/* The words that a turn writes for a frame of so many rows. */
static size_t answer_words(const rowkeeper_options *o, int64_t rows) {
    return 2 + 2 * (size_t)rows * judge_answer_columns(o);
}

/* Whether no join has these numbers. */
static int no_join(const rowkeeper_join *j) {
    if (j->layout != ROWKEEPER_LAYOUT || strange_flags(&j->options) || j->options.strategy > 255) return 1;
    return j->state > 2 || j->right_ended > 1 || j->failed > 1 || j->last_left.some > 1 || j->last_right.some > 1;
}

int judge_bad_join(const rowkeeper_join *j, size_t left_len, size_t right_len) {
    if (no_join(j) || options_refusal(&j->options) != 0 || bad_places(j)) return 1;
    return above(j->base, j->held, right_len / (2 * judge_right_columns(&j->options))) ||
           above(j->queue_start, j->queue_words, left_len) || above(j->pruned, j->held, INT64_MAX) || j->sequence % 2 == 1;
}

/* Whether the words keep the frame rule. */
static int is_frame(const int64_t *w, size_t len, uint64_t c) {
    return holds_table(w, len, (size_t)c, ROWKEEPER_MOST_ROWS);
}

/* The length of the frame that waits first, or 0 where none does. */
static size_t front(const attempt *a) {
    const int64_t *w = a->left + a->join.queue_start;
    uint64_t c = a->join.options.by + 1;
    size_t len;
    if (a->join.queue_words < 2 || w[0] < 0 || w[0] > ROWKEEPER_MOST_ROWS) return 0;
    len = ROWKEEPER_FRAME_WORDS(w[0], c - 1);
    return len <= a->join.queue_words && is_frame(w, len, c) ? len : 0;
}

/* Whether the call comes at the wrong time. */
static int closed(const attempt *a) {
    uint64_t state = a->join.state;
    switch (a->call) {
    case CALL_LEFT: return state != ROWKEEPER_RUNNING;
    case CALL_RIGHT:
    case CALL_END: return a->join.right_ended == 1 || state == ROWKEEPER_DONE;
    case CALL_TURN: return state == ROWKEEPER_DONE;
    default: return 0;
    }
}

/* The refusal that a left or right frame meets by its words and for room, or 0. */
static int frame_refusal(const attempt *a) {
    const rowkeeper_join *j = &a->join;
    uint64_t c = a->call == CALL_LEFT ? j->options.by + 1 : judge_right_columns(&j->options);
    if (!is_frame(a->frame, a->frame_len, c)) return ROWKEEPER_BAD_FRAME;
    if (lacks_code(&j->options, a->frame)) return ROWKEEPER_UNKNOWN_CODE;
    if (a->call == CALL_LEFT) return above(j->queue_words, a->frame_len, a->left_len) ? ROWKEEPER_NO_ROOM : 0;
    if (above(j->held, (uint64_t)a->frame[0], a->right_len / (2 * c))) return ROWKEEPER_NO_ROOM;
    return above(j->pruned + j->held, (uint64_t)a->frame[0], INT64_MAX) ? ROWKEEPER_USED_UP : 0;
}

/* Whether the areas that a move goes to are too short for what waits or for what is held. */
static int short_of_room(const attempt *a) {
    return a->join.queue_words > a->new_left_len ||
           a->join.held > a->new_right_len / (2 * judge_right_columns(&a->join.options));
}

int judge_known(const attempt *a) {
    const uint64_t *p = a->ports;
    if (a->call == CALL_OPEN) return options_refusal(&a->join.options);
    if (judge_bad_join(&a->join, a->left_len, a->right_len)) return ROWKEEPER_BAD_JOIN;
    if (a->call == CALL_PORTS && (p[0] > 2 || p[1] > 2 || p[2] > 2)) return ROWKEEPER_BAD_JOIN;
    if (a->call == CALL_MOVE) return short_of_room(a) ? ROWKEEPER_NO_ROOM : 0;
    if (a->join.failed) return ROWKEEPER_FAILED;
    if (closed(a)) return ROWKEEPER_CLOSED;
    if (a->call == CALL_LEFT || a->call == CALL_RIGHT) return frame_refusal(a);
    if (a->call != CALL_TURN) return 0;
    if (a->join.queue_words == 0) return ANSWER_IDLE;
    if (front(a) == 0) return ROWKEEPER_BAD_FRAME;
    return lacks_code(&a->join.options, a->left + a->join.queue_start) ? ROWKEEPER_UNKNOWN_CODE : -1;
}

/* Whether a turn that got past Idle and refusals 5 and 12 may answer so. */
static int turn_may(const attempt *a, int answer) {
    int64_t n = a->left[a->join.queue_start];
    int room = a->out_len >= answer_words(&a->join.options, n), last = a->join.sequence == UINT64_MAX - 1;
    switch (answer) {
    case ANSWER_WANTS: return a->join.right_ended == 0 && n > 0;
    case ROWKEEPER_NO_ROOM: return !room;
    case ROWKEEPER_USED_UP: return room && last;
    case ROWKEEPER_LEFT_ORDER:
    case ROWKEEPER_RIGHT_ORDER: return room && !last && a->join.options.check > 0;
    default: return answer == 0 && room && !last;
    }
}

/* Whether two joins have the same words. */
static int same_join(const rowkeeper_join *a, const rowkeeper_join *b) {
    return memcmp(a, b, sizeof *a) == 0;
}

/* Whether the words that waited, and then the frame, stand in the queue. */
static int left_taken(const attempt *a, const outcome *o) {
    const rowkeeper_join *was = &a->join;
    rowkeeper_join want = *was;
    const int64_t *queue = o->left + o->join.queue_start;
    want.queue_start = above(was->queue_start, was->queue_words + a->frame_len, a->left_len) ? 0 : was->queue_start;
    want.queue_words += a->frame_len;
    if (!same_join(&want, &o->join)) return 0;
    return memcmp(queue, a->left + was->queue_start, was->queue_words * sizeof *queue) == 0 &&
           memcmp(queue + was->queue_words, a->frame, a->frame_len * sizeof *queue) == 0;
}

/* Whether the held words of one array, values or marks, and then the frame's, stand in the right area. */
static int rows_taken(const attempt *a, const outcome *o, size_t array, const int64_t *cells) {
    size_t c = judge_right_columns(&a->join.options), kept = a->join.held * c;
    const int64_t *was = a->right + array + a->join.base * c, *now = o->right + array + o->join.base * c;
    return memcmp(now, was, kept * sizeof *now) == 0 &&
           memcmp(now + kept, cells, (size_t)a->frame[0] * c * sizeof *now) == 0;
}

/* Whether the rows that were held, and then the frame's, are held. */
static int right_taken(const attempt *a, const outcome *o) {
    size_t c = judge_right_columns(&a->join.options), capacity = a->right_len / (2 * c), n = (size_t)a->frame[0];
    rowkeeper_join want = a->join;
    want.base = above(want.base + want.held, n, capacity) ? 0 : want.base;
    want.held += n;
    return same_join(&want, &o->join) && rows_taken(a, o, 0, a->frame + 2) &&
           rows_taken(a, o, capacity * c, a->frame + 2 + n * c);
}

/* Whether so many words are these, and the words up to a place behind them as they were. */
static int copied(const int64_t *now, const int64_t *words, size_t n, const int64_t *was, size_t end) {
    return memcmp(now, words, n * sizeof *now) == 0 && memcmp(now + n, was + n, (end - n) * sizeof *now) == 0;
}

/* Whether what waited and the rows that were held stand at the fronts of the new areas, all other words as they were. */
static int all_moved(const attempt *a, const outcome *o) {
    size_t c = judge_right_columns(&a->join.options), held = a->join.held * c, from = a->join.base * c;
    size_t half = a->right_len / (2 * c) * c, new_half = a->new_right_len / (2 * c) * c;
    rowkeeper_join want = a->join;
    want.queue_start = 0;
    want.base = 0;
    return same_join(&want, &o->join) &&
           copied(o->new_left, a->left + a->join.queue_start, a->join.queue_words, a->new_left, a->new_left_len) &&
           copied(o->new_right, a->right + from, held, a->new_right, new_half) &&
           copied(o->new_right + new_half, a->right + half + from, held, a->new_right + new_half, a->new_right_len - new_half);
}

/* The node's state after a port call. */
static uint64_t next_state(const attempt *a) {
    uint64_t state = a->join.state;
    if (a->ports[2] == ROWKEEPER_PORT_DONE) return ROWKEEPER_DONE;
    if (state == ROWKEEPER_RUNNING && a->ports[0] == ROWKEEPER_PORT_DONE) state = ROWKEEPER_FLUSH;
    return state == ROWKEEPER_FLUSH && a->join.queue_words == 0 ? ROWKEEPER_DONE : state;
}

/* Whether a port call moved the node and told each port its state. */
static int ports_told(const attempt *a, const outcome *o) {
    uint64_t l = a->ports[0] != 0, r = a->ports[1] != 0, s = a->ports[2] != 0;
    const uint64_t told[3][3] = {{r & s, l & s, l & r}, {2, s, r}, {2, 2, 2}};
    rowkeeper_join want = a->join;
    want.state = next_state(a);
    return same_join(&want, &o->join) && memcmp(told[want.state], o->told, sizeof o->told) == 0;
}

/* Whether a row of an answer is that of a match with this held row: its carried cells, each with mark 1 or as 0 and 0. */
static int is_carried(const attempt *a, uint64_t place, const int64_t *values, const int64_t *marks) {
    const rowkeeper_options *o = &a->join.options;
    size_t c = judge_right_columns(o), capacity = a->right_len / (2 * c), j;
    const int64_t *row = a->right + (a->join.base + place) * c + o->by + 1, *present = row + capacity * c;
    for (j = 0; j < o->carried; j++) {
        int some = present[j] != 0;
        if (marks[j] != some || values[j] != (some ? row[j] : 0)) return 0;
    }
    return 1;
}

/* Whether a value and a mark tell the distance of a row of the frame that waits first from this held row: the greater key less
   the smaller, or null above 2^63 - 1. Rows that match have keys. */
static int is_distance(const attempt *a, size_t row, uint64_t place, int64_t value, int64_t mark) {
    const rowkeeper_options *o = &a->join.options;
    size_t c = judge_right_columns(o), by = (size_t)o->by;
    int64_t left = a->left[a->join.queue_start + 2 + row * (by + 1) + by], right = a->right[(a->join.base + place) * c + by];
    uint64_t distance = left > right ? (uint64_t)left - (uint64_t)right : (uint64_t)right - (uint64_t)left;
    return distance > INT64_MAX ? value == 0 && mark == 0 : value == (int64_t)distance && mark == 1;
}

/* Whether a row of an answer is that of a match of this row of the frame that waits first with this held row: behind the number
   what that row carries, then the distance if it is asked for. */
static int is_match(const attempt *a, size_t row, uint64_t place, const int64_t *values, const int64_t *marks) {
    size_t last = judge_answer_columns(&a->join.options) - 1;
    if (!is_carried(a, place, values + 1, marks + 1)) return 0;
    return a->join.options.with_distance == 0 || is_distance(a, row, place, values[last], marks[last]);
}

/* Whether a row of an answer is null in all its columns. */
static int is_none(const int64_t *values, const int64_t *marks, size_t columns) {
    size_t j;
    for (j = 0; j < columns; j++)
        if (values[j] != 0 || marks[j] != 0) return 0;
    return 1;
}

/* Whether these words have the shape of the matches of the frame that waits first, with numbers of rows that were held, what
   these rows carry, and their distances. */
static int are_matches(const attempt *a, const int64_t *words) {
    size_t c = judge_answer_columns(&a->join.options), n = (size_t)a->left[a->join.queue_start], i;
    uint64_t first = a->join.pruned, held = a->join.held;
    if (words[0] != (int64_t)n || words[1] != (int64_t)c) return 0;
    for (i = 0; i < n; i++) {
        const int64_t *values = words + 2 + i * c, *marks = values + n * c;
        uint64_t number = (uint64_t)values[0];
        if (marks[0] == 0 ? !is_none(values, marks, c)
                          : marks[0] != 1 || number < first || number - first >= held ||
                                !is_match(a, i, number - first, values, marks))
            return 0;
    }
    return 1;
}

/* Whether the output is as it was behind so many words. */
static int rest_untouched(const attempt *a, const outcome *o, size_t words) {
    return memcmp(o->out + words, a->out + words, (a->out_len - words) * sizeof *o->out) == 0;
}

/* Whether a turn's output has its matches and nothing else. */
static int matches_written(const attempt *a, const outcome *o) {
    return are_matches(a, o->out) &&
           rest_untouched(a, o, answer_words(&a->join.options, a->left[a->join.queue_start]));
}

/* Whether turns that wrote moved the join on to this sequence and these words of the queue, and dropped rows from the front
   alone. */
static int moved_on(const rowkeeper_join *was, const rowkeeper_join *now, uint64_t frames, uint64_t turns) {
    uint64_t dropped = now->pruned - was->pruned;
    if (dropped > was->held || now->held != was->held - dropped || now->base != was->base + dropped) return 0;
    if (now->queue_start != was->queue_start + frames || now->queue_words != was->queue_words - frames) return 0;
    if (now->sequence != was->sequence + 2 * turns) return 0;
    if (now->last_left.some > 1 || now->last_right.some > 1) return 0;
    return now->layout == was->layout && memcmp(&was->options, &now->options, sizeof was->options) == 0 &&
           memcmp(was->rising, now->rising, sizeof was->rising) == 0 && now->state == was->state &&
           now->right_ended == was->right_ended;
}

/* Whether a turn that wrote moved the join on by one frame. */
static int turn_moved(const attempt *a, const outcome *o) {
    return moved_on(&a->join, &o->join, front(a), 1) && o->sequence == a->join.sequence && o->join.failed == 0;
}

/* The join that comes back where nothing else is changed: that of an opening has the places of its list, unless its numbers
   tell no options. */
static rowkeeper_join as_it_came(const attempt *a) {
    rowkeeper_join join = a->join;
    if (a->call == CALL_OPEN && !no_join(&join)) judge_places(&join.options.ranks, join.rising);
    return join;
}

/* What is wrong with a call that was accepted or wrote. */
static const char *judge_done(const attempt *a, const outcome *o) {
    rowkeeper_join want = as_it_came(a);
    switch (a->call) {
    case CALL_OPEN: return same_join(&want, &o->join) ? NULL : "the opened join is not a fresh one";
    case CALL_LEFT: return left_taken(a, o) ? NULL : "the frame does not wait as it came";
    case CALL_RIGHT: return right_taken(a, o) ? NULL : "the rows are not held as they came";
    case CALL_END: want.right_ended = 1; return same_join(&want, &o->join) ? NULL : "the end changed something else";
    case CALL_PORTS: return ports_told(a, o) ? NULL : "the ports are told something else";
    case CALL_MOVE: return all_moved(a, o) ? NULL : "the new areas or the join are not those of a move";
    default: break;
    }
    if (!turn_moved(a, o)) return "the turn left another join";
    return matches_written(a, o) ? NULL : "the output is not one of matches";
}

/* What is wrong with a call that changes nothing, or with 8 and 9 marks the join failed. */
static const char *judge_unchanged(const attempt *a, const outcome *o) {
    rowkeeper_join want = as_it_came(a);
    if (o->answer == ROWKEEPER_LEFT_ORDER || o->answer == ROWKEEPER_RIGHT_ORDER) want.failed = 1;
    if (!same_join(&want, &o->join)) return "the join was changed";
    if (o->sequence != 0 || (o->told[0] | o->told[1] | o->told[2]) != 0) return "an answer with something beside it";
    if (memcmp(a->left, o->left, a->left_len * sizeof *a->left) != 0) return "the left area was altered";
    if (memcmp(a->right, o->right, a->right_len * sizeof *a->right) != 0) return "the right area was altered";
    if (memcmp(a->new_left, o->new_left, a->new_left_len * sizeof *a->left) != 0) return "the new left area was altered";
    if (memcmp(a->new_right, o->new_right, a->new_right_len * sizeof *a->right) != 0) return "the new right area was altered";
    return memcmp(a->out, o->out, a->out_len * sizeof *a->out) == 0 ? NULL : "the output was altered";
}

/* What is wrong with the turns of a run that wrote. `next` becomes the turn after them, but for the rows that they dropped
   and remembered, and `at` the count of the words that they wrote. */
static const char *judge_written(attempt *next, const outcome *o, size_t *at) {
    uint64_t turns;
    for (turns = 0; turns < o->turns; turns++) {
        size_t frame, words;
        if (judge_known(next) >= 0 || !turn_may(next, 0)) return "a turn of the run cannot have written";
        if (!are_matches(next, o->out + *at)) return "the output is not one of matches";
        frame = front(next);
        words = answer_words(&next->join.options, next->left[next->join.queue_start]);
        next->join.queue_start += frame;
        next->join.queue_words -= frame;
        next->join.sequence += 2;
        next->out_len -= words;
        *at += words;
    }
    return NULL;
}

/* Whether this may have stopped a run, before the turn `next`. */
static int run_may_stop(const attempt *a, const outcome *o, const attempt *next) {
    int known = judge_known(next);
    if (no_join(&a->join)) return o->answer == ROWKEEPER_BAD_JOIN;
    if (o->turns == a->turns) return o->answer == 0;
    return known >= 0 ? o->answer == known : o->answer != 0 && turn_may(next, o->answer);
}

/* What is wrong with a run: with the turns that wrote, with what it left, or with what stopped it. */
static const char *judge_run(const attempt *a, const outcome *o) {
    attempt next = *a;
    rowkeeper_join left = o->join;
    int fault = o->answer == ROWKEEPER_LEFT_ORDER || o->answer == ROWKEEPER_RIGHT_ORDER;
    size_t at = 0;
    const char *why;
    next.call = CALL_TURN;
    if (o->turns > a->turns) return "more turns than the run may make";
    why = judge_written(&next, o, &at);
    if (why != NULL) return why;
    if (o->words != at) return "another count of words than was written";
    if (!rest_untouched(a, o, at)) return "the output was altered behind what was written";
    if (fault && left.failed != 1) return "an order fault did not mark the join failed";
    if (fault) left.failed = 0;
    if (o->turns == 0 && !same_join(&a->join, &left)) return "the join was changed";
    if (o->turns > 0 && left.failed != 0) return "the join was marked failed";
    if (o->turns > 0 && !moved_on(&a->join, &left, next.join.queue_start - a->join.queue_start, o->turns))
        return "the run left another join";
    next.join = left;
    return run_may_stop(a, o, &next) ? NULL : "an answer that cannot stop this run";
}

const char *judge(const attempt *a, const outcome *o) {
    int known;
    if (a->call == CALL_RUN) return judge_run(a, o);
    known = judge_known(a);
    if (known >= 0 && o->answer != known) return "another answer than SCOPE gives";
    if (known < 0 && !turn_may(a, o->answer)) return "an answer that this turn cannot give";
    return o->answer == 0 ? judge_done(a, o) : judge_unchanged(a, o);
}
