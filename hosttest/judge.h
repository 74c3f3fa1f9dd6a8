/* What a call may answer and alter, told from what came in. */
#ifndef JUDGE_H
#define JUDGE_H

#include "rowkeeper.h"

/* The calls. */
enum { CALL_OPEN, CALL_LEFT, CALL_RIGHT, CALL_END, CALL_PORTS, CALL_TURN, CALL_RUN, CALL_MOVE, CALLS };

/* Answers: 0 accepted, written or all turns of a run used; a refusal is its number; other answers are from 100 on, beyond all
   refusals. */
enum { ANSWER_WANTS = 100, ANSWER_IDLE = 101, ANSWER_UNKNOWN = 102 };
typedef char judge_answers_are_apart[(int)ROWKEEPER_LAST_REFUSAL < (int)ANSWER_WANTS ? 1 : -1];

/* A call with all that is lent to it. */
typedef struct attempt {
    int call;
    rowkeeper_join join;
    const int64_t *left, *right, *frame, *out;
    size_t left_len, right_len, frame_len, out_len;
    uint64_t ports[3];
    size_t turns; /* how many a run may make */
    const int64_t *new_left, *new_right; /* where a move goes to */
    size_t new_left_len, new_right_len;
} attempt;

/* What came back: the answer by its number, the join, and the words as they are now. */
typedef struct outcome {
    int answer;
    uint64_t told[3], sequence;
    uint64_t turns, words; /* what a run made and wrote */
    rowkeeper_join join;
    const int64_t *left, *right, *out, *new_left, *new_right;
} outcome;

/* The places of a list's codes by rising code, as opening puts them into a join; zeros behind them, and where there is no list
   or it is too long. Of equal codes the last one has the place. */
void judge_places(const rowkeeper_ranks *k, uint8_t *places);

/* The columns of a right row with options that are not refused. */
size_t judge_right_columns(const rowkeeper_options *o);

/* The columns of an answer with options that are not refused. */
size_t judge_answer_columns(const rowkeeper_options *o);

/* Whether every call on this join is refused by 2. */
int judge_bad_join(const rowkeeper_join *j, size_t left_len, size_t right_len);

/* The answer that is known before rows are compared, or -1 for a turn that goes on from there. Not for runs. */
int judge_known(const attempt *a);

/* What is wrong with an outcome, or null. Guard words, the frame and areas that are only read are not looked at here. */
const char *judge(const attempt *a, const outcome *o);

#endif
