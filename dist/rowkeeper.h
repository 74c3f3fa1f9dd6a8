/*
 * Rowkeeper's as-of join: the C interface.
 *
 * Each row of a left table takes, from a right table, the last row whose key is not greater (Backward), the first whose
 * key is not smaller (Forward), or the one whose key is nearest, within its group. Both tables arrive in frames, cut
 * anywhere; if both are sorted, no cutting changes a match. The library never allocates and has no global state; it calls
 * memcpy, memmove and memset and nothing else. Its state is the join, a struct that goes in and out of every call by
 * value, and two areas of words that the host lends. docs/SCOPE.md has the whole meaning of the calls in numbered clauses.
 *
 * The library is assembly text for x86-64 Linux and one C99 file for every other machine with lengths of 64 or 32 bits
 * (docs/EMBEDDING.md). After `make install`:
 *
 *     cc host.c $(pkg-config --cflags --libs rowkeeper)
 *
 * From the repository, without installing: `make` writes build/librowkeeper.a and build/librowkeeper.so.3.
 *
 *     cc -Iinclude host.c build/librowkeeper.a
 */
/* ---- tools/interface writes: list */
/*
 * THE CALLS
 *
 *     rowkeeper_open            opens a join: strategy, equality, tolerance, order check, by-columns, carried columns,
 *                               a list of ranks, the distance
 *     rowkeeper_left            takes a left frame, which then waits
 *     rowkeeper_right           takes a right frame, whose rows are then held
 *     rowkeeper_end_right       ends right: no right frame will come any more
 *     rowkeeper_move            takes the join, with what waits and what is held, to other areas, of any lengths
 *     rowkeeper_ports           moves the node on, for hosts that run it in a pipeline; this is also how left ends
 *     rowkeeper_turn            writes the matches of the frame that has waited longest, or answers Wants right or
 *                               Idle
 *     rowkeeper_run             makes turns, up to a given number, and writes their matches one after the other
 *     rowkeeper_spans           without a join: lists which points lie inside the bounds of which intervals, as a pass
 *                               covers performances
 *     rowkeeper_merge           without a join: merges two sorted books of notices into one sorted book, the house's
 *                               rows first where they compare equal
 *     rowkeeper_standing        without a join: tells which notices of a sorted book stand, and for those that do not
 *                               which notice is the last of its group and key
 *     rowkeeper_view_plain      without a join: the plain reader's view of an answer frame of 1 + carried columns; its
 *                               cells are then read by view_cell
 *     rowkeeper_view_distance   without a join: the distance reader's view, of frames of 1 + carried or of 2 + carried
 *                               columns, the last being the distance
 *     rowkeeper_view_cell       without a join: a cell of a frame that was viewed; a place outside it reads as null
 *     rowkeeper_read_plain      without a join: what the plain reader shows of one place of an answer frame
 *     rowkeeper_read_distance   without a join: what the distance reader shows of one place
 *     rowkeeper_plan            without a join: tells how many right rows a join over two sorted tables holds at most,
 *                               and so how large an area to lend
 *     rowkeeper_cut             without a join: tells where a sorted table is cut for a list of groups, so that the
 *                               parts can be joined apart
 *     rowkeeper_join_cut        without a join: joins two sorted tables whole, pair by pair at a list of groups
 *     rowkeeper_takings_add     without a join: adds a frame's matched sales to a table of takings by group: totals
 *                               and sale counts
 *     rowkeeper_takings_join    without a join: joins two tables of takings by group
 *     rowkeeper_version         the version of the library, to compare with ROWKEEPER_VERSION_NUMBER
 */
/* ---- tools/interface: end of list */
/*
 * The calls may come in any order. A host that only wants its matches needs no port call: it makes turns. If a turn
 * answers ROWKEEPER_WANTS_RIGHT, it hands in the next right frame, or ends right if there is none; if a turn answers
 * ROWKEEPER_IDLE, it hands in the next left frame, or is done if there is none.
 *
 * THE JOIN
 *
 * A join is a value: every call takes one and returns the next. Go on with the join that the last call returned, and with
 * the areas as that call left them (free words may be altered: see AREAS). A join and its two areas contain no pointer: they
 * can be copied, or kept in a file and read back later, by another process. Nothing in them is trusted: every call checks
 * the join that comes in, and any words whatever in joins, areas and frames are safe, as long as they stay what they are while
 * the call runs (see POINTERS). Words that encode no join are refused.
 *
 * The first word of a join says its layout: the order and the meaning of all its words, and of those of its areas. It is
 * ROWKEEPER_LAYOUT in every join that this library returns. Promised from version to version: a saved join is read by every
 * version with the same layout word; a version with another one refuses it by 2 in every call, a run of no turns included,
 * returns it as it came and alters no word. So a file of another version is never misread.
 *
 * FRAMES
 *
 * A frame is 2 + 2nc words of 64 bits: the number of rows n (0 to 4,096), the number of columns c, then n × c values,
 * row by row, then n × c marks, row by row. Mark 1: the value is present. Mark 0: it is null, and the value must be 0. No
 * other mark is allowed. A left frame has by + 1 columns: the by-columns that make up the group (0 to 4 of them), then the
 * key. A right frame has by + 1 + carried columns: behind the key stand the columns that come with a match, such as a price
 * (0 to 8 of them). Two left rows with one by-column, (7, 12) and (7, null):
 *
 *     2, 2,   7, 12,  7, 0,   1, 1,  1, 0
 *
 * A table is words of the same form with any number of rows. rowkeeper_merge and rowkeeper_standing take tables of right rows,
 * books of notices. What a turn writes is a frame too; rowkeeper_view_plain, rowkeeper_view_distance and rowkeeper_view_cell
 * read it cell by cell.
 *
 * ORDER
 *
 * Both tables, each taken whole over all its frames, must be sorted by the by-columns in order, then by the key. Numbers
 * ascend, or descend in a by-column with the flag `descending`. Nulls come first, or last in a by-column with the flag
 * `nulls_last`. The key ascends, nulls first. Carried columns are never compared. If a table is not sorted, nothing is
 * promised about the matches. With `check` on, a turn that finds rows out of order is refused by 8 or 9; between left frames
 * it overlooks rows with a null key. With `check` strict it overlooks none: a turn is refused by 8 exactly if its frame is
 * not sorted behind all left rows turned before. So, if the right table is sorted, every match that was written is right,
 * whatever the left rows are (proved: StrictTheorem in crates/lists).
 *
 * One by-column may be sorted by a list of ranks, if its codes do not follow its order: stalls 30, circle 10, gods 20.
 *
 *     options.ranks.given = 1;    options.ranks.column = 0;    options.ranks.count = 3;
 *     options.ranks.codes[0] = 30;    options.ranks.codes[1] = 10;    options.ranks.codes[2] = 20;
 *
 * Wherever rows are compared, that column then goes by place in the list: 30 before 10 before 20, the other way round with
 * the flag `descending`; nulls come first or last as before. Values are equal if their codes are. A frame that has a value
 * there which is not on the list is refused by 12. Only a host that alters held or remembered rows itself can bring one in:
 * it stands behind the listed ones, and two such go by number.
 *
 * MATCHES
 *
 * A right row qualifies for a left row if no key or by-value of either is null, all by-values are equal, its key is on
 * the strategy's side (with or without equality) and the distance of the two keys is within the tolerance. Of these,
 * Backward takes the last row with the greatest key, Forward the first row with the smallest, Nearest the least
 * distance, then the greater key, then the last row. A right row's number is its place among all accepted right rows,
 * from 0.
 *
 * AREAS
 *
 * Lend each call but opening a left and a right area, of the same lengths from call to call; rowkeeper_move changes them.
 * Their words may be anything before the first call. What is needed, in words of 8 bytes:
 *
 *     left    the frames that wait at once: ROWKEEPER_FRAME_WORDS(rows, by) for each
 *     right   the right rows that are held at once: ROWKEEPER_RIGHT_WORDS(rows, by, carried)
 *     output  ROWKEEPER_OUTPUT_WORDS(rows, carried) for the waiting frame that came first; 8,194 words are enough for any
 *             if nothing is carried, 73,730 if 8 columns are; with with_distance 1 ROWKEEPER_DISTANCE_WORDS(rows,
 *             carried), at most 16,386 and 81,922
 *             for a run, these for each frame that it turns: ROWKEEPER_RUN_WORDS(turns, rows, carried) if no frame has
 *             more rows; if carried + with_distance is at most by, as many words as wait (the join's queue_words) are
 *             enough for any number of turns, and if it is more, 1 + carried + with_distance times as many are
 *
 * For example, with one by-column, one waiting frame of 4,096 rows and 100,000 held rows: 16,386 words of left area,
 * 400,000 of right area and 8,194 of output, 3.4 MB in all.
 *
 * If memory is to be fixed beforehand and both tables are at hand, rowkeeper_plan tells the smallest right area for a host
 * that lets all left frames wait and hands in a right frame only when a turn wants one: ROWKEEPER_RIGHT_WORDS(rows, by,
 * carried) of its first figure (proved: `table-plans` in crates/schedules).
 *
 * Turns free what they no longer need, and freed words are used again. A right area for all right rows is always enough.
 * If it is smaller, a frame with no room is refused by 6. It can be handed in again after turns have freed room, or be cut
 * into smaller frames, of which the first may fit. But if a turn wants right rows and none fit, only a larger area helps:
 * rowkeeper_move takes the join to one. Held row i (from 0) has its values from word (base + i) × c of the right area and
 * its marks from word (R + base + i) × c, where c is by + 1 + carried; R is the area's length ÷ 2c, rounded down. Waiting frames are stored without gaps
 * in the left area, queue_words words from word queue_start on. All other words of both areas are free: no call reads them,
 * and the host may alter them between calls without changing any answer, match or join (proved: `free-unread` in
 * crates/lists).
 *
 * COST
 *
 * A left or a right call costs the words of its frame, whatever is held; one that passes the area's end also moves what is
 * live to the front. A turn that writes costs the rows of its frame and some of the held rows of their groups, each passed
 * a few times: for Forward those up to the first that fits the frame's last key of that group; for Backward those from the
 * end back to the last that fits its first key; for Nearest all, or, if the frame has a single key in that group and a held
 * row has it, those from the end back to the last that has it. That is so if both sides are sorted by key; if they are not
 * (check off), every row of the frame may look at all held rows of its group. With the check on all held rows are passed.
 * So full frames are the quickest, equal keys cost no more than others, and right rows that are handed in before a turn
 * wants them are passed by every turn in between, unless the strategy is Forward and the check is off.
 * With a list of ranks every call goes over the list once, whatever the frame has, and a value of its column that is not the
 * one of the row before is looked up by halving the list.
 * In instructions, counted by callgrind: a left or a right call of one row 760 to 800, and 3.25 for each word more of its frame
 * where no cell is null; a turn that writes, for each row of a full frame, 77 without by-columns and 99 with one and large
 * groups, all passes over both sides included, with the check on 72 and 94, and some 32 for each cell that is carried; a held
 * row ahead of the frame 5 (Backward); a turn that writes one row 2,200 without by-columns, 3,000 with one; a turn that wants
 * right rows 1,800 to 2,200 without by-columns, and 1.4 for each word of the frame that waits; with a list of ranks 10 more for
 * each of its codes in every call. docs/BENCH.md has these and the times.
 *
 * REFUSALS
 *
 * A refused call gives one of the numbers below: of those that apply, the first in checking order, which is not the order of
 * the numbers. rowkeeper_refusal_text has a sentence for each. A refused call other than rowkeeper_run alters no word of
 * areas, frame or output and returns the join as it came, except that 8 and 9 mark it failed. In a run all this is true of
 * the turn that was refused: what the turns before it wrote stays, and the join is the one that they left.
 *
 * POINTERS, OWNERSHIP, THREADS
 *
 * - A pointer must be aligned to 8 bytes and lead to as many words as its length says. If the length is 0, any pointer will
 *   do, also null: nothing is read or written through it.
 * - What a call may write (a pointer that is not const) must not overlap anything else that the same call is given.
 * - Nobody alters what a call is given, const or not, until the call returns: no other thread, no signal handler, no other
 *   process that maps the same file. A call reads words again that it has checked. Every promise of this header about any
 *   words is about words that do not change during the call; if they do, a call may read and write anywhere. Memory that
 *   others can write must be copied first.
 * - All memory stays the host's. No call keeps a pointer: what is lent is the host's again when the call returns.
 * - A call never allocates, blocks, prints, exits, unwinds, sets errno or touches memory outside what it is lent.
 * - There is no global state: calls on different joins with different areas may run at the same time on any threads. One
 *   join with its areas is used by one thread at a time.
 *
 * VERSIONS
 *
 * Header, library, Rust crate and command have one version, ROWKEEPER_VERSION. Compile a host with the header of the library
 * that it is linked with; rowkeeper_version() is the library's own number. While the first number of the version is 0, a new
 * second number may change calls, structs and the layout of joins; a new third number changes none of them, and the new
 * library can be put in the place of the old one. The number in librowkeeper.so.3 grows with every version
 * for which a host must be compiled anew. CHANGES.md lists every change by what it asks of a host. Refusals may be added in
 * any version, so a host that switches over them needs a case for numbers that it does not know.
 */
#ifndef ROWKEEPER_H
#define ROWKEEPER_H

#include <stddef.h>
#include <stdint.h>

#ifdef __cplusplus
extern "C" {
#endif

/* The library is for machines with lengths of 64 or 32 bits: elsewhere this line does not compile. */
typedef char rowkeeper_lengths_have_64_or_32_bits[sizeof(size_t) == 8 || sizeof(size_t) == 4 ? 1 : -1];

/* A function of this header; a host need not use it. */
#if defined(__GNUC__)
#define ROWKEEPER_INLINE static __inline__ __attribute__((unused))
#else
#define ROWKEEPER_INLINE static inline
#endif

/* ---- tools/interface writes: constants */
/* The version that this header is of: as text, and as a number that grows from version to version
   (1,000,000 × major + 1,000 × minor + patch). */
#define ROWKEEPER_VERSION "0.5.2"
#define ROWKEEPER_VERSION_NUMBER 5002

/* The rows that a frame can have at most. */
#define ROWKEEPER_MOST_ROWS 4096

/* The by-columns that a join can have at most. */
#define ROWKEEPER_MOST_BY 4

/* The carried columns that a join can have at most. */
#define ROWKEEPER_MOST_CARRIED 8

/* The codes that a list of ranks can have at most. */
#define ROWKEEPER_MOST_RANKS 64

/* options.tolerance if any distance will do. */
#define ROWKEEPER_NO_TOLERANCE (-1)

/* join.layout: the bytes "rowkeep" from the highest down, then the layout's version, 4. */
#define ROWKEEPER_LAYOUT ((uint64_t)0x726f776b65657004u)

/* The words of a join. */
#define ROWKEEPER_JOIN_WORDS 122
/* ---- tools/interface: end of constants */

/* Lengths in words. A host's own `rows`, `by` and `carried` are taken as they are: up to 4,096, 4 and 8 nothing can overflow. */
#define ROWKEEPER_FRAME_WORDS(rows, by) (2 + 2 * (size_t)(rows) * ((size_t)(by) + 1))
#define ROWKEEPER_RIGHT_FRAME_WORDS(rows, by, carried) (2 + ROWKEEPER_RIGHT_WORDS(rows, by, carried))
#define ROWKEEPER_RIGHT_WORDS(rows, by, carried) (2 * (size_t)(rows) * ((size_t)(by) + 1 + (size_t)(carried)))
#define ROWKEEPER_OUTPUT_WORDS(rows, carried) (2 + 2 * (size_t)(rows) * (1 + (size_t)(carried)))
/* The same with the distance, options.with_distance 1: a column more. */
#define ROWKEEPER_DISTANCE_WORDS(rows, carried) ROWKEEPER_OUTPUT_WORDS(rows, (size_t)(carried) + 1)
/* What so many turns write at most if no frame has more rows; with the distance, of carried + 1. The product is the host's own: a
   huge `turns` overflows. */
#define ROWKEEPER_RUN_WORDS(turns, rows, carried) ((size_t)(turns) * ROWKEEPER_OUTPUT_WORDS(rows, carried))
/* What so many pairs of rowkeeper_spans take. There are at most rows of points × rows of intervals of them. */
#define ROWKEEPER_SPANS_WORDS(pairs) (2 + 4 * (size_t)(pairs))
/* What rowkeeper_standing writes for a book of so many rows. */
#define ROWKEEPER_STANDING_WORDS(rows) (2 + 4 * (size_t)(rows))
/* What rowkeeper_cut writes for so many boundaries. */
#define ROWKEEPER_CUT_WORDS(boundaries) (2 + 2 * (size_t)(boundaries))
/* A table of takings by group, of so many rows. */
#define ROWKEEPER_TAKINGS_WORDS(rows, by) (2 + 2 * (size_t)(rows) * ((size_t)(by) + 2))

/* ---- tools/interface writes: enumerations */
/* options.strategy */
enum { ROWKEEPER_BACKWARD = 0, ROWKEEPER_FORWARD = 1, ROWKEEPER_NEAREST = 2 };

/* options.check */
enum { ROWKEEPER_CHECK_OFF = 0, ROWKEEPER_CHECK_ON = 1, ROWKEEPER_CHECK_STRICT = 2 };

/* join.state */
enum { ROWKEEPER_RUNNING = 0, ROWKEEPER_FLUSH = 1, ROWKEEPER_DONE = 2 };

/* The state of a port, as it comes in to rowkeeper_ports and as it is returned. */
enum { ROWKEEPER_PORT_BLOCKED = 0, ROWKEEPER_PORT_READY = 1, ROWKEEPER_PORT_DONE = 2 };

/* turned.answer */
enum { ROWKEEPER_WROTE = 0, ROWKEEPER_WANTS_RIGHT = 1, ROWKEEPER_IDLE = 2, ROWKEEPER_REFUSED = 3 };

/* ran.stop: this, or the answer of the turn that wrote nothing: ROWKEEPER_WANTS_RIGHT, ROWKEEPER_IDLE or
   ROWKEEPER_REFUSED */
enum { ROWKEEPER_TURNS_USED = 0 };

/* refusal. If several apply, the first in checking order is reported; that order is:
   1, 10, 11, 2 to 5, 12 to 18, 6 to 9. */
enum {
    /* Not refused. */
    ROWKEEPER_ACCEPTED = 0,
    /* The options are invalid: by above 4, strategy above 2, tolerance below -1, Nearest without equality, check above
       2, or a flag, ranks.given and with_distance included, that is neither 0 nor 1. Spans: a bound that is neither;
       cut: a side that is neither. Opening then returns no join: every call refuses by 2 what it returns, except a run
       of no turns, which refuses nothing.
       Given by open, spans, merge, standing, plan, cut, join_cut, takings_add, takings_join. */
    ROWKEEPER_BAD_OPTIONS = 1,
    /* The join is inconsistent or does not fit its areas: another layout word, options as in 1, 10 or 11, a list of ranks with
       other bytes in `rising` than opening puts there, base + held above R, queue_start + queue_words above the left area,
       pruned + held above 2^63 - 1, an odd sequence, or a state, flag or port code that does not exist.
       Given by left, right, end_right, move, ports, turn, run. */
    ROWKEEPER_BAD_JOIN = 2,
    /* An earlier turn found rows out of order and marked the join failed. A failed join can still be moved, and a run
       of no turns refuses nothing.
       Given by left, right, end_right, ports, turn, run. */
    ROWKEEPER_FAILED = 3,
    /* At the wrong time: a left frame if the node is not Running; a right frame or an end of right if right has ended or the node
       is Done; a turn if the node is Done.
       Given by left, right, end_right, turn, run. */
    ROWKEEPER_CLOSED = 4,
    /* The words are not a frame or table with the columns that the call expects. Left, right: a frame of that side;
       turn, run: the frame that waits first. Spans: points of one column, intervals of two. Merge, standing: tables of
       the right side. Plan, cut, join_cut: tables of their side, boundaries of `by` columns. Takings: a table of by + 2
       columns, a left frame, an answer frame of the same height. The readers: a frame of any columns. A table may have
       any number of rows.
       Given by left, right, turn, run, spans, merge, standing, view_plain, view_distance, read_plain, read_distance,
       plan, cut, join_cut, takings_add, takings_join. */
    ROWKEEPER_BAD_FRAME = 5,
    /* No room: for a frame in the left area, for its rows in the right area, for what a join holds in the areas that it
       moves to, for a pair of join_cut in its areas, or for the answer in the output.
       Given by left, right, move, turn, run, spans, merge, standing, cut, join_cut, takings_add, takings_join. */
    ROWKEEPER_NO_ROOM = 6,
    /* The numbers are used up: right rows past 2^63 - 1, or a turn at sequence 2^64 - 2.
       Given by right, turn, run. */
    ROWKEEPER_USED_UP = 7,
    /* Check on or strict: left rows are out of order, in the frame or against an earlier one. The join is marked failed.
       Given by turn, run. */
    ROWKEEPER_LEFT_ORDER = 8,
    /* Check on or strict: right rows are out of order. The join is marked failed.
       Given by turn, run. */
    ROWKEEPER_RIGHT_ORDER = 9,
    /* More than 8 carried columns: in the options, or in what a reader is given.
       Given by open, merge, standing, view_plain, view_distance, read_plain, read_distance, plan, cut, join_cut,
       takings_add, takings_join. */
    ROWKEEPER_TOO_MANY_CARRIED = 10,
    /* With ranks.given 1: ranks.count is 0 or above 64, a code occurs twice among the first ranks.count, or
       ranks.column is not below by.
       Given by open, merge, standing, plan, cut, join_cut, takings_add, takings_join. */
    ROWKEEPER_BAD_RANKS = 11,
    /* With a list of ranks: a value of its column, in a frame, a table or the boundaries, is not on the list. A null is
       not a value. Turn, run: in the frame that waits first.
       Given by left, right, turn, run, merge, standing, plan, cut, join_cut, takings_add, takings_join. */
    ROWKEEPER_UNKNOWN_CODE = 12,
    /* Standing: the place is not one of the carried columns. The readers: the frame has a column count that the reader
       does not know; the plain one knows 1 + carried, the distance reader 2 + carried as well. Takings: nothing is
       carried, or the answer frame has neither 1 + carried nor 2 + carried columns.
       Given by standing, view_plain, view_distance, read_plain, read_distance, takings_add, takings_join. */
    ROWKEEPER_BAD_COLUMNS = 13,
    /* A table is not sorted as the options say. Takings: a table of subtotals has a null, or a group that does not come
       after the one before.
       Given by merge, standing, plan, cut, join_cut, takings_add, takings_join. */
    ROWKEEPER_UNSORTED = 14,
    /* An amount is outside -1,000,000,000 to 1,000,000,000; a count is below 1; a sum of counts, or the number of sales
       without an amount, is above 2^31 or that number below 0; or a total is larger in size than its count times
       1,000,000,000.
       Given by takings_add, takings_join. */
    ROWKEEPER_BEYOND = 15,
    /* A point is null, or greater than the next.
       Given by spans. */
    ROWKEEPER_BAD_POINTS = 16,
    /* Heights do not add up to the rows of their table, or a height is below 0 or above 4,096.
       Given by plan. */
    ROWKEEPER_BAD_HEIGHTS = 17,
    /* More than 16 boundaries, a boundary where by is 0, one that is null in any column, or boundaries that do not
       ascend strictly.
       Given by cut, join_cut. */
    ROWKEEPER_BAD_BOUNDARIES = 18,
    /* The greatest number of a refusal in this version. Later versions may have greater ones. */
    ROWKEEPER_LAST_REFUSAL = 18
};

/* One sentence on a refusal, by its number; also on 0 and on numbers that no refusal has. The library has no
   such symbol: the texts are those of the header. */
ROWKEEPER_INLINE const char *rowkeeper_refusal_text(uint64_t refusal) {
    switch (refusal) {
    case ROWKEEPER_ACCEPTED: return "accepted";
    case ROWKEEPER_BAD_OPTIONS: return "the options are invalid";
    case ROWKEEPER_BAD_JOIN: return "the join is inconsistent, or does not fit its areas";
    case ROWKEEPER_FAILED: return "an earlier turn found rows out of order";
    case ROWKEEPER_CLOSED: return "the call comes at the wrong time";
    case ROWKEEPER_BAD_FRAME: return "the words are not a frame or table with the columns that the call expects";
    case ROWKEEPER_NO_ROOM: return "there is no room in an area or in the output";
    case ROWKEEPER_USED_UP: return "the numbers of rows or turns are used up";
    case ROWKEEPER_LEFT_ORDER: return "left rows are out of order";
    case ROWKEEPER_RIGHT_ORDER: return "right rows are out of order";
    case ROWKEEPER_TOO_MANY_CARRIED: return "there are more than 8 carried columns";
    case ROWKEEPER_BAD_RANKS: return "the list of ranks is empty or too long, has a code twice or is for no by-column";
    case ROWKEEPER_UNKNOWN_CODE: return "the by-column with a list of ranks has a value that is not on the list";
    case ROWKEEPER_BAD_COLUMNS: return "there is no such column, or the reader does not know frames of so many columns";
    case ROWKEEPER_UNSORTED: return "the table is not sorted";
    case ROWKEEPER_BEYOND: return "an amount, a count or a sum is beyond its limits";
    case ROWKEEPER_BAD_POINTS: return "a point is null, or greater than the next";
    case ROWKEEPER_BAD_HEIGHTS: return "the heights do not add up to their table, or one is no height of a frame";
    case ROWKEEPER_BAD_BOUNDARIES: return "the boundaries are too many, null or out of order, or there are no by-columns";
    default: return "no refusal of this version has this number";
    }
}
/* ---- tools/interface: end of enumerations */

/* ---- tools/interface writes: structs */
/* A list of codes for one by-column, which then compares by place in the list and not by number; or none. */
typedef struct rowkeeper_ranks {
    uint64_t given;    /* 1: there is a list; 0: there is none, and the fields below may be anything */
    uint64_t column;   /* the by-column that it is for, from 0 */
    uint64_t count;    /* how many codes it has, 1 to 64 */
    int64_t codes[64]; /* the codes in their order, each once; the words behind the first `count` may be anything */
} rowkeeper_ranks;

/* What a join is opened with. Flags are 0 or 1, also those past `by`. */
typedef struct rowkeeper_options {
    uint64_t by;            /* by-columns, 0 to 4; left rows have by + 1 columns, the key last */
    uint64_t strategy;      /* ROWKEEPER_BACKWARD, ROWKEEPER_FORWARD or ROWKEEPER_NEAREST */
    uint64_t allow_eq;      /* whether an equal key matches; Nearest needs it */
    int64_t tolerance;      /* the greatest distance of two keys, or ROWKEEPER_NO_TOLERANCE */
    uint64_t check;         /* ROWKEEPER_CHECK_OFF, ROWKEEPER_CHECK_ON or ROWKEEPER_CHECK_STRICT: whether turns check the order of rows */
    uint64_t descending[4]; /* for each by-column: whether its numbers descend */
    uint64_t nulls_last[4]; /* for each by-column: whether its nulls come last */
    uint64_t carried;       /* columns that right rows have behind the key, 0 to 8: they come with the match */
    rowkeeper_ranks ranks;  /* the codes by whose places one by-column is sorted, or none */
    uint64_t with_distance; /* whether answers have a last column, the distance of the two keys */
} rowkeeper_options;

/* A row that the order check remembers, or none. A mark other than 0 means present. */
typedef struct rowkeeper_row {
    uint64_t some;     /* whether there is one */
    int64_t values[5]; /* its values, those past its columns unused */
    int64_t marks[5];  /* its marks */
} rowkeeper_row;

/* A join: 122 words, no padding. A host may read every field and need not. */
typedef struct rowkeeper_join {
    uint64_t layout;           /* ROWKEEPER_LAYOUT */
    rowkeeper_options options; /* what it was opened with */
    uint8_t rising[64];        /* the places of the list's codes by rising code, found at opening: nothing for a host to fill or read */
    uint64_t base;             /* the place of the first held row in the right area, in rows */
    uint64_t held;             /* right rows held */
    uint64_t pruned;           /* right rows dropped: held row i has the number pruned + i */
    uint64_t queue_start;      /* the place of the first waiting frame in the left area, in words */
    uint64_t queue_words;      /* words waiting there; 0: no frame waits */
    uint64_t state;            /* ROWKEEPER_RUNNING, ROWKEEPER_FLUSH or ROWKEEPER_DONE */
    uint64_t right_ended;      /* 0 or 1 */
    uint64_t failed;           /* 0 or 1 */
    uint64_t sequence;         /* twice the number of turns that wrote */
    rowkeeper_row last_left;   /* what the order check remembers of left */
    rowkeeper_row last_right;  /* what the order check remembers of right */
} rowkeeper_join;

/* The answer of opening, left, right and the end of right. */
typedef struct rowkeeper_took {
    uint64_t refusal;    /* 0 accepted, else the refusal's number */
    rowkeeper_join join; /* the join from here on */
} rowkeeper_took;

/* The answer of a port call. */
typedef struct rowkeeper_ported {
    uint64_t refusal;    /* 0 accepted, else the refusal's number */
    uint64_t left;       /* the new state of left; 0 if refused */
    uint64_t right;      /* the new state of right; 0 if refused */
    uint64_t send;       /* the new state of send; 0 if refused */
    rowkeeper_join join; /* the join from here on */
} rowkeeper_ported;

/* The answer of a turn. */
typedef struct rowkeeper_turned {
    uint64_t answer;     /* ROWKEEPER_WROTE, ROWKEEPER_WANTS_RIGHT, ROWKEEPER_IDLE or ROWKEEPER_REFUSED */
    uint64_t refusal;    /* with ROWKEEPER_REFUSED the refusal's number, else 0 */
    uint64_t sequence;   /* with ROWKEEPER_WROTE the number of the frame written (0, 2, 4 and so on), else 0 */
    rowkeeper_join join; /* the join from here on */
} rowkeeper_turned;

/* The answer of a run. */
typedef struct rowkeeper_ran {
    uint64_t turns;      /* how many turns wrote */
    uint64_t words;      /* how many words they wrote, one after the other, from the output's first word on */
    uint64_t stop;       /* ROWKEEPER_TURNS_USED, or the answer of the turn that wrote nothing */
    uint64_t refusal;    /* with ROWKEEPER_REFUSED that turn's refusal, else 0 */
    rowkeeper_join join; /* the join from here on */
} rowkeeper_ran;

/* The answer of a call that writes a table. */
typedef struct rowkeeper_written {
    uint64_t refusal; /* 0 accepted, else the refusal's number */
    uint64_t rows;    /* how many rows were written; 0 if refused */
} rowkeeper_written;

/* The answer of a reader's view. */
typedef struct rowkeeper_viewed {
    uint64_t refusal; /* 0 accepted, else the refusal's number */
    uint64_t rows;    /* how many rows the frame has; 0 if refused */
    uint64_t columns; /* how many columns it has; 0 if refused */
} rowkeeper_viewed;

/* A cell of a frame, as its two words. */
typedef struct rowkeeper_cell {
    int64_t value; /* its value; 0 if it is null */
    int64_t mark;  /* 1: it has a value; 0: it is null */
} rowkeeper_cell;

/* The answer of a reader for one place. */
typedef struct rowkeeper_shown {
    uint64_t refusal; /* 0 accepted, else the refusal's number */
    int64_t value;    /* the cell's value; 0 if it is null, or if refused */
    int64_t mark;     /* 1: it has a value; 0: it is null, or refused */
} rowkeeper_shown;

/* The answer of a plan: the figures of its schedule, all 0 if refused. */
typedef struct rowkeeper_planned {
    uint64_t refusal; /* 0 accepted, else the refusal's number */
    uint64_t rows;    /* the most right rows held at once: the smallest R that meets no refusal 6 on the right */
    uint64_t turns;   /* the turn calls up to the last frame written, those that want right rows among them */
    uint64_t rights;  /* the right frames taken */
} rowkeeper_planned;

/* The answer of a call over takings. */
typedef struct rowkeeper_taken {
    uint64_t refusal; /* 0 accepted, else the refusal's number */
    uint64_t rows;    /* how many rows the table has that was written; 0 if refused */
    int64_t number;   /* the matched sales without an amount, beside the table; 0 if refused */
} rowkeeper_taken;
/* ---- tools/interface: end of structs */

/* ---- tools/interface writes: calls */
/* Opens a join: Running, right not ended, nothing held, waiting or remembered. Of a list of ranks it finds the places of the
   codes by rising code, and keeps them in the join. Refused by 1, 10 and 11 alone. */
rowkeeper_took rowkeeper_open(rowkeeper_options options);

/* Hands in a left frame. Its words are copied behind those that wait; if they would pass the area's end, the waiting frames
   move to the front first. The right area and the frame are only read. Refused by 2 to 5, 12 and 6. */
rowkeeper_took rowkeeper_left(rowkeeper_join join, int64_t *left, size_t left_len, const int64_t *right,
                              size_t right_len, const int64_t *frame, size_t frame_len);

/* Hands in a right frame. Its rows are copied behind those held; if they would pass the area's end, the held rows move to the
   front first. The left area and the frame are only read. Refused by 2 to 5, 12, 6 and 7. */
rowkeeper_took rowkeeper_right(rowkeeper_join join, const int64_t *left, size_t left_len, int64_t *right,
                               size_t right_len, const int64_t *frame, size_t frame_len);

/* Ends right: turns want no more right rows from here on. Alters no word. Refused by 2 to 4. */
rowkeeper_took rowkeeper_end_right(rowkeeper_join join, const int64_t *left, size_t left_len, const int64_t *right,
                                   size_t right_len);

/* Moves a join to other areas, of any lengths: to longer ones if a frame finds no room, to shorter ones if they are enough.
   The words that wait are copied to the front of the new left area. Of the held rows, the values are copied to the front of
   the new right area and the marks to its word R * c, where R is this area's length / 2c, rounded down. All other words of
   the new areas stay as they are; they may be anything. The join comes back with queue_start 0 and base 0, and is otherwise
   as it came. Go on with it and the new areas: the old ones are only read, and belong to nothing any more.
   Needed, in words: queue_words on the left, ROWKEEPER_RIGHT_WORDS(held, by, carried) on the right; less is refused by 6.
   Refused by 2 before that, if the join does not hold together or does not fit the old areas; 3 and 4 do not apply, so a join that has
   failed or ended is moved too, and stays what it is. A refused move alters no word and returns the join as it came.
   What a move costs is the words that it copies. No later answer or match is another one than without the move, but that a
   frame may find room in the one pair of areas and none in the other (proved: `move-lists` in crates/lists).
   An area of length 0, old or new, may have any pointer, null too. The new areas must overlap neither the old ones nor each
   other. */
rowkeeper_took rowkeeper_move(rowkeeper_join join, const int64_t *left, size_t left_len, const int64_t *right,
                              size_t right_len, int64_t *new_left, size_t new_left_len, int64_t *new_right,
                              size_t new_right_len);

/* A port call: the states of left, right and send come in, a new state for each is returned. Send Done makes the node Done.
   Left Done makes a Running node Flush: it takes no left frame any more. A node in Flush with nothing waiting is Done.
   Running: a port gets Ready unless one of the other two came Blocked. Flush: left gets Done, right and send each get Ready
   unless the other came Blocked. Done: all get Done. Right Done is not the end of right: that is rowkeeper_end_right. Alters
   no word. Refused by 2 and 3; a port code above 2 by 2. */
rowkeeper_ported rowkeeper_ports(rowkeeper_join join, const int64_t *left, size_t left_len, const int64_t *right,
                                 size_t right_len, uint64_t left_port, uint64_t right_port, uint64_t send_port);

/* A turn, for the waiting frame that came first.
   ROWKEEPER_IDLE: no frame waits. Nothing is changed.
   ROWKEEPER_WANTS_RIGHT: right rows that are still to come might match. Nothing is changed.
   ROWKEEPER_WROTE: the output begins with a frame of n rows and 1 + carried columns, for the n rows of the frame in order:
   n, 1 + carried, then the values row by row, then the marks row by row. In a row stand the number of the right row that
   matches and the carried cells of that row; if no row matches, all of them are null (0 and 0). With nothing carried that is
   n, 1, n numbers, n marks. With with_distance 1 there is one column more, the last: the distance of the two keys, null if no
   row matches or it is above 2^63 - 1. The words behind these ROWKEEPER_OUTPUT_WORDS(n, carried), with the distance
   ROWKEEPER_DISTANCE_WORDS(n, carried), are untouched. The frame no longer waits, and right rows that no later left row can
   match are dropped.
   ROWKEEPER_REFUSED: by 2 to 5, 12 and 6 to 9. Both areas are only read in every case. */
rowkeeper_turned rowkeeper_turn(rowkeeper_join join, const int64_t *left, size_t left_len, const int64_t *right,
                                size_t right_len, int64_t *out, size_t out_len);

/* A run: turns one after the other, `turns` of them at most, each writing behind the one before: what a host gets that makes
   these turns itself. Only turns that write count; the first that does not write ends the run.
   ROWKEEPER_TURNS_USED: `turns` turns wrote. No other was tried, so frames may still wait, or none.
   ROWKEEPER_IDLE, ROWKEEPER_WANTS_RIGHT: what the next turn answered; it changed nothing.
   ROWKEEPER_REFUSED: the next turn was refused, by 2 to 5, 12 and 6 to 9. It altered no word; 8 or 9 marks the join failed. After 6, if
   what is left of the output is too short for the next frame, go on with another output.
   Whatever ends the run, what the earlier turns wrote stays, and so does the join that they left. The output begins with
   `words` words: what each turn wrote, in order. The first two words of each part are its n and its columns c, so the next
   part begins 2 + 2nc words further on. The words behind them are untouched. The frames' numbers are not reported: the first is the sequence of the
   join that came in, and each further one is 2 more. With `turns` 0 no turn is tried: nothing is refused and the join comes
   back as it came, whatever it is; only numbers that no join has (another layout word, a flag above 1, a state above 2, a
   strategy above 255) are refused by 2. Both areas are only read in every case. No run goes on for ever: each turn takes a
   waiting frame. */
rowkeeper_ran rowkeeper_run(rowkeeper_join join, size_t turns, const int64_t *left, size_t left_len,
                            const int64_t *right, size_t right_len, int64_t *out, size_t out_len);

/* Lists which points lie inside the bounds of which intervals, as a pass is good for the performances between two minutes.
   Points are a frame of one column, none of them null, none greater than the next; equal ones are fine. Intervals are a frame
   of two columns, the lower and the upper bound, in any order; a row with a null bound covers nothing and is counted all the
   same. Each flag is 1 if that bound itself is inside, 0 if it is not. If the lower bound is above the upper one, or equal to
   it with a flag that is 0, nothing is inside.
   The output has k, 2, then k pairs of numbers, then 2k marks, all 1: for each point inside, the number of the interval's row
   and the number of the point's row, both from 0 as they were handed in; interval by interval, and for each in the points'
   order. These are ROWKEEPER_SPANS_WORDS(k) words, the words behind them are untouched, and `rows` is k. Two frames can have
   4,096 × 4,096 pairs, which are 67,108,866 words; a host that cannot lend so many hands in fewer intervals at a time, down
   to one row, whose pairs are at most as many as the points. A refusal by 6 does not report how many words are needed.
   Refused by 1, 5, 16 and 6, in this order: a flag above 1; words that are no such frame; points that are null or out of
   order; too short an output. Both frames are only read in every case.
   A call reads every word of both frames, makes four binary searches for each interval and writes four words for each pair.
   Three minutes, and a pass from 10 up to but not including 30:

       static const int64_t points[] = {3, 1, 10, 20, 30, 1, 1, 1}, pass[] = {1, 2, 10, 30, 1, 1};
       int64_t out[10];
       rowkeeper_written w = rowkeeper_spans(points, 8, pass, 6, 1, 0, out, 10);

   w is {0, 2} and out is 2, 2, 0, 0, 0, 1, 1, 1, 1, 1: row 0 covers points 0 and 1. */
rowkeeper_written rowkeeper_spans(const int64_t *points, size_t point_words, const int64_t *intervals,
                                  size_t interval_words, uint64_t lower_inclusive, uint64_t upper_inclusive,
                                  int64_t *out, size_t out_words);

/* Merges two sorted tables of right rows, a house's book and its festival's, into one sorted table: every row of both and no
   other, in the order that each book has them, and of rows that compare equal the house's first, whatever they carry. Of the
   options only by, descending, nulls_last, carried and ranks say how rows lie and compare; the others must be valid all the same.
   Both books have by + 1 + carried columns and any number of rows, n and m. The output has n + m, the number of columns,
   then the values, then the marks: ROWKEEPER_RIGHT_FRAME_WORDS(n + m, by, carried) words; those behind them are untouched, and `rows`
   is n + m. What is written can be handed on as a book, or cut in frames for a join.
   Refused by 1, 10, 11, 5, 12, 14 and 6, in this order: options that opening would refuse; a book that is no table of these columns; a value
   that the list of ranks lacks; a book that is not sorted; too short an output. Both books must pass a number before the next is
   looked at. They are only read in every case.
   A call passes both books twice and compares one pair of rows for each row that it writes.
   Two notices of a house and one of its festival, by minute and price:

       static const int64_t house[] = {2, 2, 10, 1800, 30, 2500, 1, 1, 1, 1}, festival[] = {1, 2, 20, 2200, 1, 1};
       rowkeeper_options options = {0};
       int64_t out[14];
       options.tolerance = ROWKEEPER_NO_TOLERANCE;
       options.carried = 1;
       rowkeeper_written w = rowkeeper_merge(options, house, 10, festival, 6, out, 14);

   w is {0, 3} and out is 3, 2, 10, 1800, 20, 2200, 30, 2500, 1, 1, 1, 1, 1, 1. */
rowkeeper_written rowkeeper_merge(rowkeeper_options options, const int64_t *house, size_t house_words,
                                  const int64_t *festival, size_t festival_words, int64_t *out, size_t out_words);

/* Tells which notices of a sorted table of right rows stand. A notice is corrected by a later one of the same group and key, so
   of each group and key the last row stands, unless it withdraws: its carried column `place`, counted from 0, is 1. Null keys
   and null groups never stand. Of the options only by, descending, nulls_last, carried and ranks say how rows lie and
   compare; the others must be valid all the same.
   The output has n, 2, then two values for each row of the book, then 2n marks: 1 and null if the row stands; else 0 and the
   number, from 0, of the last row of its group and key, which of a last row that withdraws is its own; 0 and null if its key or
   a by-value is null. These are ROWKEEPER_STANDING_WORDS(n) words; those behind them are untouched, and `rows` is n. The rows
   that stand, in order, are a sorted book again; if no row of the book has 1 in that column, Backward and Nearest pick the
   same notices from it as from the whole book. Forward may not: it takes the first of equal rows.
   Refused by 1, 10, 11, 5, 12 to 14 and 6, in this order: options that opening would refuse; a book that is no table of the right side's columns;
   a value that the list of ranks lacks; a place that is not below carried; a book that is not sorted; too short an output. The
   book is only read in every case.
   A call passes the book twice and compares each row with the next one twice.
   A notice at minute 10, its correction, and one at minute 20 that withdraws itself:

       static const int64_t book[] = {3, 2, 10, 0, 10, 0, 20, 1, 1, 1, 1, 1, 1, 1};
       rowkeeper_options options = {0};
       int64_t out[14];
       options.tolerance = ROWKEEPER_NO_TOLERANCE;
       options.carried = 1;
       rowkeeper_written w = rowkeeper_standing(options, book, 14, 0, out, 14);

   w is {0, 3} and out is 3, 2, 0, 1, 1, 0, 0, 2, 1, 1, 1, 0, 1, 1: row 0 names row 1, which stands; row 2 names itself. */
rowkeeper_written rowkeeper_standing(rowkeeper_options options, const int64_t *book, size_t book_words, uint64_t place,
                                     int64_t *out, size_t out_words);

/* The plain reader's view of an answer frame. `carried` is that of the join that wrote it. It shows frames of 1 + carried
   columns, the number of the right row and what that row carries, and refuses every other: so it never shows a distance as a price.
   A view asks the rules once, reading every word of the frame; `rows` and `columns` are then handed to rowkeeper_view_cell
   for each cell that is wanted, which costs the same for a frame of any size.
   Refused by 10, 5 and 13, in this order: carried above 8; words that are no frame, of whatever columns; another column count.
   No word is written.
   A frame of one row that carries a price, and its cells:

       static const int64_t frame[] = {1, 2, 7, 1800, 1, 1};
       rowkeeper_viewed v = rowkeeper_view_plain(1, frame, 6);
       rowkeeper_cell price = rowkeeper_view_cell(v.rows, v.columns, frame, 6, 0, 1);

   v is {0, 1, 2} and price is {1800, 1}. */
rowkeeper_viewed rowkeeper_view_plain(uint64_t carried, const int64_t *frame, size_t frame_len);

/* The distance reader's view of an answer frame: as rowkeeper_view_plain, but that it shows frames of 2 + carried columns as
   well, of which the last is the distance. In the columns before that it shows what the plain reader would on the frame without the last;
   on a frame of 1 + carried columns the two agree, and column 1 + carried reads as null. Refused by 10, 5 and 13, in this order.
   No word is written. */
rowkeeper_viewed rowkeeper_view_distance(uint64_t carried, const int64_t *frame, size_t frame_len);

/* A cell of a frame that was viewed. Only the plain view's counts make a price safe: with the distance view's counts, or counts
   from elsewhere, the last column can be a distance. `rows` and `columns` are the view's, `row` and `column` count from 0.
   A place outside the frame reads as null (0 and 0). With the counts of a view and the words that were viewed, each place is what
   rowkeeper_read_plain or rowkeeper_read_distance shows of it. It looks at the two words of the place alone: with other
   counts, or after the words were changed, it reads as null whatever would lie behind the words, and otherwise gives the words that
   stand where such a frame would have them. Nothing is refused, and no word is written. */
rowkeeper_cell rowkeeper_view_cell(uint64_t rows, uint64_t columns, const int64_t *frame, size_t frame_len,
                                   uint64_t row, uint64_t column);

/* What the plain reader shows of one place: rowkeeper_view_plain and rowkeeper_view_cell in one call. It asks the rules, and
   so reads every word of the frame, for each place: to read many, take a view. Refused by 10, 5 and 13, in this order, as the view
   is; a place outside the frame is not refused, and reads as null. No word is written. */
rowkeeper_shown rowkeeper_read_plain(uint64_t carried, const int64_t *frame, size_t frame_len, uint64_t row,
                                     uint64_t column);

/* What the distance reader shows of one place: rowkeeper_view_distance and rowkeeper_view_cell in one call. Refused by
   10, 5 and 13, in this order. No word is written. */
rowkeeper_shown rowkeeper_read_distance(uint64_t carried, const int64_t *frame, size_t frame_len, uint64_t row,
                                        uint64_t column);

/* Tells how large a right area to lend, before any join is opened. The tables are all left rows, by + 1 columns, and all right
   rows, by + 1 + carried, both sorted as the options say; the heights are how many rows each frame has that the tables will be
   handed over in, in order: 0 to 4,096 each, together the table's rows.
   The figures are those of this schedule: all left frames wait; turn after turn is made; a right frame is handed over only when
   a turn answers ROWKEEPER_WANTS_RIGHT; right is ended after the last right frame, or at the start if there is none.
   `rows` is the most right rows that are held at once: with a right area of ROWKEEPER_RIGHT_WORDS(rows, by, carried) words
   no right frame is refused by 6, and with one row fewer, if rows is not 0, one is. `turns` counts the turn calls up to the last
   frame written, and `rights` the right frames taken; frames that no turn wants are never taken. The left area and the outputs
   are taken as large enough: the left area holds all left frames, one behind the other.
   Nothing is written, and no match is made: the tables are passed once to see that they are sorted, and then each turn searches
   the held rows, as a turn of a join does. The check setting does not matter to the figures.
   Refused by 1, 10, 11, 5, 12, 14 and 17, in this order: options that opening would refuse; a table that is none of its columns; a value that the
   list of ranks lacks; a table that is not sorted; heights. Both tables must pass a number before the next is looked at.
   Four sales in two frames, five notices in three, of which the last is never wanted:

       static const int64_t left[] = {4, 1, 5, 15, 20, 25, 1, 1, 1, 1}, left_heights[] = {2, 2};
       static const int64_t right[] = {5, 1, 10, 20, 20, 30, 40, 1, 1, 1, 1, 1}, right_heights[] = {2, 2, 1};
       rowkeeper_options options = {0};
       options.allow_eq = 1;
       options.tolerance = ROWKEEPER_NO_TOLERANCE;
       rowkeeper_planned p = rowkeeper_plan(options, left, 10, right, 12, left_heights, 2, right_heights, 3);

   p is {0, 4, 4, 2}: an area for four rows, 8 words, four turns of which two want right rows, and two right frames. */
rowkeeper_planned rowkeeper_plan(rowkeeper_options options, const int64_t *left, size_t left_words,
                                 const int64_t *right, size_t right_words, const int64_t *left_heights,
                                 size_t left_heights_words, const int64_t *right_heights, size_t right_heights_words);

/* Tells where a sorted table, of left rows (right 0: by + 1 columns) or of right rows (right 1: by + 1 + carried columns), is cut
   for each of at most 16 boundaries: before the first row whose group is not less than the boundary in the declared order, or
   behind the last row. Boundaries are a frame of `by` columns, one group a row, strictly ascending, none null. Of the options only
   by, descending, nulls_last, carried and ranks say how rows lie and compare; the others must be valid all the same.
   The output has k, 1, then a place in rows for each of the k boundaries, then k marks, all 1: ROWKEEPER_CUT_WORDS(k) words; those
   behind them are untouched, and `rows` is k.
   Both tables of a join cut at these places, each pair of parts joined by itself, on machines of their own, and the answers
   appended, with the right rows of the pairs before added to each right number, are the answers of the uncut tables (proved:
   `UncutCalls` in crates/schedules).
   Refused by 1, 10, 11, 5, 12, 14, 18 and 6, in this order: options that opening would refuse, or a side that is neither 0 nor 1; a table that is none
   of that side's columns, or boundaries that are no frame of `by` columns; a value that the list of ranks lacks, in either; a table
   that is not sorted; boundaries that are too many, null, out of order, or any at all where by is 0; too short an output. Table
   and boundaries are only read in every case.
   A call passes the table twice and makes a binary search for each boundary.
   Five sales of performances 1, 1, 2, 4 and 4, cut at 2 and 3:

       static const int64_t sales[] = {5, 2, 1, 10, 1, 20, 2, 5, 4, 7, 4, 9, 1, 1, 1, 1, 1, 1, 1, 1, 1, 1};
       static const int64_t at[] = {2, 1, 2, 3, 1, 1};
       rowkeeper_options options = {0};
       int64_t out[6];
       options.by = 1;
       options.tolerance = ROWKEEPER_NO_TOLERANCE;
       rowkeeper_written w = rowkeeper_cut(options, 0, sales, 22, at, 6, out, 6);

   w is {0, 2} and out is 2, 1, 2, 3, 1, 1: rows 0 and 1, row 2, rows 3 and 4. */
rowkeeper_written rowkeeper_cut(rowkeeper_options options, uint64_t right, const int64_t *table, size_t table_words,
                                const int64_t *boundaries, size_t boundary_words, int64_t *out, size_t out_words);

/* Joins two sorted tables, all left rows (by + 1 columns) and all right rows (by + 1 + carried), cut at 0 to 16 boundaries: groups
   in a frame of `by` columns, strictly ascending, none null (by 0: a frame of no rows and no columns). Each pair of parts is joined by
   itself, and the answers are appended as one table. That is the answer of the uncut tables, whatever the boundaries (proved:
   `DriverWrites` in crates/schedules): 1 + carried columns, or 2 + carried with the distance, a row for each left row, right rows numbered
   from 0 over the whole right table. ROWKEEPER_OUTPUT_WORDS(rows, carried), or ROWKEEPER_DISTANCE_WORDS with the distance, are the
   output's words; those behind them are untouched, and `rows` is the left table's.
   The areas are those in which the pairs can be joined one after the other, by the schedule of rowkeeper_plan in frames of 4,096 rows and,
   if rows are left over, one of these: the left area holds all left frames of a pair, the right one as many rows as that schedule holds at most.
   This call matches the tables where they lie, so it measures the areas alone: no word of them is read or written.
   Refused by 1, 10, 11, 5, 12, 14, 18 and 6, in this order: options that opening would refuse; a table that is none of its columns, or boundaries that are
   no frame of `by` columns; a value that the list of ranks lacks, in any of the three; a table that is not sorted; boundaries that are too
   many, null, out of order, or any at all where by is 0; an area too short for any pair, or too short an output. The check setting does not
   matter. Tables and boundaries are only read in every case.
   Four sales and four notices of performances 1, 2 and 4, cut at 2 and 3:

       static const int64_t left[] = {4, 2, 1, 15, 2, 4, 4, 9, 4, 30, 1, 1, 1, 1, 1, 1, 1, 1};
       static const int64_t right[] = {4, 2, 1, 10, 2, 3, 4, 1, 4, 20, 1, 1, 1, 1, 1, 1, 1, 1};
       static const int64_t at[] = {2, 1, 2, 3, 1, 1};
       int64_t left_area[10], right_area[8], out[10];
       rowkeeper_options options = {0};
       options.by = 1;
       options.allow_eq = 1;
       options.tolerance = ROWKEEPER_NO_TOLERANCE;
       rowkeeper_written w = rowkeeper_join_cut(options, left, 18, right, 18, at, 6, left_area, 10, right_area, 8, out, 10);

   w is {0, 4} and out is 4, 1, 0, 1, 2, 3, 1, 1, 1, 1. */
rowkeeper_written rowkeeper_join_cut(rowkeeper_options options, const int64_t *left, size_t left_words,
                                     const int64_t *right, size_t right_words, const int64_t *boundaries,
                                     size_t boundary_words, const int64_t *left_area, size_t left_area_words,
                                     const int64_t *right_area, size_t right_area_words, int64_t *out, size_t out_words);

/* Adds the first carried column over the matched sales of a left frame and the answer frame that a join wrote for it to a table of
   takings: by + 2 columns, the by-values of a group, its total and its sale count, a row for each group with a sale that has an
   amount, strictly ascending in the declared order. `number` counts, beside the table, the matched sales without an amount. A
   left row whose group is null counts as not matched. The answer frame has 1 + carried columns, or 2 + carried with the distance.
   The output is the new table: ROWKEEPER_TAKINGS_WORDS(rows, by) words for its rows, at most those of the table and one for each
   row of the frame; the words behind them are untouched. `rows` and `number` come back. Start with a table of no rows, by + 2
   columns and 0 beside it. In whatever order frames are added and tables joined, what comes out is the same (proved:
   `AllOrders` in crates/takings).
   Refused by 1, 10, 11, 5, 12 to 15 and 6, in this order: options that opening would refuse; words that are no such table or frame, or frames of
   unequal heights; a value that the list of ranks lacks; nothing carried, or another column count of the answer frame; a table
   with a null or with groups that do not ascend; an amount outside -1,000,000,000 to 1,000,000,000, a count below 1, a total
   larger in size than its count times 1,000,000,000, a `number` below 0, or counts that exceed 2^31; too short an output.
   Everything is judged before a word is written. What is handed in is only read in every case.
   A call passes table and frame, finds each sale's row by halving, the row of the sale before looked at first, and moves the rows
   behind a new group. With room for the table's rows and one for each row of the frame nothing else is done; with less, rows are
   counted first: in one walk where sales come in group order, else by one or two halvings for each, with 8 KiB of the stack. */
rowkeeper_taken rowkeeper_takings_add(rowkeeper_options options, const int64_t *table, size_t table_words,
                                      int64_t number, const int64_t *left, size_t left_words, const int64_t *answers,
                                      size_t answer_words, int64_t *out, size_t out_words);

/* Joins two tables of takings, as rowkeeper_takings_add writes them, with the numbers beside them: the rows of both, those of one
   group added up. The output is the new table, ROWKEEPER_TAKINGS_WORDS(rows, by) words, at most those of both; the words behind them are
   untouched. Refused by 1, 10, 11, 5, 12 to 15 and 6, as rowkeeper_takings_add refuses a table; with nothing carried by 13. Both tables are only
   read in every case. A call passes both three times. */
rowkeeper_taken rowkeeper_takings_join(rowkeeper_options options, const int64_t *table, size_t table_words,
                                       int64_t number, const int64_t *other, size_t other_words, int64_t other_number,
                                       int64_t *out, size_t out_words);

/* The version of the library as a number, 1,000,000 × major + 1,000 × minor + patch: ROWKEEPER_VERSION_NUMBER of the header
   that it came with. Whether a saved join is read does not depend on the version but on its layout word: see THE JOIN. */
uint64_t rowkeeper_version(void);
/* ---- tools/interface: end of calls */

#ifdef __cplusplus
}
#endif

#endif
