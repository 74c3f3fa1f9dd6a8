"""Two sorted tables cut at boundary groups into pairs, each of which is joined by itself, wherever that is, and the answers appended.

`cut_apart` makes the pairs, `join_pair` joins one, `append` puts the answers together. Tables are in the library's words, which can be
sent and stored as bytes. A pair's answer depends on its words and on the options alone: it may be joined twice, or anew after a fault."""
import collections
from array import array

from . import asof_join
from . import interface as c
from .join import Join
from .lent import Output, in_place
from .tables import Table, cut, words_of

# The boundaries that one call cuts at, at most.
MOST_BOUNDARIES = 16

Pair = collections.namedtuple('Pair', 'left right right_before')
Pair.__doc__ = """A part of the left table and one of the right, as words, and how many right rows are in the parts before."""


def seen(words):
    """Words with the buffer protocol, bytes too, as 64-bit numbers."""
    return memoryview(words).cast('B').cast('q')


def table_words(table, what):
    """The words of a table as nobody alters them any more: of a Table, of a list of columns, or any words, bytes too."""
    return words_of(table if isinstance(table, (list, tuple, Table)) else seen(table), what)


def rows_between(words, first, end):
    """The words of a table's rows from one to before another."""
    cells, width = words[0] * words[1], words[1]
    part = array('q', [end - first, width])
    for start in (2, 2 + cells):
        part.frombytes(words[start + first * width:start + end * width].cast('B'))
    return part


def places(table, boundaries, **options):
    """Where a table is cut for any number of boundaries, a Table of groups or what `cut` takes as one. A call takes 16; each further
    call begins with the last boundary of the one before, so that it is the library that finds them in order."""
    boundaries = table_words(boundaries, 'boundaries')
    count, found = boundaries[0], []
    for first in range(0, max(1, count - 1), MOST_BOUNDARIES - 1):
        some = rows_between(boundaries, first, min(count, first + MOST_BOUNDARIES))
        found[first:] = cut(table, some, **options)
    return found


def cut_apart(left, right, boundaries, by=None, descending=(), nulls_last=(), ranks=None):
    """The pairs of two sorted tables at these boundaries, one more than there are boundaries, empty parts included. Tables are those
    of `rowkeeper.cut`, and so are the errors: both tables are judged to be sorted."""
    order = {'by': by, 'descending': descending, 'nulls_last': nulls_last, 'ranks': ranks}
    tables, ends = [table_words(left, 'left'), table_words(right, 'right')], []
    for words, side in zip(tables, ('left', 'right')):
        ends.append([0, *places(words, boundaries, side=side, **order), words[0]])
    return [Pair(rows_between(tables[0], *lefts), rows_between(tables[1], *rights), rights[0])
            for lefts, rights in zip(*(zip(each, each[1:]) for each in ends))]


def hand_in(join, frame):
    """Hands in a right frame that no caller has, in a larger area if there is no room."""
    with in_place(frame, 'the right frame') as words:
        asof_join.hand_in_right(join, *words)


def join_pair(left, right, by=0, strategy='backward', allow_exact_matches=True, tolerance=None, descending=(), nulls_last=(),
              ranks=None, right_before=0):
    """For each row of the left table the number of its right row, or -1, by the streaming calls of a Join that checks the order of
    both tables: an array of 64-bit numbers. `right_before` is added to each number. What the right table carries is not looked at."""
    lefts, rights = (Table._seen(table_words(*each)) for each in ((left, 'left'), (right, 'right')))
    join = Join(by=by, strategy=strategy, allow_exact_matches=allow_exact_matches, tolerance=tolerance, check='strict',
                descending=descending, nulls_last=nulls_last, carried=max(0, rights.columns - by - 1), ranks=ranks)
    output = Output(join.output_words())
    frames, more, found = lefts.frames(), rights.frames(), []
    while True:
        answer = join.turn_at(*output.lent())
        if answer == c.WROTE:
            found.append(asof_join.tools().numbers_of(output.words(), right_before))
        elif answer == c.IDLE:
            frame = next(frames, None)
            if frame is None:
                return append(found)
            join.left(frame)
        else:
            frame = next(more, None)
            join.end_right() if frame is None else hand_in(join, frame)


def append(answers):
    """The answers of all pairs, in the order of the pairs, as one array. Each is 64-bit numbers, or their bytes."""
    found = array('q')
    for answer in answers:
        found.frombytes(memoryview(answer).cast('B'))
    return found
