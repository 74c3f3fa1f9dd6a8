"""The C interface: numbers, texts, structs and calls. Written by tools/interface from interface/rowkeeper.txt."""
import ctypes
from ctypes import c_int64, c_size_t, c_uint8, c_uint64, c_void_p

# The version of the library that these declarations are of.
VERSION = '0.5.2'
VERSION_NUMBER = 5002

# The name of its shared object, which has another number if a host must be compiled anew.
SONAME = 'librowkeeper.so.3'

# The rows that a frame can have at most.
MOST_ROWS = 4096

# The by-columns that a join can have at most.
MOST_BY = 4

# The carried columns that a join can have at most.
MOST_CARRIED = 8

# The codes that a list of ranks can have at most.
MOST_RANKS = 64

# options.tolerance if any distance will do.
NO_TOLERANCE = -1

# join.layout: the bytes "rowkeep" from the highest down, then the layout's version, 4.
LAYOUT = 0x726f776b65657004

# options.strategy
BACKWARD = 0
FORWARD = 1
NEAREST = 2
# Their names, in the order of their numbers.
STRATEGIES = ('backward', 'forward', 'nearest')

# options.check
CHECK_OFF = 0
CHECK_ON = 1
CHECK_STRICT = 2
# Their names, in the order of their numbers.
CHECKS = ('off', 'on', 'strict')

# join.state
RUNNING = 0
FLUSH = 1
DONE = 2

# The state of a port, as it comes in to rowkeeper_ports and as it is returned.
PORT_BLOCKED = 0
PORT_READY = 1
PORT_DONE = 2

# turned.answer
WROTE = 0
WANTS_RIGHT = 1
IDLE = 2
REFUSED = 3

# ran.stop: this, or the answer of the turn that wrote nothing: WANTS_RIGHT, IDLE or REFUSED
TURNS_USED = 0

# The refusals by name.
BAD_OPTIONS = 1
BAD_JOIN = 2
FAILED = 3
CLOSED = 4
BAD_FRAME = 5
NO_ROOM = 6
USED_UP = 7
LEFT_ORDER = 8
RIGHT_ORDER = 9
TOO_MANY_CARRIED = 10
BAD_RANKS = 11
UNKNOWN_CODE = 12
BAD_COLUMNS = 13
UNSORTED = 14
BEYOND = 15
BAD_POINTS = 16
BAD_HEIGHTS = 17
BAD_BOUNDARIES = 18

# What each refusal says.
REFUSALS = {
    1: 'the options are invalid',
    2: 'the join is inconsistent, or does not fit its areas',
    3: 'an earlier turn found rows out of order',
    4: 'the call comes at the wrong time',
    5: 'the words are not a frame or table with the columns that the call expects',
    6: 'there is no room in an area or in the output',
    7: 'the numbers of rows or turns are used up',
    8: 'left rows are out of order',
    9: 'right rows are out of order',
    10: 'there are more than 8 carried columns',
    11: 'the list of ranks is empty or too long, has a code twice or is for no by-column',
    12: 'the by-column with a list of ranks has a value that is not on the list',
    13: 'there is no such column, or the reader does not know frames of so many columns',
    14: 'the table is not sorted',
    15: 'an amount, a count or a sum is beyond its limits',
    16: 'a point is null, or greater than the next',
    17: 'the heights do not add up to their table, or one is no height of a frame',
    18: 'the boundaries are too many, null or out of order, or there are no by-columns',
}


class Ranks(ctypes.Structure):
    """A list of codes for one by-column, which then compares by place in the list and not by number; or none."""
    _fields_ = [('given', c_uint64), ('column', c_uint64), ('count', c_uint64), ('codes', c_int64 * 64)]


class Options(ctypes.Structure):
    """What a join is opened with. Flags are 0 or 1, also those past `by`."""
    _fields_ = [('by', c_uint64), ('strategy', c_uint64), ('allow_eq', c_uint64), ('tolerance', c_int64),
                ('check', c_uint64), ('descending', c_uint64 * 4), ('nulls_last', c_uint64 * 4),
                ('carried', c_uint64), ('ranks', Ranks), ('with_distance', c_uint64)]


class Row(ctypes.Structure):
    """A row that the order check remembers, or none. A mark other than 0 means present."""
    _fields_ = [('some', c_uint64), ('values', c_int64 * 5), ('marks', c_int64 * 5)]


class Join(ctypes.Structure):
    """A join: 122 words, no padding. A host may read every field and need not."""
    _fields_ = [('layout', c_uint64), ('options', Options), ('rising', c_uint8 * 64), ('base', c_uint64),
                ('held', c_uint64), ('pruned', c_uint64), ('queue_start', c_uint64), ('queue_words', c_uint64),
                ('state', c_uint64), ('right_ended', c_uint64), ('failed', c_uint64), ('sequence', c_uint64),
                ('last_left', Row), ('last_right', Row)]


class Took(ctypes.Structure):
    """The answer of opening, left, right and the end of right."""
    _fields_ = [('refusal', c_uint64), ('join', Join)]


class Ported(ctypes.Structure):
    """The answer of a port call."""
    _fields_ = [('refusal', c_uint64), ('left', c_uint64), ('right', c_uint64), ('send', c_uint64), ('join', Join)]


class Turned(ctypes.Structure):
    """The answer of a turn."""
    _fields_ = [('answer', c_uint64), ('refusal', c_uint64), ('sequence', c_uint64), ('join', Join)]


class Ran(ctypes.Structure):
    """The answer of a run."""
    _fields_ = [('turns', c_uint64), ('words', c_uint64), ('stop', c_uint64), ('refusal', c_uint64), ('join', Join)]


class Written(ctypes.Structure):
    """The answer of a call that writes a table."""
    _fields_ = [('refusal', c_uint64), ('rows', c_uint64)]


class Viewed(ctypes.Structure):
    """The answer of a reader's view."""
    _fields_ = [('refusal', c_uint64), ('rows', c_uint64), ('columns', c_uint64)]


class Cell(ctypes.Structure):
    """A cell of a frame, as its two words."""
    _fields_ = [('value', c_int64), ('mark', c_int64)]


class Shown(ctypes.Structure):
    """The answer of a reader for one place."""
    _fields_ = [('refusal', c_uint64), ('value', c_int64), ('mark', c_int64)]


class Planned(ctypes.Structure):
    """The answer of a plan: the figures of its schedule, all 0 if refused."""
    _fields_ = [('refusal', c_uint64), ('rows', c_uint64), ('turns', c_uint64), ('rights', c_uint64)]


class Taken(ctypes.Structure):
    """The answer of a call over takings."""
    _fields_ = [('refusal', c_uint64), ('rows', c_uint64), ('number', c_int64)]


# What each call takes and gives. Words are a pointer and a length.
CALLS = {
    'rowkeeper_open': ([Options], Took),
    'rowkeeper_left': ([Join, c_void_p, c_size_t, c_void_p, c_size_t, c_void_p, c_size_t], Took),
    'rowkeeper_right': ([Join, c_void_p, c_size_t, c_void_p, c_size_t, c_void_p, c_size_t], Took),
    'rowkeeper_end_right': ([Join, c_void_p, c_size_t, c_void_p, c_size_t], Took),
    'rowkeeper_move': ([Join, c_void_p, c_size_t, c_void_p, c_size_t, c_void_p, c_size_t, c_void_p, c_size_t], Took),
    'rowkeeper_ports': ([Join, c_void_p, c_size_t, c_void_p, c_size_t, c_uint64, c_uint64, c_uint64], Ported),
    'rowkeeper_turn': ([Join, c_void_p, c_size_t, c_void_p, c_size_t, c_void_p, c_size_t], Turned),
    'rowkeeper_run': ([Join, c_size_t, c_void_p, c_size_t, c_void_p, c_size_t, c_void_p, c_size_t], Ran),
    'rowkeeper_spans': ([c_void_p, c_size_t, c_void_p, c_size_t, c_uint64, c_uint64, c_void_p, c_size_t], Written),
    'rowkeeper_merge': ([Options, c_void_p, c_size_t, c_void_p, c_size_t, c_void_p, c_size_t], Written),
    'rowkeeper_standing': ([Options, c_void_p, c_size_t, c_uint64, c_void_p, c_size_t], Written),
    'rowkeeper_view_plain': ([c_uint64, c_void_p, c_size_t], Viewed),
    'rowkeeper_view_distance': ([c_uint64, c_void_p, c_size_t], Viewed),
    'rowkeeper_view_cell': ([c_uint64, c_uint64, c_void_p, c_size_t, c_uint64, c_uint64], Cell),
    'rowkeeper_read_plain': ([c_uint64, c_void_p, c_size_t, c_uint64, c_uint64], Shown),
    'rowkeeper_read_distance': ([c_uint64, c_void_p, c_size_t, c_uint64, c_uint64], Shown),
    'rowkeeper_plan': ([Options, c_void_p, c_size_t, c_void_p, c_size_t, c_void_p, c_size_t, c_void_p,
                        c_size_t], Planned),
    'rowkeeper_cut': ([Options, c_uint64, c_void_p, c_size_t, c_void_p, c_size_t, c_void_p, c_size_t], Written),
    'rowkeeper_join_cut': ([Options, c_void_p, c_size_t, c_void_p, c_size_t, c_void_p, c_size_t, c_void_p, c_size_t,
                            c_void_p, c_size_t, c_void_p, c_size_t], Written),
    'rowkeeper_takings_add': ([Options, c_void_p, c_size_t, c_int64, c_void_p, c_size_t, c_void_p, c_size_t, c_void_p,
                               c_size_t], Taken),
    'rowkeeper_takings_join': ([Options, c_void_p, c_size_t, c_int64, c_void_p, c_size_t, c_int64, c_void_p,
                                c_size_t], Taken),
    'rowkeeper_version': ([], c_uint64),
}
