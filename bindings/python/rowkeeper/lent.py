"""Words that a call is lent: where they are and how many, and that nobody alters them while the call runs.

The library reads words again that it has judged, and ctypes lets other threads run during a call. So a call never gets memory that a
caller can still write: `kept` copies it first, and what a call writes goes to an Output, from which it is copied back."""
import contextlib
import ctypes
import mmap
from ctypes import c_char_p, c_int, c_ssize_t, c_void_p

# What is asked of a buffer (object.h): its format, in one piece, and that it may be written.
FORMAT_IN_ONE_PIECE, WRITABLE = 0x4 | 0x38, 0x1
# The formats of 64-bit whole numbers with a sign, without the letter for the order of bytes.
SIGNED = ('q', 'l')
# The bytes of a word.
WORD = 8


class Buffer(ctypes.Structure):
    """Py_buffer of Python's C interface."""
    _fields_ = [('buf', c_void_p), ('obj', c_void_p), ('len', c_ssize_t), ('itemsize', c_ssize_t), ('readonly', c_int),
                ('ndim', c_int), ('format', c_char_p), ('shape', c_void_p), ('strides', c_void_p), ('suboffsets', c_void_p),
                ('internal', c_void_p)]


get, release = ctypes.pythonapi.PyObject_GetBuffer, ctypes.pythonapi.PyBuffer_Release
get.argtypes, get.restype = [ctypes.py_object, ctypes.POINTER(Buffer), c_int], c_int
release.argtypes, release.restype = [ctypes.POINTER(Buffer)], None


def judge(buffer, what):
    """ValueError unless a buffer is of words, at a place where words can be."""
    letters = (buffer.format or b'B').decode('ascii', 'replace').lstrip('@=<')
    if buffer.itemsize != WORD or letters not in SIGNED:
        raise ValueError(f'{what} is of format {letters!r}: 64-bit whole numbers with a sign are wanted')
    if buffer.len and buffer.buf % WORD:
        raise ValueError(f'{what} does not begin at a multiple of 8 bytes')


@contextlib.contextmanager
def in_place(owner, what, write=False):
    """The words of anything with the buffer protocol, where they are: their address and how many. Until the block ends, the owner
    neither frees nor moves them. Only memory that no caller can write may go to the library from here."""
    buffer = Buffer()
    try:
        get(owner, ctypes.byref(buffer), FORMAT_IN_ONE_PIECE | (WRITABLE if write else 0))
    except (TypeError, BufferError, ValueError) as error:
        raise ValueError(f'{what} cannot be lent: {error}') from None
    try:
        judge(buffer, what)
        yield buffer.buf, buffer.len // WORD
    finally:
        release(ctypes.byref(buffer))


def kept(owner, what):
    """The words of anything with the buffer protocol as a view that nobody can alter: of the same memory if it is that of a bytes
    object, which Python never alters, else of a copy. A read-only view of other memory is copied too, since its owner can write."""
    if type(owner) is memoryview and type(owner.obj) is bytes:
        with in_place(owner, what):
            return owner
    with in_place(owner, what) as (address, length):
        return memoryview(ctypes.string_at(address, WORD * length) if length else b'').cast('q')


@contextlib.contextmanager
def lent(owner, what):
    """The words of anything with the buffer protocol for a call that reads them, as `kept` has them: their address and how many."""
    with in_place(kept(owner, what), what) as words:
        yield words


def untouched(words):
    """So many words, one at least, for a call that measures them and neither reads nor writes one. They are fresh pages of the system,
    which take addresses and no memory as long as nobody touches them; an Area would fill all its words with 0. All of them can be read,
    so their address and number are as a call wants them; none can be written."""
    return memoryview(mmap.mmap(-1, WORD * max(1, words), mmap.MAP_PRIVATE | mmap.MAP_ANONYMOUS, mmap.PROT_READ)).cast('q')


class Area:
    """Words that a join owns and that no caller sees. They stay where they are as long as the area is there."""

    def __init__(self, words):
        self.bytes = bytearray(WORD * words)
        self.length = words
        self.held = ctypes.c_char.from_buffer(self.bytes) if words else None
        self.address = ctypes.addressof(self.held) if words else None

    def lent(self):
        """Where they are, and how many."""
        return self.address, self.length


class Output:
    """Words for calls to write, 0 before. They are those of a bytes object that nobody else has before the last of these calls has
    returned: no Python code can alter them, then or later, and a further call that reads them needs no copy."""

    def __init__(self, words):
        self.bytes, self.length = bytes(WORD * words), words

    def lent(self):
        """Where they are, and how many."""
        return (ctypes.cast(c_char_p(self.bytes), c_void_p).value if self.length else None), self.length

    def words(self):
        """A view of the words."""
        return memoryview(self.bytes).cast('q')

    def copy_to(self, address, words):
        """Copies so many of the first words to another place."""
        if words:
            ctypes.memmove(address, self.bytes, WORD * words)
