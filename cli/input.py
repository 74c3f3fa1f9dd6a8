"""The bytes of a table as UTF-8, whatever it is in: a file, standard input, a pipe, another encoding."""
import codecs
import contextlib
import os
import stat
import sys
import tempfile

from .problem import BAD_USAGE, Problem, at, quoted, reason

# What a file begins with that says its encoding itself, and the encoding's name.
MARKS = ((codecs.BOM_UTF8, 'utf-8'), (codecs.BOM_UTF16_LE, 'utf-16-le'), (codecs.BOM_UTF16_BE, 'utf-16-be'))

# What files begin with that are no text, and what would mend it.
WORKBOOK = 'this is a workbook, not CSV: save it as "CSV UTF-8" and give that file'
NO_TEXT = ((b'PK\x03\x04', WORKBOOK), (b'\xd0\xcf\x11\xe0', WORKBOOK), (b'\x1f\x8b', 'the file is compressed: unpack it first, as with gunzip'))

# The encodings that are proposed for text that is not UTF-8, and the letters that tell which reads as text.
PROPOSED, LETTERS = ('cp1252', 'cp850'), 'äöüßàâáåãæçéèêëíìîïñóòôõøœúùûýÿ'

# The bytes that are copied or converted at once.
PIECE = 1 << 18

# The name of standard input on the command line, and in messages.
DASH, STANDARD = '-', 'standard input'


def proposed(data):
    """The encoding in which a line reads as text, and the text; None where none does. Small letters count more than capitals, which
    rarely stand inside a word."""
    best = (0, None, None)
    for name in PROPOSED:
        with contextlib.suppress(UnicodeDecodeError):
            text = data.decode(name)
            score = sum(2 if each in LETTERS else 1 if each.lower() in LETTERS else -1 for each in text if not each.isascii() and each != '\u20ac')
            best = max(best, (score, name, text.strip()), key=lambda each: each[0])
    return best[1:] if best[0] > 0 else None


def known_encoding(name, option='--encoding'):
    """The name of a text encoding that Python knows; else a Problem."""
    try:
        found = codecs.lookup(name)
        'a'.encode(found.name)
    except (LookupError, UnicodeError, ValueError):
        raise Problem(f'{option}: {quoted(name)} is not known; encodings are named as cp1252', BAD_USAGE) from None
    return found.name


def temporary():
    """A file that is gone when it is closed, however the run ends."""
    try:
        return tempfile.TemporaryFile(prefix='rowkeeper-')
    except OSError as error:
        raise Problem(f'a temporary file: cannot be made: {reason(error)}') from None


def put(file, data):
    """Writes to a temporary file."""
    try:
        file.write(data)
    except OSError as error:
        raise Problem(f'a temporary file: cannot be written: {reason(error)}') from None


def read_at(file, size, place):
    """So many bytes of a temporary file from a place on: the system may give fewer at once."""
    found = b''
    while len(found) < size:
        try:
            data = os.pread(file.fileno(), size - len(found), place + len(found))
        except OSError as error:
            raise Problem(f'a temporary file: cannot be read: {reason(error)}') from None
        if not data:
            raise Problem('a temporary file: cannot be read: it ends too early')
        found = found + data if found else data
    return found


class Input:
    """A table's bytes. They can be read again from the start, unless it is `streamed`: what is no file is copied to one first,
    and so is text in another encoding than UTF-8."""

    def __init__(self, path, encoding='utf-8', streamed=False, option='--encoding', other=None):
        """`option` is what names the encoding of this file alone, `other` what names that of the other one, where `encoding` was named
        for both."""
        self.option, self.other = option, other
        self.path, self.decoder, self.encoding, self.lines = (STANDARD if path == DASH else path), None, encoding, 0
        self.streamed = streamed
        self.file = self.opened(path)
        try:
            self.begin(streamed)
        except OSError as error:
            self.close()
            raise Problem(f'{at(self.path)}: cannot be read: {reason(error)}') from None
        except Problem:
            self.close()
            raise

    def opened(self, path):
        """The file of this name; standard input stays open."""
        if path == DASH:
            if sys.stdin is None:
                raise Problem(f'{STANDARD}: cannot be read: it is closed')
            return open(os.dup(0), 'rb')
        try:
            return open(path, 'rb')
        except OSError as error:
            raise Problem(f'{at(path)}: cannot be read: {reason(error)}') from None

    def begin(self, streamed):
        """Looks at the first bytes for a mark, and makes the copy where one is needed."""
        status = os.fstat(self.file.fileno())
        again = stat.S_ISREG(status.st_mode)
        self.size, self.start = status.st_size if again else 0, self.file.tell() if again else 0
        self.stamp = (status.st_size, status.st_mtime_ns) if again else None
        self.pending = self.file.read(4)
        self.refuse_no_text()
        found = next(((mark, name) for mark, name in MARKS if self.pending.startswith(mark)), None)
        self.marked, self.converted = found is not None, False
        if found:
            self.pending, self.encoding = self.pending[len(found[0]):], found[1]
            self.start += len(found[0])
        if codecs.lookup(self.encoding).name not in ('utf-8', 'ascii'):
            self.decoder, self.converted = codecs.getincrementaldecoder(self.encoding)(), True
        self.read_some = self.file.read if again and not self.converted else self.file.read1
        if not streamed and (self.converted or not again):
            self.copy()

    def refuse_no_text(self):
        """Stops at a workbook and the like."""
        why = next((why for mark, why in NO_TEXT if self.pending.startswith(mark)), None)
        if why:
            raise Problem(f'{at(self.path)}: {why}')

    def said_of(self, line, place, data):
        """What is said of a line that is not UTF-8 text, from its byte of this number on."""
        found, said = proposed(data), f'{at(self.path, line)}: byte {place + 1} of the line is not UTF-8 text'
        if found is None:
            return f'{said}; name its encoding with {self.option}'
        return f'{said}; in {found[0]} it reads {quoted(found[1])}: add {self.option} {found[0]}'

    def said_of_nul(self, line, data):
        """What is said of a line with a NUL character."""
        halves = [data[place::2].count(0) for place in (0, 1)]
        if max(halves) > 10 * min(halves) and max(halves) > len(data) // 4:
            return f'{at(self.path, line)}: the line reads as UTF-16: add {self.option} utf-16-{"be" if halves[0] > halves[1] else "le"}'
        return f'{at(self.path, line)}: there is a NUL character: the file is not text, or in another encoding'

    def unchanged(self):
        """Stops if the file is not as it was when it was opened. A copy stays as it is."""
        if self.stamp is not None:
            status = os.fstat(self.file.fileno())
            if (status.st_size, status.st_mtime_ns) != self.stamp:
                raise Problem(f'{at(self.path)}: the file was changed while it was read')

    def is_utf8(self):
        """Whether all bytes are UTF-8 text, with letters beyond ASCII."""
        decoder, beyond, start = codecs.getincrementaldecoder('utf-8')(), False, self.file.tell() - len(self.pending)
        self.file.seek(start)
        try:
            for data in iter(lambda: self.file.read(PIECE), b''):
                beyond = beyond or not decoder.decode(data).isascii()
            decoder.decode(b'', True)
        except UnicodeDecodeError:
            beyond = False
        self.file.seek(start + len(self.pending))
        return beyond

    def copy(self):
        """Copies all bytes to a file that can be read again."""
        if self.other and not self.marked and self.stamp is not None and self.is_utf8():
            raise Problem(f'{at(self.path)}: is UTF-8 text, though --encoding says {self.encoding}; say {self.other} {self.encoding} for the other '
                          f'file alone, or {self.option} {self.encoding} if this is right')
        copy = temporary()
        try:
            for data in iter(lambda: self.read(PIECE), b''):
                put(copy, data)
            self.unchanged()
            self.stamp = None
        except BaseException:
            copy.close()
            raise
        self.file.close()
        self.file, self.decoder, self.start, self.size, self.read_some = copy, None, 0, copy.tell(), copy.read
        self.rewind()

    def rewind(self, place=0):
        """Goes back to the first byte behind the mark, or to one further on."""
        self.file.seek(self.start + place)
        self.pending = b''

    def read(self, count):
        """The next bytes as UTF-8, so many or a few more or fewer; none at the end."""
        while True:
            data, self.pending = self.pending + self.read_some(count), b''
            if self.decoder is None:
                return data
            found = self.decoded(data)
            self.lines += found.count('\n')
            if found or not data:
                return found.encode('utf-8', 'surrogatepass')

    def decoded(self, data):
        """Bytes of another encoding as text, which may end before they do; none are the end. What is no text is told by its line."""
        try:
            return self.decoder.decode(data, not data)
        except UnicodeDecodeError as error:
            line = 1 + self.lines + error.object[:error.start].decode(self.encoding, 'ignore').count('\n')
            raise Problem(f'{at(self.path, line)}: the line is not text in the encoding {self.encoding}') from None

    def share(self):
        """How much of the file has been read, from 0 to 1; None where its length is not known, as of a pipe."""
        return self.file.tell() / self.size if self.size else None

    def close(self):
        """Gives the file back."""
        self.file.close()
