"""Reads the description. Its form is told at the top of rowkeeper.txt."""
import collections
import os
import re

PATH = os.path.join(os.path.dirname(os.path.abspath(__file__)), 'rowkeeper.txt')

Version = collections.namedtuple('Version', 'text number more')
Constant = collections.namedtuple('Constant', 'name text number comment more')
Value = collections.namedtuple('Value', 'number c name rattle comment defined')
Enum = collections.namedtuple('Enum', 'name values comment more')
Refusal = collections.namedtuple('Refusal', 'number c name comment more')
# An enumeration of refusals in Rattle: its file, the file of its numbers, the function that gives them.
Refusals = collections.namedtuple('Refusals', 'name source numbers function')
Field = collections.namedtuple('Field', 'name type length comment')
Struct = collections.namedtuple('Struct', 'name fields comment more')
# A parameter: a value of a type, or words that are read ('words') or may be written ('mut'), with the name of their length.
Parameter = collections.namedtuple('Parameter', 'name type length')
Call = collections.namedtuple('Call', 'name gives parameters refused comment more')

# The plain types with their bytes. A field of bytes is an array that fills whole words.
PLAIN = {'u64': 8, 'i64': 8, 'size': 8, 'u8': 1}
# The bytes of a word.
WORD = 8


class Fault(Exception):
    """What is wrong with the description, or with the mirror that is being written."""


def version_of(text, more):
    """The version and its number: three digits each for minor and patch."""
    parts = re.fullmatch(r'(\d+)\.(\d{1,3})\.(\d{1,3})', text)
    if not parts:
        raise Fault(f'version {text}: three numbers with dots are wanted')
    major, minor, patch = map(int, parts.groups())
    return Version(text, major * 1000000 + minor * 1000 + patch, more)


class Entry:
    """An entry as it stands: its words, its comment, its properties, its other lines."""

    def __init__(self, line, number):
        self.kind, *self.words = line.split()
        self.number, self.comment, self.more, self.lines = number, [], collections.OrderedDict(), []

    def fault(self, why):
        """A fault of this entry."""
        return Fault(f'rowkeeper.txt:{self.number}: {self.kind} {" ".join(self.words)}: {why}')

    def take(self, line):
        """One more line of it."""
        text = line.strip()
        if text.startswith('|'):
            self.comment.append(text[2:])
        elif re.match(r'\w+ = ', text):
            name, value = text.split(' = ', 1)
            if name in self.more:
                raise self.fault(f'{name} is there twice')
            self.more[name] = value
        else:
            self.lines.append(text)


def entries(text):
    """The entries of the description."""
    found = []
    for number, line in enumerate(text.split('\n'), 1):
        if not line.strip() or line.lstrip().startswith('#'):
            continue
        if line[0] != ' ':
            found.append(Entry(line, number))
        elif found:
            found[-1].take(line)
        else:
            raise Fault(f'rowkeeper.txt:{number}: a line of no entry')
    return found


def split_comment(line):
    """A line's words, and the comment behind them."""
    head, _, comment = line.partition(' : ')
    return head.split(), comment


class Description:
    """All that is described."""

    def __init__(self, text):
        self.version = self.abi = None
        self.constants, self.enums, self.refusal_sets, self.refusals, self.structs, self.calls = [], [], [], [], [], []
        for entry in entries(text):
            reader = getattr(self, f'read_{entry.kind}', None)
            if reader is None:
                raise entry.fault('there is no such kind of entry')
            try:
                reader(entry)
            except (ValueError, IndexError, TypeError):
                raise entry.fault('it is not in the form that the top of the file tells') from None
        self.judge()

    def read_version(self, entry):
        """version MAJOR.MINOR.PATCH"""
        text, = entry.words
        self.version = version_of(text, entry.more)

    def read_abi(self, entry):
        """abi NUMBER"""
        self.abi, = map(int, entry.words)

    def read_constant(self, entry):
        """constant NAME NUMBER"""
        name, text = entry.words
        self.constants.append(Constant(name, text, int(text, 0), entry.comment, entry.more))

    def read_enum(self, entry):
        """enum NAME, with its values"""
        values = []
        for line in entry.lines:
            (number, c, name, *rattle), comment = split_comment(line)
            defined = c.startswith('(')
            values.append(Value(int(number), c.strip('()'), name, rattle[0] if rattle else name, comment, defined))
        name, = entry.words
        self.enums.append(Enum(name, values, entry.comment, entry.more))

    def read_refusals(self, entry):
        """refusals NAME SOURCE NUMBERS FUNCTION"""
        self.refusal_sets.append(Refusals(*entry.words))

    def read_refusal(self, entry):
        """refusal NUMBER C-NAME NAME"""
        number, c, name = entry.words
        if not entry.more.get('text'):
            raise entry.fault('it has no text')
        self.refusals.append(Refusal(int(number), c, name, entry.comment, entry.more))

    def read_struct(self, entry):
        """struct NAME, with its fields"""
        fields = []
        for line in entry.lines:
            (name, kind), comment = split_comment(line)
            kind, length = re.fullmatch(r'(\w+)(?:\[(\d+)\])?', kind).groups()
            if kind not in PLAIN and kind not in [struct.name for struct in self.structs]:
                raise entry.fault(f'there is no type {kind}')
            if not comment:
                raise entry.fault(f'field {name} has no comment')
            field = Field(name, kind, int(length) if length else None, comment)
            if self.bytes_of(field) % WORD:
                raise entry.fault(f'field {name} does not fill whole words')
            fields.append(field)
        names = [field.name for field in fields]
        if len(set(names)) < len(names):
            raise entry.fault('two fields have one name')
        name, = entry.words
        self.structs.append(Struct(name, fields, entry.comment, entry.more))

    def read_call(self, entry):
        """call NAME -> TYPE, with its parameters"""
        name, arrow, gives = entry.words
        if arrow != '->' or (gives not in PLAIN and gives not in [struct.name for struct in self.structs]):
            raise entry.fault('it gives no type that is known')
        parameters = []
        for line in entry.lines:
            first, second, *length = line.split()
            if first in ('words', 'mut'):
                parameters.append(Parameter(second, first, length[0] if length else f'{second}_len'))
            else:
                parameters.append(Parameter(first, second, None))
        refused = [int(number) for number in entry.more.get('refused', '').split()]
        self.calls.append(Call(name, gives, parameters, refused, entry.comment, entry.more))

    def judge(self):
        """Stops at facts that do not go together."""
        order = [refusal.number for refusal in self.refusals]
        if self.version is None or self.abi is None:
            raise Fault('rowkeeper.txt: there is no version or no abi')
        for names in ([refusal.c for refusal in self.refusals], [call.name for call in self.calls], order,
                      [struct.name for struct in self.structs]):
            twice = [name for name in names if names.count(name) > 1]
            if twice:
                raise Fault(f'rowkeeper.txt: {twice[0]} is there twice')
        for call in self.calls:
            unknown = [number for number in call.refused if number not in order]
            if unknown:
                raise Fault(f'rowkeeper.txt: call {call.name}: there is no refusal {unknown[0]}')
            if call.refused != sorted(call.refused, key=order.index):
                raise Fault(f'rowkeeper.txt: call {call.name}: its refusals do not stand in checking order')
            if 'brief' not in call.more:
                raise Fault(f'rowkeeper.txt: call {call.name}: it has no brief')

    def refusals_in(self, each):
        """The refusals of an enumeration of Rattle, by their names there, with their numbers. If there is one enumeration alone, it
        has them all, by their own names."""
        if len(self.refusal_sets) == 1:
            return {refusal.more.get(each.name, refusal.name): refusal.number for refusal in self.refusals}
        return {refusal.more[each.name]: refusal.number for refusal in self.refusals if each.name in refusal.more}

    def given_refusals(self):
        """The refusals that a call gives, by number."""
        given = {number for call in self.calls for number in call.refused}
        return sorted((refusal for refusal in self.refusals if refusal.number in given), key=lambda r: r.number)

    def checking_order(self):
        """The numbers of the refusals that a call gives, in checking order, as a text."""
        given = {refusal.number for refusal in self.given_refusals()}
        return listed([refusal.number for refusal in self.refusals if refusal.number in given], ', ')

    def bytes_of(self, field):
        """How many bytes a field takes."""
        return (PLAIN.get(field.type) or WORD * self.words(field.type)) * (field.length or 1)

    def words(self, name):
        """How many words a type takes."""
        if name in PLAIN:
            return 1
        struct, = [each for each in self.structs if each.name == name]
        return sum(map(self.bytes_of, struct.fields)) // WORD

    def places(self, struct):
        """A struct's fields with their places, in words."""
        place, found = 0, []
        for field in struct.fields:
            found.append((field, place))
            place += self.bytes_of(field) // WORD
        return found

    def comment(self, entry):
        """The lines of a comment, filled in."""
        values = {}
        if isinstance(entry, Call):
            values['{refused}'] = listed(entry.refused)
        if isinstance(entry, Struct):
            values['{words}'] = str(self.words(entry.name))
        lines = []
        for line in entry.comment:
            for name, value in values.items():
                line = line.replace(name, value)
            lines.append(line)
        return lines


def listed(numbers, last=' and '):
    """Numbers as a text: '2 to 6', '2 and 3', '1, 5, 16 and 6'."""
    runs = []
    for number in numbers:
        if runs and runs[-1][-1] + 1 == number:
            runs[-1].append(number)
        else:
            runs.append([number])
    parts = []
    for run in runs:
        parts += [f'{run[0]} to {run[-1]}'] if len(run) > 2 else map(str, run)
    return last.join([', '.join(parts[:-1]), parts[-1]] if len(parts) > 1 else parts)


def camel(name):
    """end_right as EndRight."""
    return ''.join(part.capitalize() for part in name.split('_'))


def sentence(text):
    """A text that starts with a capital and ends with a stop."""
    return text[:1].upper() + text[1:] + ('' if text.endswith('.') else '.')


def read(path=PATH):
    """The description."""
    with open(path, encoding='utf-8') as file:
        return Description(file.read())
