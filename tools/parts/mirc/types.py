"""The types of the MIR as types of C.

An array is a struct with the member `at`, so that it is assigned and passed by value; a slice is a
struct of `at` and `len`; an enumeration is its tag, or a struct of the tag and a union of its
variants' fields."""
from collections import Counter
from itertools import count

from .instances import UNIT, Unknown, plain, word_of
from .operations import WIDTHS

# The longest name that is made of a symbol and the types that it is given: C tells apart the first 63
# letters.
LONGEST = 60


def declared(name, label):
    """A declaration of a label of a type."""
    return f'{name}{label}' if name.endswith('*') else f'{name} {label}'


class Symbols:
    """The names of functions and types in C: the symbol without its crate, as walk__backward, or all of it
    for a symbol of a crate's root and where two would be equal. At arguments the words of the types follow;
    a name that is taken, or longer than what C tells apart, gets a number."""

    def __init__(self, plain_ones, generic):
        """The symbols of functions and types without arguments, whose names are kept for them, and the
        others."""
        symbols = list(dict.fromkeys([*plain_ones, *generic]))
        short = {symbol: plain(self.shortened(symbol)) for symbol in symbols}
        counts = Counter(short.values())
        self.names = {symbol: name if counts[name] == 1 else plain(symbol) for symbol, name in short.items()}
        self.given, self.taken = {}, set()
        for symbol in plain_ones:
            self.fresh(symbol, self.names[symbol])

    @staticmethod
    def shortened(symbol):
        """A symbol without its crate, unless it is of the crate's root."""
        pieces = symbol.split('::')
        return '::'.join(pieces[1:] if len(pieces) > 2 else pieces)

    def fresh(self, key, wanted):
        """The name of what has this key: the wanted one, with a number where another has it."""
        if key not in self.given:
            tries = (wanted if number == 1 else f'{wanted}_{number}' for number in count(1))
            self.given[key] = next(name for name in tries if name not in self.taken)
            self.taken.add(self.given[key])
        return self.given[key]

    def name(self, key, symbol, kinds):
        """The name of a function or a type at arguments."""
        wanted = '_'.join([self.names[symbol], *map(word_of, kinds)])
        return self.fresh(key, wanted if len(wanted) <= LONGEST else self.names[symbol])


class Types:
    """The type definitions that the file needs, each before the first that uses it."""

    def __init__(self, program, names):
        self.program, self.names, self.written, self.lines = program, names, set(), []
        functions = program.functions.items()
        self.symbols = Symbols([*[key for key, one in functions if key == one.symbol], *program.shapes],
                               [one.symbol for _, one in functions])

    def function_name(self, key):
        """The name of a function in C."""
        function = self.program.functions[key]
        return self.symbols.name(key, function.symbol, function.of.types)

    def name(self, kind):
        """The name of a type in C; its definition is written at its first use."""
        if kind == ('Bool',):
            return 'bool'
        if kind == UNIT:
            return 'void'
        if kind[0] == 'Int' and kind[1] in WIDTHS:
            return f'uint{kind[1]}_t'
        if kind[0] == 'Ref':
            return declared(self.name(kind[1]), '*')
        name = self.struct_name(kind)
        if name not in self.written:
            self.written.add(name)
            self.lines += ['', *self.definition(name, kind)]
        return name

    def struct_name(self, kind):
        """The name of a type that is a struct in C, or the tag of an enumeration."""
        if kind[0] == 'Named':
            return self.symbols.name(kind if kind[2] else kind[1], kind[1], kind[2])
        if kind[0] not in ('Slice', 'Array') or kind[1] == UNIT:
            raise Unknown(f'a type {kind}')
        word = self.struct_name(kind[1]) if kind[1][0] in ('Named', 'Slice', 'Array') else word_of(kind[1])
        return self.symbols.fresh(kind, f'slice_{word}' if kind[0] == 'Slice' else f'{word}_{kind[2]}')

    def definition(self, name, kind):
        """The definition of a type. A struct of C has a member, if the type has no field."""
        if self.variants(kind) is not None:
            return self.enumeration(name, kind)
        fields = [('at', kind[1])] if kind[0] == 'Array' else self.held(self.fields(kind))
        length = f'[{max(kind[2], 1)}]' if kind[0] == 'Array' else ''
        lines = [f'    {declared(self.name(one), label)}{length};' for label, one in fields]
        return [f'typedef struct {name} {{', *(lines or ['    uint8_t none;']), f'}} {name};']

    @staticmethod
    def held(fields):
        """The fields that are members in C."""
        return [(label, kind) for label, kind in fields if kind != UNIT]

    def enumeration(self, name, kind):
        """An enumeration: its tags and, if a variant has fields, a struct of the tag and a
        union."""
        labels, variants = self.labels(kind), self.variants(kind)
        tags = [f'    {name}_{label} = {number}' for number, label in enumerate(labels)]
        lines = ['enum {', *[tag + ',' for tag in tags[:-1]], tags[-1], '};'] if tags else []
        if self.is_tag(kind):
            return [*lines, f'typedef uint8_t {name};']
        lines += [f'typedef struct {name} {{', '    uint8_t tag;', '    union {']
        for label, fields in zip(labels, variants):
            members = self.held((f'f{number};', one) for number, one in enumerate(fields))
            held = [declared(self.name(one), each) for each, one in members]
            lines += [f'        struct {{ {" ".join(held)} }} {label};'] if held else []
        return [*lines, '    } as;', f'}} {name};']

    def variants(self, kind):
        """The variants of an enumeration, or None for another type."""
        return self.program.variants(kind)

    def is_tag(self, kind):
        """Whether a type is an enumeration whose variants have no fields."""
        variants = self.variants(kind)
        return variants is not None and all(one == UNIT for fields in variants for one in fields)

    def labels(self, kind):
        """The names of an enumeration's variants."""
        return self.names.parts(kind[1], len(self.variants(kind)), 'v')

    def fields(self, kind):
        """The fields of a struct or a slice: names and types."""
        if kind[0] == 'Slice':
            return [('at', ('Ref', kind[1])), ('len', ('Int', 64))]
        fields = self.program.fields(kind)
        if fields is None:
            raise Unknown(f'fields of the type {kind}')
        return list(zip(self.names.parts(kind[1], len(fields), 'f'), fields))
