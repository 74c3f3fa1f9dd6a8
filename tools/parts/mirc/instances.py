"""Types and functions at arguments: what a generic function of the MIR is for the types and
dictionaries that a call gives it.

A dictionary says which impl answers for a bound: the methods, and the arguments of that impl, as in
the kit's logic/Mir/Inst.antt. Lifetimes and mutability are no part of a type here."""
import re
from collections import namedtuple

# The dictionary of an impl whose methods do nothing, as those that end values without a destructor.
NOTHING = ('Nothing',)
UNIT = ('Unit',)


class Unknown(Exception):
    """A construct that the translator does not know, in one line."""


def constructor(raw):
    """The constructor of a JSON value: the text itself, or the one key of an object."""
    return raw if isinstance(raw, str) else next(iter(raw))


def type_of(raw, given=()):
    """A type as a tuple, with the arguments in the place of parameters: Bool, Unit, Ptr, (Int,
    WIDTH), (Ref, TYPE), (Array, TYPE, COUNT), (Slice, TYPE), (Named, SYMBOL, ARGUMENTS), (Const,
    NUMBER). A reference to Unit leads to nothing, and is Unit too."""
    name = constructor(raw)
    if name in ('Bool', 'Unit', 'Ptr'):
        return (name,)
    if name in ('Int', 'Const'):
        return (name, raw[name])
    if name == 'Param' and raw['Param'] < len(given):
        return given[raw['Param']]
    if name == 'Ref':
        inner = type_of(raw['Ref'][2], given)
        return inner if inner == UNIT else ('Ref', inner)
    if name == 'Array':
        return ('Array', type_of(raw['Array'][0], given), count_of(raw['Array'][1], given))
    if name == 'Struct' and raw['Struct'][0] == '&[]':
        return ('Slice', type_of(raw['Struct'][1][0], given)[1])
    if name == 'Named':
        return ('Named', raw['Named'][0]['name'], tuple(type_of(one, given) for one in raw['Named'][1]))
    raise Unknown(f'a type {raw}')


def count_of(raw, given):
    """The length of an array: a number, or a parameter that is one."""
    if constructor(raw) == 'Lit':
        return raw['Lit']
    kind = type_of(raw, given)
    if kind[0] != 'Const':
        raise Unknown(f'a length {raw}')
    return kind[1]


def pieces(kind):
    """The types inside a type."""
    inside = kind[2] if kind[0] == 'Named' else kind[1:2] if kind[0] in ('Ref', 'Array', 'Slice') else ()
    return list(inside)


class Instance(namedtuple('Instance', 'symbol types dicts')):
    """A function at types and dictionaries."""

    @property
    def key(self):
        """The name of the instance in messages and tables: the symbol, and the arguments if it has any."""
        words = [text_of(kind) for kind in self.types] + [dictionary_text(one) for one in self.dicts]
        return f'{self.symbol}<{", ".join(words)}>' if words else self.symbol


def text_of(kind):
    """A type in words."""
    if kind[0] in ('Int', 'Const'):
        return f'{"u" if kind[0] == "Int" else ""}{kind[1]}'
    inside = ', '.join(text_of(one) for one in pieces(kind))
    if kind[0] == 'Named':
        return f'{kind[1]}<{inside}>' if inside else kind[1]
    forms = {'Ref': f'&{inside}', 'Slice': f'[{inside}]', 'Array': f'[{inside}; {kind[-1]}]', 'Unit': '()'}
    return forms.get(kind[0], kind[0].lower())


def dictionary_text(one):
    """A dictionary in words."""
    if one == NOTHING:
        return 'nothing'
    inside = [text_of(kind) for kind in one[2]] + [dictionary_text(each) for each in one[3]]
    return f'{one[1][0]}<{", ".join(inside)}>' if inside else one[1][0]


def word_of(kind):
    """A type as part of a name in C."""
    if kind[0] in ('Int', 'Const'):
        return text_of(kind)
    words = [word_of(one) for one in pieces(kind)]
    if kind[0] == 'Named':
        return '_'.join([plain(kind[1].split('::')[-1]), *words])
    if kind[0] == 'Array':
        return f'{words[0]}_{kind[2]}'
    return '_'.join([kind[0].lower(), *words])


def plain(symbol):
    """A symbol, or a part of one, as a name in C: closures are named after their functions, tuples after
    their length."""
    if symbol.startswith('('):
        return f'tuple{symbol.count(",") + 1}'
    text = re.sub(r'(^|::)fn::', r'\1', symbol).replace('::', '__')
    return re.sub(r'\W+', '_', text)


def does_nothing(raw):
    """Whether the body of a function has no effect and gives nothing."""
    unit = {'Assign': [{'local': 0, 'steps': []}, {'Opd': 'Unit'}]}
    return all(word in ('Seq', 'Skip', 'Return', unit) for word in raw['body'])


class Scope:
    """What the types, dictionaries and callees in the MIR of one instance are."""

    def __init__(self, of, raw, program):
        self.of, self.program = of, program
        self.impls = {one['name']: one['methods'] for one in raw.get('generics', {}).get('impls', ())}

    def kind(self, raw):
        """A type."""
        return type_of(raw, self.of.types)

    def number(self, raw):
        """A number that is a type's argument."""
        kind = self.kind(raw)
        if kind[0] != 'Const':
            raise Unknown(f'a number {raw}')
        return kind[1]

    def arguments(self, types, dicts):
        """Arguments for types and for bounds."""
        return tuple(self.kind(one) for one in types), tuple(self.dictionary(one) for one in dicts)

    def dictionary(self, raw):
        """A dictionary: (Impl, METHODS, TYPES, DICTIONARIES), or NOTHING."""
        name = constructor(raw)
        if name == 'Given':
            return self.of.dicts[raw['Given']]
        if name != 'Impl' or raw['Impl'][0] not in self.impls:
            raise Unknown(f'a dictionary {raw}')
        methods = self.impls[raw['Impl'][0]]
        if all(does_nothing(self.program.raw(one)) for one in methods):
            return NOTHING
        return ('Impl', tuple(methods), *self.arguments(*raw['Impl'][1:]))

    def callee(self, raw):
        """The instance that a call names, or None if it does nothing. A method of an impl takes the
        arguments of the impl, and then its own."""
        name = constructor(raw)
        if name == 'Fn':
            symbol, own = raw['Fn']
            before = (), ()
        elif name == 'Method':
            one, own = self.dictionary(raw['Method'][0]), raw['Method'][2]
            if one == NOTHING:
                return None
            symbol, before = one[1][raw['Method'][1]], one[2:]
        else:
            raise Unknown(f'a callee {raw}')
        types, dicts = self.arguments(own['types'], own['dicts'])
        return Instance(symbol, before[0] + types, before[1] + dicts)
