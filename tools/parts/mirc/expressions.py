"""The terms of the MIR as expressions of C99: places, structs and calls.

All integers of C are unsigned and as wide as those of the MIR; an operation that reads a sign
converts its operands. The proof excludes what the MIR leaves undefined: overflow, an index outside
of an array. What C leaves undefined beyond that is not written: sums and products are of unsigned
numbers of at least 32 bits, a pointer has the type of what it points to and stays inside its array,
and nothing is read as another type than it was written."""
import re

from .instances import UNIT, Unknown, constructor
from .mir import operands, term
from .operations import COMPARISONS, LOOSE, SIGN, TIGHT, Operations, number
from .places import Places
from .types import declared


class Expressions(Operations):
    """The expressions of one function. constants are the definitions of those that it lends, by name."""

    def __init__(self, types, function, labels):
        self.types, self.function, self.labels = types, function, labels
        self.places, self.constants = Places(function, types.program), {}

    # -- types

    def typed(self, one):
        """The type of a term, or None for an aggregate, whose type is that of its goal."""
        name = one[0]
        if name in ('local', 'deref', 'field'):
            return self.places.typed(one)
        if name == 'int':
            return ('Int', one[1])
        if name == 'bool':
            return ('Bool',)
        if name == 'op2':
            return self.type_of_operation(one)
        if name == 'op1':
            return ('Int', one[2][2]) if one[1] == 'Cast' else self.typed(one[3])
        if name in ('addr', 'lent'):
            return ('Ref', self.typed(one[1]) if name == 'addr' else one[1])
        return self.types.program.functions[one[1]].types[0] if name == 'call' else None

    def type_of_operation(self, one):
        """The type of an operation on two operands."""
        if one[1] == 'Offset':
            return ('Ptr',)
        return ('Bool',) if one[1] in COMPARISONS else self.typed(one[3])

    # -- texts

    def value(self, one, wanted):
        """The text of a term for a place of a type."""
        if wanted[0] == 'Ref':
            return self.pointer(one, wanted[1])[0]
        if self.typed(one) not in (None, wanted):
            raise Unknown(f'a value {one} of type {self.typed(one)} for a place of type {wanted}')
        return self.text(one, wanted)[0]

    def tight(self, one, least=SIGN):
        """The text of a term as an operand."""
        text, bound = self.text(one)
        return text if bound >= least else f'({text})'

    def text(self, one, wanted=None):
        """The text of a term, and how tightly it binds."""
        name = one[0]
        if name == 'local':
            return self.labels[one[1]], TIGHT
        if name == 'deref':
            return self.deref(one), TIGHT
        if name == 'field':
            return self.field(one), TIGHT
        if name == 'int':
            return number(one[2]), TIGHT
        if name == 'bool':
            return ('true' if one[1] else 'false'), TIGHT
        if name == 'call':
            return self.call(one[1], operands(one)), TIGHT
        if name == 'addr':
            return self.pointer(one, self.typed(one)[1])
        if name in ('agg', 'repeat') and wanted is not None:
            return self.aggregate(one, wanted), SIGN
        if name == 'lent':
            return self.lent(one[1], one[2]), SIGN
        if name in ('op1', 'op2'):
            return self.op1(*one[1:]) if name == 'op1' else self.op2(*one[1:])
        raise Unknown(f'a term {one}')

    # -- places

    def pointer(self, one, kind):
        """The text of a pointer to a value of a type, or to the first of elements of it."""
        if one[0] == 'addr' and one[1][0] == 'deref' and one[1][1] == kind:
            return self.pointer(one[1][2], kind)
        element = self.element(one, kind)
        if element:
            return f'{element[0]} + {self.operand(element[1])}', LOOSE
        array = self.array(one, kind)
        if array:
            return array, TIGHT
        if one[0] == 'addr' and self.typed(one[1]) == kind:
            return f'&{self.tight(one[1], TIGHT)}', SIGN
        pointed = self.typed(one)[1:] if self.typed(one)[0] == 'Ref' else ((None, None),)
        if pointed[0] == kind:
            return self.text(one)
        if pointed[0][0] == 'Array' and pointed[0][1] == kind:
            return f'{self.tight(one, TIGHT)}->at', TIGHT
        raise Unknown(f'an address {one} that is no element of an array of {kind}')

    @staticmethod
    def operand(text):
        """An index as an operand."""
        return text if re.fullmatch(r'\w+', text) else f'({text})'

    def deref(self, one):
        """What a pointer leads to: an element of an array, or the value that a reference refers
        to."""
        element = self.element(one[2], one[1])
        if element:
            return f'{element[0]}[{element[1]}]'
        if one[2][0] == 'addr' and self.typed(one[2][1]) == one[1]:
            return self.tight(one[2][1], TIGHT)
        if self.typed(one[2]) != ('Ref', one[1]):
            raise Unknown(f'an address {one[2]} that is no reference to {one[1]}')
        return f'(*{self.tight(one[2], TIGHT)})'

    def element(self, one, kind):
        """The array and the index of an address, or None if it is no offset of whole elements."""
        if one[:2] != ('op2', 'Offset') or self.array(one[3], kind) is None:
            return None
        size, offset = self.types.program.size(kind), one[4]
        if offset[:2] == ('op2', 'Mul') and offset[4] == ('int', 64, size) and size:
            index = offset[3]
            return self.array(one[3], kind), str(index[2]) if index[0] == 'int' else self.text(index)[0]
        if offset[0] == 'int' and size and offset[2] % size == 0:
            return self.array(one[3], kind), str(offset[2] // size)
        return (self.array(one[3], kind), self.text(offset)[0]) if size == 1 else None

    def array(self, one, kind):
        """The text of a pointer to the first element of a type, or None."""
        if one[0] == 'addr' and self.typed(one[1])[:2] == ('Array', kind):
            return self.member(one[1], 'at')
        if one[0] in ('local', 'field', 'deref') and self.typed(one) == ('Ref', kind):
            return self.tight(one, TIGHT)
        return None

    def member(self, one, label):
        """A member of a struct, or of one that a reference leads to."""
        if one[0] == 'deref' and one[2][0] == 'local' and self.element(one[2], one[1]) is None:
            return f'{self.text(one[2])[0]}->{label}'
        return f'{self.tight(one, TIGHT)}.{label}'

    def field(self, one):
        """A field of a struct, a slice or a variant."""
        number, of = one[1], one[2]
        if of[0] != 'variant':
            return self.member(of, self.types.fields(self.typed(of))[number][0])
        kind = self.typed(of[2])
        if self.types.is_tag(kind):
            return self.tight(of[2], TIGHT)
        if number == 0:
            return self.member(of[2], 'tag')
        return self.member(of[2], f'as.{self.types.labels(kind)[of[1]]}.f{number - 1}')

    # -- structs and calls

    def aggregate(self, one, wanted):
        """A struct, an array, a slice or an enumeration, of its fields."""
        name, fields = self.types.name(wanted), operands(one)
        if wanted[0] == 'Array':
            return self.array_of(name, wanted, fields * (one[2] if one[0] == 'repeat' else 1))
        if self.types.variants(wanted) is not None:
            return self.variant(name, wanted, fields)
        members = self.types.fields(wanted)
        if len(members) != len(fields):
            raise Unknown(f'{name} of {len(fields)} fields')
        values = [(label, self.value(part, kind)) for part, (label, kind) in zip(fields,
                                                                                 members) if kind != UNIT]
        if wanted[0] == 'Slice':
            return self.same_slice(fields, wanted) or f'({name}){{ {values[0][1]}, {values[1][1]} }}'
        return f'({name}){{ {", ".join(f".{label} = {value}" for label, value in values) or "0"} }}'

    def array_of(self, name, wanted, fields):
        """An array of its elements."""
        if len(fields) != wanted[2]:
            raise Unknown(f'{name} of {len(fields)} elements')
        values = [self.value(part, wanted[1]) for part in fields]
        zeros = all(value in ('0u', 'false') for value in values)
        return f'({name}){{ {{ {"0" if zeros else ", ".join(values)} }} }}'

    def same_slice(self, fields, wanted):
        """The slice of which these are pointer and length, or None."""
        start, length = fields
        if start[0] == 'addr' and start[1][0] == 'deref':
            start = start[1][2]
        if start[:2] == ('field', 0) and length == term('field', 1, start[2]) and \
                self.typed(start[2]) == wanted:
            return self.text(start[2])[0]
        return None

    def variant(self, name, wanted, fields):
        """An enumeration: its tag, and the fields of its variant."""
        number = fields[0][2]
        label, kinds = self.types.labels(wanted)[number], self.types.variants(wanted)[number]
        if len(kinds) != len(fields) - 1:
            raise Unknown(f'{name} of {len(fields) - 1} fields')
        if self.types.is_tag(wanted):
            return f'{name}_{label}'
        values = ', '.join(self.value(part, kind) for part, kind in zip(fields[1:], kinds) if kind != UNIT)
        inner = f', .as.{label} = {{ {values} }}' if values else ''
        return f'({name}){{ .tag = {name}_{label}{inner} }}'

    def call(self, symbol, given):
        """A call."""
        callee = self.types.program.functions[symbol]
        if len(given) != callee.params:
            raise Unknown(f'a call of {symbol} with {len(given)} arguments')
        pairs = zip(given, callee.types[1:])
        values = [self.value(one, kind) for one, kind in pairs if kind != UNIT]
        return f'{self.types.function_name(symbol)}({", ".join(values)})'

    # -- constants that are lent

    def lent(self, kind, value):
        """A pointer to a constant of the function. The MIR writes nothing through it."""
        text = self.initial(kind, value)
        label = next((name for name, each in self.constants.items() if each == (kind, text)), None)
        label = label or f'lent_{len(self.constants) + 1}'
        self.constants[label] = kind, text
        return f'({declared(self.types.name(kind), "*")})&{label}'

    def definitions(self):
        """The definitions of the constants."""
        return [f'static const {declared(self.types.name(kind), label)} = {text};'
                for label, (kind, text) in self.constants.items()]

    def initial(self, kind, value):
        """The initial value of a constant."""
        name = constructor(value)
        if name == 'Int' and kind == ('Int', value['Int']['width']):
            return number(value['Int']['value'])
        if name == 'Bool' and kind == ('Bool',):
            return 'true' if value['Bool'] else 'false'
        if name in ('Ints', 'Repeat', 'Parts') and kind[0] == 'Array':
            return f'{{ {{ {", ".join(self.elements(kind, name, value[name])) or "0"} }} }}'
        if name != 'Parts' or kind[0] != 'Named':
            raise Unknown(f'a constant {value} of {kind}')
        if self.types.variants(kind) is None:
            members = zip(self.types.fields(kind), value['Parts'])
            parts = [f'.{label} = {self.initial(one, part)}' for (label, one), part in members if one != UNIT]
            return f'{{ {", ".join(parts) or "0"} }}'
        tag = value['Parts'][0]['Int']['value']
        label = self.types.labels(kind)[tag]
        if self.types.is_tag(kind):
            return f'{self.types.name(kind)}_{label}'
        members = zip(self.types.variants(kind)[tag], value['Parts'][1:])
        parts = [self.initial(one, part) for one, part in members if one != UNIT]
        inner = f', .as.{label} = {{ {", ".join(parts)} }}' if parts else ''
        return f'{{ .tag = {self.types.name(kind)}_{label}{inner} }}'

    def elements(self, kind, name, value):
        """The initial values of an array's elements."""
        if name == 'Ints' and kind[1] == ('Int', value['width']):
            texts = [number(each) for each in value['values']]
        elif name == 'Repeat':
            texts = [self.initial(kind[1], value[0])] * value[1]
        else:
            texts = [self.initial(kind[1], part) for part in value]
        if len(texts) != kind[2]:
            raise Unknown(f'a constant of {len(texts)} elements for {kind}')
        return texts
