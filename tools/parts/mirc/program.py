"""The functions of the proved crates, read from their rlibs, each at the arguments at which it is
called, and the types that they name."""
import json
import os

from .instances import Instance, Unknown, constructor, does_nothing, type_of
from .mir import Function
from .places import drop_idle, find_pointees

# The one type of the kit's libraries with a raw pointer in it that is translated: slots of memory, a
# pointer to the first and their count.
SLOTS = 'core::slots::Slots'


class Program:
    """The functions that those of a crate reach, callees first, and the shapes of the types that
    they name. A root is a function of the crate's root without parameters for types."""

    def __init__(self, folders, crate):
        self.folders, self.crates, self.functions, self.shapes = folders, {}, {}, {}
        raw = self.crate(crate)
        self.roots = sorted(symbol for symbol in raw if symbol.count('::') == 1 and takes(raw[symbol]) == (0,
                                                                                                           0))
        for root in self.roots:
            self.reach(Instance(root, (), ()), ())

    def crate(self, name):
        """The functions of a crate, by symbol."""
        if name not in self.crates:
            below = os.path.join(f'{name}.rlib', 'toolchain', 'mir.json')
            paths = [os.path.join(each, below) for each in self.folders]
            path = next((path for path in paths if os.path.exists(path)), None)
            if path is None:
                raise Unknown(f'there is no {name}.rlib: prove {name} first (rt check {name})')
            with open(path, encoding='utf-8') as file:
                self.crates[name] = dict(json.load(file))
        return self.crates[name]

    def raw(self, symbol):
        """The MIR of a function, as the kit keeps it."""
        return self.crate(symbol.split('::')[0])[symbol]

    def read(self, of):
        """One function; whatever its MIR has that the modules above do not expect is unknown
        too."""
        try:
            raw = self.raw(of.symbol)
            if takes(raw) != (len(of.types), len(of.dicts)):
                raise Unknown('other arguments than the function takes')
            for one in raw['types']:
                if self.shapes.setdefault(one['name'], one['shape']) != one['shape']:
                    raise Unknown(f'two shapes of the type {one["name"]}')
            return Function(of, raw, self)
        except Unknown as unknown:
            raise Unknown(f'{unknown} in {of.key}') from None
        except (KeyError, IndexError, TypeError, ValueError, StopIteration) as error:
            raise Unknown(f'MIR of another form in {of.key}: {error!r}') from None

    def reach(self, of, callers):
        """Adds a function behind those that it calls."""
        if of.key in callers:
            raise Unknown(f'{of.key} calls itself')
        if of.key in self.functions:
            return
        function = self.read(of)
        for callee in function.callees.values():
            self.reach(callee, (*callers, of.key))
        find_pointees(function, self)
        drop_idle(function, self)
        self.functions[of.key] = function

    # -- types

    def fields(self, kind):
        """The types of a struct's fields, or None for another type."""
        shape = self.shapes[kind[1]] if kind[0] == 'Named' else {'Variants': []}
        if constructor(shape) != 'Fields':
            return None
        fields = [type_of(one, kind[2]) for one in shape['Fields']]
        return [('Ref', kind[2][0]), fields[1]] if kind[1] == SLOTS else fields

    def variants(self, kind):
        """The types of the fields of each variant of an enumeration, or None for another type."""
        shape = self.shapes[kind[1]] if kind[0] == 'Named' else {'Fields': []}
        if constructor(shape) != 'Variants':
            return None
        return [[type_of(one, kind[2]) for one in fields] for fields in shape['Variants']]

    def parts(self, kind):
        """The lists of fields of a type that a value may have, without the tag of an enumeration."""
        if kind[0] == 'Slice':
            return [[('Ref', kind[1]), ('Int', 64)]]
        fields = self.fields(kind)
        return [fields] if fields is not None else self.variants(kind)

    def has_reference(self, kind):
        """Whether a type has a reference in it."""
        if kind[0] == 'Array':
            return self.has_reference(kind[1])
        if kind[0] != 'Named':
            return kind[0] in ('Ref', 'Slice', 'Ptr')
        return any(self.has_reference(one) for each in self.parts(kind) for one in each)

    def layout(self, kind):
        """The size and the alignment of a type in bytes, as the kit's logic/Prog/Memory.antt has them:
        those of C."""
        if kind[0] in ('Int', 'Bool', 'Ref', 'Ptr', 'Unit'):
            size = {'Int': kind[-1], 'Bool': 8, 'Unit': 0}.get(kind[0], 64) // 8
            return size, max(size, 1)
        if kind[0] == 'Array':
            size, align = self.layout(kind[1])
            return size * kind[2], align
        start, ends, aligns = 0 if self.variants(kind) is None else 1, [], [1]
        for fields in self.parts(kind):
            end = start
            for one in fields:
                size, align = self.layout(one)
                end += -end % align + size
                aligns.append(align)
            ends.append(end)
        end = max(ends, default=1)
        return end + -end % max(aligns), max(aligns)

    def size(self, kind):
        """The size of a type in bytes."""
        return self.layout(kind)[0]


def takes(raw):
    """How many types and how many dictionaries a function takes."""
    generics = raw.get('generics', {})
    return len(generics.get('types', ())), len(generics.get('bounds', ()))
