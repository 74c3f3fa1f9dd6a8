"""The functions of the header, over those of the exported crate, and the layout that both share."""
import re

from .instances import Unknown
from .types import declared

SLICE_OF = '''
/* A slice of the caller's words. If there are none, the pointer, which may be null, is not used. */
static inline slice_u64 slice_of(const int64_t *at, size_t len)
{
    static const int64_t none[1] = { 0 };
    slice_u64 words;
    words.at = (uint64_t *)(uintptr_t)(len != 0 ? at : none);
    words.len = len;
    return words;
}'''
PROTOTYPE = re.compile(r'^(\w+) (rowkeeper_\w+)\(([^)]*)\);', re.M)
PARAMETER = re.compile(r'(.*?) ?(\*?)(\w+)')


def parameters(text):
    """The parameters of a prototype: types and names."""
    if text.strip() == 'void':
        return []
    found = [PARAMETER.fullmatch(' '.join(word.split())) for word in text.split(',')]
    return [(f'{word[1]} *' if word[2] else word[1], word[3]) for word in found]


def calls_of(header):
    """The calls that the text of a header declares, by name: result and parameters."""
    text = re.sub(r'/\*.*?\*/', '', header, flags=re.S)
    return {name: (result, parameters(params)) for result, name, params in PROTOTYPE.findall(text)}


class Export:
    """One function of the header. Structs of the header pass through unions with those of the
    crate."""

    def __init__(self, types, function, result, params):
        self.types, self.function, self.result, self.params = types, function, result, params
        self.arguments, self.unions = [], []
        self.read_parameters()

    def read_parameters(self):
        """The arguments of the inner function, and the structs that come in."""
        rest = iter(self.params)
        for kind in self.function.types[1:self.function.params + 1]:
            outer, label = next(rest, (None, None))
            if outer is None:
                break
            if kind[0] == 'Slice':
                self.arguments.append(f'slice_of({label}, {next(rest, ("", ""))[1]})')
            elif kind[0] == 'Named':
                self.unions.append((outer, kind, f'{label}_in'))
                self.arguments.append(f'{label}_in.inner')
            else:
                self.arguments.append(f'(uint64_t){label}' if outer == 'int64_t' else label)
        if next(rest, None) is not None or len(self.arguments) != self.function.params:
            raise Unknown(f'{self.function.symbol}: the header has other parameters')

    def gives_struct(self):
        """Whether the result is a struct."""
        return self.function.types[0][0] == 'Named'

    def layouts(self):
        """The structs of the header with the types of the crate that they share their layout
        with."""
        own = [(self.result, self.function.types[0])] if self.gives_struct() else []
        return [(outer, kind) for outer, kind, _ in self.unions] + own

    def lines(self):
        """The lines of the function."""
        name = self.function.symbol.split('::')[-1]
        params = ', '.join(declared(*each) for each in self.params)
        head = f'{self.result} {name}({params or "void"})'
        call = f'{self.types.function_name(self.function.key)}({", ".join(self.arguments)})'
        result = [(self.result, self.function.types[0], 'given')] if self.gives_struct() else []
        lines = [f'    union {{ {outer} outer; {self.types.name(kind)} inner; }} {label};'
                 for outer, kind, label in self.unions + result]
        lines += [f'    {label}.outer = {label[:-3]};' for _, _, label in self.unions]
        if self.gives_struct():
            return ['', head, '{', *lines, f'    given.inner = {call};',
                    '    return given.outer;', '}']
        return ['', head, '{', *lines, f'    return {call};', '}']


def same_layout(types, outer, kind):
    """Lines that compile only if a struct of the header has the layout of the one in the crate."""
    inner = types.name(kind)
    lines = [f'SAME(size_{outer}, sizeof({outer}), sizeof({inner}));']
    for label, _ in types.fields(kind):
        places = f'offsetof({outer}, {label}),', f'offsetof({inner}, {label})'
        lines += [f'SAME(place_{outer}_{label},', f'     {places[0]} {places[1]});']
    return lines
