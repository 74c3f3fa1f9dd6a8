"""MIR as the kit writes it, built by hand, and its C."""
import json
import os
import tempfile

from ..folding import fold
from ..names import Names
from ..program import Program
from ..statements import Body
from ..types import Types

U64, U8, BOOL, UNIT, PTR = {'Int': 64}, {'Int': 8}, 'Bool', 'Unit', 'Ptr'
RETURN = ['Return']


def ref(kind):
    """A reference to a type."""
    return {'Ref': [{'Named': 0}, 'Mut', kind]}


def words(kind=U64):
    """A slice of elements."""
    return {'Struct': ['&[]', [ref(kind), U64]]}


def array(kind, count):
    """An array of elements."""
    return {'Array': [kind, {'Lit': count}]}


def named(symbol, *kinds):
    """A struct or an enumeration, at types."""
    return {'Named': [{'name': symbol, 'lifetimes': []}, list(kinds)]}


def param(place):
    """A type parameter."""
    return {'Param': place}


def at(local, *steps):
    """A place: a local, and the steps from it. A number is a field, ('v', N) a variant, ('*', T) a deref."""
    found = [{'Field': step} if isinstance(step, int) else
             {'Variant': step[1]} if step[0] == 'v' else {'Deref': step[1]} for step in steps]
    return {'local': local, 'steps': found}


def copy(local, *steps):
    """A place as an operand."""
    return {'Copy': at(local, *steps)}


def number(value, width=64):
    """A constant."""
    return {'Int': {'width': width, 'value': value}}


def op2(name, sign, left, right):
    """An operation on two operands."""
    return {'Op2': [{name: sign} if sign else name, left, right]}


def put(place, value):
    """An assignment of a value; an operand is one."""
    place = at(place) if isinstance(place, int) else place
    known = ('Op1', 'Op2', 'AddrOf', 'Aggregate', 'Repeat', 'Opd')
    whole = isinstance(value, dict) and next(iter(value)) in known
    return [{'Assign': [place, value if whole else {'Opd': value}]}]


def callee(symbol, kinds=(), dicts=()):
    """A function, at types and dictionaries."""
    return {'Fn': [symbol, {'types': list(kinds), 'dicts': list(dicts)}]}


def method(dictionary, place, kinds=(), dicts=()):
    """A method of a dictionary."""
    return {'Method': [dictionary, place, {'types': list(kinds), 'dicts': list(dicts)}]}


def call(symbol, given, goal):
    """A call of a symbol or of another callee."""
    return [{'Call': [callee(symbol) if isinstance(symbol, str) else symbol, given, at(goal)]}]


def when(condition, then, other):
    """An if."""
    return [{'If': condition}, *then, *other]


def seq(*statements):
    """Statements one after the other."""
    return [word for one in statements[:-1] for word in ('Seq', *one)] + statements[-1]


def loop(condition, *body):
    """A while."""
    leave = when(condition, ['Skip'], [{'Exit': 1}])
    return ['Block', 'Loop', *seq(leave, *body)]


def function(params, kinds, body, shapes=()):
    """A function: how many parameters, the types of its locals, its body, the shapes of types."""
    return {'params': params, 'locals': [{'ty': kind, 'home': 'ValueLocal'} for kind in kinds],
            'body': body, 'types': [{'name': name, 'shape': shape} for name, shape in shapes]}


def generic(types, bounds, raw, **impls):
    """A function with this many parameters for types and for dictionaries, and the methods of the impls
    that it names."""
    tables = [{'name': name, 'methods': methods} for name, methods in impls.items()]
    return {**raw, 'generics': {'types': [{}] * types, 'bounds': [{}] * bounds, 'impls': tables}}


def program(functions, crate='one'):
    """A program of functions by symbol, as if the kit had proved their crates."""
    with tempfile.TemporaryDirectory() as folder:
        crates = {}
        for symbol, raw in functions.items():
            crates.setdefault(symbol.split('::')[0], []).append([symbol, raw])
        for name, listed in crates.items():
            path = os.path.join(folder, f'{name}.rlib', 'toolchain')
            os.makedirs(path)
            with open(os.path.join(path, 'mir.json'), 'w', encoding='utf-8') as file:
                json.dump(listed, file)
        return Program([folder], crate)


def c_of(functions, symbol='one::f', crate='one'):
    """The C of a function, whose key has the symbol at its start, and the types that it needs, as lines."""
    made, names = program(functions, crate), Names([])
    for each in made.functions.values():
        fold(each)
    types = Types(made, names)
    lines = Body(types, made.functions[symbol], names).whole()
    return lines, types.lines
