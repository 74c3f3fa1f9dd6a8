"""The declarations of the Python module, which the command uses too: bindings/python/rowkeeper/interface.py."""
import textwrap

from .reader import camel, sentence

TYPES = {'u64': 'c_uint64', 'i64': 'c_int64', 'size': 'c_size_t', 'u8': 'c_uint8'}


def python_type(field):
    """A type of ctypes."""
    name = TYPES.get(field.type) or camel(field.type)
    return f'{name} * {field.length}' if getattr(field, 'length', None) else name


def wrapped(head, items, tail):
    """A list behind its bracket."""
    text = ', '.join(items) + tail
    lines = textwrap.wrap(text, 118 - len(head), break_long_words=False, break_on_hyphens=False)
    return [head + lines[0], *(' ' * len(head) + line for line in lines[1:])]


def struct(d, each):
    """A struct as a class."""
    lines = ['', '', f'class {camel(each.name)}(ctypes.Structure):', f'    """{sentence(" ".join(d.comment(each)))}"""']
    items = [f"('{field.name}',\xa0{python_type(field)})" for field in each.fields]
    return lines + [line.replace('\xa0', ' ') for line in wrapped('    _fields_ = [', items, ']')]


def call(each):
    """A call's parameters and what it gives."""
    types = []
    for parameter in each.parameters:
        types += ['c_void_p', 'c_size_t'] if parameter.length else [TYPES.get(parameter.type) or camel(parameter.type)]
    return wrapped(f"    'rowkeeper_{each.name}': ([", types, f'],\xa0{TYPES.get(each.gives) or camel(each.gives)}),')


def module(d):
    """The whole module."""
    lines = ['"""The C interface: numbers, texts, structs and calls. Written by tools/interface from interface/rowkeeper.txt."""',
             'import ctypes', 'from ctypes import c_int64, c_size_t, c_uint8, c_uint64, c_void_p', '',
             '# The version of the library that these declarations are of.', f"VERSION = '{d.version.text}'", f'VERSION_NUMBER = {d.version.number}',
             '', '# The name of its shared object, which has another number if a host must be compiled anew.',
             f"SONAME = 'librowkeeper.so.{d.abi}'"]
    for each in d.constants:
        lines += ['', f'# {" ".join(each.comment)}', f'{each.name} = {each.text}']
    for enum in d.enums:
        lines += ['', f'# {" ".join(enum.comment).replace("ROWKEEPER_", "")}']
        lines += [f'{value.c} = {value.number}' for value in enum.values if not value.defined]
        if 'python' in enum.more:
            names = ', '.join(f"'{value.name.lower()}'" for value in sorted(enum.values))
            lines += ['# Their names, in the order of their numbers.', f'{enum.more["python"]} = ({names})']
    lines += ['', '# The refusals by name.', *(f'{each.c} = {each.number}' for each in d.given_refusals())]
    lines += ['', '# What each refusal says.', 'REFUSALS = {']
    lines += [f"    {each.number}: '{each.more['text']}'," for each in d.given_refusals()] + ['}']
    for each in d.structs:
        lines += struct(d, each)
    lines += ['', '', '# What each call takes and gives. Words are a pointer and a length.', 'CALLS = {']
    for each in d.calls:
        lines += [line.replace('\xa0', ' ') for line in call(each)]
    return lines + ['}']
