"""The declarations of bindings/rust: src/raw.rs' parts, and src/numbers.rs."""
import textwrap

from .reader import camel, sentence

TYPES = {'u64': 'u64', 'i64': 'i64', 'size': 'usize', 'u8': 'u8'}
# Words that no function of Rust can have as its name.
KEYWORDS = ('move', 'match', 'type', 'use', 'ref', 'in', 'loop', 'where')
WIDTH = 120
# The elements that an array can have at most to be a default of Rust's own.
LONGEST_DEFAULT = 32


def rust_type(field):
    """A type in Rust."""
    name = TYPES.get(field.type) or camel(field.type)
    return f'[{name}; {field.length}]' if getattr(field, 'length', None) else name


def doc(text, indent=''):
    """Lines of documentation; constants of the header are named as they are here."""
    lines = textwrap.wrap(sentence(text.replace('ROWKEEPER_', '')), WIDTH - 4 - len(indent))
    return [f'{indent}/// {line}' for line in lines]


def default_of(field):
    """The default of a field: zeros throughout."""
    one = '0' if field.type in TYPES else f'{camel(field.type)}::default()'
    return f'[{one}; {field.length}]' if field.length else one


def defaults(struct):
    """The default of a struct with an array that has none of its own."""
    fields = [f'{field.name}: {default_of(field)}' for field in struct.fields]
    body = [f'        {camel(struct.name)} {{ {", ".join(fields)} }}']
    if len(body[0]) > WIDTH:
        body = [f'        {camel(struct.name)} {{', *(f'            {each},' for each in fields), '        }']
    return ['', f'impl Default for {camel(struct.name)} {{', '    /// Zeros throughout.', '    fn default() -> Self {', *body, '    }', '}']


def struct(d, each):
    """A struct with its default."""
    long = any((field.length or 0) > LONGEST_DEFAULT for field in each.fields)
    lines = ['', *doc(' '.join(d.comment(each))), '#[repr(C)]',
             f'#[derive(Clone, Copy, Debug, {"" if long else "Default, "}PartialEq, Eq)]', f'pub struct {camel(each.name)} {{']
    for field in each.fields:
        lines += doc(field.comment, '    ')
        lines.append(f'    pub {field.name}: {rust_type(field)},')
    return lines + ['}'] + (defaults(each) if long else [])


def structs(d):
    """The constants and the structs."""
    lines = ['/// The version of the library that these declarations are of.', f'pub const VERSION: &str = "{d.version.text}";',
             '/// The same as a number: 1,000,000 × major + 1,000 × minor + patch.',
             f'pub const VERSION_NUMBER: u64 = {d.version.number};']
    for each in d.constants:
        kind = 'u64' if each.number >= 1 << 31 else 'usize' if each.number >= 0 else 'i64'
        lines += [*doc(' '.join(each.comment)), f'pub const {each.name}: {kind} = {each.text};']
    for enum in d.enums:
        for value in enum.values:
            if not value.defined:
                lines += [*doc(value.comment), f'pub const {value.c}: u64 = {value.number};']
    for each in d.structs:
        lines += struct(d, each)
    lines += ['', '/// How many words a join is.', f'pub const JOIN_WORDS: usize = {d.words("join")};',
              'const _: () = assert!(size_of::<Join>() == 8 * JOIN_WORDS && align_of::<Join>() == 8 && size_of::<usize>() == 8);']
    return lines


def gives(d, call):
    """What a call gives, in Rust."""
    return TYPES.get(call.gives) or camel(call.gives)


def wrapped(head, parameters, tail, indent):
    """A function's head on one line, or a line for each parameter."""
    line = f'{indent}{head}({", ".join(parameters)}){tail}'
    if len(line) <= WIDTH:
        return [line]
    return [f'{indent}{head}(', *(f'{indent}    {each},' for each in parameters), f'{indent}){tail}']


def externs(d):
    """The calls as they are."""
    lines = ['unsafe extern "C" {']
    for call in d.calls:
        plain = all(each.length is None for each in call.parameters)
        parameters = []
        for each in call.parameters:
            if each.length is None:
                parameters.append(f'{each.name}: {rust_type(each)}')
            else:
                parameters += [f'{each.name}: *{"mut" if each.type == "mut" else "const"} i64', f'{each.length}: usize']
        note = ' Safe: it is lent nothing.' if plain else ''
        lines += doc(sentence(call.more['brief']) + note, '    ')
        lines += wrapped(f'pub {"safe " if plain else ""}fn rowkeeper_{call.name}', parameters, f' -> {gives(d, call)};', '    ')
    return lines + ['}']


def safe_name(call):
    """The name of the call that takes slices."""
    name = call.more.get('rust', call.name)
    return f'{name}_join' if name in KEYWORDS else name


def slices(d):
    """The calls with slices in the place of pointers and lengths."""
    lines = []
    for call in d.calls:
        if all(each.length is None for each in call.parameters):
            continue
        parameters, arguments = [], []
        for each in call.parameters:
            if each.length is None:
                parameters.append(f'{each.name}: {rust_type(each)}')
                arguments.append(each.name)
            elif each.type == 'mut':
                parameters.append(f'{each.name}: &mut [i64]')
                arguments += [f'{each.name}.as_mut_ptr()', f'{each.name}.len()']
            else:
                parameters.append(f'{each.name}: &[i64]')
                arguments += [f'{each.name}.as_ptr()', f'{each.name}.len()']
        lines += ['', *doc(call.more['brief'], '    ')]
        lines += wrapped(f'pub fn {safe_name(call)}', parameters, f' -> {gives(d, call)} {{', '    ')
        lines.append('        // SAFETY: see the module.')
        body = f'        unsafe {{ rowkeeper_{call.name}({", ".join(arguments)}) }}'
        if len(body) <= WIDTH:
            lines.append(body)
        else:
            inner = f'            rowkeeper_{call.name}({", ".join(arguments)})'
            lines.append('        unsafe {')
            lines += [inner] if len(inner) <= WIDTH else [f'            rowkeeper_{call.name}(',
                                                          *(f'                {each},' for each in arguments), '            )']
            lines.append('        }')
        lines.append('    }')
    return lines[1:]


def numbers(d):
    """src/numbers.rs: the enumerations of the wrapper, and the refusals."""
    lines = ['//! The enumerations and refusals, by their numbers. Written by tools/interface from interface/rowkeeper.txt.']
    for enum in d.enums:
        if 'rust' in enum.more:
            lines += ['', *doc(enum.more['rust']), '#[derive(Clone, Copy, Debug, PartialEq, Eq)]', f'pub enum {enum.name} {{']
            for value in enum.values:
                lines += [*doc(value.comment, '    '), f'    {value.name} = {value.number},']
            lines += ['}', '', f'impl {enum.name} {{', '    /// The one of a number, or none if no one has it.',
                      f'    pub const fn of(number: u64) -> Option<{enum.name}> {{', '        match number {']
            lines += [f'            {value.number} => Some({enum.name}::{value.name}),' for value in enum.values]
            lines += ['            _ => None,', '        }', '    }', '}']
    given = d.given_refusals()
    lines += ['', '/// Why a call is refused. If several refusals apply, the first in checking order is given; the numbers say nothing',
              '/// about that order. Later versions may have more of them.', '#[derive(Clone, Copy, Debug, PartialEq, Eq, PartialOrd, Ord)]',
              '#[non_exhaustive]', 'pub enum Refusal {']
    for each in given:
        lines += [*doc(each.more['rust'], '    '), f'    {each.name} = {each.number},']
    lines += ['}', '', 'impl Refusal {', '    /// All refusals, by number.', f'    pub const ALL: [Refusal; {len(given)}] = [']
    lines += [f'        Refusal::{each.name},' for each in given]
    lines += ['    ];', '', '    /// What it says: the text of `rowkeeper_refusal_text`.', '    pub const fn text(self) -> &\'static str {',
              '        match self {']
    lines += [f'            Refusal::{each.name} => "{each.more["text"]}",' for each in given]
    return lines + ['        }', '    }', '}']
