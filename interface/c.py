"""The header's parts, and the facts of hosttest/layout.c."""
import textwrap


# The columns of a line, and of the text of a comment.
WIDTH, TEXT = 120, 117
TYPES = {'u64': 'uint64_t', 'i64': 'int64_t', 'size': 'size_t', 'u8': 'uint8_t'}


def c_type(name):
    """A type in C."""
    return TYPES.get(name) or f'rowkeeper_{name}'


def comment(lines, indent=''):
    """A comment of these lines."""
    rest = [f'{indent}   {line}'.rstrip() for line in lines[1:]]
    return [f'{indent}/* {lines[0]}'] + rest[:-1] + [f'{rest[-1]} */'] if rest else [f'{indent}/* {lines[0]} */']


def c_number(constant):
    """A constant's number in C; one of more than 32 bits is a uint64_t."""
    if constant.number >= 1 << 31:
        return f'((uint64_t){constant.text}u)'
    return constant.text if constant.number >= 0 else f'({constant.text})'


def constants(d):
    """The version, the limits, the words of a join."""
    lines = comment(['The version that this header is of: as text, and as a number that grows from version to version',
                     '(1,000,000 × major + 1,000 × minor + patch).'])
    lines += [f'#define ROWKEEPER_VERSION "{d.version.text}"', f'#define ROWKEEPER_VERSION_NUMBER {d.version.number}']
    for each in d.constants:
        lines += ['', *comment(each.comment), f'#define ROWKEEPER_{each.name} {c_number(each)}']
    lines += ['', *comment(['The words of a join.']), f'#define ROWKEEPER_JOIN_WORDS {d.words("join")}']
    return lines


def enumeration(enum):
    """The values of an enumeration."""
    values = [f'ROWKEEPER_{value.c} = {value.number}' for value in enum.values if not value.defined]
    line = 'enum { ' + ', '.join(values) + ' };'
    if len(line) > WIDTH:
        line = 'enum {\n    ' + ',\n    '.join(values) + '\n};'
    return [*comment(enum.comment), *line.split('\n'), '']


def refusals(d):
    """The refusals by number, each with its comment."""
    given = d.given_refusals()
    lines = comment(['refusal. If several apply, the first in checking order is reported; that order is:', d.checking_order() + '.'])
    lines.append('enum {')
    lines += [*comment(['Not refused.'], '    '), '    ROWKEEPER_ACCEPTED = 0,']
    for each in given:
        calls = ', '.join(call.name for call in d.calls if each.number in call.refused)
        text = each.comment + textwrap.wrap(f'Given by {calls}.', TEXT - 4)
        lines += [*comment(text, '    '), f'    ROWKEEPER_{each.c} = {each.number},']
    lines += [*comment(['The greatest number of a refusal in this version. Later versions may have greater ones.'], '    ')]
    return lines + [f'    ROWKEEPER_LAST_REFUSAL = {given[-1].number}', '};', '']


def texts(d):
    """The text of each refusal, as a function of the header."""
    lines = comment(['One sentence on a refusal, by its number; also on 0 and on numbers that no refusal has. The library has no',
                     'such symbol: the texts are those of the header.'])
    lines += ['ROWKEEPER_INLINE const char *rowkeeper_refusal_text(uint64_t refusal) {', '    switch (refusal) {',
              '    case ROWKEEPER_ACCEPTED: return "accepted";']
    lines += [f'    case ROWKEEPER_{each.c}: return "{each.more["text"]}";' for each in d.given_refusals()]
    return lines + ['    default: return "no refusal of this version has this number";', '    }', '}']


def enumerations(d):
    """All enumerations, then the refusals and their texts."""
    lines = [line for enum in d.enums for line in enumeration(enum)]
    return lines + refusals(d) + texts(d)


def fields(struct):
    """The fields, their comments aligned."""
    heads = [f'    {c_type(field.type)} {field.name}' + (f'[{field.length}];' if field.length else ';')
             for field in struct.fields]
    width = max(map(len, heads))
    for head, field in zip(heads, struct.fields):
        yield f'{head:<{width}} /* {field.comment} */' if field.comment else head


def structs(d):
    """All structs."""
    lines = []
    for struct in d.structs:
        lines += [*comment(d.comment(struct)), f'typedef struct rowkeeper_{struct.name} {{', *fields(struct),
                  f'}} rowkeeper_{struct.name};', '']
    return lines[:-1]


def parameters(call):
    """The parameters of a call, in C."""
    for each in call.parameters:
        if each.type in ('words', 'mut'):
            yield f'{"const " if each.type == "words" else ""}int64_t *{each.name}'
            yield f'size_t {each.length}'
        else:
            yield f'{c_type(each.type)} {each.name}'


def prototype(call):
    """The declaration, wrapped behind its parenthesis."""
    head = f'{c_type(call.gives)} rowkeeper_{call.name}('
    lines, line = [], head
    for word in [f'{each}, ' for each in parameters(call)] or ['void, ']:
        if len(line) + len(word.rstrip()) > WIDTH:
            lines.append(line.rstrip())
            line = ' ' * len(head)
        line += word
    return lines + [line[:-2] + ');']


def calls(d):
    """All calls."""
    lines = []
    for call in d.calls:
        lines += [*comment(d.comment(call)), *prototype(call), '']
    return lines[:-1]


def call_list(d):
    """What each call does, in a line or two."""
    width = max(len(call.name) for call in d.calls)
    lines = ['/*', ' * THE CALLS', ' *']
    for call in d.calls:
        brief = textwrap.wrap(call.more['brief'], TEXT - 18 - width)
        lines += [f' *     rowkeeper_{call.name:<{width}}   {brief[0]}']
        lines += [f' *     {" " * (width + 10)}   {line}' for line in brief[1:]]
    return lines + [' */']


def layout(d):
    """The sizes and the places that a compiler must give the structs."""
    lines = []
    for struct in d.structs:
        lines.append(f'HOLDS({struct.name}_size, sizeof(rowkeeper_{struct.name}) == {8 * d.words(struct.name)});')
        lines += [f'HOLDS({struct.name}_{field.name}_at, AT(rowkeeper_{struct.name}, {field.name}) == {place});'
                  for field, place in d.places(struct)]
    return lines
