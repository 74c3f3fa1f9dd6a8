"""The names of parameters, locals, fields and variants in the source, and its comments. These are
labels only: no name decides what the code does."""
import os
import re

# Words that C, its compilers or Windows' headers use.
RESERVED = set(
    'auto break case char const continue default do double else enum extern float for goto if '
    'inline int long register restrict return short signed sizeof static struct switch typedef '
    'union unsigned void volatile while bool true false near far result small interface'.split())
FUNCTION = re.compile(
    r'((?:^//[^\n]*\n)*)(?:^#\[[^\n]*\]\n)*'
    r'^[ ]*(?:pub )?(?:extern "C" )?fn (\w+)(?=[<(])', re.M)
TYPE = re.compile(r'\b(?:struct|enum) (\w+)(?:<[^>]*>)? \{')
# What holds functions: an impl of a type, or of a trait for a type, and a trait.
HOLDER = re.compile(r"^(?:impl(?:<[^{]*?>)? (?:(\w+)(?:<([^{]*)>)? for )?&?(?:'\w+ )?(\w+)|"
                    r'(?:pub )?trait (\w+))[^{;]*\{', re.M)
BODY = re.compile(r'^ *\{$|\{\n', re.M)
# What binds names: let, a pattern with fields, and for.
BOUND = re.compile(r'\blet (?:mut )?(\w+)\b(?!::)(?!\()|\blet \(([\w, ]+)\)|'
                   r'\b\w+(?:::\w+)?\(+([\w, ]+)\)+ (?:=>|=[^=])|'
                   r'\bfor \(?([\w, ]+)\)? in ([^\n]*) \{\n')
CLOSURE = re.compile(r'(?:(?<=\()|(?<=, )|(?<== ))(?:move )?\|([^|\n]*)\|\s*')
COMMENT = re.compile(r'//[^\n]*')


def free(word):
    """The word, with a trailing underscore if C uses it."""
    return word + '_' if word in RESERVED else word


def closing(text, start):
    """The place of the bracket that closes the one at start."""
    depth = 0
    for place in range(start, len(text)):
        depth += (text[place] in '([{') - (text[place] in ')]}')
        if depth == 0:
            return place
    return len(text)


def split(text):
    """The text, split at the commas that are in no brackets."""
    pieces, depth = [''], 0
    for letter in text:
        depth += (letter in '([{<') - (letter in ')]}>')
        if letter == ',' and depth == 0:
            pieces.append('')
        else:
            pieces[-1] += letter
    return [piece.strip() for piece in pieces if piece.strip()]


def modules(folders):
    """The .rt files below folders of crates, each with the path of its module: crate, then module
    names; and whether the folder is the first."""
    for folder in folders:
        for crate in sorted(os.listdir(folder)):
            source = os.path.join(folder, crate, 'src')
            for path, _, files in sorted(os.walk(source)):
                for name in sorted(name for name in files if name.endswith('.rt')):
                    below = os.path.relpath(os.path.join(path, name[:-3]), source).split(os.sep)
                    module = below[:-1] if below[-1] == 'lib' else below
                    yield '::'.join([crate, *module]), os.path.join(path, name), folder == folders[0]


def behind_angles(text, start):
    """The place behind the type parameters that begin at start."""
    depth = 0
    for place in range(start, len(text)):
        depth += (text[place] == '<') - (text[place] == '>' and text[place - 1] not in '-=')
        if depth == 0:
            return place + 1
    return len(text) - 1


def holder_name(found):
    """The name of an impl or a trait in symbols: that of its type, and those of the trait and the trait's
    arguments."""
    trait, given, kind, own = found.groups()
    words = re.findall(r'\w+', f'{trait or ""} {given or ""}')
    return own or ''.join(word[0].upper() + word[1:] for word in [kind, *words])


def heads_of(text):
    """The names of parameters."""
    heads = [piece.split(':')[0].strip() for piece in split(text)]
    return [re.sub(r'^mut ', '', head.lstrip('&')) for head in heads]


def without_closures(text):
    """A text without its closures: what they bind is theirs."""
    found = CLOSURE.search(text)
    if not found:
        return text
    rest = text[found.end():]
    depth, end = 0, len(rest)
    for place, letter in enumerate(rest):
        depth += (letter in '([{') - (letter in ')]}')
        if depth < 0 or depth == 0 and letter in ',;':
            end = place
            break
    return text[:found.start()] + without_closures(rest[end:])


def closures(text):
    """The closures in a function: the name of the function that each is given to, and its parameters."""
    for found in CLOSURE.finditer(text):
        called = re.findall(r'(\w+)\((?:[^()]|\([^()]*\))*$', text[:found.start()])
        if called:
            yield called[-1], [head if head.isidentifier() else 'given' for head in heads_of(found[1])]


def bound(text):
    """What a function binds by let, by a pattern or by for, in order: lists of names, and of a for what it
    goes through."""
    found = []
    for each in BOUND.finditer(text):
        names = next(group for group in each.groups() if group).split(', ')
        if each[4] == '_':
            continue
        found += [(names, each[5])] if each[4] else [([name], None) for name in names if name != '_']
    return found


def bind_at(kinds, place, bind, words):
    """Gives names to the locals of a binding, of which the first is at a place; the place behind them.
    Those of a for through what is no range have what it goes through before them, and in a slice an
    index."""
    names, through = bind
    if through is not None and ('..' not in through or '[' in through.split('..')[0]):
        while place < len(kinds) and is_gone_through(kinds[place], names):
            place += 1
        if len(names) == 1 and kinds[place:place + 1] == [('Int', 64)]:
            names = [f'{names[0]}_index', *names]
    for name in names:
        words[place] = name
        place += 1
    return place


def is_gone_through(kind, names):
    """Whether a local of a type is not what a for binds: a slice, an array, an iterator, or a tuple of
    which it binds the fields."""
    if kind[0] == 'Named':
        return kind[1].startswith('core::iter::') or kind[1].startswith('(') and len(names) > 1
    return kind[0] == 'Slice' or kind[0] == 'Ref' and kind[1][0] == 'Array'


class Names:
    """The names in the source files of crates, by symbol: of those in the first folder, and of the
    functions of the others that are neither generic nor methods."""

    def __init__(self, folders):
        self.functions, self.types = {}, {}
        for module, path, first in modules(folders):
            with open(path, encoding='utf-8') as file:
                self.read(module, file.read(), first)

    def read(self, module, text, first):
        """The functions and types of one file. Of a type's own methods those that borrow it or are
        generic."""
        holders = [(found.start(), closing(text, found.end() - 1), holder_name(found), not found[1] and
                    found[3])
                   for found in HOLDER.finditer(text)]
        for found in FUNCTION.finditer(text):
            start = found.end() if text[found.end()] == '(' else behind_angles(text, found.end())
            end = closing(text, start)
            comment = ' '.join(line[2:].strip() for line in found[1].split('\n') if line)
            held, own = next(((f'{name}::', own) for begin, last, name,
                              own in holders if begin < found.start() < last), ('', False))
            generic = start != found.end()
            if (own and text[start + 1] != '&' and not generic) or not first and (held or generic):
                continue
            body = self.body(text, end)
            names = heads_of(text[start + 1:end]), bound(without_closures(body)), comment
            self.functions.setdefault(f'{module}::{held}{found[2]}', names)
            for callee, params in closures(body):
                self.functions.setdefault(f'{module}::fn::{held}{found[2]}::{callee}', (['captured', *params],
                                                                                        [], ''))
        for found in TYPE.finditer(text):
            inner = COMMENT.sub('', text[found.end():closing(text, found.end() - 1)])
            heads = [re.split(r'[:({]', re.sub(r'^pub(\([^)]*\))? ', '',
                                               piece))[0].strip() for piece in split(inner)]
            self.types[f'{module}::{found[1]}'] = heads

    @staticmethod
    def body(text, end):
        """The text of a function's body; its parameters end at end."""
        body = BODY.search(text, end)
        return COMMENT.sub('',
                           text[body.start():closing(text, text.index('{', body.start()))]) if body else ''

    def comment(self, symbol):
        """The comment on a function."""
        return self.functions.get(symbol, ([], [], ''))[2]

    def locals(self, function):
        """The names of a function's locals: those of the source as far as it has them, each
        once."""
        params, binds, _ = self.functions.get(function.symbol, ([], [], ''))
        words = dict(enumerate(params[:function.params], 1))
        place = function.params + 1
        for now in function.body if self.calls_generic(function) else ():
            if now.kind != 'assign' or now.goal != ('local',
                    place) or now.terms[0][0] != 'local' or place not in function.slots:
                break
            words[place] = f'{words.get(now.terms[0][1], "p")}_at'
            place += 1
        for bind in binds:
            place = bind_at(function.types, place, bind, words)
        found = ['result']
        for place in range(1, len(function.types)):
            word = free(words.get(place, f'p{place - 1}' if place <= function.params else f't{place}'))
            found.append(f'{word}_{place}' if word in found else word)
        return found

    @staticmethod
    def calls_generic(function):
        """Whether a function is generic, or calls one that is: then the slots of its parameters have names
        of their own."""
        return bool(function.of.types or any(one.types for one in function.callees.values()))

    def parts(self, symbol, count, letter):
        """The names of a type's fields or variants; letter and number if the source does not show
        them."""
        words = self.types.get(symbol, [])
        if len(words) != count or len(set(words)) != count or not all(word.isidentifier() for word in words):
            return [f'{letter}{number}' for number in range(count)]
        return [free(word) for word in words]
