"""What the crates have of the interface, compared with the description: nothing is written there."""
import os
import re

from .reader import camel

TYPES = {'u64': ('u64', 'usize'), 'size': ('usize',), 'i64': ('i64',), 'u8': ('u8',)}


class Crates:
    """The files below crates/, and what was found to differ."""

    def __init__(self, root):
        self.folder, self.said = os.path.join(root, 'crates'), []

    def read(self, path):
        """A file's text, without its comments."""
        try:
            with open(os.path.join(self.folder, path), encoding='utf-8') as file:
                return re.sub(r'(?m)^\s*(//|--).*\n', '', file.read())
        except OSError:
            self.differs(path, 'there is no such file')
            return ''

    def differs(self, path, what):
        """One line on a place that differs."""
        self.said.append(f'crates/{path}: {what}')


def definition(text, name):
    """The clauses of a definition: its lines, with those that go on below them."""
    return re.findall(rf'(?m)^{re.escape(name)}\b(?! :)(?: [^\n]*)?=(?:[^\n]*\n(?:[ \t]+[^\n]+\n)*)', text)


def names(text):
    """The constructors that a file calls by another name."""
    return dict(re.findall(r'(\w+) as (\w+)', text)), {new: old for old, new in re.findall(r'(\w+) as (\w+)', text)}


def clauses(text, name, form):
    """The constructors of a definition with their numbers, from its clauses or from its tests."""
    found, renamed = {}, names(text)[1]
    pattern = re.escape(form).replace(re.escape('{}'), r'(\d+)') if form else r'=\s*(\d+)\s*$'
    for clause in definition(text, name):
        # What a call gives where it is not refused stands behind `Ok`.
        head = re.match(rf'{re.escape(name)} \(?(?:Ok \(?)?(\w+)', clause)
        number = re.search(pattern, clause)
        tests = re.findall(r'\(eqb [^()]*(?:\([^()]*\))? ?(\d+)\) (\w+)', clause)
        if tests:
            last = re.search(r'(\w+)\)*\s*$', clause).group(1)
            found.update({renamed.get(each, each): int(digits) for digits, each in tests})
            found[renamed.get(last, last)] = max(found.values()) + 1
        elif head and number:
            found[renamed.get(head.group(1), head.group(1))] = int(number.group(1))
    return found


def compare_numbers(crates, path, name, wanted, found):
    """Reports each constructor whose number is another one, is missing, or is not described."""
    for each in sorted(set(wanted) | set(found)):
        if wanted.get(each) != found.get(each):
            crates.differs(path, f'{name}: {each} is {found.get(each, "not there")}, described as {wanted.get(each, "none")}')


def compare_enums(crates, d):
    """The numbers of enumerations and constants."""
    for enum in d.enums:
        if 'rattle' in enum.more:
            path, name, *form = enum.more['rattle'].split(' ', 2)
            found = clauses(crates.read(path), name, form[0] if form else '')
            compare_numbers(crates, path, name, {value.rattle: value.number for value in enum.values}, found)
    for each in d.constants:
        compare_text(crates, each, each.name, {'{}': each.text})
    numbers = zip(('{major}', '{minor}', '{patch}'), d.version.text.split('.'))
    compare_text(crates, d.version, 'version', {'{}': str(d.version.number), **dict(numbers)})


def compare_text(crates, entry, what, values):
    """A definition that must have a text in it, with these values; lines in the middle of numbers do not count."""
    if 'rattle' in entry.more:
        path, name, wanted = entry.more['rattle'].split(' ', 2)
        for place, value in values.items():
            wanted = wanted.replace(place, value)
        clauses = [clause.replace('_', '') for clause in definition(crates.read(path), name)]
        if not any(re.search(rf'(?<!\w){re.escape(wanted.replace("_", ""))}(?!\w)', clause) for clause in clauses):
            crates.differs(path, f'{name}: it does not say {wanted!r}, described as {what}')


def compare_refusals(crates, d):
    """The refusals of each enumeration: their names and their numbers."""
    for each in d.refusal_sets:
        described = d.refusals_in(each)
        listed = re.search(r'pub enum Refusal \{([^}]*)\}', crates.read(each.source))
        found = re.findall(r'\w+', listed.group(1)) if listed else []
        for name in sorted(set(found) ^ set(described)):
            crates.differs(each.source, f'Refusal: {name} is {"not described" if name in found else "described, and not there"}')
        compare_numbers(crates, each.numbers, each.function, described,
                        clauses(crates.read(each.numbers), each.function, ''))


def is_type(field, text):
    """Whether a field's type in Rattle is the one described."""
    name, length = re.fullmatch(r'\[?(\w+)(?:; (\d+)\])?', text.strip()).groups()
    kinds = TYPES.get(field.type, (f'Host{camel(field.type)}',))
    return name in kinds and (int(length) if length else None) == field.length


def sources(crates):
    """The sources of all crates, by their paths."""
    found = {}
    for crate in sorted(os.listdir(crates.folder)):
        folder = os.path.join(crates.folder, crate, 'src')
        for where, _, names in sorted(os.walk(folder)):
            for name in sorted(names):
                path = os.path.relpath(os.path.join(where, name), crates.folder)
                found[path] = crates.read(path)
    return found


def compare_structs(crates, d, texts):
    """The structs of C: their fields in order, with their types."""
    described = {f'Host{camel(struct.name)}': struct for struct in d.structs}
    seen = set()
    for path, text in texts.items():
        for name, body in re.findall(r'#\[repr\(C\)\]\s*(?:#\[derive\([^)]*\)\]\s*)?pub struct (Host\w+) \{([^}]*)\}', text):
            seen.add(name)
            if name not in described:
                crates.differs(path, f'{name}: it is not described')
                continue
            fields = re.findall(r'pub (\w+): ([^,\n]+)', body)
            wanted = described[name].fields
            same = [field == each.name and is_type(each, kind) for (field, kind), each in zip(fields, wanted)]
            if len(fields) != len(wanted) or not all(same):
                told = ', '.join(f'{field}: {kind}' for field, kind in fields)
                crates.differs(path, f'{name}: {told}; described: {", ".join(each.name for each in wanted)}')
    for name in set(described) - seen:
        crates.differs('*/src', f'{name}: it is described, and no crate has it')


def signature(call):
    """A call's parameters and what it gives, as Rattle writes them, without names."""
    kinds = {'words': ('&[i64]',), 'mut': ('&mut [i64]',)}
    takes = [kinds.get(each.type) or TYPES.get(each.type) or (f'Host{camel(each.type)}',) for each in call.parameters]
    return takes, TYPES.get(call.gives) or (f'Host{camel(call.gives)}',)


def compare_calls(crates, d, texts):
    """The exported functions: their parameters in order, and what they give."""
    described, seen = {f'rowkeeper_{call.name}': call for call in d.calls}, set()
    pattern = r'#\[unsafe\(no_mangle\)\]\s*pub extern "C" fn (\w+)\(([^)]*)\)(?: -> (\w+))?'
    for path, text in texts.items():
        for name, takes, gives in re.findall(pattern, text):
            seen.add(name)
            if name not in described:
                # A crate beside the library may export functions of its own, for a program that measures it.
                if path.startswith('host_c/'):
                    crates.differs(path, f'{name}: it is not described')
                continue
            kinds = [each.split(':', 1)[1].strip() for each in takes.split(',') if each.strip()]
            wanted, given = signature(described[name])
            same = len(kinds) == len(wanted) and all(kind in each for kind, each in zip(kinds, wanted))
            if not same or gives not in given:
                crates.differs(path, f'{name}: ({", ".join(kinds)}) -> {gives}; described otherwise')
    for name in set(described) - seen:
        crates.differs('host_c/src/lib.rt', f'{name}: it is described, and is not exported')


def compare(d, root):
    """A line for each place of the crates that differs from the description."""
    crates = Crates(root)
    texts = sources(crates)
    compare_enums(crates, d)
    compare_refusals(crates, d)
    compare_structs(crates, d, texts)
    compare_calls(crates, d, texts)
    return crates.said
