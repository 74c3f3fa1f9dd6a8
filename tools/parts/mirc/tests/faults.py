"""Puts faults into a copy of the translator, one at a time: a test of constructs.py must see each.

python3 -B -m tools.parts.mirc.tests.faults [say]

With `say` each fault is printed with the tests that see it. Status 1 if a fault is not seen."""
import os
import re
import shutil
import subprocess
import sys
import tempfile

PACKAGE = os.path.dirname(os.path.dirname(os.path.abspath(__file__)))
# The file, its text, the faulty text, and what is wrong then.
FAULTS = [
    ('operations.py', "if name in COMPARISONS and sign == 'Signed':", 'if False:',
     'signed comparisons read no sign'),
    ('operations.py', "'Le': '<='", "'Le': '<'", '<= becomes <'),
    ('operations.py', "return f'!{self.tight(one)}', SIGN", 'return self.text(one)',
     'a negation is lost'),
    ('operations.py', "(right[0] == 'int' or is_shift)", 'is_shift', 'two constants have 32 bits'),
    ('operations.py', "(right[0] == 'int' or is_shift)", "right[0] == 'int'",
     'a constant that is shifted has 32 bits'),
    ('operations.py', "extended = kind[0] == 'Int' and how[0] == 'Signed' and how[2] > kind[1]",
     'extended = False',
     'a sign is not extended'),
    ('operations.py', "        if name in QUOTIENTS and sign == 'Signed':", '        if False:',
     'signed quotients are unknown'),
    ('operations.py', "if width < 32 and (name in SUMS or name == 'Shl'):", 'if False:',
     'narrow sums keep what is above their width'),
    ('operations.py', "((uint32_t){self.tight(left)} {sign_of_c}", '({self.tight(left)} {sign_of_c}',
     'narrow sums have a sign'),
    ('operations.py', "f'(uint{kind[1]}_t)' if kind[1] < 32 else ''", "''",
     'a narrow complement has a sign'),
    ('operations.py', "('Shr', 'Unsigned'): '>>'", "('Shr', 'Signed'): '>>'",
     'shifts are taken for those with a sign'),
    ('operations.py', "'Or': '||'", "'Or': '&&'", 'or becomes and'),
    ('expressions.py', 'str(offset[2] // size)', 'str(offset[2])', 'constant offsets are in bytes'),
    ('operations.py', "return f'{first} {sign_of_c} {self.tight(right)}', LOOSE",
     "return f'{first} {sign_of_c} {self.tight(right)}', TIGHT",
     'arithmetic as an operand has no brackets'),
    ('expressions.py', "return text if bound >= least else f'({text})'", 'return text', 'no operand has brackets'),
    ('expressions.py', "zeros = all(value in ('0u', 'false') for value in values)", 'zeros = True',
     'all arrays are zeros'),
    ('expressions.py', "if start[:2] == ('field', 0) and length == term('field', 1, start[2]) and \\\n",
     "if start[:2] == ('field', 0) and \\\n", 'a shorter slice is the whole one'),
    ('expressions.py', '.f{number - 1}', '.f0', 'each field of a variant is the first'),
    ('statements.py', "            self.write('break;', depth + 1)\n", '            pass\n',
     'arms fall through'),
    ('statements.py', 'self.statements(then or other, depth + 1, around)',
     'self.statements(other or then, depth + 1, around)', 'the arms of an if are exchanged'),
    ('statements.py', "return '!' + self.expressions.tight(one)",
     "return '!' + self.expressions.text(one)[0]", '! binds the first operand alone'),
    ('statements.py', '[Frame(False, None, None), *around]', 'around',
     'a break inside a switch leaves the switch'),
    ('statements.py', 'if around and around[0].loop and around[0].behind is goal:', 'if around:',
     'every exit is a break'),
    ('statements.py', 'elif loop and loop.again is goal:', 'elif loop:', 'every other exit is a continue'),
    ('statements.py', "or leaves(body, loop) or", 'or',
     'what begins a loop anew goes past its last assignment'),
    ('statements.py', "locals_of(last.terms[0]) - {last.goal[1]} or", '',
     'the step of a for reads locals of its body'),
    ('statements.py', "        self.label(statement, depth)\n\n    def loop", "\n    def loop",
     'labels are missing'),
    ('control.py', "if body and body[-1].kind == 'exit' and body[-1].more is goal:",
     "if body and body[-1].kind == 'exit':",
     'every last exit is dropped'),
    ('control.py', "in ('if', 'switch', 'block'):\n        body[-1]",
     "in ('if', 'switch', 'block', 'loop'):\n        body[-1]",
     'an exit at the end of a loop inside is dropped'),
    ('control.py', 'if leaves([one], block)), len(body))', 'if False), len(body))', 'all blocks are dropped'),
    ('control.py', "all(one.kind in ('assign', 'call') for one in body[:-1])", 'True',
     'an arm that returns is dropped'),
    ('control.py', 'zip(keys, statement.bodies) if not is_dead(body)]', 'zip(keys, statement.bodies)]',
     'the keys of dropped arms stay'),
    ('folding.py', 'return False\n            if any(sets(one, local) for local in read):',
     'return True\n            if any(sets(one, local) for local in read):',
     'reads of memory move past stores and calls'),
    ('folding.py', 'if any(sets(one, local) for local in read):', 'if False:',
     'values move past assignments of what they read'),
    ('folding.py', '        if many > 1 or (many and found is not None):\n            return None\n', '',
     'values that are read twice move'),
    ('folding.py', 'return not (stores and reads_memory(value, memory))', 'return True',
     'a pointer is read beside the call that stores through it'),
    ('mir.py', 'self.open[-1 - raw]', 'self.open[-1]', 'every exit leaves the innermost block'),
    ('mir.py', 'bodies=[then, self.statements()]', 'bodies=[self.statements(), then]',
     'then and else are exchanged'),
    ('mir.py', 'return first + self.statements()', 'return self.statements() + first',
     'statements are in reverse'),
    ('mir.py', '*self.operands(words))\n\n    def value', '*self.operands(words[::-1]))\n\n    def value',
     'operands are exchanged'),
    ('mir.py', 'if version not in KITS:', 'if False:', 'any kit is taken'),
    ('mir.py', 'if callee is None:', 'if False:', 'calls of what does nothing stay'),
    ('mir.py', "if not program.has_reference(self.types[0]):", 'if True:',
     'an array that is lent leaves the function as a local'),
    ('mir.py', ' or any(keeps(one, local) for one in read)', '',
     'a pointer to an array that is lent is kept'),
    ('instances.py', "return inner if inner == UNIT else ('Ref', inner)", "return ('Ref', inner)",
     'a reference to nothing is a pointer'),
    ('instances.py', 'before[0] + types, before[1] + dicts', 'types + before[0], dicts + before[1]',
     'own arguments come before those of the impl'),
    ('instances.py', "one[1][raw['Method'][1]]", 'one[1][0]', 'every method is the first'),
    ('instances.py', "return self.of.dicts[raw['Given']]", 'return self.of.dicts[-1]',
     'every dictionary is the last'),
    ('instances.py', '[dictionary_text(one) for one in self.dicts]', '[]',
     'functions that differ in dictionaries are one'),
    ('instances.py', "unit) for word in raw['body'])", "unit) or 'Call' in word for word in raw['body'])",
     'a function that calls does nothing'),
    ('instances.py', 'return given[raw[\'Param\']]', 'return given[0]', 'every parameter is the first'),
    ('program.py', 'end += -end % align + size', 'end += size', 'there are no gaps between fields'),
    ('program.py', 'start, ends, aligns = 0 if self.variants(kind) is None else 1, [], [1]',
     'start, ends, aligns = 0, [], [1]', 'a tag has no size'),
    ('program.py', 'return end + -end % max(aligns), max(aligns)', 'return end, max(aligns)',
     'there is no gap behind the last field'),
    ('program.py', 'if takes(raw) != (len(of.types), len(of.dicts)):', 'if False:',
     'any arguments are taken'),
    ('places.py', 'one.goal == here else one.goal)', 'one.goal == here else one.terms[0])',
     'a raw pointer that is copied is not known'),
    ('places.py', "places.typed(one.goal) == UNIT or", '', 'values without a content are assigned'),
    ('expressions.py', "== ('int', 64, size) and size:", "[:2] == ('int', 64) and size:",
     'an index is of elements of any size'),
    ('expressions.py', 'label or f\'lent_{len(self.constants) + 1}\'', "label or 'lent_1'",
     'all constants are one'),
    ('expressions.py', "if len(texts) != kind[2]:", 'if False:', 'a constant has any count of elements'),
    ('expressions.py', "name == 'Int' and kind == ('Int', value['Int']['width'])", "name == 'Int'",
     'a constant has any width'),
    ('types.py', 'if name not in self.taken', 'if True', 'two instances have one name'),
    ('types.py', 'if len(wanted) <= LONGEST else', 'if True else', 'names are of any length'),
    ('types.py', "(lines or ['    uint8_t none;'])", 'lines', 'a struct has no member'),
    ('statements.py', 'or bool(inner) and self.declares(inner)', '',
     'an arm whose block declares has no braces'),
    ('names.py', "place not in function.slots:", 'True:', 'slots of parameters take the names of others'),
    ('names.py', "bound(without_closures(body))", 'bound(body)',
     'what closures bind is taken for the function\'s'),
    ('names.py', "not first and (held or generic)", 'False', 'functions of the kit have names'),
    ('exports.py', '(len != 0 ? at : none)', 'at', 'null pointers are used'),
    ('exports.py', "self.arguments.append(f'{label}_in.inner')", 'self.arguments.append(label)',
     'structs of the header are passed as they are'),
    ('types.py', 'name if counts[name] == 1 else plain(symbol)', 'name',
     'two functions have one name'),
]


def faulty(folder, name, old, new):
    """Puts one fault into a copy of the package in a folder."""
    goal = os.path.join(folder, 'tools', 'parts', 'mirc')
    shutil.copytree(PACKAGE, goal, ignore=shutil.ignore_patterns('__pycache__'))
    with open(os.path.join(goal, name), encoding='utf-8') as file:
        text = file.read()
    if text.count(old) != 1:
        sys.exit(f'faults: {name} has {text.count(old)} times: {old}')
    with open(os.path.join(goal, name), 'w', encoding='utf-8') as file:
        file.write(text.replace(old, new))


def seen_by(name, old, new):
    """The tests that fail with one fault."""
    with tempfile.TemporaryDirectory() as folder:
        faulty(folder, name, old, new)
        ran = subprocess.run([sys.executable, '-B', '-m', 'unittest', 'tools.parts.mirc.tests.constructs'],
                             cwd=folder, stdout=subprocess.PIPE, stderr=subprocess.STDOUT)
    return sorted(set(re.findall(r'^(?:FAIL|ERROR): (\w+)', ran.stdout.decode(), re.M)))


def main(words):
    """Tries each fault; the status."""
    unseen = 0
    for name, old, new, what in FAULTS:
        tests = seen_by(name, old, new)
        unseen += not tests
        if not tests or words == ['say']:
            print(f'{what}: {", ".join(tests) or "NOT SEEN"}')
    print(f'{len(FAULTS)} faults in the translator, {len(FAULTS) - unseen} seen by its tests')
    return 1 if unseen else 0


if __name__ == '__main__':
    sys.exit(main(sys.argv[1:]))
