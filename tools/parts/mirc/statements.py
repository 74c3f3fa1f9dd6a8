"""The statements of a function of the MIR as statements of C99."""
import re
from collections import namedtuple

from .control import leaves
from .expressions import Expressions
from .folding import locals_of, mentions, reads, sets_all
from .instances import UNIT, Unknown
from .mir import every
from .types import declared

# A loop or a switch of C around a statement. Of a loop: the block that break leaves, and the loop or block
# of which continue is the next turn.
Frame = namedtuple('Frame', 'loop behind again')
# The longest line that is written where it can be cut.
WIDTH = 100


def ends(body):
    """Whether control never reaches the end of a list of statements."""
    last = body[-1] if body else None
    if last is None or last.kind not in ('return', 'exit', 'if', 'switch'):
        return False
    return all(ends(inner) for inner in last.bodies)


def cut(text, depth):
    """The lines of a statement: cut behind a comma, or between two brackets, where it is long."""
    space = '    ' * depth
    while len(space) + len(text) > WIDTH:
        gaps = [found.end() for found in re.finditer(r',(?= )|\((?=\()', text) if found.end() > 8]
        fitting = [gap for gap in gaps if len(space) + gap <= WIDTH]
        if not gaps:
            break
        at = fitting[-1] if fitting else gaps[0]
        yield space + text[:at]
        text, space = text[at:].lstrip(), '    ' * (depth + 2)
    yield space + text


class Body:
    """One function of C."""

    def __init__(self, types, function, names):
        self.types, self.function, self.lines = types, function, []
        self.labels = names.locals(function)
        self.expressions = Expressions(types, function, self.labels)
        self.first, self.top, self.marks = set(), [], {}
        self.unread = {local for local in range(1, len(function.types))
                       if not any(reads(statement, local) for statement in every(function.body))}
        self.place_declarations()

    def write(self, text, depth):
        """Writes a statement, cut where it is long."""
        self.lines += cut(text, depth)

    # -- declarations

    def place_declarations(self):
        """Decides where each local is declared: with its first assignment if everything that
        mentions it follows inside the same braces, else at the top."""
        for local in range(self.function.params + 1, len(self.function.types)):
            if self.function.types[local] != UNIT and local not in self.unread:
                found = self.declaring(self.function.body, local)
                self.first |= found or set()
                self.top += [local] if found is None else []
        bare = any(one.kind == 'return' and not one.terms for one in every(self.function.body))
        if self.function.types[0] != UNIT and bare:
            self.top.append(0)

    def declaring(self, body, local):
        """The statements that declare a local, or None if it must be declared at the top."""
        here = [statement for statement in body if mentions(statement, local)]
        if not here:
            return set()
        if len(here) == 1 and here[0].bodies and not reads(here[0], local):
            found = [self.declaring(inner, local) for inner in here[0].bodies]
            return None if None in found else set().union(*found)
        one = here[0]
        return {id(one)} if sets_all(one, local) and not reads(one, local) else None

    # -- statements

    def statements(self, body, depth, around):
        """A list of statements. around are the frames of the loops and switches they are in,
        innermost first."""
        write = {'assign': self.assign, 'call': self.call, 'if': self.conditional,
                 'switch': self.switch, 'block': self.block, 'loop': self.loop, 'exit': self.exit,
                 'return': self.give_back}
        for statement in body:
            if statement.kind not in write:
                raise Unknown(f'a statement {statement.kind}')
            write[statement.kind](statement, depth, around)

    def goal(self, statement):
        """The place that is assigned, with its type where that declares it."""
        text = self.expressions.text(statement.goal)[0]
        text = text[1:-1] if re.fullmatch(r'\(\*\w+\)', text) else text
        if id(statement) not in self.first:
            return text
        return declared(self.types.name(self.function.types[statement.goal[1]]), text)

    def is_unread(self, goal):
        """Whether a place is a whole local that nothing reads."""
        return goal[0] == 'local' and goal[1] in self.unread

    def assign(self, statement, depth, _):
        """An assignment; none to a local that nothing reads."""
        kind = self.expressions.typed(statement.goal)
        own = statement.goal[0] == 'local' and statement.goal[1] > self.function.params
        if kind != UNIT and not (own and self.is_unread(statement.goal)):
            value = self.expressions.value(statement.terms[0], kind)
            self.write(f'{self.goal(statement)} = {value};', depth)

    def call(self, statement, depth, _):
        """A call as a statement of its own."""
        text = self.expressions.call(statement.more, statement.terms)
        kind = self.types.program.functions[statement.more].types[0]
        if self.expressions.typed(statement.goal) != kind:
            raise Unknown(f'a call of {statement.more} whose result has another type')
        if kind == UNIT:
            self.write(f'{text};', depth)
        elif self.is_unread(statement.goal):
            self.write(f'(void){text};', depth)
        else:
            self.write(f'{self.goal(statement)} = {text};', depth)

    def give_back(self, statement, depth, _):
        """A return."""
        kind = self.function.types[0]
        if kind != UNIT:
            value = self.labels[0]
            if statement.terms:
                value = self.expressions.value(statement.terms[0], kind)
            self.write(f'return {value};', depth)
        elif statement is not self.function.body[-1]:
            self.write('return;', depth)

    def conditional(self, statement, depth, around):
        """An if."""
        then, other = statement.bodies
        if not then and not other:
            return
        condition = statement.terms[0]
        text = self.expressions.value(condition, ('Bool',)) if then else self.negated(condition)
        self.write(f'if ({text}) {{', depth)
        self.statements(then or other, depth + 1, around)
        if then and other:
            self.write('} else {', depth)
            self.statements(other, depth + 1, around)
        self.write('}', depth)

    def negated(self, one):
        """A condition, negated."""
        if one[:2] == ('op1', 'Not'):
            return self.expressions.value(one[3], ('Bool',))
        return '!' + self.expressions.tight(one)

    def switch(self, statement, depth, around):
        """A switch. Without a default arm the last arm is the default: the proof has no other case. One of
        two arms is an if where an arm leaves the loop around it, as break leaves a switch alone."""
        (keys, _), on = statement.more, statement.terms[0]
        names, loop = self.tags(on), next((one for one in around if one.loop), None)
        leaving = loop and loop.behind and any(leaves(body, loop.behind) for body in statement.bodies)
        if leaving and len(statement.bodies) == 2 and len(keys[0]) == 1:
            return self.two_arms(statement, depth, around)
        self.write(f'switch ({self.expressions.text(on)[0]}) {{', depth)
        for place, body in enumerate(statement.bodies):
            for key in keys[place] if place < len(keys) else ():
                self.write(f'case {self.key(key, names)}:', depth)
            if place == len(statement.bodies) - 1:
                self.write('default:', depth)
            self.arm(body, depth, around)
        return self.write('}', depth)

    @staticmethod
    def key(key, names):
        """The key of an arm: the name of a tag, or a number."""
        return names.get(key, key if key < 1 << 31 else f'UINT64_C({key})')

    def two_arms(self, statement, depth, around):
        """A switch of two arms as an if."""
        on = statement.terms[0]
        key = self.key(statement.more[0][0][0], self.tags(on))
        self.write(f'if ({self.expressions.tight(on)} == {key}) {{', depth)
        self.statements(statement.bodies[0], depth + 1, around)
        if statement.bodies[1]:
            self.write('} else {', depth)
            self.statements(statement.bodies[1], depth + 1, around)
        self.write('}', depth)

    def tags(self, on):
        """The names of the tags, if a switch is over the tag of an enumeration."""
        if on[:2] != ('field', 0) or on[2][0] != 'variant':
            return {}
        kind = self.expressions.typed(on[2][2])
        labels = enumerate(self.types.labels(kind))
        return {number: f'{self.types.name(kind)}_{label}' for number, label in labels}

    def arm(self, body, depth, around):
        """The statements of an arm, in braces if one of them declares a local."""
        braces = self.declares(body)
        self.lines[-1] += ' {' if braces else ''
        self.statements(body, depth + 1, [Frame(False, None, None), *around])
        if not ends(body):
            self.write('break;', depth + 1)
        if braces:
            self.write('}', depth)

    def declares(self, body):
        """Whether statements declare a local, outside of other braces."""
        inner = [each for one in body if one.kind == 'block' for each in one.bodies[0]]
        return any(id(one) in self.first for one in body) or bool(inner) and self.declares(inner)

    # -- loops, and what leaves them

    def block(self, statement, depth, around):
        """A block: a loop that its exits leave, or a list of statements with a label behind it."""
        inner = statement.bodies[0]
        if [one.kind for one in inner] == ['loop']:
            self.loop(inner[0], depth, around, statement)
        else:
            self.statements(inner, depth, around)
        self.label(statement, depth)

    def loop(self, statement, depth, around, behind=None):
        """A loop. One that begins with a test that leaves the block around it is a while. A block at its
        end, with one assignment behind it, is the body of a for: what leaves that block goes on with the
        assignment."""
        body = statement.bodies[0]
        test = next((one for one in body[:1] if one.kind == 'if' and not one.bodies[0] and
                     [(each.kind, each.more) for each in one.bodies[1]] == [('exit', behind)]), None)
        condition = self.expressions.value(test.terms[0], ('Bool',)) if test else ''
        body = body[1:] if test else body
        step = self.step(statement, body)
        again = body[-2] if step else statement
        head = f'for (; {condition}; {step})' if step else f'while ({condition})' if test else 'for (;;)'
        self.write(f'{head} {{', depth)
        frame = Frame(True, behind, again)
        self.statements([*body[:-2], *again.bodies[0]] if step else body, depth + 1, [frame, *around])
        self.label(again, depth + 1)
        self.write('}', depth)

    def step(self, loop, body):
        """The assignment that ends each turn of a loop, if what is before it is a block."""
        if len(body) < 2 or (body[-2].kind, body[-1].kind) != ('block', 'assign') or leaves(body, loop) or \
                [one.kind for one in body[-2].bodies[0]] == ['loop']:
            return None
        last = body[-1]
        if last.goal[0] != 'local' or locals_of(last.terms[0]) - {last.goal[1]} or id(last) in self.first:
            return None
        kind = self.function.types[last.goal[1]]
        return f'{self.goal(last)} = {self.expressions.value(last.terms[0], kind)}'

    def label(self, statement, depth):
        """A label, if a goto leads to it."""
        if id(statement) in self.marks:
            self.write(f'{self.marks[id(statement)]}: ;', depth)

    def exit(self, statement, depth, around):
        """What leaves a block, or begins a loop anew: break and continue where they mean that, else a
        goto."""
        goal, loop = statement.more, next((one for one in around if one.loop), None)
        if around and around[0].loop and around[0].behind is goal:
            self.write('break;', depth)
        elif loop and loop.again is goal:
            self.write('continue;', depth)
        else:
            mark = self.marks.setdefault(id(goal), f'label_{len(self.marks) + 1}')
            self.write(f'goto {mark};', depth)

    def whole(self):
        """The lines of the function."""
        function, types = self.function, self.types
        kinds = zip(function.types[1:function.params + 1], self.labels[1:])
        params = [declared(types.name(kind), label) for kind, label in kinds if kind != UNIT]
        head = declared(types.name(function.types[0]), types.function_name(function.key))
        self.write(f'static inline {head}({", ".join(params) or "void"})', 0)
        self.lines.append('{')
        for local in self.top:
            self.write(f'{declared(types.name(function.types[local]), self.labels[local])};', 1)
        for local in range(1, function.params + 1):
            if local in self.unread and function.types[local] != UNIT:
                self.write(f'(void){self.labels[local]};', 1)
        start = self.lines
        self.lines = []
        self.statements(function.body, 1, [])
        rest, self.lines = self.lines, start
        for text in self.expressions.definitions():
            self.write(text, 1)
        return [*self.lines, *rest, '}']
