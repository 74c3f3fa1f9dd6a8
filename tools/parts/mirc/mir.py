"""The MIR of a function as a list of statements over terms.

The kit defines MIR in logic/Mir/Syntax.antt, Val.antt and Prog/Machine.antt. Integers are bits
without a sign; each operation says how it reads them. A body is a tree of statements. `exit k`
leaves k blocks or loops and continues behind the next block, or with the next iteration of the next
loop."""
from .control import simple
from .instances import Scope, Unknown, constructor, count_of

# The kits whose MIR this translator is tested with, as `rt version` prints them.
KITS = ('rattle-kit-13f logic dac8208d650f15bf',)


def judge_kit(version):
    """Raises Unknown unless the translator is tested with this kit."""
    if version not in KITS:
        raise Unknown(f"the translator is not tested with the kit '{version}': compare its logic/Mir "
                      'with that of a known kit, run tools/check, then add it to KITS in '
                      'tools/parts/mirc/mir.py')


class Term(tuple):
    """An expression or a place: a name, then its parts. Parts that are terms are its operands.

    local N · deref TYPE pointer · field N of · variant N of · int WIDTH VALUE · bool TRUTH · unit ·
    op2 NAME SIGN left right · op1 NAME HOW operand · addr place · agg field… · repeat element COUNT
    · lent TYPE CONSTANT · call KEY argument…"""


def term(*parts):
    """A term."""
    return Term(parts)


def operands(one):
    """The operands of a term."""
    return [part for part in one if isinstance(part, Term)]


class Statement:
    """One statement. kind is assign, call, if, switch, block, loop, exit, return or unreachable.
    goal is the place that it assigns, terms are what it reads, bodies the lists of statements
    inside it. more is the key of a call's callee, the block or loop that an exit leaves, or the
    keys of a switch's arms and whether it has a default arm."""

    def __init__(self, kind, terms=(), goal=None, bodies=(), more=None):
        self.kind, self.terms, self.goal = kind, list(terms), goal
        self.bodies, self.more = list(bodies), more


class Reader:
    """Reads the statements of a body, which the kit lists one after the other, each before those
    inside it. open are the blocks and loops around the next one; callees are the instances that
    are called, by key."""

    def __init__(self, words, scope):
        self.words, self.scope, self.open, self.callees = iter(words), scope, [], {}

    # -- places, operands and values

    def place(self, raw):
        """A place: a local, and the steps from it."""
        place = term('local', raw['local'])
        for step in raw['steps']:
            name = constructor(step)
            if name == 'Deref':
                place = term('deref', self.scope.kind(step['Deref']), place)
            elif name in ('Field', 'Variant'):
                place = term(name.lower(), step[name], place)
            else:
                raise Unknown(f'a step {step}')
        return place

    def operand(self, raw):
        """An operand."""
        name = constructor(raw)
        if name == 'Copy':
            return self.place(raw['Copy'])
        if name == 'Int':
            return term('int', raw['Int']['width'], raw['Int']['value'])
        if name in ('True', 'False'):
            return term('bool', name == 'True')
        if name == 'Unit':
            return term('unit')
        if name == 'SizeOf':
            return term('int', 64, self.scope.program.size(self.scope.kind(raw['SizeOf'])))
        if name == 'NumOf':
            return term('int', raw['NumOf'][0], self.scope.number(raw['NumOf'][1]))
        raise Unknown(f'an operand {raw}')

    def operands(self, words):
        """Operands."""
        return [self.operand(raw) for raw in words]

    def operation(self, name, raw):
        """An operation on one or two operands: what it is, and how it reads them."""
        how, *words = raw
        sign = None if isinstance(how, str) else how[constructor(how)]
        return term(name.lower(), constructor(how), sign, *self.operands(words))

    def value(self, raw):
        """The value of an assignment."""
        name = constructor(raw)
        if name == 'Opd':
            return self.operand(raw['Opd'])
        if name in ('Op1', 'Op2'):
            return self.operation(name, raw[name])
        if name == 'AddrOf':
            return term('addr', self.place(raw['AddrOf']))
        if name == 'Aggregate':
            return term('agg', *self.operands(raw['Aggregate']))
        if name == 'Repeat':
            count = count_of(raw['Repeat'][1], self.scope.of.types)
            return term('repeat', self.operand(raw['Repeat'][0]), count)
        raise Unknown(f'a value {raw}')

    # -- statements

    def statements(self):
        """The next statement, with those inside it, as a list."""
        raw = next(self.words)
        name = constructor(raw)
        if name in ('Skip', 'Return', 'Unreachable'):
            return [] if name == 'Skip' else [Statement(name.lower())]
        if name == 'Seq':
            first = self.statements()
            return first + self.statements()
        if name in ('Block', 'Loop'):
            self.open.append(Statement(name.lower()))
            self.open[-1].bodies = [self.statements()]
            return [self.open.pop()]
        read = getattr(self, f'read_{name.lower()}', None)
        if read is None:
            raise Unknown(f'a statement {raw}')
        return read(raw[name])

    def read_assign(self, raw):
        """An assignment."""
        return [Statement('assign', [self.value(raw[1])], self.place(raw[0]))]

    def read_lendstatic(self, raw):
        """A pointer to a constant that is lent for as long as anyone wants it."""
        return [Statement('assign', [term('lent', self.scope.kind(raw[1]), raw[2])], self.place(raw[0]))]

    def read_call(self, raw):
        """A call; none of a function that does nothing."""
        callee = self.scope.callee(raw[0])
        if callee is None:
            return []
        self.callees[callee.key] = callee
        return [Statement('call', self.operands(raw[1]), self.place(raw[2]), more=callee.key)]

    def read_if(self, raw):
        """A condition, and both arms."""
        then = self.statements()
        return [Statement('if', [self.operand(raw)], bodies=[then, self.statements()])]

    def read_switch(self, raw):
        """A switch: an arm for each list of keys, and one for the rest if there is a default."""
        on, keys, default = raw
        arms = [self.statements() for _ in range(len(keys) + default)]
        return [Statement('switch', [self.operand(on)], bodies=arms, more=(keys, default))]

    def read_exit(self, raw):
        """An exit from this many blocks or loops: it leaves the block, or begins the loop anew, that is
        around them."""
        return [Statement('exit', more=self.open[-1 - raw])]

    def whole(self):
        """The whole body."""
        body = self.statements()
        if next(self.words, None) is not None:
            raise Unknown('a body with further statements behind its end')
        return body


def every(body):
    """All statements of a body, with those inside others."""
    for statement in body:
        yield statement
        for inner in statement.bodies:
            yield from every(inner)


def keeps(one, local):
    """Whether a term reads a pointer other than to what it leads to."""
    if one[0] == 'deref' and one[2] == ('local', local):
        return False
    return one == ('local', local) or any(keeps(part, local) for part in operands(one))


def without_pointer(one, local):
    """A term in which what a pointer leads to is the local itself."""
    if one[0] == 'deref' and one[2] == ('local', local):
        return one[2]
    return Term(without_pointer(part, local) if isinstance(part, Term) else part for part in one)


class Function:
    """One function at arguments. Local 0 is its result, then follow its parameters, then the
    others. slots are the locals that the kit places in memory, callees the instances that it calls,
    by key."""

    def __init__(self, of, raw, program):
        self.of, self.symbol, self.key, self.params = of, of.symbol, of.key, raw['params']
        scope = Scope(of, raw, program)
        reader = Reader(raw['body'], scope)
        self.body = simple(reader.whole())
        self.types = [scope.kind(one['ty']) for one in raw['locals']]
        homes = enumerate(one['home'] for one in raw['locals'])
        self.slots = {number for number, home in homes if home != 'ValueLocal'}
        called = {one.more for one in every(self.body) if one.kind == 'call'}
        self.callees = {key: callee for key, callee in reader.callees.items() if key in called}
        if not program.has_reference(self.types[0]):
            self.own_constants()

    def own_constants(self):
        """Makes locals of the arrays without elements that are lent, of which there is nothing to read; but
        not where the pointer is kept, or may leave the function."""
        body = list(every(self.body))
        for statement in body:
            lent, goal = statement.terms[:1], statement.goal
            if not lent or lent[0][0] != 'lent' or lent[0][1][::2] != ('Array', 0) or goal[0] != 'local':
                continue
            local, kind = goal[1], lent[0][1]
            read = [one for each in body for one in each.terms + ([each.goal] if each.goal not in (None,
                    goal) else [])]
            if self.types[local] != ('Ref', kind) or any(keeps(one, local) for one in read):
                continue
            self.types[local], statement.terms = kind, [term('agg')]
            for each in body:
                each.terms = [without_pointer(one, local) for one in each.terms]
                each.goal = each.goal if each.goal is None else without_pointer(each.goal, local)
