"""Folds temporaries: a value that is read once moves to where it is read. Nothing else changes.

A value moves past statements only if none of them assigns a local that it reads and, if it reads
memory, none of them writes memory or calls. It does not move into the pointer through which a call
stores its result, since C leaves open which of the two it evaluates first. A call becomes part of a
statement only as all that the statement directly behind it reads, so no expression has two calls,
or a call beside a read of memory."""
from .instances import UNIT
from .mir import Term, every, operands, term


def root(place):
    """The local of which a place is a part, or None if a pointer leads to it."""
    while place[0] in ('field', 'variant'):
        place = place[2]
    return place[1] if place[0] == 'local' else None


def goal_pointer(statement):
    """The pointer through which a statement stores, as a list of at most one term."""
    place = statement.goal
    while place is not None and place[0] in ('field', 'variant'):
        place = place[2]
    return [place[2]] if place is not None and place[0] == 'deref' else []


def reads_of(statement):
    """The terms that a statement itself reads: its terms, and the pointer through which it
    stores."""
    return statement.terms + goal_pointer(statement)


def count(one, local):
    """How often a term reads a local."""
    if one[0] == 'local':
        return int(one[1] == local)
    return sum(count(part, local) for part in operands(one))


def locals_of(one):
    """The locals that a term reads."""
    if one[0] == 'local':
        return {one[1]}
    return {local for part in operands(one) for local in locals_of(part)}


def has(one, name):
    """Whether a term, or one inside it, has this name."""
    return one[0] == name or any(has(part, name) for part in operands(one))


def reads(statement, local):
    """How often a statement itself reads a local."""
    return sum(count(one, local) for one in reads_of(statement))


def sets(statement, local):
    """Whether a statement itself assigns a local or a part of it."""
    return statement.goal is not None and root(statement.goal) == local


def sets_all(statement, local):
    """Whether a statement assigns all of a local."""
    return statement.goal is not None and statement.goal == ('local', local)


def inside(statement):
    """All statements inside a statement."""
    return [inner for body in statement.bodies for inner in every(body)]


def mentions(statement, local):
    """Whether a statement, or one inside it, reads or assigns a local."""
    return any(reads(one, local) or sets(one, local) for one in (statement, *inside(statement)))


def replaced(one, local, value):
    """A term with a value in the place of a local."""
    if one[0] == 'local':
        return value if one[1] == local else one
    return Term(replaced(part, local, value) if isinstance(part, Term) else part for part in one)


def addressed_in(one):
    """The locals whose address a term takes."""
    found = {root(one[1])} if one[0] == 'addr' else set()
    return found.union(*(addressed_in(part) for part in operands(one))) if operands(one) else found


def in_memory(function):
    """The locals that a pointer may lead to: the kit's slots, and those whose address is taken."""
    terms = [one for statement in every(function.body) for one in reads_of(statement)]
    return function.slots.union(*(addressed_in(one) for one in terms)) - {None}


def confined(body, local):
    """Whether each read of a local follows an assignment of all of it in the same list of
    statements."""
    known = False
    for statement in body:
        if reads(statement, local) and not known:
            return False
        if any(reads(inner, local) or sets(inner, local) for inner in inside(statement)):
            known = False
            if not all(confined(inner, local) for inner in statement.bodies):
                return False
        if sets(statement, local):
            if not sets_all(statement, local):
                return False
            known = True
    return True


def temporaries(function, memory):
    """The locals whose values may move."""
    others = range(function.params + 1, len(function.types))
    return {local for local in others if local not in memory and confined(function.body, local)}


def reads_memory(value, memory):
    """Whether a value depends on what is in memory."""
    return has(value, 'deref') or bool(locals_of(value) & memory)


def writes_memory(statement, memory):
    """Whether a statement may write memory."""
    if statement.kind == 'call':
        return True
    return statement.goal is not None and root(statement.goal) in memory | {None}


def may_pass(value, between, memory):
    """Whether a value is the same behind these statements."""
    read = locals_of(value)
    for statement in between:
        for one in (statement, *inside(statement)):
            if reads_memory(value, memory) and writes_memory(one, memory):
                return False
            if any(sets(one, local) for local in read):
                return False
    return True


def may_enter(value, local, reader, memory):
    """Whether a value that a statement reads may be written inside it."""
    stores = reader.kind == 'call' and any(count(one, local) for one in goal_pointer(reader))
    return not (stores and reads_memory(value, memory))


def only_reader(body, at, local):
    """The place of the one statement that reads what the statement at a place assigns; None if
    there is none, or more than one, or it is inside another."""
    found = None
    for place in range(at + 1, len(body)):
        inner = inside(body[place])
        if any(reads(one, local) or (found is None and sets(one, local)) for one in inner):
            return None
        many = reads(body[place], local)
        if many > 1 or (many and found is not None):
            return None
        found = place if many else found
        if sets_all(body[place], local):
            break
    return found


def put_in(statement, local, value):
    """Puts a value in the place of a local in what a statement itself reads."""
    statement.terms = [replaced(one, local, value) for one in statement.terms]
    if statement.goal is not None and root(statement.goal) is None:
        statement.goal = replaced(statement.goal, local, value)


def destination(body, at, free, memory):
    """The place of the statement into which the value at a place may move, or None."""
    statement = body[at]
    if statement.kind != 'assign' or statement.goal[0] != 'local' or statement.goal[1] not in free:
        return None
    value, local = statement.terms[0], statement.goal[1]
    goes = only_reader(body, at, local)
    if goes is None or not may_pass(value, body[at + 1:goes], memory):
        return None
    return goes if may_enter(value, local, body[goes], memory) else None


def fold_values(body, free, memory):
    """Moves values that are read once to where they are read."""
    for statement in body:
        for inner in statement.bodies:
            fold_values(inner, free, memory)
    at = 0
    while at < len(body):
        goes = destination(body, at, free, memory)
        if goes is None:
            at += 1
        else:
            put_in(body[goes], body[at].goal[1], body[at].terms[0])
            del body[at]
            at = max(0, at - 1)


def assigned(statement):
    """The value that a statement assigns to a whole local, a call included; None for another
    statement."""
    if statement.kind not in ('assign', 'call') or statement.goal[0] != 'local':
        return None
    if statement.kind == 'assign':
        return statement.terms[0]
    return term('call', statement.more, *statement.terms)


def returns_it(function, now, following, memory):
    """Whether a statement assigns the result, and the next one returns it."""
    return now.goal[1] == 0 and following.kind == 'return' and not following.terms and \
        function.types[0] != UNIT and 0 not in memory


def tests_it(body, at, free):
    """Whether a statement calls, and the next one tests what the call gives and nothing else."""
    now, following = body[at], body[at + 1]
    return now.kind == 'call' and now.goal[1] in free and following.kind in ('if', 'switch') and \
        following.terms[0] in (now.goal, ('op1', 'Not', None, now.goal)) and \
        only_reader(body, at, now.goal[1]) == at + 1


def fold_results(function, body, free, memory):
    """Joins a result with its return, and a call with the test of what it gives."""
    for statement in body:
        for inner in statement.bodies:
            fold_results(function, inner, free, memory)
    at = 0
    while at + 1 < len(body):
        now, following = body[at], body[at + 1]
        value = assigned(now)
        if value is not None and returns_it(function, now, following, memory):
            following.terms = [value]
            del body[at]
        elif value is not None and tests_it(body, at, free):
            put_in(following, now.goal[1], value)
            del body[at]
        else:
            at += 1


def fold(function):
    """Folds the temporaries of a function."""
    memory = in_memory(function)
    fold_values(function.body, temporaries(function, memory), memory)
    fold_results(function, function.body, temporaries(function, memory), memory)
