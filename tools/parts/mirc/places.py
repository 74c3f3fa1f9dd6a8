"""The types of places, what raw pointers point to, and the assignments of which nothing is left in C."""
from .folding import reads, root
from .instances import UNIT
from .mir import every, operands


class Places:
    """The types of the places of a function."""

    def __init__(self, function, program):
        self.function, self.program = function, program

    def typed(self, place):
        """The type of a place, or None for another term and where it is not known."""
        if place[0] == 'local':
            return self.function.types[place[1]]
        if place[0] == 'deref':
            return place[1]
        if place[0] != 'field':
            return None
        number, of = place[1:]
        kind = self.typed(of[2] if of[0] == 'variant' else of)
        if kind in (None, ('Ptr',)):
            return None
        if of[0] == 'variant':
            return self.program.variants(kind)[of[1]][number - 1] if number else ('Int', 8)
        return self.program.parts(kind)[0][number]


def start(one):
    """The pointer from which a pointer is at an offset."""
    return one[3] if one[:2] == ('op2', 'Offset') else one


def derefs(one, local):
    """The types at which a term follows a local."""
    found = {one[1]} if one[0] == 'deref' and one[2] == ('local', local) else set()
    return found.union(*(derefs(part, local) for part in operands(one))) if operands(one) else found


class Pointees(Places):
    """The locals of a function that are raw pointers, and what they are known to point to: the MIR
    does not say it of a local, only where it is used."""

    def pointee(self, one):
        """What a term points to, as far as it is known."""
        if one[0] == 'addr':
            return self.typed(one[1])
        kind = self.typed(start(one))
        return kind[1] if kind is not None and kind[0] == 'Ref' else kind if kind == UNIT else None

    def uses(self, local, one):
        """What a local may point to, by a statement that uses it."""
        here, terms = ('local', local), one.terms + ([one.goal] if one.goal is not None else [])
        found = set().union(*(derefs(each, local) for each in terms)) if terms else set()
        if one.kind == 'assign' and here in (one.goal, start(one.terms[0])):
            found.add(self.pointee(one.terms[0] if one.goal == here else one.goal))
        if one.kind == 'call':
            kinds = self.program.functions[one.more].types[1:]
            found |= {kind[1] for each, kind in zip(one.terms, kinds) if each == here and kind[0] == 'Ref'}
        return found - {None}

    def find(self):
        """Gives each raw pointer among the locals the type of a reference, if all that is known of it
        agrees."""
        kinds, more = self.function.types, True
        while more:
            more = False
            for local in [local for local, kind in enumerate(kinds) if kind == ('Ptr',)]:
                found = set().union(*(self.uses(local, one) for one in every(self.function.body)))
                if len(found) == 1:
                    more, kind = True, found.pop()
                    kinds[local] = kind if kind == UNIT else ('Ref', kind)


def find_pointees(function, program):
    """Finds what the raw pointers of a function point to."""
    Pointees(function, program).find()


def without(body, idle):
    """A body without some of its statements."""
    for statement in body:
        statement.bodies = [without(inner, idle) for inner in statement.bodies]
    return [statement for statement in body if id(statement) not in idle]


def drop_idle(function, program):
    """Drops the assignments of values without a content, and those to locals that nothing reads."""
    places, idle = Places(function, program), True
    while idle:
        body = list(every(function.body))
        unread = {local for local in range(function.params + 1, len(function.types))
                  if not any(reads(one, local) for one in body)}
        idle = {id(one) for one in body if one.kind == 'assign' and
                (places.typed(one.goal) == UNIT or root(one.goal) in unread)}
        function.body = without(function.body, idle)
