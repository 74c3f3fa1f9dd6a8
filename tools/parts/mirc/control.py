"""Simpler forms of the statements that decide and leave: arms that are never run go, and blocks that
nothing leaves."""


def statements_in(body):
    """All statements of a body, with those inside others."""
    for statement in body:
        yield statement
        for inner in statement.bodies:
            yield from statements_in(inner)


def leaves(body, goal):
    """Whether a statement in a body leaves a block, or begins a loop anew."""
    return any(one.kind == 'exit' and one.more is goal for one in statements_in(body))


def is_dead(body):
    """Whether a body is never run: it comes to an end that the proof excludes, and nothing before it goes
    elsewhere."""
    plain = all(one.kind in ('assign', 'call') for one in body[:-1])
    return plain and bool(body) and body[-1].kind == 'unreachable'


def without_dead_arms(statement):
    """A condition or a switch as a list of statements, without the arms that are never run."""
    alive = [body for body in statement.bodies if not is_dead(body)]
    if statement.kind not in ('if', 'switch') or len(alive) == len(statement.bodies):
        return [statement]
    if len(alive) == 1:
        return alive[0]
    if statement.kind == 'switch' and alive:
        keys, default = statement.more
        kept = [each for each, body in zip(keys, statement.bodies) if not is_dead(body)]
        statement.bodies, statement.more = alive, (kept, default and not is_dead(statement.bodies[-1]))
        return [statement]
    return statement.bodies[0]


def without_last_exit(body, goal):
    """A body without the exits at its ends that lead to where it ends."""
    if body and body[-1].kind == 'exit' and body[-1].more is goal:
        return without_last_exit(body[:-1], goal)
    if body and body[-1].kind in ('if', 'switch', 'block'):
        body[-1].bodies = [without_last_exit(inner, goal) for inner in body[-1].bodies]
    return body


def without_block(block):
    """A block as a list of statements: what stands before the first that leaves it is no part of it, and
    without one there is no block."""
    body = block.bodies[0]
    first = next((place for place, one in enumerate(body) if leaves([one], block)), len(body))
    if first == len(body):
        return body
    block.bodies = [body[first:]]
    return [*body[:first], block]


def simple(body):
    """A body in its simpler form."""
    made = []
    for statement in body:
        statement.bodies = [simple(inner) for inner in statement.bodies]
        if statement.kind in ('block', 'loop'):
            statement.bodies = [without_last_exit(statement.bodies[0], statement)]
        made += without_block(statement) if statement.kind == 'block' else without_dead_arms(statement)
    return made
