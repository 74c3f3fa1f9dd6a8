"""The as-of join in plain Python over whole tables: what the module's answers are held against. It shares nothing with it."""


def before(strategy, key, one, other):
    """Whether the right row `one` is preferred to `other`, both (key, place), for a left key."""
    if strategy == 'backward':
        return one > other
    if strategy == 'forward':
        return one < other
    return (-abs(one[0] - key), one) > (-abs(other[0] - key), other)


def may(strategy, exact, tolerance, key, other):
    """Whether a right key may be matched with a left key at all."""
    on_side = {'backward': other <= key, 'forward': other >= key, 'nearest': True}[strategy]
    return on_side and (exact or other != key) and (tolerance is None or abs(other - key) <= tolerance)


def distances(left, right, found):
    """For each left row the distance of its key from that of the right row at this place, -1 for none or above 2^63 - 1."""
    far = [-1 if place < 0 else abs(row[-1] - right[place][-1]) for row, place in zip(left, found)]
    return [number if number < 2**63 else -1 for number in far]


def positions(left, right, strategy, exact=True, tolerance=None):
    """For each left row, (group, …, key) with None for a null, the place of its right row or -1."""
    found = []
    for *group, key in left:
        best = None
        for place, (*other, number) in enumerate(right):
            if None in (*group, key, *other, number) or group != other or not may(strategy, exact, tolerance, key, number):
                continue
            if best is None or before(strategy, key, (number, place), best):
                best = (number, place)
        found.append(-1 if best is None else best[1])
    return found
