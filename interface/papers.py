"""README's tables of calls and refusals."""
from .reader import listed


def calls(d):
    """Each call: its names, what it does, what refuses it."""
    lines = ['| In C | In Rattle | What it does | Refused by |', '|---|---|---|---|']
    return lines + [f'| `rowkeeper_{call.name}` | `{call.more["rattle"]}` | {call.more["brief"]} | {listed(call.refused) or "nothing"} |'
                    for call in d.calls]


def refusals(d):
    """Each refusal: its number, its name, its text, and which calls give it."""
    lines = ['| Number | In C, behind `ROWKEEPER_` | The call is refused because | Calls |', '|---|---|---|---|']
    for each in d.given_refusals():
        calls = ', '.join(call.name for call in d.calls if each.number in call.refused)
        lines.append(f'| {each.number} | `{each.c}` | {each.more["text"]} | {calls} |')
    return lines + ['', f'If several apply, the first in checking order is reported; that order is: {d.checking_order()}.']
