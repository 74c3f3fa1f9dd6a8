"""The whole C file."""
from .exports import SLICE_OF, Export, calls_of, same_layout
from .folding import fold
from .instances import Unknown
from .mir import judge_kit
from .names import Names
from .program import Program
from .statements import WIDTH, Body, cut
from .types import Types

HEAD = '''/*
 * Rowkeeper's as-of join: the library as one C file, translated from the MIR of its proved source.
 *
 *     cc -O2 -c rowkeeper.c
 *
 * C99. Of a C library it needs only what compilers call to copy and clear: memcpy, memmove, memset.
 * rowkeeper.h is its interface. A program writes this file (tools/dist): to change the library,
 * change its source and prove it.
 */
#include "rowkeeper.h"

#include <stdbool.h>
#include <stddef.h>
#include <stdint.h>

/* Numbers are unsigned; where a sign is meant they convert to two's complement. */
typedef char signs_are_two_complement
    [(int64_t)UINT64_MAX == -1 && (int8_t)(uint8_t)255 == -1 ? 1 : -1];'''
LAYOUT = '''
/* The header's structs have the layout of those above: else this does not compile. */
#define SAME(name, one, other) typedef char same_##name[(one) == (other) ? 1 : -1]'''
ASCII = {'×': '*', '−': '-', '≤': '<=', '≥': '>=', '’': "'", '…': '...', '*/': '* /', '/*': '/ *'}


def comment(text):
    """The lines of a comment, in ASCII."""
    for old, new in ASCII.items():
        text = text.replace(old, new)
    lines = ['/*']
    for word in text.encode('ascii', 'replace').decode().split():
        if len(lines[-1]) + len(word) + 4 > WIDTH:
            lines.append('  ')
        lines[-1] += ' ' + word
    return [*lines[:-1], lines[-1] + ' */'] if text else []


def function_lines(types, function, names):
    """One inner function, with the source's comment."""
    try:
        fold(function)
        return ['', *comment(names.comment(function.symbol)), *Body(types, function, names).whole()]
    except Unknown as unknown:
        raise Unknown(f'{unknown} in {function.key}') from None
    except (KeyError, IndexError, TypeError, ValueError) as error:
        raise Unknown(f'MIR of another form in {function.key}: {error!r}') from None


def file_text(program, names, calls):
    """The text of the file for a program, with the calls of the header."""
    if {root.split('::')[-1] for root in program.roots} != set(calls):
        raise Unknown('the header declares other calls than the crate exports')
    types, bodies, exported, layouts = Types(program, names), [], [], []
    for function in program.functions.values():
        bodies += function_lines(types, function, names)
    for root in program.roots:
        export = Export(types, program.functions[root], *calls[root.split('::')[-1]])
        for line in export.lines():
            exported += cut(line.lstrip(), int(line.startswith(' ')))
        layouts += [pair for pair in export.layouts() if pair not in layouts]
    same = [line for outer, kind in layouts for line in same_layout(types, outer, kind)]
    return '\n'.join([HEAD, *types.lines, LAYOUT, *same, SLICE_OF, *bodies, *exported]) + '\n'


def translated(crate, rlibs, crates, header, kit):
    """The C file of a crate, whose functions the header declares. rlibs are the folders of the
    proved crates, crates those of their sources, header is the header's text, kit what `rt version`
    prints."""
    judge_kit(kit)
    return file_text(Program(rlibs, crate), Names(crates), calls_of(header))
