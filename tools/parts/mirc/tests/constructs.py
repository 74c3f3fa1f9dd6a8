"""Each construct of the MIR with the C that it becomes, and what the translator refuses.

python3 -B -m unittest tools.parts.mirc.tests.constructs"""
import os
import shutil
import subprocess
import tempfile
import unittest

from ..exports import calls_of
from ..instances import Unknown
from ..mir import KITS
from ..names import Names
from ..whole import comment, file_text, translated
from .build import (BOOL, PTR, RETURN, U8, U64, UNIT, array, at, c_of, call, callee, copy, function, loop,
                    method, named, number, op2, param, program, put, ref, seq, when, words)
from .generic import (Arguments, Leaving, Lent, Running, Sizes, SourceNames,
                      # noqa: F401 (run with those below)
                      Widths)

ROW = ('one::Row', {'Fields': [U64, U8]})
TAG = ('one::Order', {'Variants': [[], [], []]})
TOOK = ('one::Took', {'Variants': [[], [U64, BOOL]]})
ELEMENT = op2('Offset', None, copy(1, 0), copy(3))


def value(kinds, params, *before, result=None):
    """The C of a function whose last value is returned."""
    body = seq(*before, put(0, result), RETURN) if before else seq(put(0, result), RETURN)
    return c_of({'one::f': function(params, kinds, body)})[0]


class Values(unittest.TestCase):
    """Operations and places."""

    def returned(self, result, kinds=(U64, U64, U64), before=()):
        """What a function of two parameters returns."""
        lines = value(list(kinds), 2, *before, result=result)
        self.assertEqual(lines[-1], '}')
        return lines[-2].strip()

    def test_sums_and_quotients(self):
        """The same with a sign and without; quotients without."""
        for name, sign, text in (('Add', 'Signed', '+'), ('Sub', 'Unsigned', '-'),
                                 ('Mul', 'Signed', '*'), ('Div', 'Unsigned', '/'),
                                 ('Rem', 'Unsigned', '%'), ('WrapAdd', None, '+'),
                                 ('WrapSub', None, '-')):
            self.assertEqual(self.returned(op2(name, sign, copy(1), copy(2))),
                             f'return p0 {text} p1;')

    def test_constants(self):
        """Two constants have 64 bits, and so has the complement of one."""
        self.assertEqual(self.returned(op2('Sub', 'Unsigned', number(0), number(1))),
                         'return UINT64_C(0) - 1u;')
        self.assertEqual(self.returned({'Op1': ['Not', number(0)]}), 'return ~UINT64_C(0);')
        self.assertEqual(self.returned(number(1 << 31)), 'return UINT64_C(2147483648);')

    def test_comparisons(self):
        """With a sign and without; a constant with its sign is a signed one."""
        truth = (BOOL, U64, U64)
        cases = ((op2('Lt', 'Unsigned', copy(1), copy(2)), 'p0 < p1'),
                 (op2('Le', 'Signed', copy(1), copy(2)), '(int64_t)p0 <= (int64_t)p1'),
                 (op2('Lt', 'Signed', copy(1), number((1 << 64) - 1)), '(int64_t)p0 < -1'),
                 (op2('Eq', 'Unsigned', copy(1), copy(2)), 'p0 == p1'),
                 (op2('Ne', 'Signed', copy(1), number(1 << 63)),
                  '(int64_t)p0 != INT64_C(-9223372036854775808)'))
        for result, text in cases:
            self.assertEqual(self.returned(result, truth), f'return {text};')

    def test_brackets(self):
        """An operation inside another is in brackets."""
        before = [put(3, op2('Add', 'Unsigned', copy(1), copy(2)))]
        product = op2('Mul', 'Unsigned', copy(3), copy(2))
        self.assertEqual(self.returned(product, (U64, U64, U64, U64), before), 'return (p0 + p1) * p1;')

    def test_one_operand(self):
        """Not of a truth value and of bits; casts."""
        self.assertEqual(self.returned({'Op1': ['Not', copy(1)]}, (BOOL, BOOL, U64)), 'return !p0;')
        self.assertEqual(self.returned({'Op1': ['Not', copy(1)]}), 'return ~p0;')
        narrow = {'Op1': [{'Cast': ['Unsigned', 'Unsigned', 8]}, copy(1)]}
        self.assertEqual(self.returned(narrow, (U8, U64, U64)), 'return (uint8_t)p0;')
        same = {'Op1': [{'Cast': ['Signed', 'Unsigned', 64]}, copy(1)]}
        self.assertEqual(self.returned(same), 'return p0;')

    def test_elements(self):
        """An element of a slice by its index, by a constant, and of bytes."""
        kinds = (U64, words(), U64, U64, PTR)
        scaled = [put(3, op2('Mul', 'Unsigned', copy(2), number(8))), put(4, ELEMENT)]
        self.assertEqual(self.returned(copy(4, ('*', U64)), kinds, scaled), 'return p0.at[p1];')
        constant = [put(4, op2('Offset', None, copy(1, 0), number(16)))]
        self.assertEqual(self.returned(copy(4, ('*', U64)), kinds, constant), 'return p0.at[2];')
        kinds = (U8, words(U8), U64, PTR)
        offset = [put(3, op2('Offset', None, copy(1, 0), copy(2)))]
        self.assertEqual(self.returned(copy(3, ('*', U8)), kinds, offset), 'return p0.at[p1];')

    def test_store(self):
        """A store through a pointer."""
        body = seq(put(3, op2('Mul', 'Unsigned', copy(2), number(8))), put(4, ELEMENT),
                   put(at(4, ('*', U64)), copy(2)), RETURN)
        lines, _ = c_of({'one::f': function(2, [UNIT, words(), U64, U64, PTR], body)})
        self.assertEqual(lines[-2], '    p0.at[p1] = p1;')

    def test_slices(self):
        """A part of a slice, and the whole of it."""
        kinds = (words(), words(), U64, U64, PTR)
        scaled = [put(3, op2('Mul', 'Unsigned', copy(2), number(8))), put(4, ELEMENT)]
        part = {'Aggregate': [copy(4), copy(2)]}
        self.assertEqual(self.returned(part, kinds, scaled), 'return (slice_u64){ p0.at + p1, p1 };')
        shorter = {'Aggregate': [copy(1, 0), copy(2)]}
        self.assertEqual(self.returned(shorter, kinds[:3]), 'return (slice_u64){ p0.at, p1 };')
        whole = {'Aggregate': [copy(1, 0), copy(1, 1)]}
        self.assertEqual(self.returned(whole, kinds[:3]), 'return p0;')

    def test_arrays(self):
        """Zeros, other elements, and an element of a local array."""
        kinds = (array(U64, 3), U64, U64)
        self.assertEqual(self.returned({'Repeat': [number(0), {'Lit': 3}]}, kinds),
                         'return (u64_3){ { 0 } };')
        self.assertEqual(self.returned({'Aggregate': [copy(1), number(0), copy(2)]}, kinds),
                         'return (u64_3){ { p0, 0u, p1 } };')
        kinds = (U64, array(U64, 3), U64, U64, ref(array(U64, 3)), PTR)
        before = [put(3, op2('Mul', 'Unsigned', copy(2), number(8))), put(4, {'AddrOf': at(1)}),
                  put(5, op2('Offset', None, copy(4), copy(3)))]
        self.assertEqual(self.returned(copy(5, ('*', U64)), kinds, before), 'return p0.at[p1];')


class Types(unittest.TestCase):
    """Structs and enumerations."""

    def test_struct(self):
        """A struct of its fields, a field, and one through a reference."""
        body = seq(put(0, {'Aggregate': [copy(1), copy(2)]}), RETURN)
        kinds = [named('one::Row'), U64, U8]
        lines, types = c_of({'one::f': function(2, kinds, body, [ROW])})
        self.assertEqual(lines[-2], '    return (one__Row){ .f0 = p0, .f1 = p1 };')
        self.assertEqual(types[1:], ['typedef struct one__Row {', '    uint64_t f0;',
                                     '    uint8_t f1;', '} one__Row;'])
        for place, text in ((copy(1, 1), 'p0.f1'), (copy(2, ('*', named('one::Row')), 1), 'p1->f1')):
            kinds = [U8, named('one::Row'), ref(named('one::Row'))]
            lines, _ = c_of({'one::f': function(2, kinds, seq(put(0, place), RETURN), [ROW])})
            self.assertEqual(lines[-2], f'    return {text};')

    def test_tag(self):
        """An enumeration without fields is its tag."""
        body = seq(put(0, {'Aggregate': [number(2, 8)]}), RETURN)
        lines, types = c_of({'one::f': function(0, [named('one::Order')], body, [TAG])})
        self.assertEqual(lines, ['static inline one__Order one__f(void)', '{',
                                 '    return one__Order_v2;', '}'])
        self.assertEqual(types[-1], 'typedef uint8_t one__Order;')

    def test_variant(self):
        """An enumeration with fields is a struct of the tag and a union; the fields are told apart."""
        made = {'Aggregate': [number(1, 8), copy(1), copy(2)]}
        kinds = [named('one::Took'), U64, BOOL]
        lines, types = c_of({'one::f': function(2, kinds, seq(put(0, made), RETURN), [TOOK])})
        self.assertEqual(lines[-2], '    return (one__Took){ .tag = one__Took_v1, '
                                    '.as.v1 = { p0, p1 } };')
        self.assertIn('        struct { uint64_t f0; bool f1; } v1;', types)
        for number_of, kind, text in ((0, U8, 'p0.tag'), (1, U64, 'p0.as.v1.f0'),
                                      (2, BOOL, 'p0.as.v1.f1')):
            body = seq(put(0, copy(1, ('v', 1), number_of)), RETURN)
            lines, _ = c_of({'one::f': function(1, [kind, named('one::Took')], body, [TOOK])})
            self.assertEqual(lines[-2], f'    return {text};')


class Control(unittest.TestCase):
    """Statements that decide, repeat and call."""

    def body(self, kinds, params, body, shapes=(), more=()):
        """The lines between the braces."""
        functions = {'one::f': function(params, kinds, body, shapes), **dict(more)}
        return [line.strip() for line in c_of(functions)[0][2:-1]]

    def test_if(self):
        """Both arms, one arm, and a condition that is turned round."""
        test = op2('Lt', 'Unsigned', copy(1), copy(2))
        kinds = [U64, U64, U64, BOOL]
        both = seq(put(3, test), when(copy(3), put(0, copy(1)), put(0, copy(2))), RETURN)
        self.assertEqual(self.body(kinds, 2, both), [
            'uint64_t result;', 'if (p0 < p1) {', 'result = p0;', '} else {', 'result = p1;', '}',
            'return result;'])
        other = seq(put(3, test), when(copy(3), ['Skip'], seq(put(0, copy(1)), RETURN)),
                    put(0, copy(2)), RETURN)
        self.assertEqual(self.body(kinds, 2, other), [
            'if (!(p0 < p1)) {', 'return p0;', '}', 'return p1;'])

    def test_while(self):
        """A loop with a test at its head, left by break."""
        step = put(1, op2('Add', 'Unsigned', copy(1), number(1)))
        body = seq(loop(copy(3), step, when(copy(3), [{'Exit': 1}], ['Skip'])), put(0, copy(1)), RETURN)
        self.assertEqual(self.body([U64, U64, U64, BOOL], 3, body), [
            '(void)p1;', 'while (p2) {', 'p0 = p0 + 1u;', 'if (p2) {', 'break;', '}', '}', 'return p0;'])

    def test_switch(self):
        """The names of tags; the last arm is for the rest; arms do not fall through."""
        keys = {'Switch': [copy(1, ('v', 0), 0), [[0], [1, 2]], False]}
        body = seq([keys, *put(0, copy(2)), *put(0, number(7))], RETURN)
        self.assertEqual(self.body([U64, named('one::Order'), U64], 2, body, [TAG]), [
            'uint64_t result;', 'switch (p0) {', 'case one__Order_v0:', 'result = p1;', 'break;',
            'case one__Order_v1:', 'case one__Order_v2:', 'default:', 'result = 7u;', 'break;', '}',
            'return result;'])

    def test_calls(self):
        """A call whose result is returned, tested, dropped, or nothing."""
        callee = {'one::g': function(1, [BOOL, U64], seq(put(0, {'Opd': 'True'}), RETURN)),
                  'one::h': function(1, [UNIT, U64], RETURN)}
        tested = seq(call('one::g', [copy(1)], 2), when(copy(2), seq(put(0, copy(1)), RETURN), ['Skip']),
                     call('one::g', [copy(1)], 3), call('one::h', [copy(1)], 4),
                     put(0, number(0)), RETURN)
        self.assertEqual(self.body([U64, U64, BOOL, BOOL, UNIT], 1, tested, more=callee.items()), [
            'if (one__g(p0)) {', 'return p0;', '}', '(void)one__g(p0);', 'one__h(p0);', 'return 0u;'])
        given = seq(call('one::g', [copy(1)], 0), RETURN)
        self.assertEqual(self.body([BOOL, U64], 1, given, more=callee.items()), ['return one__g(p0);'])


class Folding(unittest.TestCase):
    """Values move only where that changes nothing."""

    def lines(self, *statements):
        """Statements over a slice (1), a number (2) and temporaries 3 to 6."""
        kinds = [U64, words(), U64, U64, U64, PTR, U64]
        more = {'one::g': function(1, [U64, words()], seq(put(0, number(1)), RETURN))}
        body = seq(*statements, RETURN)
        lines = c_of({'one::f': function(2, kinds, body), **more})[0][2:-1]
        return [line.strip() for line in lines if '(void)' not in line]

    FIRST = (put(5, op2('Offset', None, copy(1, 0), number(0))), put(3, copy(5, ('*', U64))))

    def test_stays_before_a_store(self):
        """A value that is read from memory stays before a store."""
        said = self.lines(*self.FIRST, put(5, op2('Offset', None, copy(1, 0), number(8))),
                          put(at(5, ('*', U64)), copy(2)), put(0, copy(3)))
        self.assertEqual(said, ['uint64_t t3 = p0.at[0];', 'p0.at[1] = p1;', 'return t3;'])

    def test_stays_before_a_call(self):
        """A value that is read from memory stays before a call."""
        said = self.lines(*self.FIRST, call('one::g', [copy(1)], 4),
                          put(0, op2('Add', 'Unsigned', copy(3), copy(4))))
        self.assertEqual(said, ['uint64_t t3 = p0.at[0];', 'uint64_t t4 = one__g(p0);',
                                'return t3 + t4;'])

    def test_stays_before_an_assignment(self):
        """A value stays before an assignment of what it reads."""
        said = self.lines(put(3, op2('Add', 'Unsigned', copy(2), number(1))), put(2, number(9)),
                          put(0, op2('Add', 'Unsigned', copy(3), copy(2))))
        self.assertEqual(said, ['uint64_t t3 = p1 + 1u;', 'p1 = 9u;', 'return t3 + p1;'])

    def test_read_twice(self):
        """A value that is read twice stays."""
        said = self.lines(put(3, op2('Add', 'Unsigned', copy(2), number(1))),
                          put(0, op2('Mul', 'Unsigned', copy(3), copy(3))))
        self.assertEqual(said, ['uint64_t t3 = p1 + 1u;', 'return t3 * t3;'])

    def test_not_into_the_goal_of_a_call(self):
        """The pointer through which a call stores is read before the call."""
        kinds = [UNIT, ref(ref(U64)), words(), ref(U64)]
        more = {'one::g': function(1, [U64, words()], seq(put(0, number(1)), RETURN))}
        goal = {'Call': [callee('one::g'), [copy(2)], at(3, ('*', U64))]}
        body = seq(put(3, copy(1, ('*', ref(U64)))), [goal], RETURN)
        lines, _ = c_of({'one::f': function(2, kinds, body), **more})
        self.assertEqual(lines[2:-1], ['    uint64_t *t3 = (*p0);', '    *t3 = one__g(p1);'])


class Whole(unittest.TestCase):
    """Names, comments and exported functions."""

    def test_symbols(self):
        """A name has no crate, unless two would be equal or it is of a crate's root."""
        def leaf():
            return function(0, [U64], seq(put(0, number(1)), RETURN))
        body = seq(call('two::walk::g', [], 1), call('three::walk::g', [], 1),
                   call('three::walk::h', [], 1), put(0, copy(1)), RETURN)
        lines, _ = c_of({'one::f': function(0, [U64, U64], body), 'two::walk::g': leaf(),
                         'three::walk::g': leaf(), 'three::walk::h': leaf()})
        text = '\n'.join(lines)
        for name in ('one__f(', 'two__walk__g(', 'three__walk__g(', ' walk__h('):
            self.assertIn(name, text)

    def test_names(self):
        """The source gives the names of its own module; words of C get an underscore."""
        with tempfile.TemporaryDirectory() as folder:
            for name, label in (('lib', 'near'), ('walk', 'row')):
                os.makedirs(os.path.join(folder, 'one', 'src'), exist_ok=True)
                with open(os.path.join(folder, 'one', 'src', f'{name}.rt'), 'w', encoding='utf-8') as file:
                    file.write(f'// Says {label} ≤ 2.\npub fn f({label}: usize) -> usize\n{{\n    1\n}}\n')
            names = Names([folder])
        self.assertEqual(names.functions['one::f'][0], ['near'])
        self.assertEqual(names.comment('one::walk::f'), 'Says row ≤ 2.')
        self.assertEqual(comment(names.comment('one::walk::f')), ['/* Says row <= 2. */'])
        made = program({'one::f': function(1, [U64, U64], seq(put(0, copy(1)), RETURN))})
        self.assertEqual(names.locals(made.functions['one::f']), ['result', 'near_'])

    def lent(self, values, result=U64, use=(('*', U64),)):
        """The C of a function that passes on a constant array that is lent."""
        kind = array(U64, len(values))
        give = [{'LendStatic': [at(2), kind, {'Ints': {'width': 64, 'values': values}}]}]
        body = seq(give, put(3, {'AddrOf': at(2, *use)}), put(4, {'Aggregate': [copy(3), number(0)]}),
                   call('one::g', [copy(4)], 1), put(0, copy(1) if result == U64 else copy(4)), RETURN)
        more = {'one::g': function(1, [U64, words()], seq(put(0, number(1)), RETURN))}
        return c_of({'one::f': function(0, [result, U64, ref(kind), ref(U64), words()], body), **more})[0]

    def test_lent_constants(self):
        """An array without elements that is lent is a local. Another constant, and one that may leave the
        function, is a constant of C."""
        self.assertEqual(self.lent([])[2:-1], ['    u64_0 t2 = (u64_0){ { 0 } };',
                                               '    uint64_t t1 = one__g((slice_u64){ t2.at, 0u });',
                                               '    return t1;'])
        for values, initial, more in (([7, 8], '{ { 7u, 8u } }', ()), ([], '{ { 0 } }', (words(),))):
            lines = '\n'.join(self.lent(values, *more))
            self.assertIn(f'    static const u64_{len(values)} lent_1 = {initial};\n', lines)
            self.assertIn(f'(u64_{len(values)} *)&lent_1', lines)

    HEADER = 'rowkeeper_row rowkeeper_f(const int64_t *at, size_t len, int64_t n, rowkeeper_row row);\n'

    def test_export(self):
        """A struct passes through a union; a null pointer without words is not used."""
        kinds = [named('one::Row'), words(), U64, named('one::Row')]
        raw = function(3, kinds, seq(put(0, copy(3)), RETURN), [ROW])
        made = program({'one::rowkeeper_f': raw})
        text = file_text(made, Names([]), calls_of(self.HEADER))
        self.assertIn('given.inner = one__rowkeeper_f(slice_of(at, len), (uint64_t)n, row_in.inner);',
                      text)
        self.assertIn('words.at = (uint64_t *)(uintptr_t)(len != 0 ? at : none);', text)
        self.assertIn('offsetof(rowkeeper_row, f1), offsetof(one__Row, f1)', text)
        for header in (self.HEADER.replace(', int64_t n', ''), self.HEADER.replace('_f(', '_g(')):
            with self.assertRaises(Unknown):
                file_text(made, Names([]), calls_of(header))

    @unittest.skipUnless(shutil.which('cc'), 'there is no C compiler')
    def test_compiles(self):
        """What is written compiles without a warning."""
        header = ('#include <stdint.h>\n#include <stddef.h>\n'
                  'uint64_t rowkeeper_f(const int64_t *at, size_t len);\n')
        body = seq(put(3, op2('Mul', 'Unsigned', copy(1, 1), number(8))), put(0, copy(3)), RETURN)
        made = program({'one::rowkeeper_f': function(1, [U64, words(), U64, U64], body)})
        with tempfile.TemporaryDirectory() as folder:
            for name, text in (('rowkeeper.h', header),
                               ('rowkeeper.c', file_text(made, Names([]), calls_of(header)))):
                with open(os.path.join(folder, name), 'w', encoding='utf-8') as file:
                    file.write(text)
            subprocess.run(['cc', '-std=c99', '-Wall', '-Wextra', '-Werror', '-pedantic', '-c',
                            'rowkeeper.c'], cwd=folder, check=True)


class Refused(unittest.TestCase):
    """What the translator does not know ends it with one line, which names the function."""

    def refused(self, said, kinds, params, body, shapes=(), more=()):
        """The line must have these words."""
        with self.assertRaises(Unknown) as caught:
            functions = {'one::f': function(params, kinds, body, shapes), **dict(more)}
            made = program(functions)
            file_text(made, Names([]), {'f': ('uint64_t', [])})
        self.assertIn(said, str(caught.exception))
        self.assertIn('one::f', str(caught.exception))
        self.assertNotIn('\n', str(caught.exception))

    def test_reading(self):
        """Types, steps, operands, values, statements, callees and bodies."""
        give = seq(put(0, copy(1)), RETURN)
        self.refused('a type', [{'Float': 64}, U64], 1, give)
        self.refused('a step', [U64, U64], 1, seq([{'Assign': [
            at(0), {'Opd': {'Copy': {'local': 1, 'steps': [{'Index': 1}]}}}]}], RETURN))
        self.refused('an operand', [U64, U64], 1, seq(put(0, {'Move': at(1)}), RETURN))
        self.refused('a value', [U64, U64], 1, seq([{'Assign': [at(0), {'Discriminant': at(1)}]}], RETURN))
        self.refused('a statement', [U64, U64], 1, seq([{'Drop': 1}], RETURN))
        self.refused('a statement', [U64, U64], 1, ['Unreachable'])
        self.refused('a callee', [U64, U64], 1, seq([{'Call': [{'Indirect': 1}, [], at(0)]}], RETURN))
        self.refused('other arguments', [U64, U64], 1, seq(call(callee('one::f', [U64]), [copy(1)], 0),
                                                           RETURN))
        self.refused('a type', [param(0), param(0)], 1, give)
        unknown = method({'Impl': ['one::Numbers', [], []]}, 0)
        self.refused('a dictionary', [U64, U64], 1, seq(call(unknown, [copy(1)], 0), RETURN))
        self.refused('another form', [U64, U64], 1, seq([{'Exit': 0}], RETURN))
        self.refused('behind its end', [U64, U64], 1, [*give, 'Return'])
        self.refused('another form', [U64, U64], 1, seq([{'Assign': [at(0)]}], RETURN))

    def test_operations(self):
        """Operations that the library has not."""
        for name, sign in (('Shr', 'Signed'), ('Shl', 'Unsigned'), ('PtrEq', None)):
            body = seq(put(0, op2(name, sign, copy(1), copy(1))), RETURN)
            self.refused(f'an operation {name}', [U64, U64], 1, body)
        self.refused('an operation Add', [BOOL, BOOL], 1, seq(put(0, op2('Add', 'Signed', copy(1), copy(1))),
                                                              RETURN))
        number_of = {'Op1': [{'Cast': ['Unsigned', 'Unsigned', 64]}, copy(1)]}
        self.refused('an operation Cast', [U64, words()], 1, seq(put(0, number_of), RETURN))
        self.refused('a type', [{'Int': 128}, {'Int': 128}], 1, seq(put(0, copy(1)), RETURN))
        self.refused('Add of', [U64, U64, U8], 2, seq(put(0, op2('Add', 'Signed', copy(1), copy(2))), RETURN))
        self.refused('for a place of type', [U8, U64], 1, seq(put(0, copy(1)), RETURN))

    def test_addresses(self):
        """An address inside of an element, or of another type."""
        odd = seq(put(2, op2('Offset', None, copy(1, 0), number(4))), put(0, copy(2, ('*', U64))), RETURN)
        self.refused('an address', [U64, words(), PTR], 1, odd)
        other = seq(put(2, op2('Offset', None, copy(1, 0), number(8))), put(0, copy(2, ('*', U8))), RETURN)
        self.refused('an address', [U8, words(), PTR], 1, other)

    def test_control(self):
        """An end that the proof excludes, where nothing else is left."""
        self.refused('a statement unreachable', [U64, U64], 1, seq(put(0, copy(1)), ['Unreachable']))

    def test_programs(self):
        """A function that calls itself, types of two shapes, a crate that is not proved."""
        self.refused('calls itself', [U64, U64], 1, seq(call('one::f', [copy(1)], 0), RETURN))
        again = {'one::g': function(0, [U64], seq(put(0, number(1)), RETURN), [(ROW[0], TAG[1])])}
        with self.assertRaises(Unknown) as caught:
            program({'one::f': function(0, [U64], seq(call('one::g', [], 0), RETURN), [ROW]), **again})
        self.assertIn('two shapes', str(caught.exception))
        with self.assertRaises(Unknown) as caught:
            program({}, 'none')
        self.assertIn('rt check none', str(caught.exception))

    def test_kit(self):
        """A kit that the translator is not tested with."""
        with self.assertRaises(Unknown) as caught:
            translated('one', [], [], '', KITS[0] + '0')
        self.assertIn('not tested with the kit', str(caught.exception))


if __name__ == '__main__':
    unittest.main()
