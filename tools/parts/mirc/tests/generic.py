"""Numbers of all widths, types and functions at arguments, loops that are left anywhere, constants that are
lent, and their names. The tests of constructs.py run these too."""
import os
import shutil
import subprocess
import tempfile
import unittest

from ..exports import calls_of
from ..instances import Unknown
from ..names import Names
from ..whole import file_text
from .build import (BOOL, PTR, RETURN, U8, U64, UNIT, array, at, c_of, call, callee, copy, function, generic,
                    loop, method, named, number, op2,
                    param, program, put, ref, seq, when, words)

U16, U32 = {'Int': 16}, {'Int': 32}
OPTION = ('core::Option', {'Variants': [[], [param(0)]]})
RESULT = ('core::Result', {'Variants': [[param(0)], [param(1)]]})
PAIR = ('core::Pair', {'Fields': [param(0), param(1)]})
GIVEN = {'Given': 0}
LEAVE = {'Exit': 0}


def text(kinds, params, body, shapes=(), more=(), symbol='one::f'):
    """The lines between the braces of a function."""
    functions = {'one::f': function(params, kinds, body, shapes), **dict(more)}
    return [line.strip() for line in c_of(functions, symbol)[0][2:-1]]


def impl(name, kinds=(), dicts=()):
    """A dictionary of an impl."""
    return {'Impl': [name, list(kinds), list(dicts)]}


class Widths(unittest.TestCase):
    """Operations on numbers of less than 64 bits, on bits and on truth values."""

    def returned(self, result, *kinds):
        """What a function of as many parameters returns."""
        return text(kinds, len(kinds) - 1, seq(put(0, result), RETURN))[-1]

    def test_bits(self):
        """Operations on bits, shifts, and operations on truth values."""
        for name, sign, word in (('And', None, '&'), ('Or', None, '|'), ('Xor', None, '^'),
                                 ('Shl', None, '<<'), ('Shr', 'Unsigned', '>>')):
            self.assertEqual(self.returned(op2(name, sign, copy(1), copy(2)), U64, U64, U64),
                             f'return p0 {word} p1;')
        self.assertEqual(self.returned(op2('Shl', None, number(1), copy(1)), U64, U64),
                         'return UINT64_C(1) << p0;')
        for name, word in (('And', '&&'), ('Or', '||'), ('Xor', '!=')):
            self.assertEqual(self.returned(op2(name, None, copy(1), copy(2)), BOOL, BOOL, BOOL),
                             f'return p0 {word} p1;')

    def test_narrow(self):
        """A sum of less than 32 bits is one of 32 that loses the rest; one of 32 is as one of 64."""
        for name, sign, word in (('Add', 'Unsigned', '+'), ('WrapMul', None, '*'), ('Shl', None, '<<')):
            narrow = op2(name, sign, copy(1), copy(2))
            self.assertEqual(self.returned(narrow, U8, U8, U8), f'return (uint8_t)((uint32_t)p0 {word} p1);')
            self.assertEqual(self.returned(narrow, U32, U32, U32), f'return p0 {word} p1;')
        self.assertEqual(self.returned(op2('Rem', 'Unsigned', copy(1), copy(2)), U16, U16, U16),
                         'return p0 % p1;')
        self.assertEqual(self.returned({'Op1': ['Not', copy(1)]}, U16, U16), 'return (uint16_t)~p0;')
        self.assertEqual(self.returned({'Op1': ['Not', copy(1)]}, U32, U32), 'return ~p0;')

    def test_signs(self):
        """Quotients with a sign, and a sign that is extended."""
        self.assertEqual(self.returned(op2('Div', 'Signed', copy(1), copy(2)), U64, U64, U64),
                         'return (uint64_t)((int64_t)p0 / (int64_t)p1);')
        self.assertEqual(self.returned(op2('Rem', 'Signed', copy(1), copy(2)), U8, U8, U8),
                         'return (uint8_t)((int8_t)p0 % (int8_t)p1);')
        for how, kind, said in ((['Signed', 'Signed', 64], U8, '(uint64_t)(int8_t)p0'),
                                (['Unsigned', 'Signed', 64], U8, '(uint64_t)p0'),
                                (['Signed', 'Signed', 64], BOOL, '(uint64_t)p0')):
            self.assertEqual(self.returned({'Op1': [{'Cast': how}, copy(1)]}, U64, kind), f'return {said};')
        self.assertEqual(self.returned({'Op1': [{'Cast': ['Signed', 'Signed', 8]}, copy(1)]}, U8, U64),
                         'return (uint8_t)p0;')


class Arguments(unittest.TestCase):
    """Types and functions at arguments."""

    SAME = generic(1, 0, function(1, [param(0), param(0)], seq(put(0, copy(1)), RETURN)))

    def test_functions(self):
        """A function of C for each list of types; it has the types in its name."""
        body = seq(call(callee('one::same', [U64]), [copy(1)], 0), call(callee('one::same', [BOOL]),
                                                                        [copy(2)], 3), RETURN)
        functions = {'one::f': function(2, [U64, U64, BOOL, BOOL], body), 'one::same': self.SAME}
        made = program(functions)
        self.assertEqual(list(made.functions), ['one::same<u64>', 'one::same<bool>', 'one::f'])
        self.assertEqual(c_of(functions, 'one::same<bool>')[0][0],
                         'static inline bool one__same_bool(bool p0)')
        self.assertEqual(made.roots, ['one::f'])

    def test_types(self):
        """A type of C for each list of arguments, one inside another."""
        inner = named('core::Option', named('core::Pair', U64, BOOL))
        made = {'Aggregate': [number(1, 8), copy(1)]}
        lines, types = c_of({'one::f': function(1, [inner, named('core::Pair', U64, BOOL)],
                                                seq(put(0, made), RETURN), [OPTION, PAIR])})
        self.assertEqual(lines[0], 'static inline core__Option_Pair_u64_bool one__f(core__Pair_u64_bool p0)')
        self.assertEqual(lines[2],
                         '    return (core__Option_Pair_u64_bool){ .tag = core__Option_Pair_u64_bool_v1, '
                         '.as.v1 = { p0 } };')
        self.assertIn('        struct { core__Pair_u64_bool f0; } v1;', types)
        self.assertEqual(types[1:5], ['typedef struct core__Pair_u64_bool {', '    uint64_t f0;',
                                      '    bool f1;', '} core__Pair_u64_bool;'])

    def test_nothing_inside(self):
        """A field of no content is no member, and a struct without fields has one that nothing reads."""
        kind, empty = named('core::Result', 'Unit', U8), named('one::Empty')
        shapes = [RESULT, ('one::Empty', {'Fields': []})]
        body = seq(put(2, {'Aggregate': []}), put(0, {'Aggregate': [number(0, 8), 'Unit']}),
                   call('one::g', [copy(2)], 3), RETURN)
        more = {'one::g': function(1, [UNIT, empty], seq(put(0, {'Opd': 'Unit'}), RETURN))}
        lines, types = c_of({'one::f': function(1, [kind, U8, empty, UNIT], body, shapes), **more})
        self.assertIn('    one__g((one__Empty){ 0 });', lines)
        self.assertIn('    result = (core__Result_unit_u8){ .tag = core__Result_unit_u8_v0 };', lines)
        self.assertIn('    uint8_t none;', types)
        self.assertEqual([line for line in types if 'struct {' in line],
                         ['        struct { uint8_t f0; } v1;'])

    def test_reference_to_nothing(self):
        """A reference to what has no content is no parameter, and what is read for such a value alone is not
        read."""
        unit = named('core::Pair', UNIT, U8)
        more = {'one::g': function(2, [unit, ref(UNIT), U8], seq(put(0, {'Aggregate': ['Unit', copy(2)]}),
                                                                 RETURN))}
        body = seq(put(2, {'Opd': 'Unit'}), put(3, {'AddrOf': at(2)}), call('one::g', [copy(3), copy(1)], 4),
                   put(2, copy(4, 0)), put(0, copy(1)), RETURN)
        functions = {'one::f': function(1, [U8, U8, UNIT, ref(UNIT), unit], body, [PAIR]), **more}
        self.assertEqual(c_of(functions)[0][2:-1], ['    (void)one__g(p0);', '    return p0;'])
        self.assertEqual(c_of(functions, 'one::g')[0][0],
                         'static inline core__Pair_unit_u8 one__g(uint8_t p1)')

    def test_methods(self):
        """A method of a dictionary that is given is that of the impl; the impl's arguments come before its
        own."""
        uses = generic(1, 2, function(1, [U64, param(0)], seq(call(method(GIVEN, 1, [BOOL]), [copy(1)], 0),
                                                              RETURN)))
        own = generic(2, 0, function(1, [U64, param(0)], seq(put(0, number(1)), RETURN)))
        other = generic(0, 0, function(1, [U64, U8], seq(put(0, number(2)), RETURN)))
        body = seq(call(callee('one::uses', [U8], [impl('one::Has', [U8]), impl('one::None')]), [copy(1)], 0),
                   RETURN)
        start = generic(0, 0, function(1, [U64, U8], body), **{'one::Has': ['one::other', 'one::own'],
                                                             'one::None': ['one::other', 'one::other']})
        made = program({'one::f': start, 'one::uses': uses, 'one::own': own, 'one::other': other})
        self.assertEqual(list(made.functions)[0], 'one::own<u8, bool>')
        self.assertNotIn('one::other', list(made.functions)[:2])

    def test_dictionaries_inside(self):
        """A dictionary that is passed on inside another, and two functions that differ in dictionaries
        alone."""
        leaf = [function(1, [U64, U64], seq(put(0, number(value)), RETURN)) for value in (1, 2)]
        inner = generic(0, 1, function(1, [U64, U64], seq(call(method(GIVEN, 0), [copy(1)], 0), RETURN)))
        outer = generic(0, 1, function(1, [U64, U64], seq(call(method(impl('one::Wrap', (), [GIVEN]), 0),
                                                               [copy(1)], 0), RETURN)),
                        **{'one::Wrap': ['one::inner']})
        body = seq(call(callee('one::outer', (), [impl('one::A')]), [copy(1)], 2),
                   call(callee('one::outer', (), [impl('one::B')]), [copy(2)], 0), RETURN)
        start = generic(0, 0, function(1, [U64, U64, U64], body), **{'one::A': ['one::a'],
                                                                     'one::B': ['one::b']})
        lines, _ = c_of({'one::f': start, 'one::outer': outer, 'one::inner': inner, 'one::a': leaf[0],
                         'one::b': leaf[1]})
        self.assertEqual(lines[2:-1], ['    uint64_t t2 = one__outer(p0);', '    return one__outer_2(t2);'])

    def test_nothing_done(self):
        """A call through a dictionary whose methods do nothing is no call; what ends a value is such a
        one."""
        ends = generic(1, 0, function(1, [UNIT, param(0)], seq(['Skip'], put(0, {'Opd': 'Unit'}), RETURN)))
        uses = generic(0, 1, function(1, [U64, U64], seq(put(3, copy(1)), call(method(GIVEN, 0), [copy(3)],
                                                                               2), put(0, copy(1)), RETURN)))
        uses['locals'] += [{'ty': UNIT, 'home': 'ValueLocal'}, {'ty': U64, 'home': 'ValueLocal'}]
        body = seq(call(callee('one::uses', (), [impl('one::Ends', [U64])]), [copy(1)], 0), RETURN)
        start = generic(0, 0, function(1, [U64, U64], body), **{'one::Ends': ['one::ends']})
        functions = {'one::f': start, 'one::uses': uses, 'one::ends': ends}
        self.assertEqual(c_of(functions, 'one::uses<nothing>')[0][2:-1], ['    return p0;'])
        self.assertEqual(list(program(functions).functions), ['one::uses<nothing>', 'one::f'])
        calls = generic(1, 0, function(1, [UNIT, param(0)], seq(call('one::g', [], 0), RETURN)))
        functions.update({'one::ends': calls, 'one::g': function(0, [UNIT], seq(call('one::h', [], 0),
                                                                                RETURN)),
                          'one::h': function(0, [UNIT], RETURN)})
        self.assertIn('one::ends<u64>', program(functions).functions)

    def test_numbers(self):
        """A number among the arguments: an array's length, elements that are repeated, and the number
        itself."""
        kind = {'Array': [U64, param(0)]}
        raw = generic(1, 0, function(1, [kind, U64, U64], seq(put(0, {'Repeat': [copy(1), param(0)]}),
                                                              put(2, {'Opd': {'NumOf': [64, param(0)]}}),
                                                                call('one::g', [copy(2)], 2), RETURN)))
        more = {'one::g': function(1, [U64, U64], seq(put(0, copy(1)), RETURN))}
        body = seq(call(callee('one::fixed', [{'Const': 3}]), [copy(1)], 0), RETURN)
        lines, _ = c_of({'one::f': function(1, [array(U64, 3), U64], body), 'one::fixed': raw, **more},
                        'one::fixed<3>')
        self.assertEqual(lines[0], 'static inline u64_3 one__fixed_3(uint64_t p0)')
        self.assertIn('    result = (u64_3){ { p0, p0, p0 } };', lines)
        self.assertIn('    (void)one__g(3u);', lines)

    def test_names(self):
        """A name that is too long is that of the symbol, with a number where another has it."""
        kind = named('one::' + 'Long' * 15)
        body = seq(call(callee('one::same', [kind]), [copy(1)], 1), call(callee('one::same', [ref(kind)]),
                [copy(2)], 2), put(0, copy(1)), RETURN)
        lines, _ = c_of({'one::f': function(2, [kind, kind, ref(kind)], body,
                [('one::' + 'Long' * 15, {'Fields': [U64]})]), 'one::same': self.SAME})
        self.assertEqual([line.strip() for line in lines[-4:-1]], ['p0 = one__same(p0);',
                                                                   'p1 = one__same_2(p1);', 'return p0;'])


class Sizes(unittest.TestCase):
    """The sizes of types, and raw pointers."""

    def size(self, kind, *shapes):
        """The size of a type as a constant."""
        return text([U64], 0, seq(put(0, {'Opd': {'SizeOf': kind}}), RETURN), shapes)[-1]

    def test_sizes(self):
        """Those of C: each field at a multiple of its alignment, the tag before the fields of a variant."""
        for kind, size in ((U16, 2), (BOOL, 1), (UNIT, 0), (words(), 16), (array(U16, 5), 10),
                           (named('core::Pair', U8, U32), 8),
                           (named('core::Pair', U32, U8), 8), (named('core::Option', U32), 8),
                           (named('core::Option', U8), 2),
                           (named('core::Option', UNIT), 1), (named('core::Result', U8, words()), 24)):
            self.assertEqual(self.size(kind, PAIR, OPTION, RESULT), f'return {size}u;')
        self.assertEqual(self.size(named('one::Three'), ('one::Three', {'Fields': [U8, U32, U8]})),
                         'return 12u;')

    def test_elements_of_structs(self):
        """An element of a slice of structs, and one at a constant place."""
        kind = named('core::Pair', U32, U8)
        for index, label in ((copy(2), 'p1'), (number(3), '3')):
            body = seq(put(3, op2('Mul', 'Unsigned', index, {'SizeOf': kind})),
                       put(4, op2('Offset', None, copy(1, 0), copy(3))),
                       put(5, {'AddrOf': at(4, ('*', kind))}), put(0, copy(5, ('*', kind), 0)), RETURN)
            lines = text([U32, words(kind), U64, U64, PTR, ref(kind)], 2, body, [PAIR])
            self.assertEqual(lines[-1], f'return p0.at[{label}].f0;')

    def test_raw_pointers(self):
        """What a raw pointer points to is found where it is used, through offsets and calls too."""
        one = at(3, ('*', U64))
        body = seq(put(2, op2('Offset', None, copy(1), number(8))), put(3, copy(2)), put(one, number(5)),
                   put(one, number(6)), RETURN)
        raw = generic(1, 0, function(1, [UNIT, PTR, PTR, PTR], body))
        start = seq(put(2, {'AddrOf': at(1, 0, ('*', U64))}), call(callee('one::raw', [U64]), [copy(2)], 0),
                    RETURN)
        functions = {'one::f': function(1, [UNIT, words(), PTR], start), 'one::raw': raw}
        lines, _ = c_of(functions, 'one::raw<u64>')
        self.assertEqual(lines[0], 'static inline void one__raw_u64(uint64_t *p0)')
        self.assertEqual(lines[2:-1], ['    uint64_t *t3 = p0 + 1;', '    *t3 = 5u;', '    *t3 = 6u;'])
        self.assertEqual(c_of(functions)[0][2], '    one__raw_u64(p0.at);')

    def test_unknown_pointers(self):
        """A raw pointer of which two things are known, or nothing, and one at no element are refused."""
        two = seq(put(at(1, ('*', U64)), number(5)), put(at(1, ('*', U8)), number(5, 8)), RETURN)
        odd = seq(put(3, op2('Mul', 'Unsigned', copy(2), number(4))),
                  put(4, op2('Offset', None, copy(1, 0), copy(3))), put(at(4, ('*', U64)), number(5)), RETURN)
        for kinds, body in (([UNIT, PTR], two), ([UNIT, PTR], RETURN), ([UNIT, words(), U64, U64, PTR], odd)):
            with self.assertRaises(Unknown):
                text(kinds, 1, body)


class Leaving(unittest.TestCase):
    """Blocks and loops, and what leaves them."""

    KINDS = [U64, U64, BOOL, BOOL]
    STEP = put(1, op2('Add', 'Unsigned', copy(1), number(1)))
    END = (put(0, copy(1)), RETURN)

    def lines(self, *statements):
        """Statements over a number (1) and two truths (2, 3)."""
        lines = text(self.KINDS, 3, seq(*statements, *self.END))
        return [line for line in lines if not line.startswith('(void)')][:-1]

    def test_blocks(self):
        """A block that nothing leaves is none, what is before the first exit is no part of it, and an exit
        at its end is none."""
        self.assertEqual(self.lines(['Block', *seq(self.STEP, loop(copy(2), self.STEP))]),
                         ['p0 = p0 + 1u;', 'while (p1) {', 'p0 = p0 + 1u;', '}'])
        self.assertEqual(self.lines(['Block',
                                     *seq(self.STEP, when(copy(2), [LEAVE], seq(self.STEP, [LEAVE])))]),
                         ['p0 = p0 + 1u;', 'if (!p1) {', 'p0 = p0 + 1u;', '}'])

    def test_goto(self):
        """A block that is left before its end has a label behind it."""
        block = ['Block', *seq(when(copy(2), [LEAVE], ['Skip']), self.STEP)]
        self.assertEqual(self.lines(block), ['if (p1) {', 'goto label_1;', '}', 'p0 = p0 + 1u;',
                                             'label_1: ;'])

    def test_continue(self):
        """What begins a loop anew, inside of a switch too, and a loop without a test."""
        arms = [{'Switch': [copy(1), [[0], [1], [2]], False]}, {'Exit': 0}, {'Exit': 1}, *self.STEP]
        self.assertEqual(self.lines(['Block', 'Loop', *seq(arms, self.STEP)]), [
            'for (;;) {', 'switch (p0) {', 'case 0:', 'continue;', 'case 1:', 'goto label_1;', 'case 2:',
            'default:', 'p0 = p0 + 1u;',
            'break;', '}', 'p0 = p0 + 1u;', '}', 'label_1: ;'])

    def test_break_out_of_two_arms(self):
        """A switch of two arms, of which one leaves the loop, is an if."""
        arms = [{'Switch': [copy(1), [[3], [1]], False]}, *self.STEP, {'Exit': 1}]
        self.assertEqual(self.lines(['Block', 'Loop', *arms]), ['for (;;) {', 'if (p0 == 3) {',
                                                                'p0 = p0 + 1u;',
                                                                 '} else {', 'break;', '}', '}'])

    def test_step(self):
        """A block before the last assignment of a loop is the body of a for, in which leaving the block is
        continue."""
        inner = ['Block', *seq(when(copy(3), [LEAVE], ['Skip']), put(2, copy(3)))]
        self.assertEqual(self.lines(loop(copy(2), inner, self.STEP)), [
            'for (; p1; p0 = p0 + 1u) {', 'if (p2) {', 'continue;', '}', 'p1 = p2;', '}'])

    def test_no_step(self):
        """A loop that is begun anew past its last assignment, or whose last assignment reads another local,
        is no for."""
        for inner, last in (([when(copy(3), [{'Exit': 1}], ['Skip'])], self.STEP),
                            ([], put(1, op2('Add', 'Unsigned', copy(1), copy(4))))):
            body = ['Block', *seq(when(copy(3), [LEAVE], ['Skip']), *inner, put(4, number(7)),
                                  put(2, op2('Lt', 'Unsigned', copy(4), copy(1))))]
            made = seq(loop(copy(2), body, last), *self.END)
            lines = text([*self.KINDS, U64], 3, made)
            self.assertNotIn('for', ' '.join(lines).split())
            self.assertIn('label_1: ;', lines)

    def test_nested(self):
        """A break and a continue of the outer of two loops."""
        inner = loop(copy(3), when(copy(2), [{'Exit': 3}], [{'Exit': 2}]), self.STEP)
        self.assertEqual(self.lines(loop(copy(2), self.STEP, inner, put(3, copy(2)))), [
            'while (p1) {', 'p0 = p0 + 1u;', 'while (p2) {', 'if (p1) {', 'goto label_1;', '} else {',
            'goto label_2;',
            '}', 'p0 = p0 + 1u;', '}', 'p2 = p1;', 'label_2: ;', '}', 'label_1: ;'])

    def test_never_run(self):
        """An arm that ends where the proof says that it is never run is dropped, with its keys; one that
        may return before that is not."""
        dead = seq(self.STEP, ['Unreachable'])
        self.assertEqual(self.lines(when(copy(2), dead, self.STEP)), ['p0 = p0 + 1u;'])
        arms = [{'Switch': [copy(1), [[0], [1], [2]], False]}, *dead, *self.STEP, *put(1, number(9))]
        self.assertEqual(self.lines(arms), ['switch (p0) {', 'case 1:', 'p0 = p0 + 1u;', 'break;', 'case 2:',
                                            'default:', 'p0 = 9u;', 'break;', '}'])
        mixed = seq(when(copy(3), seq(put(0, number(1)), RETURN), ['Skip']), ['Unreachable'])
        with self.assertRaises(Unknown):
            self.lines(when(copy(2), mixed, self.STEP))

    def test_declared_in_an_arm(self):
        """An arm has braces if a block in it declares a local."""
        block = ['Block', *seq(when(copy(2), [LEAVE], ['Skip']),
                               put(4, op2('Add', 'Unsigned', copy(1), number(1))),
                               put(1, op2('Mul', 'Unsigned', copy(4), copy(4))))]
        lines = text([*self.KINDS, U64], 3, seq([{'Switch': [copy(1), [[0], [1]], False]}, *block,
                                                 *self.STEP], *self.END))
        self.assertIn('case 0: {', lines)


class Lent(unittest.TestCase):
    """Constants that are lent."""

    def lent(self, kind, value, *shapes):
        """The definition of a constant."""
        body = seq([{'LendStatic': [at(1), kind, value]}], call('one::g', [copy(1)], 0), RETURN)
        more = {'one::g': function(1, [U64, ref(kind)], seq(put(0, number(1)), RETURN))}
        lines = text([U64, ref(kind)], 0, body, shapes, more)
        self.assertRegex(lines[1], r'^return one__g\(\(\w+ \*\)&lent_1\);$')
        return lines[0].split(' = ', 1)[1]

    def test_values(self):
        """Numbers, truths, arrays, structs and enumerations."""
        seven, true = {'Int': {'width': 64, 'value': 7}}, {'Bool': True}
        pair, option = named('core::Pair', U64, BOOL), named('core::Option', U64)
        both = {'Parts': [seven, true]}
        for kind, value, said in ((U64, seven, '7u;'), (BOOL, true, 'true;'),
                                  (array(U64, 0), {'Ints': {'width': 64, 'values': []}}, '{ { 0 } };'),
                (array(U64, 2), {'Ints': {'width': 64, 'values': [1, 2]}}, '{ { 1u, 2u } };'),
                                  (array(BOOL, 3), {'Repeat': [true, 3]}, '{ { true, true, true } };'),
                                  (pair, both, '{ .f0 = 7u, .f1 = true };'),
                                  (array(pair, 1), {'Parts': [both]}, '{ { { .f0 = 7u, .f1 = true } } };'),
                                  (option, {'Parts': [{'Int': {'width': 8, 'value': 1}}, seven]},
                                   '{ .tag = core__Option_u64_v1, .as.v1 = { 7u } };')):
            self.assertEqual(self.lent(kind, value, PAIR, OPTION), said)

    def test_once(self):
        """Equal constants are one, others are others."""
        give = [[{'LendStatic': [at(local), U64, {'Int': {'width': 64, 'value': value}}]}] for local,
                value in ((1, 7), (2, 7), (3, 8))]
        more = {'one::g': function(3, [U64, ref(U64), ref(U64), ref(U64)], seq(put(0, number(1)), RETURN))}
        lines = text([U64, ref(U64), ref(U64), ref(U64)], 0,
                     seq(*give, call('one::g', [copy(1), copy(2), copy(3)], 0), RETURN), (), more)
        self.assertEqual(lines[:2], ['static const uint64_t lent_1 = 7u;',
                                     'static const uint64_t lent_2 = 8u;'])
        self.assertIn('one__g((uint64_t *)&lent_1, (uint64_t *)&lent_1, (uint64_t *)&lent_2)',
                      ' '.join(lines))

    def test_refused(self):
        """A constant of another form, or of another type than it is lent as."""
        for kind, value in ((U64, {'Here': 8}), (U64, {'Int': {'width': 8, 'value': 7}}),
                            (array(U64, 2), {'Ints': {'width': 64, 'values': [1]}})):
            with self.assertRaises(Unknown):
                self.lent(kind, value)


SOURCE = '''// Says first.
pub fn first<F: Fn(usize) -> bool>(marks: &[i64], test: F) -> usize {
    let mut n = 0;
    for m in marks {
        let k = inner(marks, |i: usize| i < 3 && { let gone = 4; true });
        if let Some(x) = test(k) {
            n += 1;
        }
    }
    n
}

impl<T: Copy> Holder<T> {
    pub fn get(&self, at: usize) -> T {
        self.held
    }

    pub fn into(self, at: usize) -> T {
        self.held
    }
}

impl From<Bad> for u64 {
    fn from(r: Bad) -> u64 {
        1
    }
}

pub trait Measure {
    fn twice(&self, a: u64) -> u64 {
        a
    }
}
'''


class SourceNames(unittest.TestCase):
    """The names that the source gives."""

    @classmethod
    def setUpClass(cls):
        with tempfile.TemporaryDirectory() as folder:
            for each in ('own', 'kit'):
                os.makedirs(os.path.join(folder, each, each, 'src'))
                with open(os.path.join(folder, each, each, 'src', 'lib.rt'), 'w', encoding='utf-8') as file:
                    file.write(SOURCE)
            cls.names = Names([os.path.join(folder, each) for each in ('own', 'kit')])

    def test_functions(self):
        """Generic functions, methods that borrow, closures; of the kit's none of them."""
        found = {symbol: names[0] for symbol, names in self.names.functions.items()}
        self.assertEqual(found, {'own::first': ['marks', 'test'], 'own::fn::first::inner': ['captured', 'i'],
                                 'own::Holder::get': ['self', 'at'],
                                 'own::U64FromBad::from': ['r'], 'own::Measure::twice': ['self', 'a']})
        self.assertEqual(self.names.comment('own::first'), 'Says first.')

    def test_locals(self):
        """What let, for and patterns bind, in order; not what a closure does. A for through a slice has an
        index before."""
        made = program({'own::first': function(2, [U64, words(), U64, U64, U64, ref(U64), U64, U64, U64],
                                               seq(put(0, copy(2)), RETURN))}, 'own')
        self.assertEqual(self.names.locals(made.functions['own::first']), ['result', 'marks', 'test', 'n',
                                                                           'm_index', 'm', 'k', 'x', 't8'])

    def test_slots(self):
        """The slot of a parameter, in a function that calls a generic one."""
        raw = function(2, [U64, words(), U64, U64, U64, U64],
                       seq(put(3, copy(2)), call(callee('own::same', [U64]), [copy(3)], 0), RETURN))
        raw['locals'][3]['home'] = 'MemorySlot'
        made = program({'own::first': raw, 'own::same': Arguments.SAME}, 'own')
        self.assertEqual(self.names.locals(made.functions['own::first'])[3:5], ['test_at', 'n'])


@unittest.skipUnless(shutil.which('cc'), 'there is no C compiler')
class Running(unittest.TestCase):
    """What is written compiles without a warning, and does what the MIR says."""

    HEADER = ('#include <stdint.h>\n#include <stddef.h>\n'
              'uint64_t rowkeeper_f(const int64_t *at, size_t len);\n')
    MAIN = '''#include "rowkeeper.h"
int main(void)
{
    const int64_t words[] = { 4, 9, 4, 1, 6, 0, 8 };
    return (int)rowkeeper_f(words, sizeof words / sizeof words[0]);
}
'''

    def test_runs(self):
        """A sum that skips the words below 2 (continue), ends at a 0 (break out of a switch), and returns
        at the sum 200."""
        word = seq(put(4, op2('Mul', 'Unsigned', copy(3), {'SizeOf': U64})),
                   put(5, op2('Offset', None, copy(1, 0), copy(4))),
                   put(6, copy(5, ('*', U64))))
        skip = [{'Switch': [copy(6), [[0], [1]], True]}, {'Exit': 2}, {'Exit': 0}, 'Skip']
        add = put(2, op2('Add', 'Unsigned', copy(2), copy(6)))
        stop = seq(put(7, op2('Eq', None, copy(2), number(200))), when(copy(7), seq(put(0, copy(2)), RETURN),
                                                                       ['Skip']))
        turn = ['Block', *seq(word, skip, add, stop)]
        test = put(7, op2('Lt', 'Unsigned', copy(3), copy(1, 1)))
        turns = ['Block', 'Loop', *seq(test, when(copy(7), ['Skip'], [{'Exit': 1}]), turn,
                                       put(3, op2('Add', 'Unsigned', copy(3), number(1))))]
        body = seq(put(2, number(0)), put(3, number(0)), turns, put(0, copy(2)), RETURN)
        made = program({'one::rowkeeper_f': function(1, [U64, words(), U64, U64, U64, PTR, U64, BOOL], body)})
        with tempfile.TemporaryDirectory() as folder:
            for name, said in (('rowkeeper.h', self.HEADER), ('main.c', self.MAIN),
                               ('rowkeeper.c', file_text(made, Names([]), calls_of(self.HEADER)))):
                with open(os.path.join(folder, name), 'w', encoding='utf-8') as file:
                    file.write(said)
            subprocess.run(['cc', '-std=c99', '-Wall', '-Wextra', '-Werror', '-pedantic', 'rowkeeper.c',
                            'main.c', '-o', 'main'],
                           cwd=folder, check=True)
            ran = subprocess.run([os.path.join(folder, 'main')], timeout=5, check=False)
            self.assertEqual(ran.returncode, 4 + 9 + 4 + 6)
