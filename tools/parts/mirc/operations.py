"""The operations of the MIR on numbers and truth values as expressions of C99."""
from .instances import Unknown

# Operations on two numbers. Sums and products have the same bits with and without a sign, and those of C
# wrap around as those that may do so in the MIR.
SUMS = {'Add': '+', 'Sub': '-', 'Mul': '*', 'WrapAdd': '+', 'WrapSub': '-', 'WrapMul': '*'}
QUOTIENTS = {'Div': '/', 'Rem': '%'}
# Operations on the bits of two numbers, and the same on truth values. Both operands have no effect.
BITS = {'And': '&', 'Or': '|', 'Xor': '^'}
TRUTHS = {'And': '&&', 'Or': '||', 'Xor': '!='}
# Shifts by less than the width: the left operand's sign goes with none of them.
SHIFTS = {('Shl', None): '<<', ('Shr', 'Unsigned'): '>>'}
# Comparisons of two integers of one width, or of two truth values.
COMPARISONS = {'Lt': '<', 'Le': '<=', 'Eq': '==', 'Ne': '!='}
# How tightly an expression binds: two operands, a sign or cast before one, a name, call or index.
LOOSE, SIGN, TIGHT = 1, 2, 3
# The widths of numbers.
WIDTHS = (8, 16, 32, 64)


def number(value):
    """A number without a sign as a constant."""
    return f'{value}u' if value < 1 << 31 else f'UINT64_C({value})'


class Operations:
    """The operations, over the texts and types of their operands."""

    def signed(self, one, width):
        """An operand, read with its sign."""
        if one[0] != 'int':
            return f'(int{width}_t){self.tight(one)}'
        value = one[2] - (1 << width) if one[2] >> (width - 1) else one[2]
        return str(value) if abs(value) < 1 << 31 else f'INT64_C({value})'

    def wide(self, one):
        """An operand of 64 bits; a constant too, which else would have the 32 bits of unsigned."""
        return f'UINT64_C({one[2]})' if one[0] == 'int' else self.tight(one)

    def op2(self, name, sign, left, right):
        """An operation on two operands."""
        if name == 'Offset':
            raise Unknown(f'an address {left} {right} that is no element of an array')
        kind = self.typed(left)
        if kind != self.typed(right):
            raise Unknown(f'{name} of {kind} and {self.typed(right)}')
        if name in COMPARISONS and sign == 'Signed':
            texts = self.signed(left, kind[1]), COMPARISONS[name], self.signed(right, kind[1])
        elif name in COMPARISONS and kind[0] in ('Int', 'Bool'):
            texts = self.tight(left), COMPARISONS[name], self.tight(right)
        elif name in TRUTHS and kind == ('Bool',):
            texts = self.tight(left), TRUTHS[name], self.tight(right)
        elif kind[0] == 'Int' and kind[1] in WIDTHS:
            return self.arithmetic(name, sign, left, right)
        else:
            raise Unknown(f'an operation {name} {sign} of {kind}')
        return ' '.join(texts), LOOSE

    def arithmetic(self, name, sign, left, right):
        """An operation on two numbers that gives a number of their width. One of less than 32 bits is of 32
        until it is assigned, and its sums and shifts lose what is above its width."""
        width = self.typed(left)[1]
        is_shift = name in ('Shl', 'Shr')
        first = self.wide(left) if width == 64 and (right[0] == 'int' or is_shift) else self.tight(left)
        sign_of_c = {**SUMS, **BITS}.get(name) or SHIFTS.get((name, sign)) or (sign == 'Unsigned' and
                                                                               QUOTIENTS.get(name))
        if name in QUOTIENTS and sign == 'Signed':
            texts = self.signed(left, width), QUOTIENTS[name], self.signed(right, width)
            return f'(uint{width}_t)({" ".join(texts)})', SIGN
        if not sign_of_c:
            raise Unknown(f'an operation {name} {sign} of {self.typed(left)}')
        if width < 32 and (name in SUMS or name == 'Shl'):
            return f'(uint{width}_t)((uint32_t){self.tight(left)} {sign_of_c} {self.tight(right)})', SIGN
        return f'{first} {sign_of_c} {self.tight(right)}', LOOSE

    def op1(self, name, how, one):
        """An operation on one operand."""
        kind = self.typed(one)
        if name == 'Not' and kind == ('Bool',):
            return f'!{self.tight(one)}', SIGN
        if name == 'Not' and kind[0] == 'Int' and kind[1] in WIDTHS:
            narrowed = f'(uint{kind[1]}_t)' if kind[1] < 32 else ''
            return f'{narrowed}~{self.wide(one) if kind[1] == 64 else self.tight(one)}', SIGN
        if name == 'Cast' and how[2] in WIDTHS and kind[0] in ('Int', 'Bool'):
            return self.cast(how, kind, one)
        raise Unknown(f'an operation {name} {how} of {kind}')

    def cast(self, how, kind, one):
        """A number as one of another width, which holds it; a sign is extended."""
        if kind == ('Int', how[2]):
            return self.text(one)
        extended = kind[0] == 'Int' and how[0] == 'Signed' and how[2] > kind[1]
        return f'(uint{how[2]}_t){f"(int{kind[1]}_t)" if extended else ""}{self.tight(one)}', SIGN
