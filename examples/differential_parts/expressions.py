"""Makes expressions and conditions over the columns in scope.

Values stay far inside BIGINT, since SQLite turns a sum that leaves it into a floating number, and refuses a SUM that does, where our
program refuses the tick. So each expression carries the greatest amount that it can have, besides its static bound.
"""
from collections import namedtuple

from .trees import AllOf, AnyOf, Call, Compare, IsNull, Negative, Not, Number, Product, Reference, Sum, Text

WIDEST_BOUND = 2**127 - 1
WIDEST_AMOUNT = 2**50

# A column of a relation or a source: whether it is a text, whether its type is INTEGER, and the greatest amount of a number.
Shape = namedtuple("Shape", "name is_text is_integer amount")
# A column in scope, with the name of its source.
Shown = namedtuple("Shown", "source shape")
# An expression with its shape and static bound; `called` says whether it has a call.
Sized = namedtuple("Sized", "tree shape bound called")

TEXTS = ("", "a", "b", "B", "ab", "a ", "10", "9", "it's", 'say "x"', "back\\slash", "é", "ß", "\uffee", "𝄞", "tab\there", "\u0001", "line\nend")


def column_bound(shape):
    return 0 if shape.is_text else 2**31 if shape.is_integer else 2**63


def computed(tree, bound, amount, called):
    return Sized(tree, Shape("", False, False, amount), bound, called)


def negative(inner):
    return computed(Negative(inner.tree), inner.bound, inner.shape.amount, inner.called)


def sum_of(terms, minuses):
    tree = Sum(tuple(zip(minuses, (term.tree for term in terms))))
    return computed(tree, sum(term.bound for term in terms), sum(term.shape.amount for term in terms), any(term.called for term in terms))


def product_of(factors):
    bound = amount = 1
    for factor in factors:
        bound, amount = bound * factor.bound, amount * factor.shape.amount
    return computed(Product(tuple(factor.tree for factor in factors)), bound, amount, any(factor.called for factor in factors))


class Scope:
    """The columns that an expression may name. `inside` is the scope of calls' arguments, or None if calls may not stand here."""

    def __init__(self, draw, columns, named_by=None, inside=None, rows=1):
        self.draw, self.columns, self.inside, self.rows = draw, columns, inside, rows
        self.named_by = columns if named_by is None else named_by

    def reference(self, column):
        """Without its source only if that finds one column."""
        alone = sum(other.shape.name == column.shape.name for other in self.named_by) == 1
        return Reference(column.source, column.shape.name, not alone or self.draw.random() < 0.4)

    def column(self, column):
        return Sized(self.reference(column), column.shape, column_bound(column.shape), False)

    def columns_of(self, is_text):
        return [column for column in self.columns if column.shape.is_text == is_text]

    def leaf(self, is_text):
        columns = self.columns_of(is_text)
        if self.inside is not None and self.draw.random() < 0.55:
            return self.call(is_text)
        if columns and self.draw.random() < 0.78:
            return self.column(self.draw.choice(columns))
        if is_text:
            return Sized(Text(self.draw.choice(TEXTS)), Shape("", True, False, 0), 0, False)
        value = self.draw.choice((0, 1, 1, 2, 2, 3, 4, 5, 7, 10))
        return computed(Number(value), max(value, 1), value, False)

    def call(self, is_text):
        """A call of an aggregate, with this kind of value."""
        function = self.draw.choice(("MIN", "MAX") if is_text else ("COUNT", "COUNT(*)", "SUM", "SUM", "MIN", "MAX"))
        if function == "COUNT(*)":
            return computed(Call("COUNT", None), 2**63, self.rows, True)
        of_text = is_text or function == "COUNT" and self.draw.random() < 0.4
        argument = self.inside.expression(of_text, 1)
        if function == "COUNT":
            return computed(Call(function, argument.tree), 2**63, self.rows, True)
        if function != "SUM":
            shape = argument.shape._replace(name="")
            return Sized(Call(function, argument.tree), shape, column_bound(shape), True)
        if argument.shape.amount * self.rows > WIDEST_AMOUNT:
            return computed(Call("COUNT", argument.tree), 2**63, self.rows, True)
        return computed(Call("SUM", argument.tree), 2**63, argument.shape.amount * self.rows, True)

    def expression(self, is_text, depth):
        if is_text or depth == 0 or self.draw.random() < 0.4:
            return self.leaf(is_text)
        parts = [self.expression(False, depth - 1) for _ in range(self.draw.choice((2, 2, 3)))]
        form = self.draw.random()
        if form < 0.2:
            made = negative(parts[0])
        elif form < 0.7:
            made = sum_of(parts, (False, *(self.draw.random() < 0.5 for _ in parts[1:])))
        else:
            made = product_of(parts[:2])
        return made if made.bound <= WIDEST_BOUND and made.shape.amount <= WIDEST_AMOUNT else parts[0]

    def condition(self, depth):
        form = self.draw.random()
        if depth == 0 or form < 0.5:
            return self.test()
        if form < 0.62:
            return Not(self.condition(depth - 1))
        members = tuple(self.condition(depth - 1) for _ in range(self.draw.choice((2, 2, 3))))
        return AllOf(members) if form < 0.8 else AnyOf(members)

    def test(self):
        """A test that is mostly of a column or a call, so that it is neither True nor False for all rows."""
        is_text = bool(self.columns_of(True)) and self.draw.random() < 0.35
        if self.inside is not None and self.draw.random() < 0.3:
            return Compare(self.draw.choice((">", ">=", "<>")), Call("COUNT", None), Number(self.draw.choice((0, 1, 1, 2))))
        columns = self.columns_of(is_text)
        is_column = columns and self.draw.random() < 0.6
        left = self.column(self.draw.choice(columns)) if is_column else self.expression(is_text, self.draw.choice((0, 1, 2)))
        if self.draw.random() < 0.2:
            return IsNull(left.tree, self.draw.random() < 0.5)
        right = self.expression(is_text, self.draw.choice((0, 0, 1)))
        if right.tree == left.tree:
            right = self.limit(is_text)
        return Compare(self.draw.choice(("=", "<>", "<", "<=", "<=", ">", ">=", ">=")), left.tree, right.tree)

    def limit(self, is_text):
        """A constant that parts the values of a column."""
        if is_text:
            return Sized(Text(self.draw.choice(TEXTS)), Shape("", True, False, 0), 0, False)
        value = self.draw.choice((0, 1, 2, 3, 2147483648, 9223372036854775807))
        return computed(Number(value), max(value, 1), value, False)

    def equality(self, left, right):
        """A comparison of columns, one of each list, of the same kind; None if there are none."""
        pairs = [(one, other) for one in left for other in right if one.shape.is_text == other.shape.is_text]
        if not pairs:
            return None
        pair = [self.reference(column) for column in self.draw.choice(pairs)]
        self.draw.shuffle(pair)
        return Compare("=", *pair)
