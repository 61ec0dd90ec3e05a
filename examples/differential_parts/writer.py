"""Writes programs as text: in our grammar with its freedoms (cases of letters, quotes, parentheses), and for the databases plainly.

Where the grammars differ, the text for a database says the same in its own way:

- every column is written with its source and in quotes, since SQLite looks for a name among the aliases of the select list too, and
  finds a column of ON also in sources that come later;
- INTERSECT binds tighter than UNION here and in PostgreSQL, but not in SQLite, which has no parentheses around a query there either: such an
  operand is a query in FROM;
- in PostgreSQL a comma binds looser than JOIN, so it becomes CROSS JOIN;
- LOCAL and MATERIALIZED fall away, and so does DISTINCT behind a set operation.
"""
import random
import re

from .trees import AllOf, AnyOf, Block, Call, Chain, Compare, Intersection, IsNull, Negative, Not, Number, Product, Reference, Star, Sum, Text

RESERVED = set(
    "all and as between by case create cross distinct else end except exists from full group having in inner intersect is join lateral left"
    " like limit natural not null on or order outer primary right select table then union using view when where with".split()
)


def quoted(name):
    return '"' + name.replace('"', '""') + '"'


def text_literal(text):
    return "'" + text.replace("'", "''") + "'"


class Plain:
    """The text for a database: quoted names, and parentheses around each part."""

    def __init__(self, dialect):
        self.dialect = dialect

    def name(self, name):
        return quoted(name)

    def word(self, word):
        return word

    def column(self, tree):
        return f"{quoted(tree.source)}.{quoted(tree.name)}"

    def expression(self, tree):
        if isinstance(tree, Number):
            return str(tree.value)
        if isinstance(tree, Text):
            return text_literal(tree.value)
        if isinstance(tree, Reference):
            return self.column(tree)
        if isinstance(tree, Negative):
            return f"(- {self.expression(tree.inner)})"
        if isinstance(tree, Sum):
            signs = ["", *(" - " if minus else " + " for minus, _ in tree.terms[1:])]
            return "(" + "".join(sign + self.expression(term) for sign, (_, term) in zip(signs, tree.terms)) + ")"
        if isinstance(tree, Product):
            return "(" + " * ".join(map(self.expression, tree.factors)) + ")"
        argument = "*" if tree.argument is None else self.expression(tree.argument)
        return f"{tree.function}({argument})"

    def condition(self, tree):
        if isinstance(tree, Compare):
            return f"({self.expression(tree.left)} {tree.sign} {self.expression(tree.right)})"
        if isinstance(tree, IsNull):
            return f"({self.expression(tree.inner)} IS {'NOT ' if tree.negated else ''}NULL)"
        if isinstance(tree, Not):
            return f"(NOT {self.condition(tree.inner)})"
        return "(" + (" AND " if isinstance(tree, AllOf) else " OR ").join(map(self.condition, tree.members)) + ")"

    def item(self, item):
        if isinstance(item, Star):
            return "*" if item.source is None else f"{self.name(item.source)}.*"
        return self.expression(item.inner) + ("" if item.name is None else f" AS {self.name(item.name)}")

    def operand(self, query):
        if isinstance(query, Block):
            return self.query(query)
        return f"SELECT * FROM ({self.query(query)}) operand" if self.dialect == "sqlite" else f"({self.query(query)})"

    def intersection(self, query):
        return self.operand(query)

    def operator(self, operator):
        return operator

    def joined(self, source):
        return "CROSS JOIN" if source.join == "," and self.dialect == "postgres" else source.join

    def source(self, source):
        inner = self.name(source.relation) if source.query is None else f"({self.query(source.query)})"
        alias = "" if source.alias is None else f"{self.word(' AS ')}{self.name(source.alias)}"
        on = "" if source.on is None else f"{self.word(' ON ')}{self.condition(source.on)}"
        join = self.joined(source)
        return (join if join in ("", ",") else " " + join) + " " + inner + alias + on

    def query(self, query):
        if isinstance(query, Intersection):
            return self.word(" INTERSECT ").join(map(self.operand, query.members))
        if isinstance(query, Chain):
            return self.intersection(query.first) + "".join(f" {self.operator(op)} {self.intersection(step)}" for op, step in query.steps)
        parts = [self.word("SELECT") + (self.word(" DISTINCT") if query.distinct else ""), ", ".join(map(self.item, query.items))]
        parts.append(self.word("FROM") + "".join(map(self.source, query.sources)))
        if query.where is not None:
            parts += [self.word("WHERE"), self.condition(query.where)]
        if query.group:
            parts += [self.word("GROUP BY"), ", ".join(map(self.column, query.group))]
        if query.having is not None:
            parts += [self.word("HAVING"), self.condition(query.having)]
        return " ".join(parts)

    def view(self, view):
        return f"CREATE VIEW {self.name(view.name)} AS {self.query(view.query)}"

    def table(self, table):
        columns = ", ".join(f"{self.name(column.name)} {self.type_of(column)}" for column in table.columns)
        return f"CREATE TABLE {self.name(table.name)} ({columns})"

    def type_of(self, column):
        return ("TEXT" if column.is_text else "BIGINT") + ("" if column.nullable else " NOT NULL")


class Ours(Plain):
    """The text for our program. Each statement draws its freedoms from a source of its own, so that they stay when others are dropped."""

    def __init__(self, seed):
        super().__init__("ours")
        self.seed = seed
        self.draw = random.Random(seed)

    def rarely(self):
        return self.draw.random() < 0.06

    def name(self, name):
        if not re.fullmatch(r"[a-z_][a-z0-9_]*", name) or name in RESERVED or self.rarely():
            return quoted(name)
        return name.upper() if self.rarely() else name

    def word(self, word):
        return word.lower() if self.rarely() else word

    def wrapped(self, text):
        return f"({text})" if self.rarely() else text

    def expression(self, tree):
        """At the place of a sum."""
        if not isinstance(tree, Sum):
            return self.product(tree)
        text = self.product(tree.terms[0][1])
        for minus, term in tree.terms[1:]:
            text += (" - " if minus else " + ") + self.product(term)
        return self.wrapped(text)

    def product(self, tree):
        if not isinstance(tree, Product):
            return self.signed(tree)
        return self.wrapped(" * ".join(map(self.signed, tree.factors)))

    def signed(self, tree):
        return "-" + self.primary(tree.inner) if isinstance(tree, Negative) else self.primary(tree)

    def primary(self, tree):
        if isinstance(tree, Number):
            return self.wrapped(("00" if self.rarely() else "") + str(tree.value))
        if isinstance(tree, Text):
            return self.wrapped(text_literal(tree.value))
        if isinstance(tree, Reference):
            return self.wrapped(self.column(tree))
        if isinstance(tree, Call):
            argument = "*" if tree.argument is None else self.expression(tree.argument)
            return self.wrapped(f"{self.word(tree.function)}({argument})")
        return f"({self.expression(tree)})"

    def column(self, tree):
        return (f"{self.name(tree.source)}." if tree.qualified else "") + self.name(tree.name)

    def condition(self, tree):
        """At the place of a condition with OR."""
        if not isinstance(tree, AnyOf):
            return self.conjunct(tree)
        return self.word(" OR ").join(map(self.conjunct, tree.members))

    def conjunct(self, tree):
        if not isinstance(tree, AllOf):
            return self.negated(tree)
        return self.word(" AND ").join(map(self.negated, tree.members))

    def negated(self, tree):
        return self.word("NOT ") + self.test(tree.inner) if isinstance(tree, Not) else self.test(tree)

    def test(self, tree):
        if isinstance(tree, Compare):
            sign = "!=" if tree.sign == "<>" and self.rarely() else tree.sign
            return self.wrapped(f"{self.expression(tree.left)} {sign} {self.expression(tree.right)}")
        if isinstance(tree, IsNull):
            return self.wrapped(f"{self.expression(tree.inner)} {self.word('IS NOT NULL' if tree.negated else 'IS NULL')}")
        return f"({self.condition(tree)})"

    def item(self, item):
        if isinstance(item, Star) or not item.alias:
            return super().item(item) if isinstance(item, Star) else self.expression(item.inner)
        return self.expression(item.inner) + (" " if self.rarely() else self.word(" AS ")) + self.name(item.name)

    def intersection(self, query):
        """An operand of a chain: an intersection needs no parentheses there."""
        return self.query(query) if isinstance(query, Intersection) and not self.rarely() else self.operand(query)

    def operand(self, query):
        return self.query(query) if isinstance(query, Block) and not self.rarely() else f"({self.query(query)})"

    def operator(self, operator):
        return operator + (" DISTINCT" if operator != "UNION ALL" and self.rarely() else "")

    def joined(self, source):
        if source.join == "JOIN" and self.rarely():
            return "INNER JOIN"
        return "LEFT OUTER JOIN" if source.join == "LEFT JOIN" and self.rarely() else source.join

    def view(self, view):
        self.draw = random.Random(f"{self.seed} {view.name}")
        flavour = view.flavour + " " if view.flavour else ""
        return f"CREATE {flavour}VIEW {self.name(view.name)} AS {self.query(view.query)}"

    def table(self, table):
        self.draw = random.Random(f"{self.seed} {table.name}")
        return super().table(table)

    def type_of(self, column):
        return column.type + ((" NULL" if self.rarely() else "") if column.nullable else " NOT NULL")


def input_text(case):
    """The program, the end line and the change lines, as our program reads them."""
    writer = Ours(case.seed)
    statements = [*map(writer.table, case.tables), *map(writer.view, case.views)]
    lines = [text for tick in case.ticks for text in (*(line.text for line in tick), '{"commit":true}')]
    lines += [line.text for line in case.rest]
    return ";\n".join(statements) + ";\n---\n" + "".join(line + "\n" for line in lines)
