"""Makes programs: tables, and views over tables and earlier views.

The generator stays inside what the databases and our program share. So no program is refused, no expression leaves BIGINT (see
`expressions`), columns outside calls are columns of GROUP BY (SQLite takes others too), a block with HAVING and no GROUP BY has a
call among its items (SQLite wants one), names differ in more than the case of letters, and no query gives so many rows that the
databases become slow.
"""
import random

from .expressions import Scope, Shape, Shown, TEXTS
from .trees import AllOf, Block, Case, Chain, Column, Intersection, IsNull, Item, Source, Star, Table, View

MOST_ROWS = 12000
LIKELY_ROWS = 900
COLUMN_NAMES = ("a", "b", "c", "d", "k", "n", "name", "count", "Weird name", 'q"uote', "größe", "select", "sum")
RELATION_NAMES = ("t", "u", "w", "orders", "Item list", "text", "x1")
ALIASES = ("x", "y", "z", "p", "q", "left one", "max", "t", "u")


class Relation:
    """What is known of the rows of a relation or a query: its columns, and how many rows it has at most and likely."""

    def __init__(self, columns, most, likely):
        self.columns, self.most, self.likely = columns, most, max(1, likely)


class Maker:
    """Makes one program."""

    def __init__(self, seed):
        self.draw = random.Random(f"program {seed}")
        self.seed = seed
        self.cap = self.draw.choice((6, 10, 16))
        self.relations = {}
        self.texts = self.draw.sample(TEXTS, 5)

    def chance(self, share):
        return self.draw.random() < share

    def columns(self):
        made = []
        for name in self.draw.sample(COLUMN_NAMES, self.draw.choice((1, 2, 2, 3, 3, 4))):
            type_name = self.draw.choice(("INT", "INTEGER", "BIGINT", "BIGINT", "TEXT", "VARCHAR"))
            if type_name in ("TEXT", "VARCHAR"):
                values = tuple(self.draw.sample(self.texts, self.draw.choice((2, 3, 5))))
            elif self.chance(0.12):
                edge = 2**63 if type_name == "BIGINT" else 2**31
                values = (-edge, -edge + 1, 0, 1, edge - 1)
            else:
                values = tuple(self.draw.sample(range(-2, 6), self.draw.choice((2, 3, 4, 6))))
            made.append(Column(name, type_name, self.chance(0.6), values))
        return tuple(made)

    def tables(self):
        names = self.draw.sample(RELATION_NAMES, self.draw.choice((1, 2, 2, 3)))
        tables = tuple(Table(name, self.columns()) for name in names)
        for table in tables:
            self.relations[table.name] = Relation([shape_of(column) for column in table.columns], self.cap, self.cap)
        return tables

    def case(self):
        tables = self.tables()
        views = []
        for number in range(self.draw.choice((1, 2, 3, 3, 4, 5))):
            query, known = self.query(2, True)
            flavour = self.draw.choice(("", "", "", "", "MATERIALIZED", "LOCAL"))
            views.append(View(self.draw.choice(("v", "view ", "V")) + str(number), flavour, query))
            self.relations[views[-1].name] = known
        if not any(view.is_printed for view in views):
            views[-1] = View(views[-1].name, "", views[-1].query)
        return Case(self.seed, tables, tuple(views), (), ())

    def query(self, depth, named, kinds=None):
        """A query and what is known of it. Its columns have these kinds, if they are given, and names, if they need them."""
        if depth > 0 and self.chance(0.28):
            return self.chain(depth, named, kinds)
        return self.block(depth, named, kinds)

    def chain(self, depth, named, kinds):
        first, known = self.operand(depth, named, kinds)
        if isinstance(first, Intersection) and self.chance(0.4):
            return first, known
        kinds = [shape.is_text for shape in known.columns]
        steps = []
        for _ in range(self.draw.choice((1, 1, 2))):
            operator = self.draw.choice(("UNION ALL", "UNION ALL", "UNION", "UNION", "EXCEPT", "EXCEPT"))
            step, other = self.operand(depth, False, kinds)
            more = 0 if operator == "EXCEPT" else 1
            known = Relation(both(known, other), known.most + more * other.most, known.likely + more * other.likely)
            steps.append((operator, step))
        return Chain(first, tuple(steps)), known

    def operand(self, depth, named, kinds):
        if not self.chance(0.25):
            return self.query(depth - 1, named, kinds)
        first, known = self.query(depth - 1, named, kinds)
        second, other = self.query(depth - 1, False, [shape.is_text for shape in known.columns])
        return Intersection((first, second)), Relation(both(known, other), known.most, known.likely)

    def source(self, depth, taken, first):
        """A source with a name that is not taken, its columns, and what is known of it."""
        names = [name for name in self.relations if self.relations[name].most <= MOST_ROWS]
        query = relation = None
        if depth > 0 and self.chance(0.15):
            query, known = self.query(depth - 1, True)
        else:
            relation = self.draw.choice(names[:3] + names[-2:])
            known = self.relations[relation]
        alias = None
        if relation is None or relation in taken or self.chance(0.3):
            alias = self.draw.choice([name for name in ALIASES if name not in taken])
        name = alias or relation
        join = "" if first else self.draw.choice((",", ",", "CROSS JOIN", "JOIN", "JOIN", "LEFT JOIN", "LEFT JOIN", "LEFT JOIN"))
        return Source(join, relation, query, alias, None), [Shown(name, shape) for shape in known.columns], known

    def on(self, before, own):
        """A condition of a join, mostly with an equality, whose scope ends with the join's own source."""
        scope = Scope(self.draw, before + own)
        members = [scope.equality(before, own) if self.chance(0.85) else scope.test()]
        if self.chance(0.3):
            members.append(scope.equality(before, own) if self.chance(0.5) else scope.condition(1))
        members = [member for member in members if member is not None] or [scope.test()]
        return members[0] if len(members) == 1 else AllOf(tuple(members))

    def sources(self, depth):
        """The sources of a block, their columns, the equalities that WHERE has for them, and what is known of their rows."""
        sources, columns, equalities, most, likely = [], [], [], 1, 1
        for position in range(self.draw.choice((1, 1, 1, 2, 2, 2, 3, 3))):
            taken = {source.alias or source.relation for source in sources}
            source, own, known = self.source(depth, taken, position == 0)
            is_equal = source.join in ("JOIN", "LEFT JOIN") or position > 0 and self.chance(0.7)
            next_likely = max(likely * known.likely // (4 if is_equal else 1), 1)
            if position > 0 and (most * known.most > MOST_ROWS or next_likely > LIKELY_ROWS):
                break
            if source.join in ("JOIN", "LEFT JOIN"):
                source = Source(source.join, source.relation, source.query, source.alias, self.on(columns, own))
            elif is_equal and position > 0:
                equalities.append((list(columns), own))
            most, likely = most * max(known.most, 1), next_likely
            sources.append(source)
            columns += own
        return tuple(sources), columns, equalities, Relation([], most, likely)

    def where(self, scope, sources, equalities):
        members = [scope.equality(*pair) for pair in equalities]
        padded = [source.alias or source.relation for source in sources if source.join == "LEFT JOIN"]
        if padded and self.chance(0.25):
            column = self.draw.choice([column for column in scope.columns if column.source in padded])
            members.append(IsNull(scope.reference(column), self.chance(0.3)))
        if self.chance(0.35):
            members.append(scope.condition(self.draw.choice((0, 1, 2))))
        members = [member for member in members if member is not None]
        self.draw.shuffle(members)
        return None if not members else members[0] if len(members) == 1 else AllOf(tuple(members))

    def block(self, depth, named, kinds):
        sources, columns, equalities, known = self.sources(depth)
        plain = Scope(self.draw, columns)
        where = self.where(plain, sources, equalities)
        form = self.draw.random()
        group, having, most, likely, scope = (), None, known.most, known.likely, plain
        if form < 0.5:
            items = self.star(sources, columns) if kinds is None and self.chance(0.2) else None
        elif form < 0.85:
            chosen = self.draw.sample(columns, min(len(columns), self.draw.choice((1, 1, 2, 3))))
            group = tuple(plain.reference(column) for column in chosen)
            scope, likely, items = Scope(self.draw, chosen, columns, plain, known.most), known.likely // 2, None
        else:
            scope, most, likely, items = Scope(self.draw, [], columns, plain, known.most), 1, 1, None
        if items is None:
            items = self.items(scope, named, kinds, is_global=form >= 0.85)
        if form >= 0.5 and self.chance(0.3):
            having = scope.condition(1)
        trees, shapes = items
        return Block(self.chance(0.2), trees, sources, where, group, having), Relation(shapes, most, likely)

    def star(self, sources, columns):
        """All columns, if their names differ; or None."""
        if len({column.shape.name for column in columns}) < len(columns):
            return None
        if self.chance(0.5):
            return (Star(None),), [column.shape for column in columns]
        return tuple(Star(source.alias or source.relation) for source in sources), [column.shape for column in columns]

    def items(self, scope, named, kinds, is_global):
        if kinds is None:
            kinds = [self.chance(0.25) for _ in range(self.draw.choice((1, 2, 2, 3, 3, 4)))]
        trees, shapes, names = [], [], set()
        for position, is_text in enumerate(kinds):
            made = scope.call(is_text) if is_global and position == 0 else scope.expression(is_text, self.draw.choice((0, 0, 1, 2)))
            own = made.shape.name
            name, alias = own, False
            if not own or own in names or self.chance(0.35):
                free = [name for name in (*COLUMN_NAMES, *(f"c{number}" for number in range(9))) if name not in names]
                name, alias = self.draw.choice(free), True
                if not named and self.chance(0.5):
                    name, alias = None, False
            names.add(name)
            trees.append(Item(made.tree, name, alias))
            shapes.append(made.shape._replace(name=name))
        return tuple(trees), shapes


def shape_of(column):
    amount = 0 if column.is_text else max(map(abs, column.values))
    return Shape(column.name, column.is_text, column.type in ("INT", "INTEGER"), amount)


def both(known, other):
    """The columns of a set operation."""
    pairs = zip(known.columns, other.columns)
    return [Shape(one.name, one.is_text, one.is_integer and two.is_integer, max(one.amount, two.amount)) for one, two in pairs]
