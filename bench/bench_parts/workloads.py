"""The workloads: a program, the rows that its first tick loads, and the changes of later ticks.

A change is ("insert" or "delete", table, row). The first column of a table that changes is a key, so a database deletes by it.
"""
from collections import namedtuple
from itertools import islice

# `indexes` are the columns that the databases get an index for; `size` is the number of changes of a tick; `kept` are statements by which
# PostgreSQL keeps the views as tables, where that is simple.
Workload = namedtuple("Workload", "name rows size tables views indexes load changes kept", defaults=[()])

SAMPLE_TABLES = {"d": ("k", "g"), "e": ("id", "k", "n")}
SAMPLE_VIEWS = {
    "totals": "SELECT COUNT(*) AS c, SUM(n) AS s FROM e",
    "by_key": "SELECT k, COUNT(*) AS c, MIN(n) AS lo, MAX(n) AS hi FROM e GROUP BY k",
    "by_group": "SELECT d.g, SUM(e.n) AS s FROM e JOIN d ON e.k = d.k GROUP BY d.g",
    "unused": "SELECT d.k FROM d LEFT JOIN e ON d.k = e.k WHERE e.id IS NULL",
    "seen": "SELECT DISTINCT n FROM e",
}


class Draws:
    """A linear congruential generator. A copy begins where it stands, so each run of a workload draws the same numbers."""

    def __init__(self, state):
        self.state = state

    def below(self, limit):
        self.state = (self.state * 6364136223846793005 + 1442695040888963407) % 2**64
        return (self.state >> 32) % limit

    def skewed(self, most):
        return most * self.below(1000) ** 3 // 1000**3


def in_turn(table, rows, fresh):
    """Inserts and deletes in turn, without end: a fresh row comes, the oldest one goes."""
    rows = list(rows)
    for oldest, row in enumerate(fresh):
        rows.append(row)
        yield ("insert", table, row)
        yield ("delete", table, rows[oldest])


def events_from(number, drawn):
    while True:
        yield (number, drawn.below(1000), drawn.below(1000))
        number += 1


def sample(count, size=1):
    """The five views over events of 1,000 keys and a dimension of 1,010."""
    drawn = Draws(1)
    events = list(islice(events_from(0, drawn), count))
    state = drawn.state
    load = [("insert", "d", (k, k % 10)) for k in range(1010)] + [("insert", "e", row) for row in events]
    name = "the sample" if size == 1 else f"the sample, {size:,} changes a tick"
    indexes = (("d", "k"), ("e", "id"), ("e", "k"))

    def changes():
        return in_turn("e", events, events_from(count, Draws(state)))

    return Workload(name, count, size, SAMPLE_TABLES, SAMPLE_VIEWS, indexes, load, changes)


# A table for the view, and a trigger for each kind of statement, which adds up what came or went by its key.
KEPT_SUMS = (
    "CREATE TABLE sums (k INTEGER PRIMARY KEY, c BIGINT NOT NULL, s BIGINT NOT NULL)",
    """CREATE FUNCTION keep_inserts() RETURNS trigger LANGUAGE plpgsql AS $$ BEGIN
      INSERT INTO sums SELECT k, COUNT(*), SUM(n) FROM came GROUP BY k
        ON CONFLICT (k) DO UPDATE SET c = sums.c + EXCLUDED.c, s = sums.s + EXCLUDED.s;
      RETURN NULL; END $$""",
    """CREATE FUNCTION keep_deletes() RETURNS trigger LANGUAGE plpgsql AS $$ BEGIN
      UPDATE sums SET c = sums.c - less.c, s = sums.s - less.s
        FROM (SELECT k, COUNT(*) AS c, SUM(n) AS s FROM gone GROUP BY k) AS less WHERE sums.k = less.k;
      DELETE FROM sums USING gone WHERE sums.k = gone.k AND sums.c = 0;
      RETURN NULL; END $$""",
    "CREATE TRIGGER came AFTER INSERT ON e REFERENCING NEW TABLE AS came FOR EACH STATEMENT EXECUTE FUNCTION keep_inserts()",
    "CREATE TRIGGER gone AFTER DELETE ON e REFERENCING OLD TABLE AS gone FOR EACH STATEMENT EXECUTE FUNCTION keep_deletes()",
)


def sums(count):
    """One aggregate over events of 1,000 keys, which triggers can keep too."""
    drawn = Draws(3)
    events = list(islice(events_from(0, drawn), count))
    state = drawn.state
    views = {"sums": "SELECT k, COUNT(*) AS c, SUM(n) AS s FROM e GROUP BY k"}
    load = [("insert", "e", row) for row in events]

    def changes():
        return in_turn("e", events, events_from(count, Draws(state)))

    return Workload("one aggregate", count, 1, {"e": ("id", "k", "n")}, views, (("e", "id"), ("e", "k")), load, changes, KEPT_SUMS)


def items_from(number, drawn, orders):
    while True:
        yield (number, drawn.skewed(orders), drawn.below(100))
        number += 1


def three_tables(count):
    """A join of three tables; a tenth of the keys has nearly half of the rows."""
    drawn = Draws(2)
    customers = [(number, number % 20) for number in range(count // 10)]
    orders = [(number, drawn.skewed(len(customers))) for number in range(count // 3)]
    items = list(islice(items_from(0, drawn, len(orders)), count - len(customers) - len(orders)))
    state = drawn.state
    parts = (("c", customers), ("o", orders), ("i", items))
    load = [("insert", table, row) for table, rows in parts for row in rows]
    tables = {"c": ("id", "region"), "o": ("id", "c"), "i": ("id", "o", "price")}
    joined = "FROM c JOIN o ON o.c = c.id JOIN i ON i.o = o.id GROUP BY c.region"
    views = {"revenue": f"SELECT c.region, COUNT(*) AS items, SUM(i.price) AS total {joined}"}
    indexes = (("c", "id"), ("o", "id"), ("o", "c"), ("i", "id"), ("i", "o"))

    def changes():
        return in_turn("i", items, items_from(len(items), Draws(state), len(orders)))

    return Workload("a skewed join of three tables", count, 1, tables, views, indexes, load, changes)


def extremes(count):
    """MIN and MAX of 100 groups; each tick deletes the row with the least value of a group."""
    rows = [(number, number % 100, number) for number in range(count)]
    views = {"ends": "SELECT g, MIN(n) AS lo, MAX(n) AS hi FROM m GROUP BY g"}
    load = [("insert", "m", row) for row in rows]
    indexes = (("m", "id"), ("m", "g"))
    name = "MIN and MAX under deletes of the least"
    return Workload(name, count, 1, {"m": ("id", "g", "n")}, views, indexes, load, lambda: (("delete", "m", row) for row in rows))


def padding(count):
    """A left join whose right side comes and goes; half of the left rows have one."""
    left = [(number, number % 7) for number in range(count // 2)]
    right = [(number, number * 2) for number in range(count // 4)]
    load = [("insert", "l", row) for row in left] + [("insert", "r", row) for row in right]

    def changes():
        for number in range(len(right)):
            row = (len(right) + number, number * 2 + 1)
            yield ("insert", "r", row)
            yield ("delete", "r", row)

    views = {
        "pairs": "SELECT l.w, COUNT(*) AS c, COUNT(r.id) AS found FROM l LEFT JOIN r ON r.l = l.id GROUP BY l.w",
        "alone": "SELECT l.id FROM l LEFT JOIN r ON r.l = l.id WHERE r.id IS NULL",
    }
    tables = {"l": ("id", "w"), "r": ("id", "l")}
    return Workload("a left join whose right side comes and goes", count, 1, tables, views, (("l", "id"), ("r", "id"), ("r", "l")), load, changes)


def many_views(count):
    """200 views over one table; a tick changes one of them."""
    rows = [(number, number % 200, number % 1000) for number in range(count)]
    views = {f"v{key}": f"SELECT id, n FROM t WHERE k = {key}" for key in range(200)}
    load = [("insert", "t", row) for row in rows]

    def changes():
        return in_turn("t", rows, ((number, number % 200, number % 1000) for number in range(count, 2 * count)))

    return Workload("200 views, one changes", count, 1, {"t": ("id", "k", "n")}, views, (("t", "id"), ("t", "k")), load, changes)


def ticks_of(workload, most):
    """At most so many ticks of the workload."""
    changes = workload.changes()
    for _ in range(most):
        tick = list(islice(changes, workload.size))
        if len(tick) < workload.size:
            return
        yield tick


def program_of(workload):
    tables = [f"CREATE TABLE {name} ({', '.join(f'{column} INTEGER NOT NULL' for column in columns)})" for name, columns in workload.tables.items()]
    return tables + [f"CREATE VIEW {name} AS {query}" for name, query in workload.views.items()]
