"""Makes change lines, and says what becomes of each tick by counting rows.

A line is made with what it means: an update, a bad line (malformed by one of the rules of docs/LINES.md), or a blank one.
"""
import json
import random
from collections import Counter, namedtuple

from .trees import Case, Line

# What becomes of a tick: "accepted", "malformed", "absent" or "unfinished", the line that a refusal tells, and the tables after it.
Verdict = namedtuple("Verdict", "kind line tables")

BAD_LINES = (
    "x",
    "{",
    "[]",
    "1",
    "null",
    '{"table":"no such table","insert":{}}',
    '{"table":1,"insert":{}}',
    '{"insert":{"a":1}}',
    '{"commit":false}',
    '{"commit":true,"more":1}',
    '{"commit":1}',
    '{"commit":true} x',
    "[" * 128 + "]" * 128,
)


class LineMaker:
    """Makes the ticks of a program; `counts` has the rows of each table, as the model takes them."""

    def __init__(self, case, cap):
        self.draw = random.Random(f"lines {case.seed}")
        self.tables, self.views, self.cap = case.tables, case.views, cap
        self.counts = {table.name: Counter() for table in case.tables}
        self.careless = self.draw.choice((0.0, 0.05, 0.1))
        self.share = 0.0

    def chance(self, share):
        return self.draw.random() < share

    def row(self, table):
        held = list(self.counts[table.name].elements())
        if held and self.chance(0.3):
            return self.draw.choice(held)
        return tuple(None if column.nullable and self.chance(0.25) else self.draw.choice(column.values) for column in table.columns)

    def member(self, name, value):
        as_ascii = self.chance(0.2)
        return f"{json.dumps(name, ensure_ascii=as_ascii)}:{json.dumps(value, ensure_ascii=as_ascii)}"

    def update_text(self, table, operation, row):
        """One of the ways to write it: members in any order, NULL left out, members that count for nothing, a member twice."""
        members, has_twice = [], False
        for column, value in zip(table.columns, row):
            if value is None and self.chance(0.5):
                continue
            if self.chance(0.03):
                members.append(self.member(column.name, self.draw.choice(column.values)))
                has_twice = True
            members.append(self.member(column.name, value))
        if self.chance(0.05):
            members.insert(self.draw.randrange(len(members) + 1), self.member("no such column", [1, {"a": None}]))
        elif self.chance(0.2) and not has_twice:
            self.draw.shuffle(members)
        parts = [self.member("table", table.name), f'"{operation}":{{{",".join(members)}}}']
        if self.chance(0.1):
            parts.reverse()
        if self.chance(0.04):
            parts.append('"note":1.5e3')
        between = ", " if self.chance(0.1) else ","
        return (" " if self.chance(0.05) else "") + "{" + between.join(parts) + "}" + ("\r" if self.chance(0.05) else "")

    def update(self):
        table = self.draw.choice(self.tables)
        held = self.counts[table.name]
        if sum(held.values()) >= self.cap or held and self.chance(self.share):
            row = self.draw.choice(list(held.elements()))
            operation = "delete"
        else:
            row, operation = self.row(table), "insert"
        held[row] += 1 if operation == "insert" else -1
        if not held[row]:
            del held[row]
        return Line(operation, self.update_text(table, operation, row), table.name, row)

    def missing_delete(self):
        """A delete of a row that is not there, if one is soon found."""
        for _ in range(10):
            table = self.draw.choice(self.tables)
            row = self.row(table)
            if row not in self.counts[table.name]:
                return Line("delete", self.update_text(table, "delete", row), table.name, row)
        return self.bad()

    def bad(self):
        table = self.draw.choice(self.tables)
        if self.chance(0.4):
            return Line("bad", self.draw.choice(BAD_LINES))
        if self.chance(0.2):
            return Line("bad", "{" + self.member("table", self.draw.choice(self.views).name) + ',"insert":{}}')
        name = self.member("table", table.name)
        if self.chance(0.25):
            wrong = self.draw.choice(("", ',"insert":{},"delete":{}', ',"insert":[]', ',"delete":null', ',"update":{}'))
            return Line("bad", "{" + name + wrong + "}")
        row = dict(zip((column.name for column in table.columns), self.row(table)))
        column = self.draw.choice(table.columns)
        values = ["1.0", "1e2", "-0", "true", "[]", "{}", "18446744073709551616", "9223372036854775808", "-9223372036854775809"]
        values += ["1", "-7"] if column.is_text else ['"1"', '""']
        values += ["2147483648", "-2147483649"] if column.type in ("INT", "INTEGER") else []
        values += [] if column.nullable else ["null", None]
        members = [self.member(key, value) for key, value in row.items() if key != column.name]
        wrong = self.draw.choice(values)
        members += [] if wrong is None else [f"{json.dumps(column.name)}:{wrong}"]
        return Line("bad", "{" + name + ',"insert":{' + ",".join(members) + "}}")

    def lines(self, count):
        made = []
        for _ in range(count):
            if self.chance(0.05):
                made.append(Line("blank", self.draw.choice(("", " ", "\t \r"))))
            made.append(self.update())
        return made

    def tick(self):
        """A tick; the first ones fill the tables, and later ones have deletes too."""
        self.share = min(0.45, self.share + 0.15)
        before = {name: Counter(held) for name, held in self.counts.items()}
        lines = self.lines(self.draw.choice((0, 1, 1, 1, 2, 2, 3, 5, 8)) + (self.cap if self.share < 0.2 else 0))
        if self.chance(self.careless):
            lines.insert(self.draw.randrange(len(lines) + 1), self.bad())
        if self.chance(self.careless):
            lines.append(self.missing_delete())
        if self.chance(self.careless / 2):
            self.draw.shuffle(lines)
        verdict = judge_tick(before, lines, 1)
        self.counts = {name: Counter(held) for name, held in verdict.tables.items()}
        return tuple(lines)


def with_lines(case, cap):
    maker = LineMaker(case, cap)
    ticks = tuple(maker.tick() for _ in range(maker.draw.randint(10, 25)))
    rest = tuple(maker.lines(2)) if maker.chance(0.1) else ()
    return Case(case.seed, case.tables, case.views, ticks, rest)


def judge_tick(tables, lines, first):
    """The verdict of a tick whose lines count from `first`, over these tables."""
    after = {name: Counter(held) for name, held in tables.items()}
    for number, line in enumerate(lines, first):
        if line.kind == "bad":
            return Verdict("malformed", number, tables)
        if line.kind == "insert":
            after[line.table][line.row] += 1
        elif line.kind == "delete":
            if line.row not in after[line.table]:
                return Verdict("absent", number, tables)
            after[line.table][line.row] -= 1
            if not after[line.table][line.row]:
                del after[line.table][line.row]
    return Verdict("accepted", 0, after)


def judge(case):
    """The verdict of each tick, the unfinished one too."""
    tables = {table.name: Counter() for table in case.tables}
    verdicts, first = [], 1
    for lines in case.ticks:
        verdicts.append(judge_tick(tables, lines, first))
        tables = verdicts[-1].tables
        first += len(lines) + 1
    if any(line.kind != "blank" for line in case.rest):
        verdicts.append(Verdict("unfinished", 0, tables))
    return verdicts
