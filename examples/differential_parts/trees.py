"""The trees of generated programs: tables, views, queries, conditions and expressions; and what a program's input is made of."""
from dataclasses import dataclass
from typing import Any, Optional, Tuple


@dataclass(frozen=True)
class Number:
    value: int


@dataclass(frozen=True)
class Text:
    value: str


@dataclass(frozen=True)
class Reference:
    """A column of a source; `qualified` says whether our text names the source. The databases' text always does."""

    source: str
    name: str
    qualified: bool


@dataclass(frozen=True)
class Negative:
    inner: Any


@dataclass(frozen=True)
class Sum:
    """Terms with a flag each that says whether it is taken away; the first is not."""

    terms: Tuple[Tuple[bool, Any], ...]


@dataclass(frozen=True)
class Product:
    factors: Tuple[Any, ...]


@dataclass(frozen=True)
class Call:
    """COUNT, SUM, MIN or MAX; without an argument it is COUNT(*)."""

    function: str
    argument: Any


@dataclass(frozen=True)
class Compare:
    sign: str
    left: Any
    right: Any


@dataclass(frozen=True)
class IsNull:
    inner: Any
    negated: bool


@dataclass(frozen=True)
class Not:
    inner: Any


@dataclass(frozen=True)
class AllOf:
    members: Tuple[Any, ...]


@dataclass(frozen=True)
class AnyOf:
    members: Tuple[Any, ...]


@dataclass(frozen=True)
class Item:
    """An item of a select list; `name` is its column's name, or None if it has none; `alias` says whether our text writes it."""

    inner: Any
    name: Optional[str]
    alias: bool


@dataclass(frozen=True)
class Star:
    source: Optional[str]


@dataclass(frozen=True)
class Source:
    """A source of FROM: a relation or a query. `join` is the words before it: "", ",", "CROSS JOIN", "JOIN" or "LEFT JOIN"."""

    join: str
    relation: Optional[str]
    query: Any
    alias: Optional[str]
    on: Any


@dataclass(frozen=True)
class Block:
    distinct: bool
    items: Tuple[Any, ...]
    sources: Tuple[Source, ...]
    where: Any
    group: Tuple[Reference, ...]
    having: Any


@dataclass(frozen=True)
class Chain:
    """Queries under UNION ALL, UNION and EXCEPT, from left to right; each step is an operator and a query."""

    first: Any
    steps: Tuple[Tuple[str, Any], ...]


@dataclass(frozen=True)
class Intersection:
    members: Tuple[Any, ...]


@dataclass(frozen=True)
class Column:
    name: str
    type: str
    nullable: bool
    values: Tuple[Any, ...]

    @property
    def is_text(self):
        return self.type in ("TEXT", "VARCHAR")


@dataclass(frozen=True)
class Table:
    name: str
    columns: Tuple[Column, ...]


@dataclass(frozen=True)
class View:
    """A view; its flavour is "", "MATERIALIZED" or "LOCAL", and a local one is not printed."""

    name: str
    flavour: str
    query: Any

    @property
    def is_printed(self):
        return self.flavour != "LOCAL"


@dataclass(frozen=True)
class Line:
    """A change line: `kind` is "insert", "delete", "bad" or "blank", and `row` the row of an update."""

    kind: str
    text: str
    table: str = ""
    row: Tuple[Any, ...] = ()


@dataclass(frozen=True)
class Case:
    """A program with its ticks. The lines of `rest` stand behind the last commit line."""

    seed: int
    tables: Tuple[Table, ...]
    views: Tuple[View, ...]
    ticks: Tuple[Tuple[Line, ...], ...]
    rest: Tuple[Line, ...]


def sources_of(query):
    """Yields each source of a query, those of queries inside it too."""
    if isinstance(query, Block):
        for source in query.sources:
            yield source
            if source.query is not None:
                yield from sources_of(source.query)
        return
    members = query.members if isinstance(query, Intersection) else (query.first, *(step for _, step in query.steps))
    for member in members:
        yield from sources_of(member)


def relations_named(query):
    return {source.relation for source in sources_of(query) if source.relation is not None}
