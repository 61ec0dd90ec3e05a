"""Makes a failing case smaller, as long as it fails in the same way."""
from dataclasses import replace

from .trees import Block, relations_named


def smaller(case):
    """Yields cases with one part less: a view that no other names, a table that none names, half of the ticks, a tick, a line, or a clause."""
    named = set().union(*(relations_named(view.query) for view in case.views))
    for index, view in enumerate(case.views):
        if view.name not in named and len(case.views) > 1:
            yield replace(case, views=case.views[:index] + case.views[index + 1 :])
    for table in case.tables:
        if table.name not in named and len(case.tables) > 1:
            yield without_table(case, table)
    for size in (8, 4, 2, 1):
        for begin in range(0, len(case.ticks), size):
            yield replace(case, ticks=case.ticks[:begin] + case.ticks[begin + size :])
    if case.rest:
        yield replace(case, rest=())
    for number, tick in enumerate(case.ticks):
        for index in range(len(tick)):
            ticks = list(case.ticks)
            ticks[number] = tick[:index] + tick[index + 1 :]
            yield replace(case, ticks=tuple(ticks))
    for number in range(len(case.ticks) - 1):
        joined = case.ticks[number] + case.ticks[number + 1]
        yield replace(case, ticks=case.ticks[:number] + (joined,) + case.ticks[number + 2 :])
    for index, view in enumerate(case.views):
        for query in smaller_queries(view.query):
            yield replace(case, views=(*case.views[:index], replace(view, query=query), *case.views[index + 1 :]))


def without_table(case, table):
    tables = tuple(other for other in case.tables if other != table)
    ticks = tuple(tuple(line for line in tick if line.table != table.name) for tick in case.ticks)
    return replace(case, tables=tables, ticks=ticks, rest=tuple(line for line in case.rest if line.table != table.name))


def smaller_queries(query):
    """Yields the query with a clause or an operand less, and the same columns."""
    if not isinstance(query, Block):
        steps = getattr(query, "steps", None)
        yield query.members[0] if steps is None else query.first
        if steps is not None:
            for first in smaller_queries(query.first):
                yield replace(query, first=first)
            for index, (operator, step) in enumerate(steps):
                for made in smaller_queries(step):
                    yield replace(query, steps=(*steps[:index], (operator, made), *steps[index + 1 :]))
        return
    if query.where is not None:
        yield replace(query, where=None)
        for member in getattr(query.where, "members", ()):
            yield replace(query, where=member)
    if query.having is not None and query.group:
        yield replace(query, having=None)
    if query.distinct:
        yield replace(query, distinct=False)
    for index, source in enumerate(query.sources):
        if source.query is not None:
            for made in smaller_queries(source.query):
                sources = (*query.sources[:index], replace(source, query=made), *query.sources[index + 1 :])
                yield replace(query, sources=sources)


def shrunk(case, still_fails, tries=2000):
    """A smallest case by these steps that still fails, or the best one after so many tries."""
    found = True
    while found:
        found = False
        for candidate in smaller(case):
            tries -= 1
            if tries < 0:
                return case
            if still_fails(candidate):
                case, found = candidate, True
                break
    return case
