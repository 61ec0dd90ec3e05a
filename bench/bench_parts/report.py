"""The results as a table in Markdown, and as plots if gnuplot is there."""
import pathlib
import shutil
import statistics
import subprocess


def number(value):
    return f"{value:,.0f}" if value >= 100 else f"{value:.2g}" if value < 10 else f"{value:.0f}"


def spread(values, unit=1.0):
    """The median, with the least and the greatest."""
    if not values:
        return "-"
    scaled = sorted(value * unit for value in values)
    return f"{number(statistics.median(scaled))} ({number(scaled[0])} to {number(scaled[-1])})"


def ratios(rounds, above, below, part):
    """The ratio of two systems in each round that has both."""
    return [getattr(done[above], part) / getattr(done[below], part) for done in rounds if above in done and below in done]


def table(results):
    """The times of ticks: one line for each workload."""
    lines = ["| Workload | Rows | Ours, ms a tick | SQLite / ours | PostgreSQL / ours | Ours / by hand |", "|---|---|---|---|---|---|"]
    for workload, rounds in results:
        cells = [workload.name, f"{workload.rows:,}", spread([done["ours"].tick for done in rounds], 1000)]
        cells += [spread(ratios(rounds, other, "ours", "tick")) for other in ("SQLite", "PostgreSQL")]
        cells.append(spread(ratios(rounds, "ours", "by hand", "tick")))
        lines.append("| " + " | ".join(cells) + " |")
    return "\n".join(lines)


def triggers_table(results):
    """The workloads for which triggers were written by hand."""
    lines = ["| Workload | Rows | Ours, ms a tick | Triggers, ms a tick | Triggers / ours | PostgreSQL's view / triggers |", "|---|---|---|---|---|---|"]
    for workload, rounds in results:
        if not any("triggers" in done for done in rounds):
            continue
        cells = [workload.name, f"{workload.rows:,}", *(spread([done[name].tick for done in rounds], 1000) for name in ("ours", "triggers"))]
        cells += [spread(ratios(rounds, *pair, "tick")) for pair in (("triggers", "ours"), ("PostgreSQL", "triggers"))]
        lines.append("| " + " | ".join(cells) + " |")
    return "\n".join(lines)


def load_table(results):
    """Loading and memory, for the workloads that the program by hand has too."""
    lines = ["| Rows | Ours, rows a second | SQLite / ours | PostgreSQL / ours | Ours / by hand | Ours, bytes a row | Memory, ours / by hand |"]
    lines.append("|---|---|---|---|---|---|---|")
    for workload, rounds in results:
        if workload.name != "the sample":
            continue
        cells = [f"{workload.rows:,}", spread([len(workload.load) / done["ours"].load for done in rounds])]
        cells += [spread(ratios(rounds, other, "ours", "load")) for other in ("SQLite", "PostgreSQL")]
        cells.append(spread(ratios(rounds, "ours", "by hand", "load")))
        cells.append(spread([done["ours"].memory / len(workload.load) for done in rounds]))
        cells.append(spread(ratios(rounds, "ours", "by hand", "memory")))
        lines.append("| " + " | ".join(cells) + " |")
    return "\n".join(lines)


def plot(results, folder):
    """Writes the plots as SVG; the cause why not, or None."""
    if not shutil.which("gnuplot"):
        return "gnuplot is not found"
    pathlib.Path(folder).mkdir(parents=True, exist_ok=True)
    by_rows = [(workload.rows, rounds) for workload, rounds in results if workload.name == "the sample"]
    most = max((workload.rows for workload, _ in results if workload.size > 1), default=0)
    by_size = [(workload.size, rounds) for workload, rounds in results if workload.name.startswith("the sample") and workload.rows == most]
    for file, label, points in (("tick-by-rows", "rows of the table", by_rows), ("tick-by-changes", "changes of a tick", by_size)):
        if len(points) > 1:
            draw(f"{folder}/{file}.svg", label, sorted(points, key=lambda point: point[0]))
    return None


def draw(path, label, points):
    """One plot: the median time of a tick of each system."""
    text = ["set terminal svg size 720,440 background 'white'", f"set output '{path}'", "set logscale xy", "set key outside right"]
    text += [f"set xlabel '{label}'", "set ylabel 'milliseconds a tick'", "set grid", "set format y '%g'", "set format x '%.0f'"]
    names = [name for name in ("ours", "SQLite", "PostgreSQL", "by hand") if all(name in rounds[0] for _, rounds in points)]
    for position, name in enumerate(names):
        values = [(x, 1000 * statistics.median(done[name].tick for done in rounds)) for x, rounds in points]
        text += [f"$data{position} << end", *(f"{x} {y}" for x, y in values), "end"]
    text.append("plot " + ", ".join(f"$data{position} using 1:2 with linespoints title '{name}'" for position, name in enumerate(names)))
    subprocess.run(["gnuplot"], input="\n".join(text) + "\n", text=True, check=True)
