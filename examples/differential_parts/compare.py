"""Runs our program on a case, and compares what it prints with what a database answers."""
import json
import subprocess
from collections import Counter, namedtuple

from .databases import DatabaseFault
from .lines import judge
from .writer import input_text

SECONDS = 60
# Where ours and a database differ first, and what each of them says there.
Difference = namedtuple("Difference", "what ours theirs")


class Counts:
    """How much was compared."""

    def __init__(self):
        self.programs = self.views = self.rows = self.changes = 0
        self.ticks = Counter()

    def line(self):
        refused = ", ".join(f"{count} {kind}" for kind, count in sorted(self.ticks.items()) if kind != "accepted") or "none"
        ticks = f"{self.ticks['accepted']} ticks accepted and {sum(self.ticks.values()) - self.ticks['accepted']} refused ({refused})"
        return f"{self.programs} programs, {ticks}, {self.views} views compared with {self.rows} rows, {self.changes} printed changes"

    def are_too_low(self):
        """Whether so little was compared that agreement says nothing."""
        if self.programs < 20:
            return self.programs == 0
        is_little = min(self.views, self.rows, self.changes) < 5 * self.programs
        return is_little or not self.ticks["malformed"] or not self.ticks["absent"]


def run_ours(program, case):
    """What is printed, what is told on standard error, and the status."""
    try:
        run = subprocess.run([program], input=input_text(case).encode(), capture_output=True, timeout=SECONDS, check=False)
    except subprocess.TimeoutExpired:
        return "", f"no end within {SECONDS} seconds", -1
    return run.stdout.decode(errors="replace"), run.stderr.decode(errors="replace"), run.returncode


def blocks_of(printed):
    """The lines of each block: those up to a line that tells of a tick."""
    blocks, lines = [], []
    for line in printed.split("\n")[:-1]:
        lines.append(line)
        if line.startswith('{"tick":'):
            blocks.append(lines)
            lines = []
    return blocks + [lines] if lines else blocks


def last_line(number, verdict):
    if verdict is None or verdict.kind == "accepted":
        return f'{{"tick":{number},"accepted":true}}'
    line = f',"line":{verdict.line}' if verdict.kind in ("malformed", "absent") else ""
    return f'{{"tick":{number},"refused":"{verdict.kind}"{line}}}'


def row_key(row):
    return [(0, 0) if value is None else (1, value) if isinstance(value, int) else (2, value.encode()) for value in row]


def compact(value):
    return json.dumps(value, ensure_ascii=False, separators=(",", ":"))


def change_lines(case, names, before, after):
    """The lines that tell of the changes from one content of the views to another."""
    lines = []
    for view in case.views:
        if view.is_printed:
            old, new = before[view.name], after[view.name]
            for row in sorted({row for row in (*old, *new) if old[row] != new[row]}, key=row_key):
                grown = new[row] - old[row]
                shown = {"view": view.name, "insert" if grown > 0 else "delete": dict(zip(names[view.name], row)), "times": abs(grown)}
                lines.append(compact(shown))
    return lines


def apply_changes(lines, contents, names):
    """Applies the printed changes of a block to the contents of the views, which are multisets."""
    for line in lines:
        change = json.loads(line)
        grown = change["times"] if "insert" in change else -change["times"]
        members = change["insert"] if "insert" in change else change["delete"]
        names.setdefault(change["view"], list(members))
        held, row = contents[change["view"]], tuple(members.values())
        held[row] += grown
        if not held[row]:
            del held[row]


def compare(case, verdicts, run, answers, counts):
    """The first difference between a run of ours and the answers of a database, or None."""
    printed, told, status = run
    wanted = 0 if all(verdict.kind == "accepted" for verdict in verdicts) else 3
    if told or status != wanted:
        return Difference("the status or standard error", f"status {status} {told}", f"status {wanted}")
    blocks = blocks_of(printed)
    contents = {view.name: Counter() for view in case.views if view.is_printed}
    before, names = {name: Counter() for name in contents}, {}
    for number, (verdict, answer) in enumerate(zip((None, *verdicts), answers)):
        block = blocks[number] if number < len(blocks) else []
        if block[-1:] != [last_line(number, verdict)]:
            return Difference(f"the line of tick {number}", "".join(block[-1:]), last_line(number, verdict))
        if answer is None:
            if len(block) > 1:
                return Difference(f"the block of the refused tick {number}", "\n".join(block), last_line(number, verdict))
            continue
        difference = compare_views(case, number, block[:-1], contents, names, before, answer)
        if difference:
            return difference
        before = answer
        counts.views += len(answer)
        counts.rows += sum(sum(held.values()) for held in answer.values())
        counts.changes += len(block) - 1
    return None if len(blocks) == len(answers) else Difference("the number of blocks", str(len(blocks)), str(len(answers)))


def compare_views(case, number, lines, contents, names, before, answer):
    """Compares each view after a tick as a multiset, and then the text of the block, which these contents determine."""
    try:
        apply_changes(lines, contents, names)
    except (ValueError, KeyError, TypeError, AttributeError) as fault:
        return Difference(f"a line of tick {number}: {fault!r}", "\n".join(lines), "")
    for name, held in contents.items():
        if held != answer[name]:
            return Difference(f"view {name} after tick {number}", listing(held), listing(answer[name]))
    expected = change_lines(case, names, before, answer)
    return None if lines == expected else Difference(f"the block of tick {number}", "\n".join(lines), "\n".join(expected))


def listing(held):
    return "\n".join(f"{count} times {compact(row)}" for row, count in sorted(held.items(), key=lambda pair: row_key(pair[0])))


def first_difference(program, case, databases, counts):
    """The first difference of a case with any of the databases, with its name; or None."""
    verdicts = judge(case)
    run = run_ours(program, case)
    for name, answers_of in databases:
        try:
            difference = compare(case, verdicts, run, answers_of(case, verdicts), counts)
        except DatabaseFault as fault:
            return name, Difference("the database does not run the program", "", str(fault))
        if difference:
            return name, difference
    counts.programs += 1
    counts.ticks.update(verdict.kind for verdict in verdicts)
    return None
