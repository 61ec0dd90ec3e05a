"""The systems that are measured: each gives the seconds of the load and of a tick, and our program and the one by hand their memory too."""
import os
import shutil
import subprocess
import tempfile
import time
from collections import namedtuple

from differential_parts.databases import Postgres

from .workloads import program_of, ticks_of

# `rows` is how many rows each view has at the end, and `ticks` after how many ticks that is.
Figures = namedtuple("Figures", "load tick memory ticks rows")
FEWEST, MOST = 4, 4000


def change_line(workload, change):
    operation, table, row = change
    members = ",".join(f'"{column}":{value}' for column, value in zip(workload.tables[table], row))
    return f'{{"table":"{table}","{operation}":{{{members}}}}}\n'


class Streamed:
    """A program that reads a program and change lines, and prints each block as soon as its tick is done."""

    def __init__(self, name, program):
        self.name, self.program = name, program

    def measure(self, workload, seconds):
        """First a few ticks, and then as many as fit into these seconds, in a run of their own."""
        first = self.run(workload, FEWEST)
        fitting = int(seconds / max(first.tick, 1e-7))
        return first if fitting < 2 * FEWEST else self.run(workload, min(fitting, MOST, max(FEWEST, 400_000 // workload.size)))

    def run(self, workload, most):
        with tempfile.TemporaryFile("w+", encoding="ascii") as file:
            file.write(";\n".join(program_of(workload)) + ";\n---\n")
            file.writelines(change_line(workload, change) for change in workload.load)
            file.write('{"commit":true}\n')
            ticks = 0
            for tick in ticks_of(workload, most):
                file.writelines(change_line(workload, change) for change in tick)
                file.write('{"commit":true}\n')
                ticks += 1
            file.flush()
            file.seek(0)
            return self.timed(file, ticks)

    def timed(self, file, ticks):
        """Takes the time at which the line of tick 1 comes, and at which the last line comes, which is before the program gives memory back."""
        began, loaded, pieces, tail, memory, looked = time.monotonic(), None, [], b"", 0, 0.0
        with subprocess.Popen([self.program], stdin=file, stdout=subprocess.PIPE) as run:
            while piece := os.read(run.stdout.fileno(), 1 << 16):
                now = time.monotonic()
                is_loaded = loaded is None and b'{"tick":1,' in tail + piece
                loaded = now if is_loaded else loaded
                if is_loaded or now - looked > 0.01:
                    memory, looked = max(memory, most_memory(run.pid)), now
                tail = piece[-12:]
                pieces.append(piece)
        printed = b"".join(pieces)
        if run.returncode != 0 or not printed.endswith(b'{"tick":%d,"accepted":true}\n' % (ticks + 1)):
            raise RuntimeError(f"{self.name}: status {run.returncode}, {printed[-200:]!r}")
        return Figures(loaded - began, (now - loaded) / ticks, memory, ticks, rows_printed(printed))


def most_memory(process):
    """The most memory in bytes that a process has held so far; 0 if it has ended. What a wait tells would have the memory of this script in it."""
    try:
        with open(f"/proc/{process}/status", encoding="ascii") as status:
            return next((int(line.split()[1]) * 1024 for line in status if line.startswith("VmHWM:")), 0)
    except OSError:
        return 0


def rows_printed(printed):
    """How many rows each view has, by the printed changes."""
    rows = {}
    for line in printed.split(b"\n"):
        if line.startswith(b'{"view":"'):
            view, rest = line[9:].split(b'"', 1)
            times = int(line[:-1].rsplit(b":", 1)[1])
            rows[view.decode()] = rows.get(view.decode(), 0) + (times if rest.startswith(b',"insert"') else -times)
    return rows


class Sqlite:
    """SQLite in memory, with an index for each key and each column of a join; all views are computed anew after each tick."""

    name = "SQLite"

    def start(self):
        """None if it can be used, or the cause why not."""
        try:
            import sqlite3
        except ImportError:
            return "Python's sqlite3 is missing"
        self.connect = sqlite3.connect
        return None

    def measure(self, workload, seconds, most=MOST):
        connection = self.connect(":memory:", isolation_level=None)
        for statement in program_of(workload):
            connection.execute(statement)
        for table, column in workload.indexes:
            connection.execute(f"CREATE INDEX {table}_{column} ON {table}({column})")
        began = time.monotonic()
        connection.execute("BEGIN")
        self.make(connection, workload, workload.load)
        connection.execute("COMMIT")
        self.compute(connection, workload)
        loaded = time.monotonic()
        connection.execute("ANALYZE")
        spent = count = 0
        for tick in ticks_of(workload, most):
            start = time.monotonic()
            connection.execute("BEGIN")
            self.make(connection, workload, tick)
            connection.execute("COMMIT")
            rows = self.compute(connection, workload)
            spent += time.monotonic() - start
            count += 1
            if spent > seconds and count >= FEWEST:
                break
        connection.close()
        return Figures(loaded - began, spent / count, None, count, rows)

    def make(self, connection, workload, changes):
        for operation, table, row in changes:
            if operation == "insert":
                connection.execute(f"INSERT INTO {table} VALUES ({','.join('?' * len(row))})", row)
            else:
                connection.execute(f"DELETE FROM {table} WHERE {workload.tables[table][0]} = ?", row[:1])

    def compute(self, connection, workload):
        return {name: len(connection.execute(f"SELECT * FROM {name}").fetchall()) for name in workload.views}


class PostgreSQL:
    """PostgreSQL on a local socket without syncs, driven by psql, with the same indexes; all views are computed anew after each tick."""

    name = "PostgreSQL"

    def __init__(self):
        self.server = Postgres()
        self.cause = None

    def start(self):
        self.cause = self.server.start()
        return self.cause

    def measure(self, workload, seconds, most=MOST):
        with subprocess.Popen(self.server.words, stdin=subprocess.PIPE, stdout=subprocess.PIPE, text=True) as psql:
            indexes = [f"CREATE INDEX ON {table}({column})" for table, column in workload.indexes]
            self.ask(psql, "BEGIN; CREATE SCHEMA bench; SET LOCAL search_path = bench;\n")
            self.ask(psql, ";\n".join([*self.program(workload), *indexes]) + ";\n")
            compute = "\\o /dev/null\n" + "".join(f"SELECT * FROM {name};\n" for name in workload.views) + "\\o\n"
            began = time.monotonic()
            self.ask(psql, self.statements(workload, workload.load) + compute)
            loaded = time.monotonic()
            self.ask(psql, "ANALYZE;\n")
            spent = count = 0
            for tick in ticks_of(workload, most):
                text = self.statements(workload, tick) + compute
                start = time.monotonic()
                self.ask(psql, text)
                spent += time.monotonic() - start
                count += 1
                if spent > seconds and count >= FEWEST:
                    break
            counted = self.ask(psql, "".join(f"SELECT COUNT(*) FROM {name};\n" for name in workload.views))
            psql.stdin.write("ROLLBACK;\n")
            psql.stdin.close()
        return Figures(loaded - began, spent / count, None, count, dict(zip(workload.views, map(int, counted))))

    def program(self, workload):
        return program_of(workload)

    def ask(self, psql, text):
        """Sends statements, waits for the end of the last one, and gives what is printed."""
        psql.stdin.write(text + "\\echo = done\n")
        psql.stdin.flush()
        printed = []
        while (line := psql.stdout.readline()) != "= done\n":
            if not line:
                raise RuntimeError("psql has ended")
            printed.append(line)
        return printed

    def statements(self, workload, changes):
        """An INSERT for each run of up to 1,000 rows of one table, and a DELETE for each run of deletes."""
        parts, group = [], []
        for change in [*changes, None]:
            if group and (change is None or change[:2] != group[0][:2] or len(group) == 1000):
                operation, table, _ = group[0]
                if operation == "insert":
                    parts.append(f"INSERT INTO {table} VALUES {','.join('(' + ','.join(map(str, row)) + ')' for _, _, row in group)};\n")
                else:
                    key = workload.tables[table][0]
                    parts.append(f"DELETE FROM {table} WHERE {key} IN ({','.join(str(row[0]) for _, _, row in group)});\n")
                group = []
            group.append(change)
        return "".join(parts)


class Triggers(PostgreSQL):
    """PostgreSQL whose triggers keep a view as a table, for the workloads that have such ones. It uses the server that is started."""

    name = "triggers"

    def __init__(self, postgres):
        self.server, self.postgres = postgres.server, postgres

    def start(self):
        return self.postgres.cause

    def program(self, workload):
        return [*program_of(workload._replace(views={})), *workload.kept]


class ByHand(Streamed):
    """The program by hand, which is built in a folder."""

    def __init__(self, source, folder):
        super().__init__("by hand", folder + "/by_hand")
        self.source = source

    def start(self):
        if not shutil.which("rustc"):
            return "rustc is not found"
        words = ["rustc", "--edition", "2021", "-O", "-o", self.program, self.source]
        built = subprocess.run(words, capture_output=True, text=True, check=False)
        return built.stderr[-300:] if built.returncode else None
