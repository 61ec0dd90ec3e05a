"""What the databases answer: the rows of each view over empty tables, and after each accepted tick."""
import json
import os
import pathlib
import shutil
import subprocess
import tempfile
import time
from collections import Counter

from .writer import Plain, quoted, text_literal


class DatabaseFault(Exception):
    """The database does not run the program."""


def sqlite_answers(case, verdicts):
    """Lists the rows of the views for the empty tables and for each tick; None for a refused tick."""
    import sqlite3

    connection = sqlite3.connect(":memory:", isolation_level=None)
    writer = Plain("sqlite")
    try:
        for statement in [*map(writer.table, case.tables), *map(writer.view, case.views)]:
            connection.execute(statement)
        answers = [sqlite_rows(connection, case)]
        for lines, verdict in zip((*case.ticks, case.rest), verdicts):
            is_accepted = sqlite_tick(connection, case, lines) and verdict.kind != "unfinished"
            connection.execute("COMMIT" if is_accepted else "ROLLBACK")
            if is_accepted != (verdict.kind == "accepted"):
                raise DatabaseFault("the database and the count of rows say different things of a delete")
            answers.append(sqlite_rows(connection, case) if is_accepted else None)
        return answers
    except sqlite3.Error as fault:
        raise DatabaseFault(f"SQLite: {fault}") from fault
    finally:
        connection.close()


def sqlite_tick(connection, case, lines):
    """Begins a transaction and makes the updates of a tick; whether no line is bad and each delete found its row."""
    tables = {table.name: table for table in case.tables}
    connection.execute("BEGIN")
    for line in lines:
        if line.kind == "bad":
            return False
        if line.kind == "insert":
            marks = ",".join("?" * len(line.row))
            connection.execute(f"INSERT INTO {quoted(line.table)} VALUES ({marks})", line.row)
        elif line.kind == "delete":
            name = quoted(line.table)
            same = " AND ".join(f"{quoted(column.name)} IS ?" for column in tables[line.table].columns)
            found = connection.execute(f"DELETE FROM {name} WHERE rowid = (SELECT rowid FROM {name} WHERE {same} LIMIT 1)", line.row)
            if found.rowcount != 1:
                return False
    return True


def sqlite_rows(connection, case):
    printed = [view for view in case.views if view.is_printed]
    return {view.name: Counter(connection.execute(f"SELECT * FROM {quoted(view.name)}")) for view in printed}


def literal(value):
    return "NULL" if value is None else str(value) if isinstance(value, int) else text_literal(value)


class Postgres:
    """A server of PostgreSQL: the one that PGHOST names, or one that is started in a folder of its own and stopped at the end."""

    def __init__(self):
        self.server = self.folder = None
        self.words = [shutil.which("psql") or "", "-X", "-q", "-A", "-t", "-v", "ON_ERROR_STOP=1"]

    def start(self):
        """None if it can be used, or the cause why not."""
        if not self.words[0]:
            return "psql is not found"
        if "PGHOST" not in os.environ:
            programs = sorted(pathlib.Path("/usr/lib/postgresql").glob("*/bin/postgres"))
            if not programs:
                return "no server is named by PGHOST, and none is in /usr/lib/postgresql"
            cause = self.start_server(programs[-1].parent)
            if cause:
                return cause
        for _ in range(100):
            told = subprocess.run([*self.words, "-c", "SELECT 1"], capture_output=True, text=True, check=False)
            if told.returncode == 0:
                return None
            if self.server is None or self.server.poll() is not None:
                break
            time.sleep(0.1)
        return "the server does not answer: " + told.stderr.strip()

    def start_server(self, programs):
        as_user = []
        self.folder = tempfile.mkdtemp(prefix="differential-")
        if os.geteuid() == 0:
            if not shutil.which("setpriv") or subprocess.run(["id", "postgres"], capture_output=True, check=False).returncode:
                return "root cannot run a server, and there is no user postgres or no setpriv"
            as_user = ["setpriv", "--reuid=postgres", "--regid=postgres", "--clear-groups"]
            shutil.chown(self.folder, "postgres", "postgres")
        data = self.folder + "/data"
        made = [*as_user, str(programs / "initdb"), "-D", data, "-U", "postgres", "--auth=trust", "--locale=C", "-E", "UTF8", "-N"]
        told = subprocess.run(made, capture_output=True, text=True, check=False, cwd=self.folder)
        if told.returncode:
            return "initdb fails: " + told.stderr.strip()
        run = [*as_user, str(programs / "postgres"), "-D", data, "-k", self.folder, "-c", "listen_addresses=", "-c", "jit=off", "-F"]
        with open(self.folder + "/log", "w", encoding="utf-8") as log:
            self.server = subprocess.Popen(run, stdout=log, stderr=log, cwd=self.folder)
        self.words += ["-h", self.folder, "-U", "postgres", "-d", "postgres"]
        return None

    def stop(self):
        if self.server is not None:
            self.server.terminate()
            try:
                self.server.wait(20)
            except subprocess.TimeoutExpired:
                self.server.kill()
        if self.folder is not None:
            shutil.rmtree(self.folder, ignore_errors=True)

    def answers(self, case, verdicts):
        """As `sqlite_answers`. The tables are filled anew for each accepted tick."""
        told = subprocess.run(self.words, input=self.script(case, verdicts), capture_output=True, text=True, check=False)
        if told.returncode:
            raise DatabaseFault("PostgreSQL: " + told.stderr.strip())
        ticks = told.stdout.split("= tick\n")[1:]
        answers = [self.rows(tick) for tick in ticks]
        accepted = iter(answers[1:])
        return [answers[0], *(next(accepted) if verdict.kind == "accepted" else None for verdict in verdicts)]

    def script(self, case, verdicts):
        """One transaction that is not committed."""
        writer = Plain("postgres")
        printed = [view for view in case.views if view.is_printed]
        listing = "\\echo '= tick'\n" + "".join(
            f"\\echo '= view'\nSELECT to_json({text_literal(view.name)}::text);\nSELECT row_to_json(r) FROM {quoted(view.name)} r;\n" for view in printed
        )
        parts = ["BEGIN; CREATE SCHEMA differential; SET LOCAL search_path = differential;\n"]
        parts += [statement + ";\n" for statement in [*map(writer.table, case.tables), *map(writer.view, case.views)]]
        parts.append(listing)
        for verdict in verdicts:
            if verdict.kind != "accepted":
                continue
            for name, held in verdict.tables.items():
                rows = ", ".join("(" + ", ".join(map(literal, row)) + ")" for row in held.elements())
                parts.append(f"DELETE FROM {quoted(name)};\n" + (f"INSERT INTO {quoted(name)} VALUES {rows};\n" if rows else ""))
            parts.append(listing)
        return "".join(parts) + "ROLLBACK;\n"

    def rows(self, tick):
        found = {}
        for block in tick.split("= view\n")[1:]:
            name, *rows = block.split("\n")[:-1]
            found[json.loads(name)] = Counter(tuple(value for _, value in json.loads(row, object_pairs_hook=list)) for row in rows)
        return found
