"""The results of runs in one SQLite file, by the hash of program, policy and workload."""

import os
import sqlite3
from collections.abc import Iterable
from dataclasses import dataclass
from hashlib import sha256

from scxlab.errors import LabError
from scxlab.figures import OF_STATS, rows_of

VERSION = "2"
# The table of the figures of each kind: a row for each run and name, and a column for each figure.
TABLE_OF = {"task": "tasks", "cpu": "cpus", "group": "groups", "policy": "policies"}
TABLES = """
CREATE TABLE IF NOT EXISTS files (hash TEXT PRIMARY KEY, text TEXT);
CREATE TABLE IF NOT EXISTS runs (
    id INTEGER PRIMARY KEY, key TEXT UNIQUE, program TEXT, policy TEXT, workload TEXT, state TEXT);
""" + "".join(
    f"CREATE TABLE IF NOT EXISTS {TABLE_OF[kind]} (run INTEGER REFERENCES runs (id), name TEXT, "
    f"{', '.join(f'{figure} NUMERIC' for figure in figures)}, PRIMARY KEY (run, name)) WITHOUT ROWID;\n"
    for kind, figures in OF_STATS.items())


@dataclass(frozen=True)
class Result:
    """What became of a run: the texts of its policy and its workload, its state, and what `stats-csv` wrote of it,
    which is empty if it was refused."""

    key: str
    policy: str
    workload: str
    state: str
    figures: str


def hash_of(text: str) -> str:
    return sha256(text.encode()).hexdigest()


def key_of(program: str, policy: str, workload: str) -> str:
    """The key of a run, by the hashes of what it is of."""
    return hash_of(f"{program} {policy} {workload}")


class Store:
    """Results are there once they are added: a process that is ended afterwards loses none."""

    def __init__(self, path: str | os.PathLike[str]) -> None:
        self.path = str(path)
        try:
            self.base = sqlite3.connect(self.path)
            self._open()
        except sqlite3.Error as error:
            raise LabError(f"{self.path} is no file of results: {error}") from error

    def _open(self) -> None:
        """Makes the tables of a new file. A file of another version is refused, and stays as it is."""
        self.base.execute("CREATE TABLE IF NOT EXISTS version (version TEXT)")
        found = {row[0] for row in self.base.execute("SELECT version FROM version")}
        if found - {VERSION}:
            raise LabError(f"{self.path} is of version {min(found)} of results, and this scxlab reads version {VERSION}")
        self.base.executescript(TABLES)
        if not found:
            self.base.execute("INSERT INTO version VALUES (?)", (VERSION,))
            self.base.commit()

    def keys(self) -> set[str]:
        """The keys of all runs."""
        return {row[0] for row in self.base.execute("SELECT key FROM runs")}

    def add(self, program: str, results: Iterable[Result]) -> None:
        """Keeps results of the program with this hash; all of them or none."""
        with self.base:
            for one in results:
                self._add_one(program, one)

    def _add_one(self, program: str, one: Result) -> None:
        policy, workload = hash_of(one.policy), hash_of(one.workload)
        self.base.executemany("INSERT OR IGNORE INTO files VALUES (?, ?)",
                              [(policy, one.policy), (workload, one.workload)])
        (number,), = self.base.execute(
            "INSERT INTO runs (key, program, policy, workload, state) VALUES (?, ?, ?, ?, ?)"
            " ON CONFLICT (key) DO UPDATE SET state = excluded.state RETURNING id",
            (one.key, program, policy, workload, one.state)).fetchall()
        for (kind, name), values in by_name(one.figures).items():
            row = [number, name, *(values.get(figure) for figure in OF_STATS[kind])]
            self.base.execute(f"INSERT OR REPLACE INTO {TABLE_OF[kind]} VALUES ({', '.join('?' * len(row))})", row)

    def get(self, key: str) -> tuple[str, dict[tuple[str, str], float]] | None:
        """The state of a run, and its values by figure and name; None if the run isn't there."""
        row = self.base.execute("SELECT id, state FROM runs WHERE key = ?", (key,)).fetchone()
        return row and (row[1], dict(self._values(row[0])))

    def _values(self, number: int) -> Iterable[tuple[tuple[str, str], float]]:
        for kind, figures in OF_STATS.items():
            for name, *values in self.base.execute(
                    f"SELECT name, {', '.join(figures)} FROM {TABLE_OF[kind]} WHERE run = ?", (number,)):
                yield from (((figure, name), float(value)) for figure, value in zip(figures, values) if value is not None)

    def close(self) -> None:
        self.base.close()


def by_name(figures: str) -> dict[tuple[str, str], dict[str, float]]:
    """The values of the figures of each task, CPU and group."""
    found: dict[tuple[str, str], dict[str, float]] = {}
    for kind, name, figure, value in rows_of(figures) if figures else []:
        if figure not in OF_STATS[kind]:
            raise LabError(f"the program writes {figure} of a {kind}, which this scxlab doesn't know")
        found.setdefault((kind, name), {})[figure] = value
    return found
