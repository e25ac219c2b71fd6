"""Backups for tests, written as the program's file is, where no program is needed."""

import collections.abc
import contextlib
import pathlib
import sqlite3
import typing

from companions import backups, values
from companions.tests import plant

NUMBERS = {name: number for number, name in backups.EVENTS.items()}
Row = tuple[typing.Any, ...]


def second(text: str) -> int:
    return values.seconds_at(values.moment_of(text))


def insert(rows: sqlite3.Connection, table: str, those: collections.abc.Iterable[Row]) -> None:
    found = list(those)
    if found:
        rows.executemany(f"INSERT INTO {table} VALUES ({', '.join('?' * len(found[0]))})", found)


class Made:
    """A backup that is being written: units, alarms, events of a moment, a tag and a kind, and what else a test needs."""

    def __init__(self, folder: pathlib.Path, name: str = "20260331T235959Z") -> None:
        self.path = folder / name
        self.path.mkdir(parents=True)
        self.file = self.path / "plant.db"
        with contextlib.closing(sqlite3.connect(self.file)) as rows, rows:
            rows.executescript((plant.TOP / "examples/schema.sql").read_text())
            insert(rows, "office", [(1, backups.SCHEMA, "root")])

    def unit(self, unit: str, tags: collections.abc.Iterable[str], last: str = "2026-03-31T23:59:59Z") -> None:
        with contextlib.closing(sqlite3.connect(self.file)) as rows, rows:
            insert(rows, "units", [(unit, second(last), 0, 0, 2_000)])
            insert(rows, "alarms", ((unit, tag, 0, 3_600, 0, 1, 0, None, None, None, None, None) for tag in tags))

    def events(self, unit: str, events: collections.abc.Iterable[tuple[int, str, str]]) -> None:
        """In the order of their moments."""
        with contextlib.closing(sqlite3.connect(self.file)) as rows, rows:
            insert(rows, "events", ((unit, seq, moment, tag, NUMBERS[kind]) for seq, (moment, tag, kind) in enumerate(sorted(events), 1)))

    def change(self, text: str, *parameters: object) -> None:
        with contextlib.closing(sqlite3.connect(self.file)) as rows, rows:
            rows.execute(text, parameters)

    def rows(self, table: str, those: collections.abc.Iterable[Row]) -> None:
        with contextlib.closing(sqlite3.connect(self.file)) as rows, rows:
            insert(rows, table, those)
