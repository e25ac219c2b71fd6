"""Descriptions and areas of alarms, which the office has no place for: a small SQLite file of the companions' own."""

import collections.abc
import contextlib
import dataclasses
import pathlib
import sqlite3

from companions import connection, sheets

MAGIC = b"SQLite format 3\0"
ID = 0x6F66_6465  # the file's application_id, by which no other file is taken for one
ID_AT = 68  # where SQLite has it in a file
TABLE = """CREATE TABLE IF NOT EXISTS descriptions (unit TEXT NOT NULL, tag TEXT NOT NULL, description TEXT NOT NULL, area TEXT NOT NULL,
    PRIMARY KEY (unit, tag)) STRICT"""

Key = tuple[str, str]  # unit and tag


@dataclasses.dataclass(frozen=True)
class Description:
    """What an alarm is, and where."""

    description: str
    area: str

    def words(self) -> str:
        return ", ".join(filter(None, (self.description, self.area)))


class Described:
    """The descriptions of a plant; without a file there is none."""

    def __init__(self, found: collections.abc.Mapping[Key, Description]) -> None:
        self.found = found

    def __bool__(self) -> bool:
        return bool(self.found)

    def of(self, unit: str, tag: str) -> Description:
        return self.found.get((unit, tag), NOTHING)

    def words(self, unit: str, tag: str) -> str:
        return self.of(unit, tag).words()


NOTHING = Description("", "")
NONE = Described({})


def check(path: pathlib.Path) -> bool:
    """Whether the file is there, and not empty as one that was never written; Wrong if it is another file, which is not opened."""
    try:
        with path.open("rb") as opened_file:
            head = opened_file.read(100)
    except FileNotFoundError:
        return False
    except OSError as error:
        raise connection.Trouble(f"{path}: {error.strerror}") from error
    if head and (not head.startswith(MAGIC) or int.from_bytes(head[ID_AT : ID_AT + 4], "big") != ID):
        raise sheets.Wrong(f"{path} is not a file of descriptions, and is left as it is")
    return bool(head)


def read(path: pathlib.Path | None) -> Described:
    if path is None:
        return NONE
    if not check(path):
        raise connection.Trouble(f"{path}: there is no file of descriptions: office describe writes it")
    try:
        with contextlib.closing(sqlite3.connect(f"{path.absolute().as_uri()}?mode=ro", uri=True)) as rows:
            found = rows.execute("SELECT unit, tag, description, area FROM descriptions").fetchall()
    except sqlite3.Error as error:
        raise connection.Trouble(f"{path} cannot be read: {error}") from error
    return Described({(unit, tag): Description(*rest) for unit, tag, *rest in found})


def write(path: pathlib.Path, wanted: collections.abc.Mapping[Key, Description]) -> None:
    """All of it, or nothing. What is there of other alarms stays."""
    check(path)
    try:
        with contextlib.closing(sqlite3.connect(path)) as rows, rows:
            rows.execute("BEGIN IMMEDIATE")
            rows.execute(f"PRAGMA application_id = {ID}")
            rows.execute(TABLE)
            text = "INSERT INTO descriptions VALUES (?, ?, ?, ?) ON CONFLICT DO UPDATE SET description = excluded.description, area = excluded.area"
            rows.executemany(text, ((*key, it.description, it.area) for key, it in wanted.items()))
    except sqlite3.Error as error:
        raise connection.Trouble(f"{path} cannot be written: {error}") from error
