"""Mappings: small TOML files that say how a plant writes its sheets.

    encoding = "cp1252"              # otherwise utf-8
    delimiter = ";"                  # otherwise the one of the header that fits
    header = 3                       # the line of the header, or a text that stands in it; otherwise the first line
    decimal = ","                    # of times as 0,25 h
    capitals = ["tag"]               # columns whose small letters become capitals
    [columns]                        # the name that a column has in the file
    tag = "Tag name"
    [seconds]                        # what a time without a unit is counted in: seconds, minutes, hours or days
    limit = "minutes"
    [units]                          # how a plant writes units, beside s, min, h and d
    Std = "hours"
    [values.latching]                # what else may stand in a column as a whole, and what it means
    Latched = "yes"
    [replace]                        # what is written in place of letters, in every column
    "\u00e4" = "ae"
    [skip]                           # rows that are left out: patterns (of Python's re) of the whole text of a column, or of the row
    row = ["Section .*"]
    tag = [""]
"""

import collections.abc
import pathlib
import re
import tomllib
import typing

from companions import sheets

TIMES = {"seconds": 1, "minutes": 60, "hours": 3_600, "days": 86_400}
KNOWN = {"encoding", "delimiter", "header", "decimal", "capitals", "columns", "seconds", "units", "values", "replace", "skip"}
ROW = "row"  # a pattern of [skip] is of the whole row

Names = collections.abc.Collection[str]
Members = collections.abc.Mapping[str, typing.Any]


def texts_in(path: pathlib.Path, members: typing.Any, key: str) -> dict[str, str]:
    found = members.get(key, {})
    if not isinstance(found, dict) or not all(isinstance(it, str) for it in found.values()):
        raise sheets.Wrong(f"{path}: [{key}] has texts as its values")
    return dict(found)


def names_of(members: Members) -> set[str]:
    """The columns that a mapping speaks of."""
    found = {name for table in ("columns", "seconds", "values") if isinstance(members.get(table), dict) for name in members[table]}
    if isinstance(members.get("skip"), dict):
        found |= set(members["skip"]) - {ROW}
    capitals = members.get("capitals")
    return found | {it for it in (capitals if isinstance(capitals, list) else []) if isinstance(it, str)}


def check_names(path: pathlib.Path, members: Members, columns: Names, more: Names) -> None:
    unknown = set(members) - KNOWN - set(more)
    own = {name: it for name, it in members.items() if name not in more}
    unknown |= names_of(own) - set(columns)
    for table in "columns", "seconds", "values", "skip":
        if not isinstance(own.get(table, {}), dict):
            unknown |= {table}
    if unknown:
        raise sheets.Wrong(f"{path}: {', '.join(sorted(unknown))} is not known here; the columns are {', '.join(columns)}")


def encoding_of(path: pathlib.Path, members: Members) -> str:
    found = members.get("encoding", "utf-8")
    try:
        "a".encode(found).decode(found)
    except (LookupError, TypeError, ValueError) as error:
        raise sheets.Wrong(f"{path}: {found!r} is not the name of an encoding") from error
    return str(found)


def letter_of(path: pathlib.Path, members: Members, name: str, wrong: str) -> str | None:
    found = members.get(name)
    if found is not None and (not isinstance(found, str) or len(found) != 1 or found in wrong):
        raise sheets.Wrong(f"{path}: the {name} is one character")
    return found


def head_of(path: pathlib.Path, members: Members) -> int | str | None:
    found = members.get("header")
    is_line = isinstance(found, int) and not isinstance(found, bool) and found >= 1
    if found is not None and not is_line and not (isinstance(found, str) and found.strip()):
        raise sheets.Wrong(f"{path}: the header is the number of a line, from 1 on, or a text that stands in it")
    return " ".join(found.split()) if isinstance(found, str) else found


def times_of(path: pathlib.Path, members: Members, table: str) -> dict[str, int]:
    found = texts_in(path, members, table)
    wrong = [it for it in found.values() if it not in TIMES]
    if wrong:
        raise sheets.Wrong(f"{path}: {wrong[0]!r} is none of {', '.join(TIMES)}")
    return {key: TIMES[it] for key, it in found.items()}


def patterns_of(path: pathlib.Path, members: Members) -> dict[str, list[re.Pattern[str]]]:
    found = {}
    for column, those in members.get("skip", {}).items():
        if not isinstance(those, list) or not all(isinstance(it, str) for it in those):
            raise sheets.Wrong(f"{path}: the {column} of [skip] is a list of patterns")
        try:
            found[column] = [re.compile(it) for it in those]
        except re.error as error:
            raise sheets.Wrong(f"{path}: the {column} of [skip]: {error.pattern!r} is not a pattern: {error}") from error
    return found


def capitals_of(path: pathlib.Path, members: Members) -> frozenset[str]:
    found = members.get("capitals", [])
    if not isinstance(found, list) or not all(isinstance(it, str) for it in found):
        raise sheets.Wrong(f"{path}: capitals is a list of columns")
    return frozenset(found)


def read_mapping(path: pathlib.Path | None, columns: Names, more: Names = ()) -> sheets.Mapping:
    """The mapping of a TOML file: of these columns, with these further tables for the caller."""
    if path is None:
        return sheets.Mapping()
    try:
        members = tomllib.loads(path.read_text(encoding="utf-8"))
    except (OSError, ValueError) as error:
        raise sheets.Wrong(f"{path}: {error}") from error
    check_names(path, members, columns, more)
    own = {name: it for name, it in members.items() if name not in more}
    replaced = texts_in(path, own, "replace")
    if "" in replaced:
        raise sheets.Wrong(f"{path}: [replace] has an empty text, which stands everywhere")
    return sheets.Mapping(
        encoding_of(path, own),
        letter_of(path, own, "delimiter", '"\r\n'),
        texts_in(path, own, "columns"),
        times_of(path, own, "seconds"),
        {it: texts_in(path, own.get("values", {}), it) for it in own.get("values", {})},
        {it: members[it] for it in more if it in members},
        head_of(path, own),
        letter_of(path, own, "decimal", "0123456789 "),
        sheets.UNITS | times_of(path, own, "units"),
        capitals_of(path, own),
        dict(sorted(replaced.items(), key=lambda it: -len(it[0]))),
        patterns_of(path, own),
    )
