"""Sheets: files of comma-separated values as a spreadsheet writes them, with columns that a small TOML file may name (mappings.py)."""

import collections
import collections.abc
import csv
import dataclasses
import fractions
import io
import pathlib
import re
import typing

from companions import connection, pages, values

DELIMITERS = ",;\t"
MOST_FAULTS = 200
MOST_SHOWN = 60
# a number, its decimals if it has any, and the unit of a time
TIME = re.compile(r"([0-9]{1,11})(?:([.,])([0-9]{1,9}))? ?([^\W\d_]*)\.?")
UNITS = {"s": 1, "sec": 1, "min": 60, "h": 3_600, "d": 86_400}  # the units of times, in seconds
ASIDE = ("line of the sheet", "what is wrong")  # the last columns of a file of rows that were set aside


@dataclasses.dataclass(frozen=True)
class Fault:
    """What is wrong at a place of a file; the header's line is 1, and column 0 is the line as a whole. Its kind is counted."""

    line: int
    column: int
    name: str
    words: str
    kind: str = "the line as a whole"

    def __str__(self) -> str:
        where = f", column {self.column} ({self.name})" if self.column else ""
        return f"line {self.line}{where}: {self.words}"


class Wrong(connection.Trouble):
    """A file that the command line names is not as it has to be."""


class Faulty(Wrong):
    """A file that is not taken, with all that is wrong in it: how often what is, and then by line."""

    def __init__(self, path: pathlib.Path, faults: collections.abc.Sequence[Fault]) -> None:
        shown = [f"{path}: {it}" for it in faults[:MOST_FAULTS]]
        if len(faults) > MOST_FAULTS:
            shown.append(f"{path}: and {len(faults) - MOST_FAULTS:,} more")
        super().__init__("\n".join((summary(path, faults) if len(faults) > 1 else []) + shown))
        self.faults = tuple(faults)


def summary(path: pathlib.Path, faults: collections.abc.Sequence[Fault]) -> list[str]:
    """How many faults there are of each kind, the most frequent first."""
    counts = collections.Counter((it.name, it.kind) for it in faults)
    lines = len({it.line for it in faults})
    found = [f"{path}: {values.plural(len(faults), 'fault')} on {values.plural(lines, 'line')}:"]
    for (name, kind), count in sorted(counts.items(), key=lambda it: (-it[1], it[0])):
        found.append(f"{path}: {count:6,} {f'{name}: ' if name else ''}{kind}")
    return found


@dataclasses.dataclass(frozen=True)
class Mapping:
    """How the columns of a file are named and meant, and what is mended in it. `head` is the line of the header, or a text that stands in it."""

    encoding: str = "utf-8"
    delimiter: str | None = None
    columns: dict[str, str] = dataclasses.field(default_factory=dict)
    seconds: dict[str, int] = dataclasses.field(default_factory=dict)
    values: dict[str, dict[str, str]] = dataclasses.field(default_factory=dict)
    more: dict[str, typing.Any] = dataclasses.field(default_factory=dict)
    head: int | str | None = None
    decimal: str | None = None
    units: dict[str, int] = dataclasses.field(default_factory=lambda: dict(UNITS))
    capitals: frozenset[str] = frozenset()
    replaced: dict[str, str] = dataclasses.field(default_factory=dict)
    skipped: dict[str, list[re.Pattern[str]]] = dataclasses.field(default_factory=dict)

    def header(self, column: str) -> str:
        return " ".join(self.columns.get(column, column).split())

    def meant(self, column: str, text: str) -> str:
        """What a text of a column means: what the mapping says of the whole text, otherwise with what is replaced in it."""
        if text in self.values.get(column, {}):
            return self.values[column][text]
        for written, there in self.replaced.items():
            text = text.replace(written, there)
        text = text.upper() if column in self.capitals else text
        return self.values.get(column, {}).get(text, text)

    def is_skipped(self, column: str, text: str) -> bool:
        return any(it.fullmatch(text) for it in self.skipped.get(column, ()))

    def unit(self, text: str) -> int | None:
        """How many seconds a unit of time has, in whatever letters it is written."""
        return next((it for name, it in self.units.items() if name.lower() == text.lower()), None)


@dataclasses.dataclass(frozen=True)
class Row:
    """A line of a sheet: its number, the texts of the columns that are looked for, and all its fields as they stand there."""

    line: int
    texts: dict[str, str]
    fields: tuple[str, ...] = ()


@dataclasses.dataclass(frozen=True)
class Sheet:
    """The lines of a file, where its columns stand, and what is wrong. Who reads the lines adds what they find, so that all is listed at once."""

    path: pathlib.Path
    rows: list[Row]
    places: dict[str, int]
    mapping: Mapping
    faults: list[Fault]
    header: tuple[str, ...] = ()
    before: str = ""  # what stands before the header
    delimiter: str = ","
    odd: dict[int, tuple[str, ...]] = dataclasses.field(default_factory=dict)  # the fields of lines that are no rows

    def blame(self, line: int, column: str, words: str, kind: str = "not as it has to be") -> None:
        self.faults.append(Fault(line, self.places[column] + 1, self.mapping.header(column), words, kind))

    def check(self) -> None:
        """Faulty if anything is wrong."""
        if self.faults:
            raise Faulty(self.path, sorted(self.faults, key=lambda it: (it.line, it.column)))

    def meant(self, row: Row, column: str) -> str:
        """What stands in a column, by the words that the mapping knows."""
        return self.mapping.meant(column, row.texts[column])

    def number(self, row: Row, column: str, most: int) -> int | None:
        """A whole number from 1 to a limit; None and a fault if there is none."""
        text = self.meant(row, column)
        if text.isascii() and text.isdigit() and len(text) < 12 and 1 <= int(text) <= most:
            return int(text)
        self.blame(row.line, column, f"{shown(text)} is not a whole number from 1 to {most}", "not a whole number in its range")
        return None

    def seconds(self, row: Row, column: str, most: int) -> int | None:
        """A time in seconds, of a number and its unit if there is one; None and a fault if it is none, or not of whole seconds from 1 to a limit."""
        text, usual = self.meant(row, column), self.mapping.seconds.get(column, 1)
        found = TIME.fullmatch(text) if text.isascii() else None
        factor = None if found is None else self.mapping.unit(found[4]) if found[4] else usual
        if found is not None and factor is not None and found[2] in (None, self.mapping.decimal):
            time = fractions.Fraction(f"{found[1]}.{found[3] or 0}") * factor
            if time.denominator == 1 and 1 <= time <= most:
                return int(time)
        counted = f", counted in {usual} seconds" if usual > 1 else ""
        self.blame(row.line, column, f"{shown(text)} is not a whole number from 1 to {most // usual}{counted}", "not a time in its range")
        return None

    def bad_rows(self) -> dict[int, tuple[str, ...]]:
        """The fields of the lines that have a fault."""
        fields = {it.line: it.fields for it in self.rows} | self.odd
        return {line: fields[line] for line in sorted({it.line for it in self.faults}) if line in fields}


def shown(text: str) -> str:
    """A text of a file in quotes, or how it begins."""
    return repr(text if len(text) <= MOST_SHOWN else text[:MOST_SHOWN] + "..")


def decode(path: pathlib.Path, raw: bytes, encoding: str) -> str:
    """The text of a file; a byte-order mark at its begin is not part of it."""
    try:
        text = raw.decode(encoding)
    except UnicodeDecodeError as error:
        line = raw.count(b"\n", 0, error.start) + 1
        byte = error.start - (raw.rfind(b"\n", 0, error.start) + 1) + 1
        words = f"byte {byte} of the line is not {encoding} ({error.reason}): save the file as UTF-8, or name its encoding in the mapping"
        raise Faulty(path, [Fault(line, 0, "", words)]) from error
    except UnicodeError as error:
        raise Faulty(path, [Fault(1, 0, "", f"the file is not {encoding}: {error}")]) from error
    return text.removeprefix("\ufeff")


def delimiter_of(header: str) -> str:
    """The delimiter that the header has most of, outside of quotes."""
    bare = "".join(header.split('"')[::2])
    return max(DELIMITERS, key=bare.count)


def head_of(path: pathlib.Path, text: str, head: int | str | None) -> int:
    """Before which line the header begins, counted from 0. Before it anything may stand."""
    lines = list(io.StringIO(text, newline=""))
    if isinstance(head, int):
        if head > len(lines):
            raise Faulty(path, [Fault(len(lines), 0, "", f"the header is on line {head} by the mapping, and there is no such line")])
        return head - 1
    if isinstance(head, str):
        found = next((number for number, line in enumerate(lines) if head in " ".join(line.split())), None)
        if found is None:
            raise Faulty(path, [Fault(1, 0, "", f"no line has {shown(head)}, by which the mapping finds the header")])
        return found
    return next((number for number, line in enumerate(lines) if line.strip()), 0)


def first_record(text: str) -> str:
    """The first line, with those on which its fields in quotes go on."""
    found = ""
    for line in io.StringIO(text, newline=""):
        found += line
        if found.count('"') % 2 == 0:
            break
    return found


def lines_of(path: pathlib.Path, text: str, delimiter: str, first: int) -> list[tuple[int, list[str]]]:
    """The records of a text, each with the line on which it begins; blank lines are left out."""
    reader, found, begin = csv.reader(io.StringIO(text, newline=""), delimiter=delimiter, strict=True), [], first
    try:
        for fields in reader:
            if any(it.strip() for it in fields):
                found.append((begin, fields))
            begin = first + reader.line_num
    except csv.Error as error:
        raise Faulty(path, [Fault(begin, 0, "", f"not a line of comma-separated values: {error}")]) from error
    return found


def places_of(
    path: pathlib.Path, line: int, names: list[str], mapping: Mapping, needed: collections.abc.Sequence[str], others: collections.abc.Sequence[str]
) -> dict[str, int]:
    """Where the columns stand in a header."""
    faults, places = [], {}
    for column in (*needed, *others):
        name = mapping.header(column)
        at = [number for number, it in enumerate(names) if it == name] or [number for number, it in enumerate(names) if it.lower() == name.lower()]
        if len(at) > 1:
            faults.append(Fault(line, at[1] + 1, name, f"the column {name!r} stands twice"))
        elif at:
            places[column] = at[0]
        elif column in needed or column in mapping.columns:
            faults.append(Fault(line, 0, "", f"there is no column {name!r}; the columns are {', '.join(names)}"))
    if faults:
        raise Faulty(path, faults)
    return places


def text_of(path: pathlib.Path, mapping: Mapping) -> str:
    try:
        return decode(path, path.read_bytes(), mapping.encoding)
    except OSError as error:
        raise connection.Trouble(f"{path}: {error.strerror}") from error


def read_sheet(path: pathlib.Path, mapping: Mapping, needed: collections.abc.Sequence[str], others: collections.abc.Sequence[str] = ()) -> Sheet:
    """The lines of a file. The columns `needed` have to be there, `others` may be, and all else is left out. Faulty if it is not such a file."""
    text = text_of(path, mapping)
    lines = list(io.StringIO(text, newline=""))
    head = head_of(path, text, mapping.head)
    before, rest = "".join(lines[:head]), "".join(lines[head:])
    delimiter = mapping.delimiter or delimiter_of(first_record(rest))
    records = lines_of(path, rest, delimiter, head + 1)
    if not records:
        raise Faulty(path, [Fault(1, 0, "", "the file is empty: its first line names the columns")])
    line, header = records[0]
    names = [" ".join(it.split()) for it in header]
    places = places_of(path, line, names, mapping, needed, others)
    found = Sheet(path, [], places, mapping, [], tuple(header), before, delimiter)
    for line, fields in records[1:]:
        add_line(found, line, [pages.bare(it) for it in fields] if is_set_aside(header) else fields)
    return found


def add_line(sheet: Sheet, line: int, fields: list[str]) -> None:
    """A line of the file: a row, a fault, or one that the mapping skips."""
    texts = [" ".join(it.split()) for it in fields]
    if sheet.mapping.is_skipped("row", " ".join(filter(None, texts))):
        return
    if len(fields) != len(sheet.header):
        sheet.odd[line] = tuple(fields)
        words = f"{len(fields)} columns, where the header has {len(sheet.header)}"
        sheet.faults.append(Fault(line, 0, "", words, "another number of columns than the header"))
        return
    row = Row(line, {column: texts[at] for column, at in sheet.places.items()}, tuple(fields))
    if not any(sheet.mapping.is_skipped(column, text) for column, text in row.texts.items()):
        sheet.rows.append(row)


def is_set_aside(header: collections.abc.Sequence[str]) -> bool:
    """Whether a file is one of rows that were set aside, whose cells have an apostrophe before what a spreadsheet may take for a formula."""
    return tuple(header[-len(ASIDE) :]) == ASIDE
