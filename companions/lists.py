"""The office's lists, which it answers as texts of fixed columns."""

import dataclasses
import datetime

from companions import values


@dataclasses.dataclass(frozen=True)
class Alarm:
    """A line of the list of all alarms."""

    tag: str
    state: str
    priority: str | None
    shelved: bool
    suppressed: bool
    out_of_service: bool
    limit: int


@dataclasses.dataclass(frozen=True)
class Standing:
    """A line of the list of active alarms."""

    tag: str
    state: str
    priority: str | None
    since: datetime.datetime
    shelved: bool
    suppressed: bool
    out_of_service: bool


@dataclasses.dataclass(frozen=True)
class Shelf:
    """A line of the list of shelves, with the moment that the list is of."""

    tag: str
    kind: str
    start: datetime.datetime
    until: datetime.datetime
    person: str
    words: str

    @property
    def is_one_shot(self) -> bool:
        return self.kind == "one-shot"


@dataclasses.dataclass(frozen=True)
class Flood:
    """A line of the list of floods."""

    start: datetime.datetime
    until: datetime.datetime
    total: int
    peak: int


def rows_of(text: str) -> tuple[list[str], list[str]]:
    """The words of a list's heading, and its lines."""
    head, *rows = text.split("\n")
    return head.split(), rows[:-1]


def moment_of_heading(text: str) -> datetime.datetime:
    """The moment of a heading as `SHELVES U1 AT 2026-03-01T10:00:00Z COUNT 2`."""
    return values.moment_of(rows_of(text)[0][3])


def priority_of(cell: str) -> str | None:
    return None if cell == "-" else cell


def read_alarms(text: str) -> list[Alarm]:
    found = []
    for tag, state, cell, flags, limit in (it.split() for it in rows_of(text)[1]):
        found.append(Alarm(tag, state, priority_of(cell), flags[0] == "S", flags[1] == "D", flags[2] == "O", int(limit)))
    return found


def read_standing(text: str) -> list[Standing]:
    found = []
    for tag, state, cell, since, flags in (it.split() for it in rows_of(text)[1]):
        found.append(Standing(tag, state, priority_of(cell), values.moment_of(since), flags[0] == "S", flags[1] == "D", flags[2] == "O"))
    return found


def read_shelves(text: str) -> list[Shelf]:
    """Words may have spaces, also at their ends: they are what stands behind the fixed columns."""
    at, found = moment_of_heading(text), []
    for it in rows_of(text)[1]:
        left = int(it[55:61])
        start, until = values.moment_of(it[34:54]), at + datetime.timedelta(seconds=left)
        found.append(Shelf(it[:24].rstrip(), it[25:33].rstrip(), start, until, it[62:94].rstrip(), it[95:]))
    return found


def read_floods(text: str) -> list[Flood]:
    rows = (it.split() for it in rows_of(text)[1])
    return [Flood(values.moment_of(start), values.moment_of(until), int(total), int(peak)) for start, until, total, peak in rows]
