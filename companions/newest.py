"""The newest event of a unit, as far as it is known: a feed that is dead shows by it."""

import collections.abc
import dataclasses
import datetime
import json
import pathlib

from companions import backups, connection, lists, pages, values

When = collections.abc.Callable[[datetime.datetime | None], str]  # how a moment is written
LIMIT = datetime.timedelta(minutes=15)  # the age above which an event is called too old, for a unit with a feed


@dataclasses.dataclass(frozen=True)
class Newest:
    """The moment of the newest event that is known, by which source, how old it is, and whether that is above the limit."""

    moment: datetime.datetime | None
    source: str
    seconds: int | None
    is_old: bool

    def words(self, when: When = pages.minute) -> str:
        if self.moment is None or self.seconds is None:
            return "last event: none is known"
        warning = ", TOO OLD: does the feed run?" if self.is_old else ""
        return f"last event {when(self.moment)}, {values.length_of(self.seconds)} ago ({self.source}){warning}"


def of_moments(found: collections.abc.Mapping[str, datetime.datetime | None], at: datetime.datetime, limit: datetime.timedelta) -> Newest:
    """The newest of moments, each of which has its source."""
    moment, source = max(((it, name) for name, it in found.items() if it is not None), default=(None, ""))
    if moment is None:
        return Newest(None, source, None, True)
    age = at - moment
    return Newest(moment, source, int(age.total_seconds()), age > limit)


def of_unit(
    unit: str,
    at: datetime.datetime,
    standing: collections.abc.Iterable[lists.Standing],
    books: backups.Books | None,
    feed: datetime.datetime | None,
    limit: datetime.timedelta,
    when: When = pages.minute,
) -> Newest:
    found = {"by the feed": feed, "by what stands": max((it.since for it in standing), default=None)}
    if books is not None:
        found[f"by the backup of {when(books.moment())}"] = books.newest_event(unit)
    return of_moments(found, at, limit)


def write_state(path: pathlib.Path, unit: str, moment: datetime.datetime, greatest: int | None = None) -> None:
    """The state of a feed, for the handover and the board; and the greatest number, for the feed."""
    members = {"unit": unit, "event": values.text_of(moment)} | ({} if greatest is None else {"seq": greatest})
    pages.write(json.dumps(members) + "\n", path)


def greatest_of(path: pathlib.Path) -> int | None:
    """The greatest number that a feed has sent, if its state has one."""
    try:
        found = json.loads(path.read_text(encoding="utf-8")).get("seq")
    except (OSError, ValueError, AttributeError):
        return None
    return found if isinstance(found, int) else None


def read_state(path: pathlib.Path) -> tuple[str, datetime.datetime]:
    try:
        members = json.loads(path.read_text(encoding="utf-8"))
        return str(members["unit"]), values.moment_of(members["event"])
    except (OSError, ValueError, KeyError, TypeError) as error:
        raise connection.Trouble(f"{path} is not the state of a feed: {error}") from error


def read_states(paths: collections.abc.Iterable[pathlib.Path]) -> dict[str, datetime.datetime]:
    return dict(map(read_state, paths))
