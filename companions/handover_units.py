"""What a unit hands over, asked of the office and read in a backup, the audit log and the state of its feed."""

import collections.abc
import dataclasses
import datetime

from companions import audit, backups, calls, changes, lists, measuring, newest, pages, removals, shifts, values

WEEK = datetime.timedelta(days=7)
FREQUENT = 10


@dataclasses.dataclass(frozen=True)
class Out:
    """An alarm that is out of service, with what is known of who took it out."""

    tag: str
    state: str
    priority: str | None
    removal: removals.Removal


@dataclasses.dataclass(frozen=True)
class Proposal:
    """A change that waits for a decision."""

    number: int
    what: str
    proposer: str
    proposed: datetime.datetime


@dataclasses.dataclass(frozen=True)
class Came:
    """What came in the shift, by the events of a backup up to its moment."""

    activations: int
    frequent: list[measuring.Frequent]
    until: datetime.datetime


@dataclasses.dataclass(frozen=True)
class UnitPage:
    """What a unit hands over. `ending` is None where no backup says which grants end, and `came` where none has events of the shift."""

    unit: str
    newest: newest.Newest
    shelved: list[lists.Shelf]
    suppressed: list[lists.Alarm]
    out_of_service: list[Out]
    standing: list[lists.Standing]
    floods: list[lists.Flood]
    proposals: list[Proposal]
    ending: list[backups.Grant] | None
    backup: datetime.datetime | None
    came: Came | None
    priorities: dict[str, str] = dataclasses.field(metadata=pages.UNSAID)
    suppressed_since: dict[str, datetime.datetime] = dataclasses.field(metadata=pages.UNSAID)


def by_urgency(standing: collections.abc.Iterable[lists.Standing]) -> list[lists.Standing]:
    """By priority, those without a record last, and the oldest first."""
    return sorted(standing, key=lambda it: (it.priority or "~", it.since, it.tag))


def name_of(change: calls.Change) -> str:
    if changes.is_note(change):
        return f"note of office successor on {change.tag}: the command was stopped, and takes it back when it is typed again"
    if isinstance(change.content, int):
        return f"limit of {change.tag}: {change.content} s"
    if isinstance(change.content, values.Record):
        return f"record of {change.tag}: severity {change.content.severity}, to respond within {change.content.response} s"
    return "matrix"


def proposals_of(office: calls.Office, unit: str, books: backups.Books | None) -> list[Proposal]:
    """What waits. A backup says which of the older changes may still wait, so that not all are asked for."""
    known = books.changes(unit) if books else []
    waiting = [it.number for it in known if it.state is values.State.Proposed]
    asked = [office.change(unit, it) for it in waiting] + list(office.changes(unit, len(known) + 1))
    return [Proposal(it.number, name_of(it), it.proposer, it.proposed) for it in asked if it is not None and it.state is values.State.Proposed]


@dataclasses.dataclass(frozen=True)
class Asked:
    """What the office says of a unit."""

    unit: str
    alarms: list[lists.Alarm]
    shelves: list[lists.Shelf]
    standing: list[lists.Standing]
    floods: list[lists.Flood]
    proposals: list[Proposal]


def ask_unit(office: calls.Office, unit: str, span: tuple[datetime.datetime, datetime.datetime], books: backups.Books | None) -> Asked:
    found = office.alarms(unit), office.shelves(unit), office.standing(unit), office.floods(unit, *span)
    return Asked(unit, *found, proposals_of(office, unit, books))


@dataclasses.dataclass(frozen=True)
class Sources:
    """What a page is made of beside the office: the audit log, read after the office was asked, and the states of feeds."""

    log: audit.Log | None
    feeds: collections.abc.Mapping[str, datetime.datetime]
    limit: datetime.timedelta


def came_of(past: measuring.Past, shift: shifts.Shift, backup: datetime.datetime) -> Came | None:
    until = min(shift.until, backup)
    if until <= shift.begin:
        return None
    begin, end = values.seconds_at(shift.begin), values.seconds_at(until)
    stays = [it for it in past.active if begin <= it.begin < end]
    return Came(len(stays), measuring.most_frequent(stays, FREQUENT), until)


def unit_page(asked: Asked, shift: shifts.Shift, clock: shifts.Clock, books: backups.Books | None, sources: Sources) -> UnitPage:
    unit, at = asked.unit, clock.at
    found = removals.Removals(unit, at, books, sources.log, clock.full)
    past = measuring.past_of(unit, books.events(unit)) if books else measuring.Past([], [], [])
    ending = [it for it in books.grants(unit) if it.end is not None and at < it.end <= at + WEEK] if books else None
    return UnitPage(
        unit,
        newest.of_unit(unit, at, asked.standing, books, sources.feeds.get(unit), sources.limit, clock.full),
        sorted(asked.shelves, key=lambda it: (it.until, it.tag)),
        [it for it in asked.alarms if it.suppressed],
        [Out(it.tag, it.state, it.priority, found.of(it.tag)) for it in asked.alarms if it.out_of_service],
        by_urgency(asked.standing),
        asked.floods,
        asked.proposals,
        None if ending is None else sorted(ending, key=lambda it: (it.end or at, it.person)),
        books.moment() if books else None,
        came_of(past, shift, books.moment()) if books else None,
        {it.tag: it.priority for it in asked.alarms if it.priority},
        {it.tag: values.moment_at(it.begin) for it in past.suppressed if it.end is None},
    )
