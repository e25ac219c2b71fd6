"""What a handover has on its one sheet: totals, what is urgent by tag, and of all else how many there are and the ten oldest."""

import collections
import collections.abc
import dataclasses
import datetime
import itertools
import typing

from companions import handover_units, happenings, lists, measuring

URGENT = ("P1", "P2")
PRIORITIES = ("P1", "P2", "P3", "P4", "N", "")
OLDEST = 10
# how many rows of a list have room on the sheet, and how many more have room as tags alone
MOST_STANDING, MOST_KEPT, MOST_HAPPENED, MOST_FLOODS, MOST_WAITING = 20, 8, 2, 2, 2
TAGS_STANDING, TAGS_KEPT, TAGS_SUPPRESSED = 60, 20, 60

NEVER = datetime.datetime.max.replace(tzinfo=datetime.timezone.utc)  # what is of an unknown age is the newest

Thing = typing.TypeVar("Thing")


@dataclasses.dataclass(frozen=True)
class Of(typing.Generic[Thing]):
    """A row of a list, with its unit and the priority of its alarm."""

    unit: str
    tag: str
    priority: str
    it: Thing


@dataclasses.dataclass(frozen=True)
class Split(typing.Generic[Thing]):
    """A list as the sheet has it: what is urgent, as far as there is room as rows, then as tags alone, and the ten oldest of the others."""

    urgent: list[Of[Thing]]
    urgent_tags: list[Of[Thing]]
    urgent_more: int
    oldest: list[Of[Thing]]
    counts: dict[str, int]  # of the others, by priority

    def others(self) -> int:
        return sum(self.counts.values())

    def total(self) -> int:
        return len(self.urgent) + len(self.urgent_tags) + self.urgent_more + self.others()

    def words(self) -> str:
        """How many others there are, by priority."""
        return ", ".join(f"{name or 'no record'} {count:,}" for name, count in self.counts.items())


def split(
    found: collections.abc.Iterable[Of[Thing]], age: collections.abc.Callable[[Thing], typing.Any], most_rows: int, most_tags: int
) -> Split[Thing]:
    """The most urgent and the oldest first."""
    those = sorted(found, key=lambda row: (PRIORITIES.index(row.priority), age(row.it), row.unit, row.tag))
    urgent = [it for it in those if it.priority in URGENT]
    others = [it for it in those if it.priority not in URGENT]
    counts = collections.Counter(it.priority for it in others)
    oldest = sorted(others, key=lambda row: (age(row.it), row.unit, row.tag))[:OLDEST]
    rows, tags = urgent[:most_rows], urgent[most_rows : most_rows + most_tags]
    return Split(rows, tags, len(urgent) - len(rows) - len(tags), oldest, {it: counts[it] for it in PRIORITIES if counts[it]})


@dataclasses.dataclass(frozen=True)
class Total:
    """One of the totals, which may belong to a group: a number for each unit, None where it is not known."""

    group: str
    what: str
    counts: list[int | None]

    def sum(self) -> int | None:
        known = [it for it in self.counts if it is not None]
        return sum(known) if len(known) == len(self.counts) else None


@dataclasses.dataclass(frozen=True)
class Sheet:
    """The sheet's lists, over all units."""

    totals: list[Total]
    standing: Split[lists.Standing]
    shelved: Split[lists.Shelf]
    out: Split[handover_units.Out]
    suppressed: Split[datetime.datetime | None]
    frequent: list[measuring.Frequent]

    def groups(self) -> list[tuple[str, int]]:
        """The groups of the totals in their order, and how many totals each has."""
        return [(name, len(list(those))) for name, those in itertools.groupby(self.totals, key=lambda it: it.group)]


Units = collections.abc.Sequence[handover_units.UnitPage]


def totals(units: Units, happened: happenings.Happened) -> list[Total]:
    found = []
    for name in PRIORITIES:
        counts = [sum((row.priority or "") == name for row in unit.standing) for unit in units]
        if any(counts) or name in URGENT:
            found.append(Total("standing", name or "no record", list(counts)))
    found += [
        Total("", "shelved", [len(it.shelved) for it in units]),
        Total("", "suppressed by design", [len(it.suppressed) for it in units]),
        Total("", "out of service", [len(it.out_of_service) for it in units]),
        Total("", "floods", [len(it.floods) for it in units]),
        Total("", "proposals", [len(it.proposals) for it in units]),
        Total("", "grants that end", [None if it.ending is None else len(it.ending) for it in units]),
    ]
    if happened.found is not None:
        done = collections.Counter((it.unit, it.kind) for it in happened.found)
        found += [Total("in this shift", kind, [done[it.unit, kind] for it in units]) for kind in happenings.KINDS]
    return found


def rows_of(
    units: Units, what: collections.abc.Callable[[handover_units.UnitPage], collections.abc.Iterable[tuple[str, Thing]]]
) -> list[Of[Thing]]:
    """The rows of a list over all units, by the tags of their alarms."""
    return [Of(unit.unit, tag, unit.priorities.get(tag, ""), it) for unit in units for tag, it in what(unit)]


def since_of(out: handover_units.Out) -> datetime.datetime:
    return out.removal.why.since if out.removal.why else NEVER


def suppressed_in(unit: handover_units.UnitPage) -> collections.abc.Iterator[tuple[str, datetime.datetime | None]]:
    return ((it.tag, unit.suppressed_since.get(it.tag)) for it in unit.suppressed)


def sheet_of(units: Units, happened: happenings.Happened) -> Sheet:
    return Sheet(
        totals(units, happened),
        split(rows_of(units, lambda unit: ((it.tag, it) for it in unit.standing)), lambda it: it.since, MOST_STANDING, TAGS_STANDING),
        split(rows_of(units, lambda unit: ((it.tag, it) for it in unit.shelved)), lambda it: it.start, MOST_KEPT, TAGS_KEPT),
        split(rows_of(units, lambda unit: ((it.tag, it) for it in unit.out_of_service)), since_of, MOST_KEPT, TAGS_KEPT),
        split(rows_of(units, suppressed_in), lambda it: it or NEVER, 0, TAGS_SUPPRESSED),
        frequent_of(units),
    )


def frequent_of(units: Units) -> list[measuring.Frequent]:
    """The most frequent alarms of all units together, of which each has its own."""
    those = [it for unit in units if unit.came for it in unit.came.frequent]
    total = sum(it.came.activations for it in units if it.came) or 1
    found = sorted(those, key=lambda it: (-it.count, it.unit, it.tag))[:OLDEST]
    return [dataclasses.replace(it, share=it.count / total) for it in found]
