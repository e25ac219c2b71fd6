"""Floods of alarms, found in the events of a backup as the office finds them."""

import collections
import collections.abc
import datetime

from companions import backups, lists, values

BEGINS_ABOVE = 10
LASTS_FROM = 5


def activations(events: collections.abc.Iterable[backups.Event]) -> collections.abc.Iterator[backups.Event]:
    """Each ACT of an alarm that is not active."""
    active: set[str] = set()
    for it in events:
        if it.kind == "ACT" and it.tag not in active:
            active.add(it.tag)
            yield it
        elif it.kind == "RTN":
            active.discard(it.tag)


def returns(events: collections.abc.Iterable[backups.Event]) -> dict[str, list[int]]:
    """The moments at which each alarm returned to normal, rising."""
    active: set[str] = set()
    found: dict[str, list[int]] = collections.defaultdict(list)
    for it in events:
        if it.kind == "ACT":
            active.add(it.tag)
        elif it.kind == "RTN" and it.tag in active:
            active.discard(it.tag)
            found[it.tag].append(it.moment)
    return found


def floods(events: collections.abc.Iterable[backups.Event], begin: datetime.datetime, until: datetime.datetime) -> list[lists.Flood]:
    """From one moment to before another, both at full ten minutes; what lies before is not looked at."""
    first, end = values.seconds_at(begin), values.seconds_at(until)
    counts = collections.Counter(it.moment // values.FLOOD_PERIOD for it in activations(events) if first <= it.moment < end)
    return runs(counts, first // values.FLOOD_PERIOD, end // values.FLOOD_PERIOD)


def runs(counts: collections.Counter[int], first: int, end: int) -> list[lists.Flood]:
    """The floods by how many activations came in each ten minutes, of those from one number to before another."""
    found: list[lists.Flood] = []
    here: list[int] = []
    for period in range(first, end + 1):
        count = counts[period] if period < end else 0
        if here and count < LASTS_FROM:
            found.append(flood(period - len(here), here))
            here = []
        elif here or count > BEGINS_ABOVE:
            here.append(count)
    return found


def flood(period: int, counts: list[int]) -> lists.Flood:
    start, until = (values.moment_at(it * values.FLOOD_PERIOD) for it in (period, period + len(counts)))
    return lists.Flood(start, until, sum(counts), max(counts))
