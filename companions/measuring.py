"""What the events of units say of a time: rates, floods, and alarms that are frequent, chattering, fleeting or stale.

An activation is an ACT of an alarm that is not active, as the office counts it for its floods.
"""

import collections
import collections.abc
import dataclasses
import datetime
import typing

from companions import backups, floods, lists, values

HOUR, DAY = 3_600, 86_400

Key = tuple[str, str]  # unit and tag


class Stay(typing.NamedTuple):
    """An alarm that was active, or suppressed by design: from when, and to when; without an end it still is. All moments are those of the file."""

    unit: str
    tag: str
    begin: int
    end: int | None
    is_suppressed: bool = False  # whether an alarm was suppressed by design when it became active

    def within(self, begin: int, until: int) -> int:
        """How many of its seconds lie in a time."""
        end = until if self.end is None else min(self.end, until)
        return max(end - max(self.begin, begin), 0)


@dataclasses.dataclass(frozen=True)
class Past:
    """What all events of some units say, in the order of its moments."""

    active: list[Stay]
    suppressed: list[Stay]
    moments: list[int]

    def covers(self, begin: int, until: int) -> tuple[int, int] | None:
        """From when to when the events go in a time, in full ten minutes; None if there are none. Before the first and after the last event nothing
        says whether a feed ran."""
        if not self.moments or self.moments[-1] < begin or self.moments[0] >= until:
            return None
        period = values.FLOOD_PERIOD
        return max(begin, self.moments[0] // period * period), min(until, self.moments[-1] // period * period + period)

    def gap(self, begin: int, until: int) -> tuple[int, int]:
        """The longest time without an event."""
        inside = [begin, *(it for it in self.moments if begin <= it < until), until]
        return max(zip(inside, inside[1:]), key=lambda it: it[1] - it[0])


def past_of(unit: str, events: collections.abc.Iterable[backups.Event]) -> Past:
    """Plays the events of a unit."""
    running: dict[str, dict[str, tuple[int, bool]]] = {"ACT": {}, "SUP": {}}
    found: dict[str, list[Stay]] = {"ACT": [], "SUP": []}
    moments = []
    for it in events:
        moments.append(it.moment)
        if it.kind in running:
            running[it.kind].setdefault(it.tag, (it.moment, it.tag in running["SUP"]))
        elif it.kind in ("RTN", "UNSUP"):
            kind = "ACT" if it.kind == "RTN" else "SUP"
            if (begun := running[kind].pop(it.tag, None)) is not None:
                found[kind].append(Stay(unit, it.tag, begun[0], it.moment, begun[1]))
    for kind, those in running.items():
        found[kind] += [Stay(unit, tag, begin, None, is_suppressed) for tag, (begin, is_suppressed) in those.items()]
        found[kind].sort(key=lambda it: it.begin)
    return Past(found["ACT"], found["SUP"], sorted(moments))


def together(pasts: collections.abc.Iterable[Past]) -> Past:
    """The past of several units as one."""
    those = list(pasts)
    active = sorted((stay for it in those for stay in it.active), key=lambda stay: stay.begin)
    suppressed = sorted((stay for it in those for stay in it.suppressed), key=lambda stay: stay.begin)
    return Past(active, suppressed, sorted(moment for it in those for moment in it.moments))


@dataclasses.dataclass(frozen=True)
class Rate:
    """How many activations came in times of a length: the mean, the most in one of them, and when that began."""

    seconds: int
    mean: float
    peak: int
    at: datetime.datetime | None


def rate(moments: collections.abc.Iterable[int], begin: int, until: int, seconds: int) -> Rate:
    """Of times that begin at full ones of the clock. The mean is by the length of the whole."""
    counts = collections.Counter(it // seconds for it in moments)
    place, peak = max(counts.items(), key=lambda it: (it[1], -it[0]), default=(None, 0))
    return Rate(seconds, sum(counts.values()) * seconds / (until - begin), peak, None if place is None else values.moment_at(place * seconds))


def share_above(moments: collections.abc.Iterable[int], begin: int, until: int, seconds: int, limit: int) -> float:
    """The share of the times of a length that have more than a number of activations."""
    counts = collections.Counter(it // seconds for it in moments)
    periods = -(-until // seconds) - begin // seconds
    return sum(it > limit for it in counts.values()) / periods


@dataclasses.dataclass(frozen=True)
class Frequent:
    """An alarm with its activations, and their share of all."""

    unit: str
    tag: str
    count: int
    share: float


def most_frequent(stays: collections.abc.Sequence[Stay], most: int) -> list[Frequent]:
    counts = collections.Counter((it.unit, it.tag) for it in stays)
    found = sorted(counts.items(), key=lambda it: (-it[1], it[0]))[:most]
    return [Frequent(*key, count, count / len(stays)) for key, count in found]


@dataclasses.dataclass(frozen=True)
class Chattering:
    """An alarm that came several times in a short time: how often that began, and how many activations were part of it."""

    unit: str
    tag: str
    bursts: int
    count: int
    last: datetime.datetime


def by_alarm(stays: collections.abc.Iterable[Stay]) -> dict[Key, list[Stay]]:
    found: dict[Key, list[Stay]] = collections.defaultdict(list)
    for it in stays:
        found[it.unit, it.tag].append(it)
    return found


def bursts_of(begins: collections.abc.Sequence[int], times: int, seconds: int) -> list[range]:
    """The activations, by their places, that belong to so many within so many seconds; those that share an activation are one."""
    found: list[range] = []
    for last in range(times - 1, len(begins)):
        first = last - times + 1
        if begins[last] - begins[first] > seconds:
            continue
        if found and first < found[-1].stop:
            found[-1] = range(found[-1].start, last + 1)
        else:
            found.append(range(first, last + 1))
    return found


def chattering(stays: collections.abc.Iterable[Stay], times: int, seconds: int) -> list[Chattering]:
    found = []
    for key, those in by_alarm(stays).items():
        begins = [it.begin for it in those]
        if bursts := bursts_of(begins, times, seconds):
            found.append(Chattering(*key, len(bursts), sum(map(len, bursts)), values.moment_at(begins[bursts[-1].stop - 1])))
    return sorted(found, key=lambda it: (-it.count, it.unit, it.tag))


@dataclasses.dataclass(frozen=True)
class Fleeting:
    """An alarm that went soon after it came, and did not chatter."""

    unit: str
    tag: str
    count: int
    shortest: int


def fleeting(stays: collections.abc.Iterable[Stay], below: int, times: int, seconds: int) -> list[Fleeting]:
    found = []
    for key, those in by_alarm(stays).items():
        chattered = {place for burst in bursts_of([it.begin for it in those], times, seconds) for place in burst}
        short = [it.end - it.begin for place, it in enumerate(those) if it.end is not None and it.end - it.begin < below and place not in chattered]
        if short:
            found.append(Fleeting(*key, len(short), min(short)))
    return sorted(found, key=lambda it: (-it.count, it.unit, it.tag))


@dataclasses.dataclass(frozen=True)
class Stale:
    """An alarm that was active for long, also before the time: since when, until when (None: at its end still), and for how long until then."""

    unit: str
    tag: str
    since: datetime.datetime
    end: datetime.datetime | None
    seconds: int


def stale(stays: collections.abc.Iterable[Stay], begin: int, until: int, above: int) -> list[Stale]:
    """Those that were active for more than so many seconds at some moment of a time."""
    found = []
    for it in stays:
        end = until if it.end is None or it.end > until else it.end
        if it.begin < until and end > begin and end - it.begin > above:
            over = None if it.end is None or it.end > until else values.moment_at(it.end)
            found.append(Stale(it.unit, it.tag, values.moment_at(it.begin), over, end - it.begin))
    return sorted(found, key=lambda it: (-it.seconds, it.unit, it.tag))


def most_stale(stays: collections.abc.Iterable[Stay], begin: int, until: int, above: int) -> int:
    """How many alarms were stale on the worst day."""
    counts: collections.Counter[int] = collections.Counter()
    for it in stays:
        first, end = max(it.begin + above + 1, begin), until if it.end is None else min(it.end, until)
        if first < end:
            counts.update(range(first // DAY, (end - 1) // DAY + 1))
    return max(counts.values(), default=0)


def floods_in(moments: collections.abc.Iterable[int], begin: int, until: int) -> list[lists.Flood]:
    """The floods of activations, as the office finds them; both ends are at full ten minutes."""
    counts = collections.Counter(it // values.FLOOD_PERIOD for it in moments)
    return floods.runs(counts, begin // values.FLOOD_PERIOD, until // values.FLOOD_PERIOD)
