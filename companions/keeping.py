"""For how long alarms were shelved, out of service or suppressed by design, by the audit log, a backup and the events."""

import collections
import collections.abc
import dataclasses

from companions import audit, backups, measuring, removals, shelvings, values

SHELVED, OUT, DESIGN = "shelved", "out of service", "suppressed by design"


@dataclasses.dataclass(frozen=True)
class Kept:
    """An alarm that was kept silent in one way: how often, for how many seconds of the time together, and for how many of the times it is not known
    how long they were, which add no seconds."""

    unit: str
    tag: str
    how: str
    count: int
    seconds: int
    unknown: int


@dataclasses.dataclass(frozen=True)
class Silence:
    """A time in which an alarm was kept silent. Without an end it still was at the end of what is known, or its end is not known."""

    stay: measuring.Stay
    is_known: bool


def totals(found: collections.abc.Iterable[Silence], how: str, begin: int, until: int) -> list[Kept]:
    there: dict[measuring.Key, list[Silence]] = collections.defaultdict(list)
    for it in found:
        if it.stay.begin < until and (it.stay.end is None or it.stay.end > begin):
            there[it.stay.unit, it.stay.tag].append(it)
    kept = []
    for key, those in there.items():
        seconds = sum(it.stay.within(begin, until) for it in those if it.is_known)
        kept.append(Kept(*key, how, len(those), seconds, sum(not it.is_known for it in those)))
    return sorted(kept, key=lambda it: (-it.seconds, -it.unknown, it.unit, it.tag))


def shelved_by_log(log: audit.Log, unit: str, books: backups.Books) -> list[Silence]:
    found = []
    for it in shelvings.all_shelvings(log, {unit: shelvings.UnitPast(books, unit)}):
        if it.unit == unit:
            end = None if it.end is None else values.seconds_at(it.end)
            is_known = end is not None or it.how == shelvings.RUNS
            found.append(Silence(measuring.Stay(it.unit, it.tag, values.seconds_at(it.start), end), is_known))
    return found


def shelved_by_backup(books: backups.Books, unit: str) -> list[Silence]:
    """The last shelf of each alarm, if nobody ended it."""
    found, shelves = [], books.last_shelves(unit)
    past = shelvings.UnitPast(books, unit) if any(it.is_one_shot for it in shelves) else None
    for it in shelves:
        returned = past.returned(it.tag, it.start) if past and it.is_one_shot else None
        end = it.until if returned is None else min(it.until, returned)
        found.append(Silence(measuring.Stay(unit, it.tag, values.seconds_at(it.start), values.seconds_at(end)), True))
    return found


def out_by_log(log: audit.Log, unit: str, books: backups.Books) -> list[Silence]:
    """Removals from service and what ended them. A call of which the log does not say if it was made leaves the end open, which is then not known;
    so is the begin of a removal that neither log nor backup has."""
    first = values.seconds_at(log.begin() or values.EPOCH)
    before = [it.stay for it in out_by_backup(books, unit) if it.stay.begin < first]
    running = {(it.unit, it.tag): (it.begin, True) for it in before}
    found: list[Silence] = []

    def end(key: measuring.Key, moment: int) -> None:
        begin, is_known = running.pop(key, (first, False))
        found.append(Silence(measuring.Stay(*key, begin, moment if is_known else None), is_known))

    for call in log.calls:
        key, moment = (call.unit(), call.tag()), values.seconds_at(call.moment)
        if call.unit() != unit or call.kind() not in (removals.REMOVE, removals.PLACE):
            continue
        if call.is_open and key in running:
            running[key] = running[key][0], False
        elif call.is_done and call.kind() == removals.PLACE:
            end(key, moment)
        elif call.is_done:
            if key in running:
                end(key, moment)
            running[key] = moment, True
    return found + [Silence(measuring.Stay(*key, begin, None), is_known) for key, (begin, is_known) in running.items()]


def out_by_backup(books: backups.Books, unit: str) -> list[Silence]:
    """What is out of service at the moment of the backup."""
    those = ((it.tag, it.out.since) for it in books.alarms(unit) if it.out is not None)
    return [Silence(measuring.Stay(unit, tag, values.seconds_at(since), None), True) for tag, since in those]


Silences = dict[str, list[Silence]]


def silences(unit: str, books: backups.Books, log: audit.Log | None, past: measuring.Past) -> Silences:
    """All that is known of a unit, by the way in which alarms are kept silent."""
    if log is not None:
        shelved, out = shelved_by_log(log, unit, books), out_by_log(log, unit, books)
    else:
        shelved, out = shelved_by_backup(books, unit), out_by_backup(books, unit)
    return {SHELVED: shelved, OUT: out, DESIGN: [Silence(it, True) for it in past.suppressed]}
