"""The shelvings of the past, as the audit log and a backup tell them together."""

import bisect
import collections
import collections.abc
import dataclasses
import datetime

from companions import audit, backups, calls, floods, pages, values

ONE_SHOT, TIMED = "one-shot", "timed"
RUNS = "runs at the end of the log"


@dataclasses.dataclass(frozen=True)
class Shelving:
    """A shelving, with when and how it ended. Without an end it runs still, or its end is not known."""

    unit: str
    tag: str
    kind: str
    start: datetime.datetime
    end: datetime.datetime | None
    how: str
    person: str
    words: str

    def seconds(self) -> int | None:
        return None if self.end is None else int((self.end - self.start).total_seconds())


class UnitPast:
    """What a backup says of a unit: which limit an alarm had, and when it returned to normal."""

    def __init__(self, books: backups.Books, unit: str) -> None:
        self.moment = books.moment()
        self.alarms = {it.tag: it for it in books.alarms(unit)}
        self.returns = floods.returns(books.events(unit))
        self.limits: dict[str, list[calls.Change]] = collections.defaultdict(list)
        for it in books.changes(unit):
            if it.kind is values.Kind.limit and it.state is values.State.Approved and it.tag is not None:
                self.limits[it.tag].append(it)
        for those in self.limits.values():
            those.sort(key=lambda it: it.base)

    def limit(self, tag: str, moment: datetime.datetime) -> int | None:
        """The limit at a moment; None of one that was changed since its registration, before that change."""
        approved = self.limits.get(tag, [])
        before = [it.content for it in approved if it.decided is not None and it.decided <= moment]
        if before:
            return before[-1] if isinstance(before[-1], int) else None
        return self.alarms[tag].limit if tag in self.alarms and not approved else None

    def returned(self, tag: str, start: datetime.datetime) -> datetime.datetime | None:
        """The first return after the start of a shelf."""
        those = self.returns.get(tag, [])
        at = bisect.bisect_right(those, values.seconds_at(start))
        return values.moment_at(those[at]) if at < len(those) else None


@dataclasses.dataclass(frozen=True)
class Begun:
    """A shelving of which the log has not yet an end."""

    call: audit.Call

    def kind(self) -> str:
        return ONE_SHOT if self.call.kind() == "one-shot-shelve" else TIMED

    def ended(self, end: datetime.datetime | None, how: str) -> Shelving:
        words, it = str(self.call.body.get("words", "")), self.call
        return Shelving(it.unit(), it.tag(), self.kind(), it.moment, end, how, it.person, words)

    def by_itself(self, past: UnitPast | None) -> tuple[datetime.datetime | None, str]:
        """When it ends if nobody ends it, and how."""
        if self.kind() == TIMED:
            seconds = self.call.body.get("seconds")
            return (self.call.moment + datetime.timedelta(seconds=seconds), "its time was over") if isinstance(seconds, int) else (None, "not known")
        if past is None:
            return None, "not known: the unit is in no backup"
        limit, returned = past.limit(self.call.tag(), self.call.moment), past.returned(self.call.tag(), self.call.moment)
        over = self.call.moment + datetime.timedelta(seconds=limit) if limit is not None else None
        if returned is not None and (over is None or returned < over):
            return returned, "returned to normal"
        if over is None:
            return None, "not known: its limit was changed since"
        # what has returned to normal after the backup is not in it
        return (over, "its limit was over") if over <= past.moment else (None, f"not known: the backup is of {pages.minute(past.moment)}")


def all_shelvings(log: audit.Log, past: collections.abc.Mapping[str, UnitPast]) -> list[Shelving]:
    """Every shelving that the log has begun, in the order of their starts."""
    found: list[Shelving] = []
    running: dict[tuple[str, str], Begun] = {}

    def end(key: tuple[str, str], moment: datetime.datetime, how: str) -> None:
        if (begun := running.pop(key, None)) is not None:
            over, why = begun.by_itself(past.get(key[0]))
            found.append(begun.ended(over, why) if over is not None and over <= moment else begun.ended(moment, how))

    def end_unseen(key: tuple[str, str]) -> None:
        begun = running.pop(key)
        found.append(begun.ended(*begun.by_itself(past.get(key[0]))))

    for call in log.calls:
        key = call.unit(), call.tag()
        if not call.is_done or call.method != "POST":
            continue
        if call.kind() in ("timed-shelve", "one-shot-shelve"):
            begun = Begun(call)
            if key in running and running[key].kind() == begun.kind():
                # the office would have refused it, had the one before not been over
                end_unseen(key)
            end(key, call.moment, f"replaced by {call.person}")
            running[key] = begun
        elif call.kind() == "unshelve":
            end(key, call.moment, f"ended by {call.person}")
    last = log.end()
    for (unit, _), begun in running.items():
        over, why = begun.by_itself(past.get(unit))
        known_until = max(it for it in (last, past[unit].moment if unit in past else last) if it is not None)
        found.append(begun.ended(over, why) if over is None or over <= known_until else begun.ended(None, RUNS))
    return sorted(found, key=lambda it: (it.start, it.unit, it.tag))
