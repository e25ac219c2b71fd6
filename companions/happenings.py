"""What people did in a shift, by the audit log: what was shelved, unshelved, taken out of service, put back, approved and granted."""

import collections.abc
import dataclasses
import datetime

from companions import audit, pages, values

WORDS = {
    "timed-shelve": "shelved",
    "one-shot-shelve": "shelved",
    "unshelve": "unshelved",
    "remove-from-service": "taken out",
    "place-in-service": "put back",
    "approve": "approved",
    "reject": "rejected",
    "grants": "granted",
    "withdrawals": "withdrawn",
}
KINDS = tuple(dict.fromkeys(WORDS.values()))


@dataclasses.dataclass(frozen=True)
class Happening:
    """What a person did."""

    unit: str
    kind: str
    moment: datetime.datetime
    person: str
    what: str
    words: str


@dataclasses.dataclass(frozen=True)
class Happened:
    """All of a shift, the newest first. `notes` say what the log may lack; it is None without a log."""

    found: list[Happening] | None
    notes: list[str]

    def of(self, kind: str, unit: str | None = None) -> list[Happening]:
        return [it for it in self.found or () if it.kind == kind and unit in (None, it.unit)]


def what_of(call: audit.Call) -> str:
    """What a call was about: an alarm, a change, or a person's role."""
    kind = call.kind()
    if kind in ("grants", "withdrawals"):
        return f"{call.body.get('person')} as {call.body.get('role')}"
    if kind in ("approve", "reject"):
        return f"change {call.path[3]}"
    return call.tag()


def words_of(call: audit.Call) -> str:
    words, seconds = str(call.body.get("words") or ""), call.body.get("seconds")
    if isinstance(seconds, int) and not isinstance(seconds, bool):
        return f"{values.length_of(seconds)}: {words}"
    if call.kind() == "grants":
        return f"until {str(call.body['end'])[:10]}" if call.body.get("end") else "for good"
    return f"until it returns: {words}" if call.kind() == "one-shot-shelve" else words


def happened(log: audit.Log | None, units: collections.abc.Collection[str], begin: datetime.datetime, until: datetime.datetime) -> Happened:
    """What the log has from the begin of a shift to now."""
    if log is None:
        return Happened(None, ["What people did in this shift is not known: no audit log was given."])
    inside = [it for it in log.calls if it.method == "POST" and it.unit() in units and begin <= it.moment <= until and it.kind() in WORDS]
    found = [Happening(it.unit(), WORDS[it.kind()], it.moment, it.person, what_of(it), words_of(it)) for it in inside if it.is_done]
    return Happened(found[::-1], notes_of(log, begin, until, sum(it.is_open for it in inside)))


def notes_of(log: audit.Log, begin: datetime.datetime, until: datetime.datetime, doubtful: int) -> list[str]:
    found = []
    first = log.begin()
    if first is None or first > begin:
        begins = f"begins {pages.minute(first)} UTC: it may lack the begin of this shift" if first else "has no call"
        found.append(f"The audit log {begins}.")
    if log.until is not None and log.until < until:
        found.append(f"The audit log ends {pages.minute(log.until)} UTC: what was done since is not here.")
    if log.damaged:
        found.append(f"Lines of the audit log that are damaged, and left out: {log.damaged:,}.")
    if doubtful:
        found.append(f"Calls of which the audit log does not say if they were made, and left out: {doubtful:,}.")
    return found
