"""Who took an alarm out of service, when and why, by a backup and the audit log; and whether something newer may exist."""

import dataclasses
import datetime

from companions import audit, backups, newest, pages

REMOVE, PLACE = "remove-from-service", "place-in-service"


@dataclasses.dataclass(frozen=True)
class Removal:
    """Who took an alarm out of service, by a source as of a moment. It is known if nothing newer may exist; otherwise it is the last that is known.
    Without `why` no source has any."""

    why: backups.OutOfService | None
    source: str
    is_known: bool

    def words(self, when: newest.When = pages.minute) -> str:
        found = f"since {when(self.why.since)} by {self.why.person}: {self.why.words}" if self.why else ""
        if self.is_known:
            return f"{found} ({self.source})"
        return f"not known ({self.source}: {found})" if found else f"not known ({self.source})"

    def short(self, when: newest.When) -> str:
        """The same in a line, with the name of its source alone."""
        name = {"audit": "log", "backup": "backup"}.get(self.source.split(" ")[0], "")
        found = f"{when(self.why.since)} {self.why.person} ({name}): {self.why.words}" if self.why else ""
        if self.is_known:
            return found
        return f"not known; before: {found}" if found else "not known"


class Removals:
    """The removals of a unit. `log` is read after the office was asked what is so `at` a moment, if there is one."""

    def __init__(
        self, unit: str, at: datetime.datetime, books: backups.Books | None, log: audit.Log | None, when: newest.When = pages.minute
    ) -> None:
        self.unit, self.at, self.log, self.when = unit, at, log, when
        self.backup = books.moment() if books else None
        self.outs = {it.tag: it.out for it in books.alarms(unit)} if books else {}
        self.calls: dict[str, audit.Call] = {}
        for it in log.calls if log else ():
            # a call of which the log does not say if it was made may have been the last one
            if it.unit() == unit and it.kind() in (REMOVE, PLACE) and (it.is_done or it.is_open):
                self.calls[it.tag()] = it

    def covers(self, begin: datetime.datetime | None) -> bool:
        """Whether the log has all calls from a moment to now."""
        first = self.log.begin() if self.log else None
        return begin is not None and first is not None and first <= begin and self.is_current()

    def is_current(self) -> bool:
        return self.log is not None and self.log.until is not None and self.log.until >= self.at and not self.log.damaged

    def of(self, tag: str) -> Removal:
        """What is known of an alarm that is out of service now."""
        call, out = self.calls.get(tag), self.outs.get(tag)
        if call is not None and (out is None or call.moment >= out.since):
            until = self.when(self.log.until if self.log else None)
            why = backups.OutOfService(call.moment, call.person, str(call.body.get("words", "")))
            is_removal = call.kind() == REMOVE
            return Removal(why if is_removal else None, f"audit log to {until}", is_removal and call.is_done and self.is_current())
        if self.backup is None:
            return Removal(None, "no backup and no line of an audit log has it", False)
        return Removal(out, f"backup of {self.when(self.backup)}", out is not None and (self.backup >= self.at or self.covers(self.backup)))
