"""What is shelved or out of service in a full unit goes over to its successor, and none of it twice.

Once a person has ended a shelf, or has placed an alarm in service, no call says any more that it was otherwise. Changes alone stay for ever. So what
is carried over has a note in the new unit: a record that says so is proposed before, and taken back after. A note that was taken back says that this
was carried over, whatever people have done since. One that waits says that the command was stopped at it, and then only a person knows.
"""

import collections.abc
import dataclasses
import datetime
import functools

from companions import calls, changes, connection, matrix, pages, tally, values

OUT, SHELVED = "out of service", "shelved"
PROPOSED, WITHDRAWN = values.State.Proposed, values.State.Withdrawn


@dataclasses.dataclass(frozen=True)
class Running:
    """An alarm that is shelved or out of service in the full unit. A timed shelf ends at `until`; of a one-shot, and of what is out of service, it is
    None."""

    tag: str
    state: str
    since: datetime.datetime
    until: datetime.datetime | None
    person: str
    words: str

    @property
    def role(self) -> values.Role:
        """The role that it takes to carry it over."""
        return values.Role.Maintainer if self.state == OUT else values.Role.Operator

    def origin(self) -> str:
        """Since when and by whom: no other one of the alarm has the same."""
        return f"{self.state} since {values.text_of(self.since)} by {self.person}"


def place_in(found: matrix.Matrix) -> tuple[int, int]:
    """The severity and the time to respond of a note: of the least severe row with another cell than N, and there the longest time."""
    places = ((severity, time) for severity in range(1, len(found.cells) + 1) for time in (*reversed(found.bands), 1))
    return next((it for it in places if found.priority(*it) != "N"), (1, 1))


@dataclasses.dataclass
class Carrying:
    """Carries over from the unit `old` to the unit `to`, whose changes are `there`. `is_current` says that `old` was asked what runs. `again` has the
    tags that a person wants carried over, whatever was done before."""

    office: calls.Office
    old: str
    to: str
    person: str
    roles: set[values.Role]
    there: list[calls.Change]
    opening: matrix.Matrix
    is_current: bool
    again: collections.abc.Collection[str]
    count: tally.Tally
    # what is said of each, and the roles that somebody else has to have for the rest
    said: list[str] = dataclasses.field(default_factory=list)
    lacking: set[values.Role] = dataclasses.field(default_factory=set)

    @functools.cached_property
    def standing(self) -> set[tuple[str, str]]:
        """What runs in the new unit."""
        out = {(it.tag, OUT) for it in self.office.alarms(self.to) if it.out_of_service}
        return out | {(it.tag, SHELVED) for it in self.office.shelves(self.to)}

    def notes_of(self, it: Running) -> list[calls.Change]:
        of_it = changes.NOTE + self.old, it.origin()
        found = ((change, change.content) for change in self.there if change.tag == it.tag)
        return [change for change, body in found if isinstance(body, values.Record) and (body.cause, body.consequence) == of_it]

    def carry_over(self, it: Running, what: str, call: collections.abc.Callable[[], calls.Outcome]) -> None:
        """Makes the call that carries over one of them, unless it was made before."""
        notes = self.notes_of(it)
        own = next((note.number for note in notes if note.state is PROPOSED and note.proposer == self.person), None)
        if (it.tag, it.state) in self.standing:
            self.count.there += 1
            self.said.append(self.history(it))
            if own is not None and not self.count.is_dry:
                self.office.decide(self.to, own, WITHDRAWN)
        elif any(note.state is WITHDRAWN for note in notes) and it.tag not in self.again:
            self.count.there += 1
            self.said.append(f"{it.tag}: was carried over, and is no longer {it.state} in {self.to}; --again {it.tag} carries it over once more")
        elif not {values.Role.Engineer, it.role} <= self.roles:
            self.lacking |= {values.Role.Engineer, it.role}
            self.said.append(f"{it.tag}: {it.origin()} in {self.old}; who is Engineer and {it.role.name} in {self.to} carries it over")
        elif (doubt := self.doubt(notes)) and it.tag not in self.again:
            self.said.append(f"{it.tag}: {it.origin()} in {self.old}, {doubt}; --again {it.tag} carries it over")
        else:
            try:
                if self.count.make(what, functools.partial(self.noted, it, own, call)):
                    self.said.append(self.history(it))
            except connection.Unclear as error:
                self.said.append(f"{it.tag}: {it.origin()} in {self.old}, and perhaps carried over: {error}; --again {it.tag} carries it over")

    def doubt(self, notes: list[calls.Change]) -> str:
        """Why it is not carried over unasked, if it is not."""
        if notes:
            return f"and perhaps carried over: the command was stopped at it (change {notes[-1].number} of {self.to})"
        return "" if self.is_current else f"by the backup: you hold no role in {self.old}, which may have ended it since"

    def noted(self, it: Running, own: int | None, call: collections.abc.Callable[[], calls.Outcome]) -> calls.Outcome:
        """Makes a call between the two steps of its note. Where the call is refused or has no answer the note waits on."""
        number = self.propose(it) if own is None else own
        outcome = call()
        self.office.decide(self.to, number, WITHDRAWN)
        return outcome

    def propose(self, it: Running) -> int:
        in_force = self.office.record(self.to, it.tag)
        place = place_in(changes.matrix_in_force(self.there) or self.opening)
        note = values.Record(changes.NOTE + self.old, it.origin(), it.words, *place)
        return self.office.propose(self.to, self.person, values.Kind.record, it.tag, in_force.revision if in_force else 0, note)

    def history(self, it: Running) -> str:
        """What the new unit does not say of it."""
        if it.state == OUT:
            return f"{it.tag}: out of service in {self.old} since {pages.minute(it.since)} by {it.person}; in {self.to} since now"
        end = f"until {pages.minute(it.until)}" if it.until else "its limit begins anew"
        return f"{it.tag}: {it.person} shelved it in {self.old}, {end}; in {self.to} it is shelved by whoever carries it over"
