"""The office's calls, each as a function of typed values. A change is answered by whether it was made now or was there already."""

import collections.abc
import dataclasses
import datetime
import enum
import json
import types
import typing

from companions import connection, lists, matrix, values

Content = values.Record | matrix.Matrix | int


class Outcome(enum.Enum):
    """How a call that changes something ended, if it was not refused."""

    done = enum.auto()
    there = enum.auto()


@dataclasses.dataclass(frozen=True)
class Status:
    """The state of an alarm, as far as the companions look at it."""

    limit: int
    limit_revision: int
    out_of_service: bool


@dataclasses.dataclass(frozen=True)
class InForce:
    """The record of an alarm that is in force."""

    record: values.Record
    revision: int
    priority: str


@dataclasses.dataclass(frozen=True)
class Change:
    """A change that was proposed; its content is a record, a matrix or a limit."""

    number: int
    kind: values.Kind
    tag: str | None
    base: int
    state: values.State
    proposer: str
    proposed: datetime.datetime
    decider: str | None
    decided: datetime.datetime | None
    content: Content

    @property
    def thing(self) -> tuple[values.Kind, str | None]:
        """What it changes."""
        return self.kind, self.tag


def read_record(members: collections.abc.Mapping[str, typing.Any]) -> values.Record:
    return values.Record(*(members[it.name] for it in dataclasses.fields(values.Record)))


def read_change(text: str) -> Change:
    said = json.loads(text)
    kind, content = values.Kind[said["kind"]], said["content"]
    return Change(
        said["number"],
        kind,
        said["tag"],
        said["base"],
        values.State[said["state"]],
        said["proposer"],
        values.moment_of(said["proposed"]),
        said["decider"],
        values.moment_of(said["decided"]) if said["decided"] else None,
        read_record(content) if kind is values.Kind.record else matrix.of_members(content) if kind is values.Kind.matrix else content["max"],
    )


def proposal(kind: values.Kind, tag: str | None, base: int, content: Content) -> dict[str, object]:
    """The body of a proposal."""
    of_tag = {"tag": tag} if tag is not None else {}
    members = {"max": content} if isinstance(content, int) else content.members()
    return {"kind": kind.name, "base": base, **of_tag, **members}


class Office:
    """An office, as one caller sees it. `offices` are the names of the plant's offices, if it has several."""

    def __init__(self, target: connection.Target, offices: collections.abc.Sequence[str] = ()) -> None:
        self.link, self.offices = connection.Connection(target), tuple(offices)
        self.highest: dict[str, int] = {}

    def __enter__(self) -> "Office":
        return self

    def __exit__(self, kind: type[BaseException] | None, error: BaseException | None, trace: types.TracebackType | None) -> None:
        self.link.close()

    # ---- what stands

    def caller(self) -> tuple[str, datetime.datetime]:
        """The person that the office takes the caller for, and its moment."""
        words = lists.rows_of(self.link.ask(self.list_paths("shelves")[0]))[0]
        return words[1], values.moment_of(words[3])

    def list_paths(self, what: str) -> list[str]:
        return [f"/offices/{it}/{what}" for it in self.offices] or [f"/{what}"]

    def units(self) -> dict[str, set[values.Role]]:
        """The units in which the caller holds roles."""
        found: dict[str, set[values.Role]] = {}
        for path in self.list_paths("units"):
            for it in json.loads(self.link.ask(path))["units"]:
                found[it["unit"]] = {values.Role[role] for role in it["roles"]}
        return found

    def alarms(self, unit: str) -> list[lists.Alarm]:
        return lists.read_alarms(self.link.ask(f"/units/{unit}/alarms"))

    def standing(self, unit: str) -> list[lists.Standing]:
        return lists.read_standing(self.link.ask(f"/units/{unit}/standing"))

    def shelves(self, unit: str) -> list[lists.Shelf]:
        return lists.read_shelves(self.link.ask(f"/units/{unit}/shelves"))

    def floods(self, unit: str, begin: datetime.datetime, until: datetime.datetime) -> list[lists.Flood]:
        return lists.read_floods(self.link.ask(f"/units/{unit}/floods/{values.text_of(begin)}/{values.text_of(until)}"))

    def status(self, unit: str, tag: str) -> Status | None:
        """None if the unit has no such alarm."""
        text = self.asked(f"/units/{unit}/alarms/{tag}", "AlarmUnknown")
        if text is None:
            return None
        said = json.loads(text)
        return Status(said["limit"], said["limit_revision"], said["out_of_service"])

    def record(self, unit: str, tag: str) -> InForce | None:
        """None if no record of the alarm was approved, or there is no such alarm."""
        text = self.asked(f"/units/{unit}/alarms/{tag}/record", "RecordUnknown", "AlarmUnknown")
        if text is None:
            return None
        said = json.loads(text)
        return InForce(read_record(said), said["revision"], said["priority"])

    def change(self, unit: str, number: int) -> Change | None:
        """None if the unit has no change of this number."""
        text = self.asked(f"/units/{unit}/changes/{number}", "ChangeUnknown")
        return None if text is None else read_change(text)

    def changes(self, unit: str, first: int = 1) -> collections.abc.Iterator[Change]:
        """The unit's changes from this number on; a unit numbers them without a gap."""
        for number in range(first, values.MAX_CHANGES + 1):
            change = self.change(unit, number)
            if change is None:
                return
            self.highest[unit] = max(number, self.highest.get(unit, 0))
            yield change

    def asked(self, path: str, *nothing: str) -> str | None:
        """An answer, or None where the office refuses by one of these names."""
        try:
            return self.link.ask(path)
        except connection.Refusal as refusal:
            if refusal.name in nothing:
                return None
            raise

    # ---- what changes something

    def make(
        self,
        path: str,
        members: collections.abc.Mapping[str, object],
        stands: collections.abc.Callable[[], str | None],
        *there: str,
        is_once: bool = False,
    ) -> tuple[Outcome, str]:
        """Makes a call. A refusal by one of the names `there` says that what it would do is done."""
        try:
            made = self.link.change(path, connection.json_body(members) if members else b"", stands, is_once)
        except connection.Refusal as refusal:
            if refusal.name not in there:
                raise
            return (Outcome.done if refusal.is_doubted else Outcome.there), refusal.line
        return (Outcome.there if made.was_there else Outcome.done), made.text

    def stands_nowhere(self) -> str | None:
        """For calls that may be repeated: waits until the office answers."""
        self.link.ask(self.list_paths("units")[0])
        return None

    def open_unit(self, unit: str, steward: str, opening: matrix.Matrix, quota: int) -> Outcome:
        members = {"steward": steward, **opening.members(), "quota": quota}
        return self.make(f"/units/{unit}", members, self.stands_nowhere, "UnitTaken")[0]

    def grant(self, unit: str, person: str, role: values.Role, end: datetime.datetime | None = None) -> Outcome:
        members: dict[str, object] = {"person": person, "role": role.name}
        if end is not None:
            members["end"] = values.text_of(end)
        return self.make(f"/units/{unit}/grants", members, self.stands_nowhere, "AlreadyHeld")[0]

    def holds(self, unit: str, person: str, role: values.Role) -> bool:
        """Whether a person holds a role, asked by a Steward: a grant until the first moment of all is refused, by AlreadyHeld if it is held. Not for
        the role of a steward, which has no end. In a unit without room for grants it is taken for held."""
        members = {"person": person, "role": role.name, "end": values.text_of(values.EPOCH)}
        try:
            said = self.link.change(f"/units/{unit}/grants", connection.json_body(members), self.stands_nowhere)
        except connection.Refusal as refusal:
            if refusal.name not in ("AlreadyHeld", "EndNotAhead", "UnitFull"):
                raise
            return refusal.name != "EndNotAhead"
        raise AssertionError(f"a grant that ends before it begins is accepted: {said}")

    def take_role(self, unit: str, person: str, role: values.Role) -> Outcome:
        return self.make(f"/units/{unit}/withdrawals", {"person": person, "role": role.name}, self.stands_nowhere, "NotHeld")[0]

    def register(self, unit: str, tag: str, latching: bool, limit: int) -> Outcome:
        def stands() -> str | None:
            return "" if self.status(unit, tag) is not None else None

        return self.make(f"/units/{unit}/alarms", {"tag": tag, "latching": latching, "max": limit}, stands, "AlarmTaken")[0]

    def propose(self, unit: str, person: str, kind: values.Kind, tag: str | None, base: int, content: Content) -> int:
        """Proposes a change by this person, who is the caller, and gives its number."""

        def stands() -> str | None:
            for it in self.changes(unit, self.highest.get(unit, 0) + 1):
                # one that came since is this one, also if it was decided at once
                if (it.thing, it.base, it.content, it.proposer) == ((kind, tag), base, content, person):
                    return json.dumps({"number": it.number})
            return None

        text = self.make(f"/units/{unit}/changes", proposal(kind, tag, base, content), stands)[1]
        number = int(json.loads(text)["number"])
        self.highest[unit] = max(number, self.highest.get(unit, 0))
        return number

    def decide(self, unit: str, number: int, state: values.State) -> Outcome:
        """Approves, rejects or takes back a proposal."""
        word = {values.State.Approved: "approve", values.State.Rejected: "reject", values.State.Withdrawn: "withdraw"}[state]

        def stands() -> str | None:
            change = self.change(unit, number)
            return "" if change is not None and change.state is state else None

        try:
            return self.make(f"/units/{unit}/changes/{number}/{word}", {}, stands)[0]
        except connection.Refusal as refusal:
            if (refusal.name, refusal.value) != ("NotProposed", state.name):
                raise
            return Outcome.done if refusal.is_doubted else Outcome.there

    def shelve(self, unit: str, tag: str, seconds: int | None, words: str) -> Outcome:
        """Shelves for a time, or until the alarm returns to normal. Unclear where the answer was lost and it is not shelved: a person may have ended
        it by then."""
        kind = "one-shot" if seconds is None else "timed"
        members: dict[str, object] = {"words": words} if seconds is None else {"seconds": seconds, "words": words}

        def stands() -> str | None:
            return "" if any((it.tag, it.kind, it.words) == (tag, kind, words) for it in self.shelves(unit)) else None

        return self.make(f"/units/{unit}/alarms/{tag}/{kind}-shelve", members, stands, "ConditionAlreadyShelved", is_once=True)[0]

    def remove_from_service(self, unit: str, tag: str, words: str) -> Outcome:
        """Takes an alarm out of service; Unclear as for a shelf."""

        def stands() -> str | None:
            status = self.status(unit, tag)
            return "" if status is not None and status.out_of_service else None

        path = f"/units/{unit}/alarms/{tag}/remove-from-service"
        return self.make(path, {"words": words}, stands, "AlreadyOutOfService", is_once=True)[0]

    def unshelve(self, unit: str, tag: str) -> Outcome:
        def stands() -> str | None:
            return "" if all(it.tag != tag for it in self.shelves(unit)) else None

        return self.make(f"/units/{unit}/alarms/{tag}/unshelve", {}, stands, "ConditionNotShelved", is_once=True)[0]

    def place_in_service(self, unit: str, tag: str) -> Outcome:
        def stands() -> str | None:
            status = self.status(unit, tag)
            return "" if status is not None and not status.out_of_service else None

        return self.make(f"/units/{unit}/alarms/{tag}/place-in-service", {}, stands, "NotOutOfService", is_once=True)[0]

    def import_events(self, unit: str, body: bytes) -> tuple[int, int]:
        """How many rows are new, and how many are repeated. An import may be repeated, since each row counts once."""
        said = json.loads(self.link.change(f"/units/{unit}/imports", body, self.stands_nowhere).text)
        return int(said["new"]), int(said["repeated"])
