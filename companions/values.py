"""The values of the office's interface: their forms, limits and names."""

import dataclasses
import datetime
import enum
import re

MAX_ALARMS = 2_000
MAX_GRANTS = 500
MAX_CHANGES = 20_000
MAX_EVENTS = 100_000
MAX_SECONDS = 604_800
MAX_REMARK = 120
MAX_SEVERITY = 5
MAX_FILE_ROWS = 10_000
MAX_BODY = 1_048_576
MAX_QUOTA = 2_000
FLOOD_PERIOD = 600
MAX_FLOOD_PERIODS = 1_008

TAG = re.compile(r"[A-Z0-9._-]{1,24}")
UNIT = re.compile(r"[A-Z0-9]{1,8}")
PERSON = re.compile(r"[a-z0-9.-]{1,32}")
MOMENT = re.compile(r"[0-9]{4}-[0-9]{2}-[0-9]{2}T[0-9]{2}:[0-9]{2}:[0-9]{2}Z")
EPOCH = datetime.datetime(2000, 1, 1, tzinfo=datetime.timezone.utc)
END_OF_TIME = datetime.datetime(2100, 1, 1, tzinfo=datetime.timezone.utc)


class Role(enum.IntEnum):
    """What a person may do in a unit; the numbers are those of the file."""

    Viewer = 1
    Operator = 2
    Maintainer = 3
    Engineer = 4
    Approver = 5
    Steward = 6


class Kind(enum.IntEnum):
    """What a change changes; the numbers are those of the file."""

    record = 1
    matrix = 2
    limit = 3


class State(enum.IntEnum):
    """How far a change has come; the numbers are those of the file."""

    Proposed = 1
    Approved = 2
    Rejected = 3
    Withdrawn = 4


@dataclasses.dataclass(frozen=True)
class Record:
    """What an alarm means, and what to do."""

    cause: str
    consequence: str
    action: str
    severity: int
    response: int

    def members(self) -> dict[str, str | int]:
        return dataclasses.asdict(self)


def moment_of(text: str) -> datetime.datetime:
    """The moment that a text of the interface names; ValueError if it names none."""
    if not MOMENT.fullmatch(text):
        raise ValueError(f"{text!r} is not a moment as 2026-03-01T10:00:00Z")
    moment = datetime.datetime.strptime(text, "%Y-%m-%dT%H:%M:%SZ").replace(tzinfo=datetime.timezone.utc)
    if not EPOCH <= moment < END_OF_TIME:
        raise ValueError(f"{text!r} is not in the years 2000 to 2099")
    return moment


def text_of(moment: datetime.datetime) -> str:
    return moment.astimezone(datetime.timezone.utc).strftime("%Y-%m-%dT%H:%M:%SZ")


def moment_at(seconds: int) -> datetime.datetime:
    """The moment that the file has as this number."""
    return EPOCH + datetime.timedelta(seconds=seconds)


def seconds_at(moment: datetime.datetime) -> int:
    return int((moment - EPOCH).total_seconds())


def now() -> datetime.datetime:
    return datetime.datetime.now(datetime.timezone.utc).replace(microsecond=0)


def length_of(seconds: float) -> str:
    """A length of time as a person writes it: 90 s, 25 min, 3 h 20 min, 4 d 2 h."""
    whole = int(seconds)
    if whole < 120:
        return f"{whole} s"
    if whole < 7_200:
        return f"{whole // 60} min"
    if whole < 172_800:
        hours, minutes = whole // 3_600, whole % 3_600 // 60
        return f"{hours} h {minutes} min" if minutes else f"{hours} h"
    days, hours = whole // 86_400, whole % 86_400 // 3_600
    return f"{days} d {hours} h" if hours else f"{days} d"


def plural(count: int, word: str) -> str:
    return f"{count:,} {word}" + ("" if count == 1 else "s")
