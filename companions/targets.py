"""What `office monitor` measures by: what counts as chattering, fleeting and stale, and what is aimed at.

    [rules]
    chattering_times = 3             # activations
    chattering_seconds = 60          # within so many seconds
    fleeting_seconds = 10            # gone sooner after it came
    stale_hours = 24                 # active for longer
    [targets]                        # at most, for what one operator looks after; shares in percent
    activations_a_day = 144
    flood_percent = 1
    [priorities]                     # shares of the activations in percent
    P1 = 1
"""

import dataclasses
import pathlib
import tomllib
import typing

from companions import sheets


@dataclasses.dataclass(frozen=True)
class Rules:
    """When an alarm chatters, is fleeting, or is stale."""

    chattering_times: int = 3
    chattering_seconds: int = 60
    fleeting_seconds: int = 10
    stale_hours: int = 24


@dataclasses.dataclass(frozen=True)
class Targets:
    """What is aimed at: at most these. The numbers are those that ISA-18.2 and IEC 62682 name for one operator."""

    activations_a_day: float = 144
    activations_an_hour: float = 6
    activations_in_ten_minutes: float = 1
    most_in_ten_minutes: float = 10
    hours_above_30_percent: float = 1
    ten_minutes_above_10_percent: float = 1
    flood_percent: float = 1
    ten_most_frequent_percent: float = 5
    chattering: float = 0
    fleeting: float = 0
    stale: float = 4


PRIORITIES: dict[str, float] = {"P1": 1, "P2": 5, "P3": 15, "P4": 80}


@dataclasses.dataclass(frozen=True)
class Settings:
    """All of it."""

    rules: Rules = Rules()
    targets: Targets = Targets()
    priorities: dict[str, float] = dataclasses.field(default_factory=lambda: dict(PRIORITIES))


def number_of(path: pathlib.Path, table: str, name: str, value: object, least: float) -> float:
    if isinstance(value, bool) or not isinstance(value, (int, float)) or not least <= value < 1e9:
        raise sheets.Wrong(f"{path}: [{table}] {name} is a number from {least:g} on")
    return value


def members_of(path: pathlib.Path, members: dict[str, typing.Any], table: str, known: dict[str, float], least: float) -> dict[str, float]:
    found = members.get(table, {})
    if not isinstance(found, dict):
        raise sheets.Wrong(f"{path}: [{table}] is a table")
    unknown = set(found) - set(known)
    if unknown:
        raise sheets.Wrong(f"{path}: [{table}] {', '.join(sorted(unknown))} is not known here; there are {', '.join(known)}")
    return known | {name: number_of(path, table, name, it, least) for name, it in found.items()}


def read_settings(path: pathlib.Path | None) -> Settings:
    if path is None:
        return Settings()
    try:
        members = tomllib.loads(path.read_text(encoding="utf-8"))
    except (OSError, ValueError) as error:
        raise sheets.Wrong(f"{path}: {error}") from error
    unknown = set(members) - {"rules", "targets", "priorities"}
    if unknown:
        raise sheets.Wrong(f"{path}: {', '.join(sorted(unknown))} is not known here; the tables are rules, targets, priorities")
    rules = members_of(path, members, "rules", dataclasses.asdict(Rules()), 1)
    if any(it != int(it) for it in rules.values()) or rules["chattering_times"] < 2:
        raise sheets.Wrong(f"{path}: [rules] has whole numbers, and chattering_times is 2 or more")
    aims = members_of(path, members, "targets", dataclasses.asdict(Targets()), 0)
    shares = members_of(path, members, "priorities", PRIORITIES, 0)
    return Settings(Rules(**{name: int(it) for name, it in rules.items()}), Targets(**aims), shares)
