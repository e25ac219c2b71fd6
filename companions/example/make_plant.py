#!/usr/bin/python3
"""Writes the three sheets of a plant into a folder: 2 units with 2,000 alarms each, 30 people, 200,000 events; and the matrix of its units.

    companions/example/make_plant.py FOLDER
"""

import csv
import datetime
import pathlib
import sys
import typing

UNITS = ("U1", "U2")
KINDS = ("PT", "TT", "LT", "FT", "QT")
ALARMS, EVENTS = 2_000, 100_000
PEOPLE = {
    "Steward": ("ste", "sue"),
    "Engineer": ("eve", "emil"),
    "Approver": ("amy", "abe"),
    "Maintainer": ("moe", "mia", "max"),
    "Operator": ("ann", "feed", *(f"op{it:02}" for it in range(1, 13))),
    "Viewer": ("vic", *(f"view{it}" for it in range(1, 7))),
}
# each alarm comes, is acknowledged and goes; the last one of each unit stands
FIRST, STEP = datetime.datetime(2025, 4, 5), 850
FLOOD = datetime.datetime(2026, 3, 1, 5, 0)


def tag_of(number: int) -> str:
    return f"{KINDS[number % len(KINDS)]}-{1 + number // len(KINDS):03}"


def alarms() -> typing.Iterator[list[object]]:
    yield ["Unit", "Tag", "Latching", "Longest shelf (h)", "Cause", "Consequence", "Action", "Severity", "Time to respond (min)"]
    for unit in UNITS:
        for number in range(ALARMS):
            severity, respond = 1 + number % 3, (2, 10, 45)[number // 3 % 3]
            texts = f"fault of loop {1 + number // len(KINDS)}", "product out of its limits", f"see procedure {1 + number % 40}"
            yield [unit, tag_of(number), "yes" if number % 50 == 0 else "no", 1 + number % 8, *texts, severity, respond]


def people() -> typing.Iterator[list[object]]:
    yield ["person", "units", "role", "end"]
    for role, names in PEOPLE.items():
        for name in names:
            yield [name, " ".join(UNITS), role, "2026-03-05T12:00:00Z" if name == "view6" else ""]


def moment_of(number: int) -> datetime.datetime:
    """Evenly over eleven months, but for a flood on the last morning."""
    late = number - (EVENTS // 3 - 60)
    if late < 0:
        return FIRST + datetime.timedelta(seconds=STEP * number)
    return FLOOD + datetime.timedelta(seconds=15 * late)


def events() -> typing.Iterator[list[object]]:
    yield ["unit", "seq", "moment", "tag", "event"]
    for unit in UNITS:
        for number in range(EVENTS):
            at = moment_of(number // 3) + datetime.timedelta(seconds=5 * (number % 3))
            yield [unit, number + 1, f"{at:%Y-%m-%dT%H:%M:%SZ}", tag_of(number // 3 * 7 % ALARMS), ("ACT", "ACK", "RTN")[number % 3]]


def write(path: pathlib.Path, rows: typing.Iterable[list[object]]) -> None:
    with path.open("w", newline="") as opened_file:
        csv.writer(opened_file, lineterminator="\n").writerows(rows)


def main(folder: pathlib.Path) -> None:
    folder.mkdir(exist_ok=True)
    write(folder / "alarms.csv", alarms())
    write(folder / "people.csv", people())
    write(folder / "events.csv", events())
    (folder / "alarms.toml").write_text(
        '[columns]\nunit = "Unit"\ntag = "Tag"\nlatching = "Latching"\nlimit = "Longest shelf (h)"\ncause = "Cause"\nconsequence = "Consequence"\n'
        'action = "Action"\nseverity = "Severity"\nresponse = "Time to respond (min)"\n[seconds]\nlimit = "hours"\nresponse = "minutes"\n'
    )
    (folder / "matrix.toml").write_text('bands = [300, 1800]\ncells = [["P3", "P4", "P4"], ["P2", "P3", "P4"], ["P1", "P2", "P3"]]\n')


if __name__ == "__main__":
    main(pathlib.Path(sys.argv[1]))
