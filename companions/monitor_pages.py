"""What `office monitor` writes: a page with charts, the same as JSON, and tables as CSV."""

import collections.abc
import dataclasses
import datetime
import json
import pathlib

import markupsafe

from companions import charts, descriptions, keeping, lists, measuring, pages, targets

MOST_ROWS = 20  # of a list on the page; the tables beside it have all


@dataclasses.dataclass(frozen=True)
class Figure:
    """A number, and at most what it should be, if anything is aimed at."""

    what: str
    value: float
    target: float | None = None
    unit: str = ""
    at: datetime.datetime | None = None

    def is_met(self) -> bool | None:
        return None if self.target is None else self.value <= self.target


@dataclasses.dataclass(frozen=True)
class Day:
    day: datetime.date
    activations: int


@dataclasses.dataclass(frozen=True)
class Priority:
    """How many alarms have a priority, and how many activations were of such alarms; with their shares, and the share that is aimed at."""

    name: str
    alarms: int
    activations: int
    alarms_percent: float
    activations_percent: float
    target_percent: float | None


@dataclasses.dataclass(frozen=True)
class Lists:
    """The lists of alarms that stand out."""

    frequent: list[measuring.Frequent]
    floods: list[lists.Flood]
    chattering: list[measuring.Chattering]
    fleeting: list[measuring.Fleeting]
    stale: list[measuring.Stale]

    def worst_floods(self) -> list[lists.Flood]:
        return sorted(self.floods, key=lambda it: (-it.total, it.start))[:MOST_ROWS]


@dataclasses.dataclass(frozen=True)
class Section:
    """What is measured of a unit, or of all together."""

    name: str
    begin: datetime.datetime | None
    until: datetime.datetime | None
    covered_percent: float
    figures: list[Figure]
    days: list[Day]
    lists: Lists
    priorities: list[Priority]
    kept: list[keeping.Kept]
    notes: list[str]

    def kept_in(self, how: str) -> list[keeping.Kept]:
        return [it for it in self.kept if it.how == how]


@dataclasses.dataclass(frozen=True)
class Page:
    """The whole page."""

    time: str
    units: list[str]
    notes: list[str]
    settings: targets.Settings
    sections: list[Section]
    described: descriptions.Described = dataclasses.field(metadata=pages.UNSAID)


def days_chart(section: Section, aim: float) -> markupsafe.Markup:
    """The activations of each day, beside the target."""
    count = len(section.days) or 1
    found = [charts.Bar(at / count, (at + 1) / count, it.activations, f"{it.day}: {it.activations}") for at, it in enumerate(section.days)]
    step = -(-count // 12)
    marks = [charts.Mark((at + 0.5) / count, f"{it.day:%m-%d}") for at, it in enumerate(section.days) if at % step == 0]
    return charts.bars(found, marks, f"activations of {section.name} by day", aim)


def json_of(page: Page) -> str:
    """Lists of single alarms are those of the units; of all together they are the same once more, and left out."""
    plain = pages.plain(page)
    for section in plain["sections"]:
        section |= section.pop("lists")
        for row in (row for name in ("frequent", "chattering", "fleeting", "stale", "kept") for row in section[name]):
            row["about"] = page.described.words(row["unit"], row["tag"])
        if len(page.sections) > 1 and section["name"] not in page.units:
            for name in ("chattering", "fleeting", "stale", "kept"):
                del section[name]
    return json.dumps(plain, indent=2, ensure_ascii=False) + "\n"


def units_of(page: Page) -> Page:
    """The page without that of all units together."""
    return dataclasses.replace(page, sections=[it for it in page.sections if it.name in page.units])


def rows_of(page: Page, what: collections.abc.Callable[[Section], collections.abc.Iterable[object]]) -> list[list[object]]:
    """The rows of a list, each with the section that it is of."""
    found = []
    for section in page.sections:
        for it in what(section):
            assert dataclasses.is_dataclass(it) and not isinstance(it, type)
            found.append([section.name, *(getattr(it, field.name) for field in dataclasses.fields(it))])
    return found


def alarms_text(page: Page, heads: tuple[str, ...], what: collections.abc.Callable[[Section], collections.abc.Iterable[object]]) -> str:
    """A table of alarms, each with its description at the end."""
    rows = ([*row, page.described.words(str(row[1]), str(row[2]))] for row in rows_of(page, what))
    return pages.csv_text(("of", "unit", "tag", *heads, "about"), rows)


def tables(page: Page) -> dict[str, str]:
    """The CSV files beside the page."""
    alone = units_of(page)
    floods = (
        (section.name, it.start, it.until, (it.until - it.start).total_seconds(), it.total, it.peak)
        for section in page.sections for it in section.lists.floods
    )
    heads = ("of", "priority", "alarms", "activations", "alarms percent", "activations percent", "target percent")
    return {
        "figures": pages.csv_text(("of", "figure", "value", "target", "unit", "at"), rows_of(page, lambda it: it.figures)),
        "days": pages.csv_text(("of", "day", "activations"), rows_of(page, lambda it: it.days)),
        "frequent": alarms_text(page, ("activations", "share"), lambda it: it.lists.frequent),
        "floods": pages.csv_text(("of", "start", "until", "seconds", "activations", "most in ten minutes"), floods),
        "chattering": alarms_text(alone, ("bursts", "activations", "last"), lambda it: it.lists.chattering),
        "fleeting": alarms_text(alone, ("times", "shortest"), lambda it: it.lists.fleeting),
        "stale": alarms_text(alone, ("since", "end", "seconds"), lambda it: it.lists.stale),
        "priorities": pages.csv_text(heads, rows_of(page, lambda it: it.priorities)),
        "kept-silent": alarms_text(alone, ("how", "times", "seconds", "of unknown length"), lambda it: it.kept),
    }


def html_of(page: Page, name: str) -> str:
    ways = keeping.SHELVED, keeping.OUT, keeping.DESIGN
    members = {"page": page, "name": name, "days_chart": days_chart, "about": page.described.words, "most": MOST_ROWS, "ways": ways}
    return pages.render("monitor.html", members)


def write(page: Page, out: pathlib.Path, name: str) -> None:
    out.mkdir(parents=True, exist_ok=True)
    for table, text in tables(page).items():
        pages.write(text, out / f"{name}-{table}.csv")
    pages.write(json_of(page), out / f"{name}.json")
    pages.write(html_of(page, name), out / f"{name}.html")
