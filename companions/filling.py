"""`office full`: how full each unit is, and when it will be."""

import collections.abc
import dataclasses
import datetime
import pathlib

import click
import rich.box
import rich.console
import rich.table

from companions import backups, options, pages, values

MONTH = datetime.timedelta(days=30)
WEEK = datetime.timedelta(days=7)
DAY = datetime.timedelta(days=1)
LIMITS = {"alarms": values.MAX_ALARMS, "grants": values.MAX_GRANTS, "changes": values.MAX_CHANGES, "events": values.MAX_EVENTS}
# where the books have the moments of the rows
MOMENTS = {"changes": "proposed_s", "events": "moment_s"}


@dataclasses.dataclass(frozen=True)
class Level:
    """How many rows of a kind a unit has, how many came a day of late, and on which day it will have no room for more."""

    what: str
    count: int
    most: int
    a_day: float | None
    full: datetime.date | None

    def share(self) -> float:
        return self.count / self.most


def level(books: backups.Books, unit: backups.Unit, table: str) -> Level:
    """The pace is that of the last thirty days before the unit's last change, or of all its days if these are fewer; of less than a week there is
    none."""
    count, most, column = books.count(unit.unit, table), LIMITS[table], MOMENTS.get(table)
    first = books.first(unit.unit, table, column) if column else None
    if column is None or first is None or unit.last - first < WEEK:
        return Level(table, count, most, None, None)
    begin = max(unit.last - MONTH, first)
    a_day = books.count_since(unit.unit, table, column, begin) / ((unit.last - begin) / DAY)
    days = (most - count) / a_day if a_day and count < most else None
    full = unit.last + DAY * days if days is not None and days < 36_500 else None
    return Level(table, count, most, round(a_day, 1), full.date() if full else None)


def levels(books: backups.Books) -> dict[str, list[Level]]:
    return {it.unit: [level(books, it, table) for table in LIMITS] for it in books.units()}


def written(it: Level) -> str:
    text = f"{it.count:,} ({100 * it.share():.0f} %)"
    if it.a_day:
        text += f"\n{it.a_day:,.0f} a day" if it.a_day >= 10 else f"\n{it.a_day:g} a day"
    return text + ("\nFULL" if it.count >= it.most else f"\nfull {it.full}" if it.full else "")


def show(found: collections.abc.Mapping[str, list[Level]]) -> None:
    console = rich.console.Console(width=None if click.get_text_stream("stdout").isatty() else 120)
    table = rich.table.Table("unit", *(f"{it} of {most:,}" for it, most in LIMITS.items()), box=rich.box.SIMPLE_HEAD, pad_edge=False)
    for unit, those in found.items():
        table.add_row(unit, *map(written, those))
    console.print(table, markup=False, highlight=False)


@click.command(name="full")
@click.argument("backup", type=options.FOLDER)
@click.option("--warn", type=click.IntRange(0, 100), help="The percentage from which the status is 1.  [default: none]")
@click.option("--json", "as_json", is_flag=True, help="Prints JSON.")
def command(backup: pathlib.Path, warn: int | None, as_json: bool) -> int:
    """Shows how full each unit is, and on which day it will be.

    BACKUP is a backup, or a folder of backups, of which the newest is taken; never the file of an office that runs. The pace of events and changes is
    that of the last thirty days before the unit's last change, if they go back for a week; of alarms and grants the books have no moments. A full
    unit stays full: office successor opens the next one.

    Status: 0 shown, 1 a unit is as full as --warn says or the backup cannot be read, 2 the command line is wrong.
    """
    with backups.opened(backup) as books:
        found = levels(books)
        if as_json:
            click.echo(pages.json_text(found), nl=False)
        else:
            click.echo(f"by the backup of {pages.minute(books.moment())} UTC, {books.path}")
            show(found)
    return int(warn is not None and any(100 * it.share() >= warn for those in found.values() for it in those))
