"""`office handover`: what a shift hands to the next, on one sheet."""

import collections.abc
import dataclasses
import datetime
import pathlib
import typing
import zoneinfo

import click

from companions import audit, backups, calls, charts, connection, descriptions, handover_units, happenings, newest, options, pages, sheet, shifts
from companions import values

MOST = {"happened": sheet.MOST_HAPPENED, "floods": sheet.MOST_FLOODS, "waiting": sheet.MOST_WAITING}
HOURS = click.IntRange(1, values.MAX_FLOOD_PERIODS * values.FLOOD_PERIOD // 3_600)


@dataclasses.dataclass(frozen=True)
class Page:
    """The page: its moment, the shift that ends, the sheet over all units, what people did, and all of each unit."""

    person: str
    at: datetime.datetime
    begin: datetime.datetime
    until: datetime.datetime
    zone: str
    sheet: sheet.Sheet
    happened: happenings.Happened
    units: list[handover_units.UnitPage]
    clock: shifts.Clock = dataclasses.field(metadata=pages.UNSAID)
    described: descriptions.Described = dataclasses.field(default=descriptions.NONE, metadata=pages.UNSAID)


@dataclasses.dataclass(frozen=True)
class Times:
    """Of which shift a page is: of the last hours, or of the shifts of a day; and by which zone's time."""

    hours: int | None
    begins: tuple[datetime.time, ...] | None
    zone: zoneinfo.ZoneInfo | None

    def shift(self, at: datetime.datetime) -> shifts.Shift:
        return shifts.by_times(self.begins, at, self.zone) if self.begins else shifts.before(at, self.hours or 8)


def page_of(
    office: calls.Office,
    units: collections.abc.Sequence[str],
    times: Times,
    books: collections.abc.Mapping[str, backups.Books],
    sources: collections.abc.Callable[[], handover_units.Sources],
) -> Page:
    person, at = office.caller()
    shift, clock = times.shift(at), shifts.Clock(at, times.zone)
    asked = [handover_units.ask_unit(office, unit, shift.flood_span(at), books.get(unit)) for unit in units]
    found = sources()
    those = [handover_units.unit_page(it, shift, clock, books.get(it.unit), found) for it in asked]
    happened = happenings.happened(found.log, units, shift.begin, at)
    zone = times.zone.key if times.zone else "UTC"
    return Page(person, at, shift.begin, shift.until, zone, sheet.sheet_of(those, happened), happened, those, clock)


def text_of(page: Page, form: str, whole: bool) -> str:
    if form == "json":
        return pages.json_text(pages.plain(page) | {"described": described_in(page)})
    template = "handover.html" if form == "html" else "handover.txt"
    span = shifts.Shift(page.begin, page.until).flood_span(page.at)
    members = {"page": page, "whole": whole, "most": MOST, "kinds": happenings.KINDS, "span": span, "about": page.described.words}
    return pages.render(template, members | {"chart": charts.of_floods, "line": charts.line_of_floods})


def described_in(page: Page) -> dict[str, dict[str, descriptions.Description]]:
    """The descriptions of the units' alarms, as far as there are any."""
    units = {it.unit for it in page.units}
    found: dict[str, dict[str, descriptions.Description]] = {}
    for (unit, tag), it in page.described.found.items():
        if unit in units:
            found.setdefault(unit, {})[tag] = it
    return found


@click.command(name="handover")
@click.option("--units", type=options.Units(), default="all", help="The units with commas.  [default: all in which you hold a role]")
@click.option("--hours", type=HOURS, help="How long the shift was that ends.  [default: 8]")
@click.option("--shift", "begins", type=shifts.Times(), help="In place of --hours: when shifts begin, as 06:00,14:00,22:00, by --zone.")
@click.option("--zone", type=shifts.Zone(), envvar="OFFICE_ZONE", help="The plant's time zone, as Europe/Berlin: its time is shown beside UTC.")
@options.backup_of_each
@options.described
@click.option("--log", "logs", type=options.FOLDER, multiple=True, help="A file of the audit log, or a folder of them.")
@click.option("--feed", "feeds", type=options.FILE, multiple=True, help="The state that office feed --state writes; one for each unit.")
@click.option("--event-limit", type=click.IntRange(1), default=15, show_default=True, help="Minutes without an event, above which the page warns.")
@click.option("--whole", is_flag=True, help="Adds the whole lists of each unit, on sheets of their own.")
@click.option("--format", "form", type=click.Choice(["text", "html", "json"]), default="text", show_default=True, help="HTML prints on A4.")
@click.option("--out", type=click.Path(dir_okay=False, path_type=pathlib.Path), help="The file to write.  [default: standard output]")
@options.connected
def command(
    units: tuple[str, ...],
    hours: int | None,
    begins: tuple[datetime.time, ...] | None,
    zone: zoneinfo.ZoneInfo | None,
    paths: tuple[pathlib.Path, ...],
    described: pathlib.Path | None,
    logs: tuple[pathlib.Path, ...],
    feeds: tuple[pathlib.Path, ...],
    event_limit: int,
    whole: bool,
    form: str,
    out: pathlib.Path | None,
    **words: typing.Any,
) -> int:
    """Writes one sheet for the shift that takes over.

    It begins with totals. Then come alarms of P1 and P2 by tag, and of all others how many there are with the ten oldest: those that stand, are
    shelved, out of service or suppressed by design. Then what people did in the shift, its floods and its ten most frequent alarms, proposals that
    wait, grants that end within a week, and a line for two signatures. --whole adds the whole lists; JSON always has them.

    What people did is taken from the audit log of the proxy, and so is who took an alarm out of service: if the log has not all lines until now, "not
    known" stands beside what the backup or the log had last. When grants end and which alarms came is taken from the newest backup; the page says of
    which moment it is. The newest event is that of the feed's state, or the newest that backup and lists have. With --shift the page is of the shift
    that runs, or in its first hour of the one before. The caller holds any role in each unit. The command changes nothing.

    Status: 0 written, 1 refused, 2 the command line is wrong, 3 the office cannot be reached.
    """
    if hours is not None and begins is not None:
        raise click.UsageError("--hours and --shift both say which shift is meant: name one")
    about = descriptions.read(described)
    with options.office_of(**words) as office, backups.opened_all(paths) as books:
        meant = units or tuple(sorted(office.units()))
        if not meant:
            raise connection.Trouble("you hold a role in no unit")

        def sources() -> handover_units.Sources:
            limit = datetime.timedelta(minutes=event_limit)
            return handover_units.Sources(audit.read_log(logs) if logs else None, newest.read_states(feeds), limit)

        page = dataclasses.replace(page_of(office, meant, Times(hours, begins, zone), books, sources), described=about)
    try:
        pages.write(text_of(page, form, whole), out)
    except OSError as error:
        raise connection.Trouble(f"{out}: {error.strerror}") from error
    return 0
