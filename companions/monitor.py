"""`office monitor`: a month of a plant's alarms, measured as ISA-18.2 asks, from the events that the office keeps."""

import collections
import collections.abc
import dataclasses
import pathlib

import click

from companions import audit, backups, connection, descriptions, keeping, measuring, monitor_pages, newest, options, pages, reporting, targets, values

TOGETHER = "all units together"
ALARMS_OF_ONE_HOUR, ALARMS_OF_TEN_MINUTES = 30, 10
MOST_FREQUENT = 20

Books = collections.abc.Mapping[str, backups.Books]


@dataclasses.dataclass(frozen=True)
class Span:
    """The time that is measured, in seconds of the file, and the share of the asked time that it is."""

    begin: int
    until: int
    share: float

    def count_of(self, seconds: int) -> float:
        return (self.until - self.begin) / seconds


def span_of(past: measuring.Past, month: reporting.Month | None) -> Span | None:
    """Within a month, or of all events. Nothing is measured where no event says that a feed ran."""
    begin, until = (0, values.seconds_at(values.END_OF_TIME)) if month is None else tuple(map(values.seconds_at, (month.begin, month.until)))
    covered = past.covers(begin, until)
    return None if covered is None else Span(*covered, 1.0 if month is None else (covered[1] - covered[0]) / (until - begin))


def stays_in(past: measuring.Past, span: Span) -> list[measuring.Stay]:
    """The activations of the time."""
    return [it for it in past.active if span.begin <= it.begin < span.until]


def figures(past: measuring.Past, span: Span, settings: targets.Settings, found: monitor_pages.Lists) -> list[monitor_pages.Figure]:
    """The figures of the page's table, each with what is aimed at."""
    stays, aims = stays_in(past, span), settings.targets
    begins = [it.begin for it in stays]
    figure = monitor_pages.Figure
    result = [figure("activations", len(stays)), figure("of these suppressed by design", sum(it.is_suppressed for it in stays))]
    for words, seconds, aim, most in (
        ("a day", measuring.DAY, aims.activations_a_day, None), ("an hour", measuring.HOUR, aims.activations_an_hour, None),
        ("in ten minutes", values.FLOOD_PERIOD, aims.activations_in_ten_minutes, aims.most_in_ten_minutes),
    ):
        rate = measuring.rate(begins, span.begin, span.until, seconds)
        result.append(figure(f"activations {words}, mean", round(rate.mean, 2), aim))
        result.append(figure(f"activations {words}, most", rate.peak, most, at=rate.at))
    for words, seconds, limit, aim in (
        (f"hours with more than {ALARMS_OF_ONE_HOUR}", measuring.HOUR, ALARMS_OF_ONE_HOUR, aims.hours_above_30_percent),
        (f"ten minutes with more than {ALARMS_OF_TEN_MINUTES}", values.FLOOD_PERIOD, ALARMS_OF_TEN_MINUTES, aims.ten_minutes_above_10_percent),
    ):
        result.append(figure(words, percent(measuring.share_above(begins, span.begin, span.until, seconds, limit)), aim, "%"))
    flooded = sum((it.until - it.start).total_seconds() for it in found.floods)
    worst = measuring.most_stale(past.active, span.begin, span.until, settings.rules.stale_hours * measuring.HOUR)
    return [
        *result,
        figure("time in flood", percent(flooded / (span.until - span.begin)), aims.flood_percent, "%"),
        figure("floods", len(found.floods)),
        figure("share of the ten most frequent", share_of(found.frequent[:10]), aims.ten_most_frequent_percent, "%"),
        figure("share of the twenty most frequent", share_of(found.frequent), None, "%"),
        figure("alarms that chatter", len(found.chattering), aims.chattering),
        figure("alarms that are fleeting", len(found.fleeting), aims.fleeting),
        figure("stale alarms on the worst day", worst, aims.stale),
        figure("stale alarms at the end", sum(it.end is None for it in found.stale)),
    ]


def share_of(found: collections.abc.Iterable[measuring.Frequent]) -> float:
    return percent(sum(it.share for it in found))


def percent(share: float) -> float:
    return round(100 * share, 2)


def days_of(stays: list[measuring.Stay], span: Span) -> list[monitor_pages.Day]:
    counts = collections.Counter(it.begin // measuring.DAY for it in stays)
    days = range(span.begin // measuring.DAY, (span.until - 1) // measuring.DAY + 1)
    return [monitor_pages.Day(values.moment_at(day * measuring.DAY).date(), counts[day]) for day in days]


def priorities_of(
    stays: list[measuring.Stay], books: Books, units: collections.abc.Iterable[str], aims: dict[str, float]
) -> list[monitor_pages.Priority]:
    """By the records in force in the backup, also for what came before they were."""
    known = {(unit, tag): it for unit in units for tag, it in books[unit].priorities(unit).items()}
    there = collections.Counter(known.get((unit, it), "") for unit in units for it in books[unit].latching(unit))
    came = collections.Counter(known.get((it.unit, it.tag), "") for it in stays)
    found = []
    for name in ("P1", "P2", "P3", "P4", "N", ""):
        if name in aims or there[name] or came[name]:
            shares = [percent(count[name] / (sum(count.values()) or 1)) for count in (there, came)]
            found.append(monitor_pages.Priority(name or "no record", there[name], came[name], shares[0], shares[1], aims.get(name)))
    return found


def lists_of(past: measuring.Past, stays: list[measuring.Stay], span: Span, rules: targets.Rules) -> monitor_pages.Lists:
    return monitor_pages.Lists(
        measuring.most_frequent(stays, MOST_FREQUENT),
        measuring.floods_in((it.begin for it in stays), span.begin, span.until),
        measuring.chattering(stays, rules.chattering_times, rules.chattering_seconds),
        measuring.fleeting(stays, rules.fleeting_seconds, rules.chattering_times, rules.chattering_seconds),
        measuring.stale(past.active, span.begin, span.until, rules.stale_hours * measuring.HOUR),
    )


@dataclasses.dataclass(frozen=True)
class Sources:
    """What the page is made of; of each unit also when its alarms were kept silent."""

    month: reporting.Month | None
    books: Books
    log: audit.Log | None
    settings: targets.Settings
    described: descriptions.Described = descriptions.NONE
    silences: dict[str, keeping.Silences] = dataclasses.field(default_factory=dict)


def section_of(name: str, units: list[str], past: measuring.Past, sources: Sources) -> monitor_pages.Section:
    span = span_of(past, sources.month)
    if span is None:
        nothing = monitor_pages.Lists([], [], [], [], [])
        return monitor_pages.Section(name, None, None, 0.0, [], [], nothing, [], [], notes_of(units, past, None, sources))
    stays = stays_in(past, span)
    found = lists_of(past, stays, span, sources.settings.rules)
    silent = [it for unit in units for it in sources.silences[unit].items()]
    return monitor_pages.Section(
        name,
        values.moment_at(span.begin),
        values.moment_at(span.until),
        percent(span.share),
        figures(past, span, sources.settings, found),
        days_of(stays, span),
        found,
        priorities_of(stays, sources.books, units, sources.settings.priorities),
        [row for how, those in silent for row in keeping.totals(those, how, span.begin, span.until)],
        notes_of(units, past, span, sources),
    )


def notes_of(units: list[str], past: measuring.Past, span: Span | None, sources: Sources) -> list[str]:
    """What the figures do not cover."""
    found = []
    if span is None:
        found.append("There is no event in this time: nothing is measured.")
    else:
        begin, until = past.gap(span.begin, span.until)
        found.append(f"The longest time without an event: {values.length_of(until - begin)}, from {pages.minute(values.moment_at(begin))}.")
        if span.share < 0.999:
            found.append(
                f"The events cover {100 * span.share:.0f} % of the month, {pages.minute(values.moment_at(span.begin))} to"
                f" {pages.minute(values.moment_at(span.until))}: all means are of this time alone."
            )
    for unit in units:
        books = sources.books[unit]
        age = newest.of_moments({"in the backup": books.newest_event(unit)}, books.moment(), newest.LIMIT)
        found.append(f"{unit}, by the backup of {pages.minute(books.moment())}: {age.words()}.")
    return found


def notes(sources: Sources) -> list[str]:
    """What holds for the whole page."""
    found = [
        "The office counts nothing of this. It keeps the events that the feed imported, and this page counts them: what was not imported is"
        " missing here.",
        "An activation is an ACT of an alarm that was not active, also of one that is shelved, out of service or suppressed by design."
        " Floods are those of the office: more than 10 activations in ten minutes begin one, and fewer than 5 end it.",
        "Priorities are those of the backup, also for activations before they were in force. Targets are for the alarms of one operator.",
    ]
    if sources.log is None:
        found.append("No audit log was given. So of shelves only the last one of each alarm is known, unless somebody ended it; and of removals from"
                     " service those that hold at the moment of the backup.")
    else:
        begin, end = sources.log.begin(), sources.log.end()
        found.append(f"Shelves and removals from service are by the audit log, from {pages.minute(begin)} to {pages.minute(end)}.")
        if sources.log.damaged:
            found.append(f"Lines of the log that are damaged, and left out: {sources.log.damaged:,}.")
    return found


def page_of(units: list[str], sources: Sources) -> monitor_pages.Page:
    pasts = {unit: measuring.past_of(unit, sources.books[unit].events(unit)) for unit in units}
    sources.silences.update((unit, keeping.silences(unit, sources.books[unit], sources.log, pasts[unit])) for unit in units)
    sections = [section_of(unit, [unit], pasts[unit], sources) for unit in units]
    if len(units) > 1:
        sections.insert(0, section_of(TOGETHER, units, measuring.together(pasts.values()), sources))
    name = "all events" if sources.month is None else f"{sources.month.begin:%Y-%m}"
    return monitor_pages.Page(name, units, notes(sources), sources.settings, sections, sources.described)


def units_of(books: Books, meant: collections.abc.Sequence[str]) -> list[str]:
    missing = sorted(set(meant) - set(books))
    if missing:
        raise connection.Trouble(f"{', '.join(missing)} is in no backup that was named")
    found = sorted(meant or books)
    if not found:
        raise connection.Trouble("the backup has no unit")
    return found


@click.command(name="monitor")
@click.option("--from", "paths", type=options.FOLDER, multiple=True, required=True, envvar="OFFICE_BACKUP",
              help="A folder of backups, or a backup; one for each office.")
@click.option("--month", metavar="YEAR-MONTH", help="The month, as 2026-03.  [default: all events]")
@click.option("--units", type=options.Units(), default="all", help="With commas.  [default: all of the backup]")
@click.option("--log", "logs", type=options.FOLDER, multiple=True, help="A file of the audit log, or a folder of them, for shelves and removals.")
@options.described
@click.option("--targets", "aims", type=options.FILE, help="A TOML file with rules and targets of the plant's own.")
@click.option("--out", type=click.Path(file_okay=False, path_type=pathlib.Path), default=".", help="The folder to write.  [default: here]")
def command(
    paths: tuple[pathlib.Path, ...],
    month: str | None,
    units: tuple[str, ...],
    logs: tuple[pathlib.Path, ...],
    described: pathlib.Path | None,
    aims: pathlib.Path | None,
    out: pathlib.Path,
) -> int:
    """Measures a month of alarms: monitor-MONTH.html with charts, the same as JSON, and tables beside it as CSV.

    From the events of a backup come activations by day, hour and ten minutes, the time in flood, the most frequent alarms, alarms that chatter,
    are fleeting or stale, and the priorities that alarms have beside those that came. From the audit log comes for how long alarms were shelved or
    out of service; without it only what the backup still has. Each figure stands beside its target: those of ISA-18.2 for one operator, or the
    plant's own. The office itself counts nothing of it. All moments are UTC. It asks no office, and changes nothing.

    Status: 0 written, 1 the log or the backup cannot be read, 2 the command line is wrong.
    """
    span = None if month is None else reporting.month_of(month)
    about = descriptions.read(described)
    settings, log = targets.read_settings(aims), audit.read_log(logs) if logs else None
    with backups.opened_all(paths) as books:
        page = page_of(units_of(books, units), Sources(span, books, log, settings, about))
    name = "monitor" if month is None else f"monitor-{month}"
    try:
        monitor_pages.write(page, out, name)
    except OSError as error:
        raise connection.Trouble(f"{out}: {error.strerror}") from error
    total = page.sections[0].figures[0].value if page.sections[0].figures else 0
    click.echo(f"{out / f'{name}.html'}: {total:,} activations")
    return 0
