"""`office report`: a month of a plant, from its audit log and a backup."""

import calendar
import collections
import collections.abc
import dataclasses
import datetime
import pathlib
import re

import click
import markupsafe

from companions import audit, backups, changes, charts, connection, descriptions, floods, lists, newest, options, pages, shelvings

LOG = pathlib.Path("/var/log/shelfoffice")
MOST = 10
# by which names the office may refuse a call, beside MomentBehind, which it may any; first of calls that only read
READS_409 = {"alarms": ("AlarmUnknown",), "record": ("AlarmUnknown", "RecordUnknown"), "changes": ("ChangeUnknown",), "floods": ("RangeNotAligned",)}
NAMES_403 = {"open": ("NotAdministrator",)}
NAMES_409 = {
    "open": ("UnitTaken",),
    "grants": ("UnitFull", "AlreadyHeld", "EndNotAhead"),
    "withdrawals": ("NotHeld", "LastSteward"),
    "alarms": ("UnitFull", "AlarmTaken"),
    "imports": ("UnitFull", "BadFile"),
    "timed-shelve": ("AlarmUnknown", "ShelvingTimeOutOfRange", "ConditionAlreadyShelved", "ShelfQuota"),
    "one-shot-shelve": ("AlarmUnknown", "ConditionAlreadyShelved", "ShelfQuota"),
    "unshelve": ("AlarmUnknown", "ConditionNotShelved"),
    "remove-from-service": ("AlarmUnknown", "AlreadyOutOfService"),
    "place-in-service": ("AlarmUnknown", "NotOutOfService"),
    "changes": ("UnitFull", "AlarmUnknown", "BaseChanged", "OutsideMatrix", "NotAnAlarm"),
    "withdraw": ("ChangeUnknown", "NotProposed", "NotProposer"),
    "approve": ("ChangeUnknown", "NotProposed", "SamePerson", "BaseChanged", "OutsideMatrix", "NotAnAlarm"),
    "reject": ("ChangeUnknown", "NotProposed", "SamePerson"),
}


ByUnit = collections.abc.Mapping[str, backups.Books]


@dataclasses.dataclass(frozen=True)
class Month:
    """A month: its first moment, and that of the next one."""

    begin: datetime.datetime
    until: datetime.datetime

    def has(self, moment: datetime.datetime | None) -> bool:
        return moment is not None and self.begin <= moment < self.until

    def days(self) -> int:
        return (self.until - self.begin).days


@dataclasses.dataclass(frozen=True)
class Total:
    """An alarm with its shelvings of the month together."""

    unit: str
    tag: str
    count: int
    seconds: int


@dataclasses.dataclass(frozen=True)
class Decision:
    """A change that was proposed or decided in the month."""

    unit: str
    number: int
    what: str
    proposer: str
    proposed: datetime.datetime
    state: str
    decider: str | None
    decided: datetime.datetime | None

    def seconds(self) -> int | None:
        return None if self.decided is None else int((self.decided - self.proposed).total_seconds())


@dataclasses.dataclass(frozen=True)
class Refused:
    """Refusals of a kind: by which of these names the log does not say, if there are several."""

    names: str
    call: str
    person: str
    unit: str
    count: int


@dataclasses.dataclass(frozen=True)
class Granted:
    """A grant that was given or taken."""

    unit: str
    moment: datetime.datetime
    what: str
    person: str
    role: str
    end: str
    by: str


@dataclasses.dataclass(frozen=True)
class UnitFloods:
    """The floods of a unit, with a chart by day."""

    unit: str
    floods: list[lists.Flood]
    chart: markupsafe.Markup


@dataclasses.dataclass(frozen=True)
class Report:
    """All that the page says."""

    month: str
    units: list[str]
    shelvings: list[shelvings.Shelving]
    most: list[Total]
    longest: list[Total]
    decisions: list[Decision]
    refused: list[Refused]
    granted: list[Granted]
    floods: list[UnitFloods]
    notes: list[str]
    described: descriptions.Described = descriptions.NONE


def month_of(text: str) -> Month:
    if not re.fullmatch(r"20[0-9]{2}-(0[1-9]|1[0-2])", text):
        raise click.BadParameter(f"{text!r} is not a month as 2026-03")
    begin = datetime.datetime.strptime(text, "%Y-%m").replace(tzinfo=datetime.timezone.utc)
    return Month(begin, begin + datetime.timedelta(days=calendar.monthrange(begin.year, begin.month)[1]))


def totals(found: collections.abc.Iterable[shelvings.Shelving]) -> list[Total]:
    counts: dict[tuple[str, str], list[int]] = collections.defaultdict(list)
    for it in found:
        counts[it.unit, it.tag].append(it.seconds() or 0)
    return [Total(unit, tag, len(those), sum(those)) for (unit, tag), those in counts.items()]


def decisions(books: backups.Books, unit: str, month: Month) -> list[Decision]:
    found = []
    for it in books.changes(unit):
        if month.has(it.proposed) or month.has(it.decided):
            what = changes.name_of(it) + (f": {it.content} s" if isinstance(it.content, int) else "")
            found.append(Decision(unit, it.number, what, it.proposer, it.proposed, it.state.name, it.decider, it.decided))
    return found


def was_known(call: audit.Call, past: shelvings.UnitPast, registered: datetime.datetime | None) -> bool | None:
    """Whether the unit had the alarm of a call, which was registered at a moment that the log has, if at any; None if nothing says it."""
    if registered is not None:
        return registered <= call.moment
    if call.tag() in past.alarms:
        return True
    return False if call.tag() and call.moment <= past.moment else None


def names_of(call: audit.Call, past: shelvings.UnitPast | None, registered: datetime.datetime | None) -> str:
    """By which names the call may have been refused. What log and backup rule out is left out."""
    kind = call.kind()
    if call.status == 403:
        return " or ".join(NAMES_403.get(kind, ("NotGranted", "RoleLacking")))
    names = list((NAMES_409 if call.method == "POST" else READS_409).get(kind, ()))
    if kind == "alarms" and call.method != "POST" and not call.tag():
        # the list of all alarms
        names = []
    if past is not None and "AlarmUnknown" in names:
        is_known = was_known(call, past, registered)
        if is_known is False:
            return "AlarmUnknown"
        names = [it for it in names if it != "AlarmUnknown" or is_known is None]
    limit = past.limit(call.tag(), call.moment) if past is not None and call.moment <= past.moment else None
    seconds = call.body.get("seconds")
    if limit is not None and isinstance(seconds, int) and "ShelvingTimeOutOfRange" in names:
        return "ShelvingTimeOutOfRange" if seconds > limit else " or ".join(it for it in names if it != "ShelvingTimeOutOfRange")
    return " or ".join(names) or "MomentBehind"


def refusals(log: audit.Log, month: Month, units: collections.abc.Collection[str], past: dict[str, shelvings.UnitPast]) -> list[Refused]:
    counts: collections.Counter[tuple[str, str, str, str]] = collections.Counter()
    registered: dict[tuple[str, str], datetime.datetime] = {}
    for it in log.calls:
        if it.is_done and it.kind() == "alarms":
            registered[it.unit(), str(it.body.get("tag"))] = it.moment
    for it in log.calls:
        if it.is_refused and month.has(it.moment) and (not it.unit() or it.unit() in units):
            names = names_of(it, past.get(it.unit()), registered.get((it.unit(), it.tag())))
            counts[names, it.kind() if it.method == "POST" else f"read {it.kind()}", it.person, it.unit()] += 1
    return [Refused(*key, count) for key, count in sorted(counts.items(), key=lambda it: (-it[1], it[0]))]


def grants(log: audit.Log, month: Month, units: collections.abc.Collection[str]) -> list[Granted]:
    found = []
    for it in log.calls:
        if it.is_done and it.kind() in ("grants", "withdrawals") and month.has(it.moment) and it.unit() in units:
            what = "given" if it.kind() == "grants" else "taken"
            person, role, end = (str(it.body.get(name) or "") for name in ("person", "role", "end"))
            found.append(Granted(it.unit(), it.moment, what, person, role, end, it.person))
    return found


def floods_of(books: backups.Books, unit: str, month: Month) -> UnitFloods:
    found = floods.floods(books.events(unit), month.begin, month.until)
    days = month.days()
    by_day = collections.Counter(it.start.day for it in found)
    bars = [charts.Bar((day - 1) / days, day / days, count, f"day {day}: {count}") for day, count in sorted(by_day.items())]
    marks = [charts.Mark((day - 0.5) / days, str(day)) for day in (1, *range(5, days + 1, 5))]
    return UnitFloods(unit, found, charts.bars(bars, marks, f"floods of {unit} by day"))


def notes(log: audit.Log, month: Month, books: ByUnit, units: collections.abc.Iterable[str]) -> list[str]:
    """What the log cannot say, and what it says only in part."""
    begin, end = log.begin(), log.end()
    found = [
        "The log has no answers. So a refusal has no name there: named is what the call may have been refused by, as far as the backup does not rule"
        " it out; MomentBehind is possible everywhere. Nor does it have calls that were made at the office's own port, without the proxy.",
        "A one-shot shelf ends with a return to normal, which is taken from the events of the backup, or with its limit. Shelvings that began before"
        " the month, or before the log, are not listed.",
    ]
    if begin is None or end is None:
        found.append("The log has no call that changes anything.")
    else:
        found.append(f"The log goes from {pages.minute(begin)} to {pages.minute(end)}.")
        if begin > month.begin or end < month.until:
            found.append("It may not have all of the month.")
    for unit in units:
        if unit not in books:
            found.append(f"{unit} is in no backup that was named: its changes and floods are not known, nor how its one-shot shelves ended.")
            continue
        moment = books[unit].moment()
        age = newest.of_moments({"in the backup": books[unit].newest_event(unit)}, moment, newest.LIMIT)
        found.append(f"{unit}, by the backup of {pages.minute(moment)}: {age.words()}.")
        if moment < month.until:
            found.append(f"The backup of {unit} is of {pages.minute(moment)}: what came later in the month is not in it.")
    if log.damaged:
        found.append(f"Lines of the log that are damaged, and left out: {log.damaged:,}.")
    doubtful = [it for it in log.calls if it.is_open and month.has(it.moment)]
    if doubtful:
        found.append(f"Calls without an answer (502, 503 or 504), of which the log does not say if they were made, and left out: {len(doubtful):,}.")
    return found


def report_of(log: audit.Log, month: Month, name: str, books: ByUnit, meant: tuple[str, ...]) -> Report:
    called = {it.unit() for it in log.calls if it.is_done and it.unit() and month.has(it.moment)}
    units = sorted(meant or called | set(books))
    past = {unit: shelvings.UnitPast(books[unit], unit) for unit in units if unit in books}
    found = [it for it in shelvings.all_shelvings(log, past) if it.unit in units and month.has(it.start)]
    there = totals(found)
    return Report(
        name,
        units,
        found,
        sorted(there, key=lambda it: (-it.count, -it.seconds, it.unit, it.tag))[:MOST],
        sorted(there, key=lambda it: (-it.seconds, -it.count, it.unit, it.tag))[:MOST],
        [it for unit in units if unit in books for it in decisions(books[unit], unit, month)],
        refusals(log, month, units, past),
        grants(log, month, units),
        [floods_of(books[unit], unit, month) for unit in units if unit in books],
        notes(log, month, books, units),
    )


def tables(report: Report) -> dict[str, str]:
    """The CSV files beside the page."""
    kinds = ("unit", "tag", "kind", "start", "end", "seconds", "how it ended", "person", "words", "about")
    shelved = (
        (it.unit, it.tag, it.kind, it.start, it.end, it.seconds(), it.how, it.person, it.words, report.described.words(it.unit, it.tag))
        for it in report.shelvings
    )
    heads = ("unit", "number", "change", "proposer", "proposed", "state", "decider", "decided", "seconds")
    decided = (
        (it.unit, it.number, it.what, it.proposer, it.proposed, it.state, it.decider, it.decided, it.seconds()) for it in report.decisions
    )
    flooded = ((of.unit, it.start, it.until, it.total, it.peak) for of in report.floods for it in of.floods)
    return {
        "shelvings": pages.csv_text(kinds, shelved),
        "changes": pages.csv_text(heads, decided),
        "refusals": pages.csv_text(("names", "call", "person", "unit", "count"), map(dataclasses.astuple, report.refused)),
        "grants": pages.csv_text(("unit", "moment", "what", "person", "role", "end", "by"), map(dataclasses.astuple, report.granted)),
        "floods": pages.csv_text(("unit", "start", "until", "activations", "most in ten minutes"), flooded),
    }


@click.command(name="report")
@click.option("--month", required=True, metavar="YEAR-MONTH", help="The month, as 2026-03.")
@click.option("--log", "logs", type=options.FOLDER, multiple=True, help=f"A file of the audit log, or a folder of them.  [default: {LOG}]")
@options.backup_of_each
@options.described
@click.option("--units", type=options.Units(), default="all", help="With commas.  [default: all of the log and the backup]")
@click.option("--out", type=click.Path(file_okay=False, path_type=pathlib.Path), default=".", help="The folder to write.  [default: here]")
def command(
    month: str,
    logs: tuple[pathlib.Path, ...],
    paths: tuple[pathlib.Path, ...],
    described: pathlib.Path | None,
    units: tuple[str, ...],
    out: pathlib.Path,
) -> int:
    """Writes a month of the plant: report-MONTH.html, and tables beside it as CSV.

    From the audit log (also its compressed files) come every shelving with its length and reason, the ten alarms that were shelved most and longest,
    refusals, and grants that were given and taken. From a backup come the changes with who proposed and who decided, after how long, and the floods
    by day. What the log cannot say is said on the page. It asks no office, and changes nothing.

    Status: 0 written, 1 the log or the backup cannot be read, 2 the command line is wrong.
    """
    span = month_of(month)
    meant = logs or ((LOG,) if LOG.exists() else ())
    if not meant:
        raise connection.Trouble(f"there is no log at {LOG}: name it with --log")
    log, about = audit.read_log(meant), descriptions.read(described)
    with backups.opened_all(paths) as books:
        report = dataclasses.replace(report_of(log, span, month, books, units), described=about)
    try:
        out.mkdir(parents=True, exist_ok=True)
        for name, text in tables(report).items():
            pages.write(text, out / f"report-{month}-{name}.csv")
        pages.write(pages.render("report.html", {"report": report}), out / f"report-{month}.html")
    except OSError as error:
        raise connection.Trouble(f"{out}: {error.strerror}") from error
    click.echo(f"{out / f'report-{month}.html'}: {len(report.shelvings):,} shelvings, {len(report.decisions):,} changes")
    return 0
