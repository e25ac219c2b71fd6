"""`office who`: who holds which role in which unit, by a backup and the audit log."""

import collections.abc
import dataclasses
import datetime
import pathlib

import click

from companions import audit, backups, connection, options, pages, values

Key = tuple[str, str, values.Role]


@dataclasses.dataclass(frozen=True)
class Held:
    """A role that a person holds in a unit, before `end` or for good."""

    unit: str
    person: str
    role: values.Role
    end: datetime.datetime | None


def of_backup(books: backups.Books, unit: str) -> dict[Key, Held]:
    return {(unit, it.person, it.role): Held(unit, it.person, it.role, it.end) for it in books.grants(unit)}


def since(found: dict[Key, Held], log: audit.Log, moments: collections.abc.Mapping[str, datetime.datetime]) -> list[audit.Call]:
    """Brings what a backup has up to the log, by unit from the moment of its backup on. Gives the calls of which the log does not say if they were
    made."""
    open_calls = []
    for it in log.calls:
        if it.kind() not in ("grants", "withdrawals") or it.unit() not in moments or it.moment < moments[it.unit()]:
            continue
        person, role, end = str(it.body.get("person")), str(it.body.get("role")), it.body.get("end")
        if it.is_open:
            open_calls.append(it)
        if not it.is_done or role not in values.Role.__members__:
            continue
        key = it.unit(), person, values.Role[role]
        if it.kind() == "grants":
            found[key] = Held(*key, values.moment_of(end) if isinstance(end, str) else None)
        else:
            found.pop(key, None)
    return open_calls


@click.command(name="who")
@options.backup_of_each
@click.option("--units", type=options.Units(), default="all", help="With commas.  [default: all of the backup]")
@click.option("--log", "logs", type=options.FOLDER, multiple=True, help="A file of the audit log, or a folder of them: what came since the backup.")
@click.option("--at", type=options.MOMENT, help="Leaves out what has ended by this moment.  [default: now]")
@click.option("--csv", "as_csv", is_flag=True, help="Prints CSV.")
def command(paths: tuple[pathlib.Path, ...], units: tuple[str, ...], logs: tuple[pathlib.Path, ...], at: str | None, as_csv: bool) -> int:
    """Lists who holds which role in which unit, and until when.

    No call says it: it is taken from a backup, and what was given and taken since from the audit log of the proxy, if it is named. The first line
    says of which moments they are. It asks no office, and changes nothing.

    Status: 0 shown, 1 the log or the backup cannot be read, 2 the command line is wrong.
    """
    if not paths:
        raise click.UsageError("name a backup with --backup")
    moment = options.moment_of(at) or values.now()
    found: dict[Key, Held] = {}
    with backups.opened_all(paths) as books:
        moments = {unit: those.moment() for unit, those in books.items() if not units or unit in units}
        for unit in moments:
            found |= of_backup(books[unit], unit)
    if missing := set(units) - set(moments):
        raise connection.Trouble(f"no backup has {', '.join(sorted(missing))}")
    log = audit.read_log(logs) if logs else None
    open_calls = since(found, log, moments) if log else []
    rows = [it for _, it in sorted(found.items()) if it.end is None or moment < it.end]
    if as_csv:
        click.echo(pages.csv_text(("unit", "person", "role", "end"), ((it.unit, it.person, it.role, it.end) for it in rows)), nl=False)
        return 0
    for line in sources(moments, log):
        click.echo(line)
    for it in rows:
        click.echo(f"{it.unit:<8} {it.person:<32} {it.role.name:<10}" + (f" until {pages.minute(it.end)}" if it.end else ""))
    for call in open_calls:
        click.echo(f"not known: {call.kind()} by {call.person} at {pages.minute(call.moment)} in {call.unit()}, which had no answer")
    return 0


def sources(moments: collections.abc.Mapping[str, datetime.datetime], log: audit.Log | None) -> collections.abc.Iterator[str]:
    """By what the list is, and what may be missing in it."""
    for moment in sorted(set(moments.values())):
        yield f"by the backup of {pages.minute(moment)}: {', '.join(sorted(unit for unit, it in moments.items() if it == moment))}"
    oldest = min(moments.values(), default=None)
    if log is None:
        yield "what was given and taken since is not known: name the audit log with --log"
    elif log.until is None:
        yield "the audit log is empty: what was given and taken since is not known"
    else:
        begin = log.begin()
        late = " It begins after the backup, so something may be missing." if begin is None or oldest is None or begin > oldest else ""
        damaged = f" {log.damaged:,} of its lines are damaged." if log.damaged else ""
        yield f"and by the audit log to {pages.minute(log.until)}.{late}{damaged}"
