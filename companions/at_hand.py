"""`office show`, `shelves`, `shelve`, `unshelve`, `out` and `back`: an operator's and a maintainer's work on one alarm, from the command line."""

import collections.abc
import functools
import json
import pathlib
import re
import typing

import click

from companions import audit, backups, calls, descriptions, options, pages, removals, tally, values

LENGTH = re.compile(r"([0-9]+(?:[.,][0-9]+)?)\s*(s|min|h|d)")
LENGTHS = {"s": 1, "min": 60, "h": 3_600, "d": 86_400}


def seconds_of(text: str) -> int:
    """A length of time as 90, 45 min, 1,5 h or 1 d 6 h, in seconds; ValueError if it is none of 1 s to a week."""
    parts = LENGTH.findall(text)
    if text.isdigit():
        seconds = float(text)
    elif parts and not LENGTH.sub("", text).strip():
        seconds = sum(float(number.replace(",", ".")) * LENGTHS[unit] for number, unit in parts)
    else:
        raise ValueError(text)
    if seconds != int(seconds) or not 1 <= seconds <= values.MAX_SECONDS:
        raise ValueError(text)
    return int(seconds)


def is_reason(text: str) -> bool:
    return 1 <= len(text) <= values.MAX_REMARK and text.isascii() and text.isprintable() and bool(text.strip())


TAG = options.Form("tag", values.TAG.fullmatch, "a tag: 1 to 24 of A to Z, 0 to 9, '-', '.' and '_'")
LENGTH_OF_TIME = options.Form("length", lambda it: bool(seconds_of(it)), "a length of time from 1 s to 7 d, as 45 min or 1,5 h")
REASON = options.Form("reason", is_reason, f"a reason: 1 to {values.MAX_REMARK} printable characters of ASCII, and not blanks alone")
UNIT = click.option("--unit", type=options.UNIT, required=True, help="The unit.")
WHY = click.option("--why", type=REASON, required=True, help="The reason, which everyone sees.")

Call = collections.abc.Callable[[], calls.Outcome]


def make_one(dry_run: bool, words: dict[str, typing.Any], what: str, call_of: collections.abc.Callable[[calls.Office], Call]) -> int:
    """Makes one call, and counts it."""
    with options.office_of(**words) as office, tally.Tally(dry_run, ()) as count:
        count.make(what, call_of(office))
    return count.status()


@click.command(name="show")
@click.argument("tag", type=TAG)
@UNIT
@options.backup_of_each
@click.option("--log", "logs", type=options.FOLDER, multiple=True, help="A file of the audit log, or a folder of them.")
@options.described
@options.connected
def show(
    tag: str, unit: str, paths: tuple[pathlib.Path, ...], logs: tuple[pathlib.Path, ...], described: pathlib.Path | None, **words: typing.Any
) -> int:
    """Shows an alarm: its state, its shelf, its record, and who took it out of service.

    No call says who took it out of service, when and why: that is taken from the audit log or a backup, if they are named, with its moment. The
    caller holds any role in the unit.

    Status: 0 shown, 1 refused, 2 the command line is wrong, 3 the office cannot be reached.
    """
    about = descriptions.read(described).words(unit, tag)
    with options.office_of(**words) as office, backups.opened_all(paths) as books:
        at = office.caller()[1]
        state = json.loads(office.link.ask(f"/units/{unit}/alarms/{tag}"))
        record = office.record(unit, tag)
        shelf = next((it for it in office.shelves(unit) if it.tag == tag), None)
        since = next((it.since for it in office.standing(unit) if it.tag == tag), None)
        removal = removals.Removals(unit, at, books.get(unit), audit.read_log(logs) if logs else None).of(tag) if state["out_of_service"] else None
    lines = {
        "alarm": f"{tag} of {unit} at {pages.minute(at)}",
        **({"description": about} if about else {}),
        "state": state["state"] + (f" since {pages.minute(since)}" if since else ""),
        "priority": record.priority if record else "none: no record was approved",
        "shelf": f"{shelf.kind}, until {pages.minute(shelf.until)}, by {shelf.person}: {shelf.words}" if shelf else "not shelved",
        "service": f"out of service, {removal.words()}" if removal else "in service",
        "suppression": "suppressed by design" if state["suppressed"] else "not suppressed by design",
        "limit": f"{values.length_of(state['limit'])} at most on the shelf",
        **({key: str(value) for key, value in record.record.members().items()} if record else {}),
    }
    for name, text in lines.items():
        click.echo(f"{name:<12} {text}")
    return 0


@click.command(name="shelves")
@click.option("--units", type=options.Units(), default="all", help="The units with commas.  [default: all in which you hold a role]")
@options.described
@options.connected
def shelves(units: tuple[str, ...], described: pathlib.Path | None, **words: typing.Any) -> int:
    """Lists what is shelved, the shelf that ends first at the top.

    The caller holds any role in each unit.

    Status: 0 shown, 1 refused, 2 the command line is wrong, 3 the office cannot be reached.
    """
    about = descriptions.read(described)
    with options.office_of(**words) as office:
        found = [(it, unit) for unit in units or tuple(sorted(office.units())) for it in office.shelves(unit)]
    for it, unit in sorted(found, key=lambda pair: (pair[0].until, pair[1], pair[0].tag)):
        what = about.words(unit, it.tag)
        click.echo(f"{unit:<8} {it.tag:<24} {it.kind:<8} until {pages.minute(it.until)} by {it.person}: {it.words}{f' ({what})' if what else ''}")
    click.echo(values.plural(len(found), "shelf").replace("shelfs", "shelves"))
    return 0


@click.command(name="shelve")
@click.argument("tag", type=TAG)
@UNIT
@click.option("--for", "length", type=LENGTH_OF_TIME, help="How long, as 90, 45 min, 1,5 h or 1 d 6 h.  [default: until it returns to normal]")
@WHY
@options.dry_run
@options.connected
def shelve(tag: str, unit: str, length: str | None, why: str, dry_run: bool, **words: typing.Any) -> int:
    """Shelves an alarm, for a time or until it returns to normal.

    A shelf of the other kind is replaced. The caller is an Operator of the unit. Where the answer is lost the command says whether the alarm is
    shelved, and makes the call at most once.

    Status: 0 done, 1 refused, 2 the command line is wrong, 3 the office cannot be reached.
    """
    seconds = None if length is None else seconds_of(length)
    end = "until it returns to normal" if seconds is None else f"for {values.length_of(seconds)}"
    return make_one(dry_run, words, f"shelve {tag} {end}: {why}", lambda office: functools.partial(office.shelve, unit, tag, seconds, why))


@click.command(name="unshelve")
@click.argument("tag", type=TAG)
@UNIT
@options.dry_run
@options.connected
def unshelve(tag: str, unit: str, dry_run: bool, **words: typing.Any) -> int:
    """Ends the shelf of an alarm.

    The caller is an Operator of the unit. An alarm that is not shelved is counted as there already.

    Status: 0 done, 1 refused, 2 the command line is wrong, 3 the office cannot be reached.
    """
    return make_one(dry_run, words, f"unshelve {tag}", lambda office: functools.partial(office.unshelve, unit, tag))


@click.command(name="out")
@click.argument("tag", type=TAG)
@UNIT
@WHY
@options.dry_run
@options.connected
def out(tag: str, unit: str, why: str, dry_run: bool, **words: typing.Any) -> int:
    """Takes an alarm out of service.

    The caller is a Maintainer of the unit. An alarm that is out of service is counted as there already, with the reason that it has.

    Status: 0 done, 1 refused, 2 the command line is wrong, 3 the office cannot be reached.
    """
    return make_one(dry_run, words, f"take {tag} out of service: {why}", lambda office: functools.partial(office.remove_from_service, unit, tag, why))


@click.command(name="back")
@click.argument("tag", type=TAG)
@UNIT
@options.dry_run
@options.connected
def back(tag: str, unit: str, dry_run: bool, **words: typing.Any) -> int:
    """Places an alarm in service again.

    The caller is a Maintainer of the unit. An alarm that is in service is counted as there already.

    Status: 0 done, 1 refused, 2 the command line is wrong, 3 the office cannot be reached.
    """
    return make_one(dry_run, words, f"place {tag} in service", lambda office: functools.partial(office.place_in_service, unit, tag))
