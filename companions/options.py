"""What the options of several commands have in common."""

import collections.abc
import datetime
import os
import pathlib
import typing

import click

from companions import calls, connection, values

Command = typing.TypeVar("Command", bound=collections.abc.Callable[..., typing.Any])


class Form(click.ParamType):
    """A value of the interface, which has a form."""

    def __init__(self, name: str, fits: collections.abc.Callable[[str], object], words: str) -> None:
        self.name, self.fits, self.words = name, fits, words

    def convert(self, value: typing.Any, param: click.Parameter | None, ctx: click.Context | None) -> typing.Any:
        try:
            if self.fits(value):
                return value
        except ValueError:
            pass
        self.fail(f"{value!r} is not {self.words}", param, ctx)


UNIT = Form("unit", values.UNIT.fullmatch, "a unit's code: 1 to 8 of A to Z and 0 to 9")
PERSON = Form("person", values.PERSON.fullmatch, "a person's name: 1 to 32 of a to z, 0 to 9, '.' and '-'")
MOMENT = Form("moment", values.moment_of, "a moment as 2026-03-01T10:00:00Z")
MOMENT_OR_NOW = Form("moment", lambda it: it == "now" or values.moment_of(it), "a moment as 2026-03-01T10:00:00Z, nor `now`")
FILE = click.Path(exists=True, dir_okay=False, path_type=pathlib.Path)
FOLDER = click.Path(exists=True, path_type=pathlib.Path)
ROLE = click.Choice([it.name for it in values.Role])


PATIENCE = click.FloatRange(0, 86_400)


class Units(click.ParamType):
    """Units, with commas between them; or all."""

    name = "units"

    def convert(self, value: typing.Any, param: click.Parameter | None, ctx: click.Context | None) -> typing.Any:
        if not isinstance(value, str):
            return value
        if value == "all":
            return ()
        found = tuple(UNIT.convert(it.strip(), param, ctx) for it in value.split(","))
        if len(set(found)) < len(found):
            self.fail(f"{value!r} names a unit twice", param, ctx)
        return found


def office_of(url: str | None, caller: str | None, at: str | None, ca: str | None, patience: float, offices: str | None) -> calls.Office:
    if at is not None and caller is None:
        raise click.UsageError("--at is for trials, with --as")
    default = connection.PROXY if caller is None else connection.PORT
    if caller is None and not connection.is_safe(url or os.environ.get("OFFICE_URL") or default):
        click.echo("office: the sign-on goes over the network as it is: use https", err=True)
    target = connection.Target(url or os.environ.get("OFFICE_URL") or default, caller, None if at == "now" else at, ca, patience)
    return calls.Office(target, tuple(it.strip() for it in offices.split(",")) if offices else ())


def connected(command: Command) -> Command:
    """Gives a command the options of the connection; `office_of` takes them."""
    for option in (
        click.option("--offices", metavar="NAMES", envvar="OFFICE_OFFICES", help="The plant's offices, with commas, if it has several."),
        click.option("--patience", type=PATIENCE, default=120.0, show_default=True, help="Seconds to wait for an office that is away."),
        click.option("--ca", type=click.Path(exists=True), envvar="OFFICE_CA", help="The plant's own certificates, for https."),
        click.option("--at", type=MOMENT_OR_NOW, help="For trials, with --as: the moment of each call.  [default: now]"),
        click.option("--as", "caller", type=PERSON, help="For trials: speaks to the office's own port as this person."),
        click.option("--url", help=f"The address.  [default: OFFICE_URL, else {connection.PROXY}, with --as {connection.PORT}]"),
    ):
        command = option(command)
    return command


def dry_run(command: Command) -> Command:
    return click.option("--dry-run", is_flag=True, help="Only says what would be done.")(command)


def mapping(command: Command) -> Command:
    return click.option("--map", "mapping", type=FILE, help="A TOML file that names the columns.")(command)


def backup_of_each(command: Command) -> Command:
    words = "A folder of backups, or a backup; one for each office."
    return click.option("--backup", "paths", type=FOLDER, multiple=True, envvar="OFFICE_BACKUP", help=words)(command)


def described(command: Command) -> Command:
    words = "The file of office describe: descriptions and areas of alarms."
    return click.option("--descriptions", "described", type=FILE, envvar="OFFICE_DESCRIPTIONS", help=words)(command)


def moment_of(text: str | None) -> datetime.datetime | None:
    return None if text is None else values.moment_of(text)
