"""`office join`: the roles of a person in several units, or of all people of a file."""

import dataclasses
import datetime
import functools
import itertools
import pathlib
import re
import typing

import click

from companions import calls, mappings, options, sheets, tally, values

COLUMNS = ("person", "units", "role", "end")


@dataclasses.dataclass(frozen=True)
class Wish:
    """A role that a person is to hold in a unit, until `end` or for good."""

    where: str
    unit: str
    person: str
    role: values.Role
    end: datetime.datetime | None

    def words(self) -> str:
        until = f" until {values.text_of(self.end)}" if self.end else ""
        return f"{self.where}{self.person} is {self.role.name} in {self.unit}{until}"


def words_in(text: str) -> list[str]:
    """The words of a cell, which has spaces, commas or semicolons between them."""
    return [it for it in re.split(r"[\s,;+]+", text) if it]


def read_people(path: pathlib.Path, mapping: sheets.Mapping) -> list[Wish]:
    """The roles that a sheet wants: each line has a person, units and roles, and maybe an end."""
    sheet = sheets.read_sheet(path, mapping, COLUMNS[:3], COLUMNS[3:])
    found: list[Wish] = []
    lines: dict[tuple[str, str, str], int] = {}
    for row in sheet.rows:
        person, units, roles = sheet.meant(row, "person"), words_in(sheet.meant(row, "units")), words_in(sheet.meant(row, "role"))
        end = end_of(sheet, row)
        if not values.PERSON.fullmatch(person):
            sheet.blame(row.line, "person", f"{sheets.shown(person)} is not a person's name: 1 to 32 of a to z, 0 to 9, '.' and '-'")
        for unit in [it for it in units if not values.UNIT.fullmatch(it)] or ([""] if not units else []):
            sheet.blame(row.line, "units", f"{sheets.shown(unit)} is not a unit's code: 1 to 8 of A to Z and 0 to 9")
        for role in [it for it in roles if it not in values.Role.__members__] or ([""] if not roles else []):
            sheet.blame(row.line, "role", f"{sheets.shown(role)} is none of {', '.join(values.Role.__members__)}")
        if end is not None and "Steward" in roles:
            sheet.blame(row.line, "end", "the role of a steward has no end")
        for unit, role in itertools.product(units, roles):
            before = lines.setdefault((person, unit, role), row.line)
            if before != row.line:
                sheet.blame(row.line, "role", f"{person} is {role} in {unit} on line {before}, too")
        if not sheet.faults:
            found += [Wish(f"line {row.line}: ", unit, person, values.Role[role], end) for unit in units for role in roles]
    sheet.check()
    return found


def end_of(sheet: sheets.Sheet, row: sheets.Row) -> datetime.datetime | None:
    text = sheet.meant(row, "end") if "end" in row.texts else ""
    try:
        return values.moment_of(text) if text else None
    except ValueError as error:
        sheet.blame(row.line, "end", str(error))
        return None


def stewarded(office: calls.Office) -> list[str]:
    """The units in which the caller is a steward."""
    return sorted(unit for unit, roles in office.units().items() if values.Role.Steward in roles)


@click.command(name="join")
@click.argument("person", type=options.PERSON, required=False)
@click.option("--units", type=options.Units(), help="The units with commas, or `all` in which you are a steward.")
@click.option("--role", "roles", type=options.ROLE, multiple=True, help="The role; may be given several times.")
@click.option("--end", type=options.MOMENT, help="The moment before which the roles are held.  [default: for good]")
@click.option("--file", type=options.FILE, help="A sheet of people in place of one person.")
@options.mapping
@options.dry_run
@options.connected
def command(
    person: str | None,
    units: tuple[str, ...] | None,
    roles: tuple[str, ...],
    end: str | None,
    file: pathlib.Path | None,
    mapping: pathlib.Path | None,
    dry_run: bool,
    **words: typing.Any,
) -> int:
    """Grants PERSON roles in several units at once; or with --file all people of a sheet.

    The sheet has the columns person, units, role and maybe end (a moment); a cell may name several units or roles, with spaces between them. All
    that is wrong in it is listed by line and column before anything is sent. The caller is a Steward of the units. A role that is held already is
    counted as there, also if it has another end: to change that, take it first (office leave).

    Status: 0 done, 1 refused, 2 the file or the command line is wrong, 3 the office cannot be reached.
    """
    one = (person, units, roles or None)
    if (file is None) != all(it is not None for it in one) or (file is not None and (any(it is not None for it in one) or end)):
        raise click.UsageError("name a person with --units and --role, or --file and none of these")
    if end is not None and "Steward" in roles:
        raise click.UsageError("the role of a steward has no end")
    wishes = read_people(file, mappings.read_mapping(mapping, COLUMNS)) if file is not None else []
    with options.office_of(**words) as office, tally.Tally(dry_run, ()) as count:
        if person is not None:
            meant, until = units or stewarded(office), options.moment_of(end)
            wishes = [Wish("", unit, person, values.Role[role], until) for unit in meant for role in roles]
            if not meant:
                click.echo("you are a steward of no unit")
        for it in tally.over(wishes, "grants"):
            count.make(it.words(), functools.partial(office.grant, it.unit, it.person, it.role, it.end))
    return count.status()
