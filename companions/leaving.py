"""`office leave`: takes all roles of a person who leaves."""

import pathlib
import typing

import click

from companions import backups, calls, connection, joining, options, tally, values

STEWARD = values.Role.Steward
# a name that a unit which was moved to another office leaves behind as its steward there
NOBODY = "unit.moved"


def other_stewards(backup: pathlib.Path, unit: str, person: str) -> set[str]:
    """Who else is a steward of the unit, by a backup."""
    with backups.opened(backup) as books:
        return {it.person for it in books.grants(unit) if it.role is STEWARD} - {person, NOBODY}


def only_stewarded(office: calls.Office, units: list[str], person: str, backup: pathlib.Path | None) -> list[str]:
    """The units whose only steward is this person. A steward who asks for another person is one besides; of oneself no call says it."""
    if office.caller()[0] != person or not units:
        return []
    if backup is None:
        words = "and no call says who else is a steward: name a --backup, or let another steward type this"
        raise connection.Trouble(f"you are {person} yourself, {words}")
    return [it for it in units if not other_stewards(backup, it, person)]


def take_all(office: calls.Office, unit: str, person: str, count: tally.Tally) -> None:
    """Takes each role that the person holds in the unit; that of a steward last, without which none can be taken."""
    held = 0
    for role in values.Role:
        if count.is_dry:
            count.make(f"{person} is no longer {role.name} in {unit}, if held", lambda: calls.Outcome.done)
            held += 1
            continue
        try:
            outcome = office.take_role(unit, person, role)
        except connection.Refusal as refusal:
            held += 1
            count.refuse(f"{person}, {role.name} in {unit}", refusal)
            continue
        if outcome is calls.Outcome.done:
            held += 1
            count.done += 1
            click.echo(f"{person} is no longer {role.name} in {unit}")
    count.there += not held


@click.command(name="leave")
@click.argument("person", type=options.PERSON)
@click.option("--units", type=options.Units(), help="The units with commas.  [default: all in which you are a steward]")
@click.option("--backup", type=options.FOLDER, envvar="OFFICE_BACKUP", help="A backup: it says who else is a steward, where you leave yourself.")
@options.dry_run
@options.connected
def command(person: str, units: tuple[str, ...] | None, backup: pathlib.Path | None, dry_run: bool, **words: typing.Any) -> int:
    """Takes all roles of PERSON in all units at once, before the sign-on is taken away.

    The caller is a Steward of the units. Where the person is a unit's only steward that is said first, and nothing is taken there: make another one
    (office join). A steward who types this for somebody else is another one. Of your own leaving no call says who else is a steward, so it needs a
    backup. A unit that has no role of the person is counted as there.

    Status: 0 done, 1 refused, 2 the command line is wrong, 3 the office cannot be reached.
    """
    with options.office_of(**words) as office, tally.Tally(dry_run, ()) as count:
        meant = list(units or joining.stewarded(office))
        only = only_stewarded(office, meant, person, backup)
        count.refused += [f"refused: {person} is the only steward of {it}: nothing is taken there; make another one first" for it in only]
        count.show_refused()
        for unit in tally.over([it for it in meant if it not in only], "takes"):
            take_all(office, unit, person, count)
        if not meant:
            click.echo("you are a steward of no unit")
    return count.status()
