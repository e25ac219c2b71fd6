"""`office open`: a new unit, with a matrix that can be read."""

import collections.abc
import functools
import pathlib
import typing

import click

from companions import calls, changes, matrix, options, tally, values


QUOTA = click.IntRange(1, values.MAX_QUOTA)


def propose_matrix(
    office: calls.Office,
    unit: str,
    person: str,
    wanted: matrix.Matrix,
    there: collections.abc.Collection[calls.Change],
    count: tally.Tally,
    is_again: bool = False,
    is_once: bool = False,
) -> None:
    """Proposes the opening's matrix once more, unless a matrix was approved, or the same waits or was rejected; with `is_once`, unless the same was
    proposed before, whatever became of it. `there` are the unit's changes."""
    in_force, before = changes.matrix_in_force(there), [it for it in there if it.content == wanted]
    rejected = next((it for it in before if it.state is values.State.Rejected), None)
    if in_force is not None or any(it.state is values.State.Proposed for it in before) or (is_once and before):
        count.there += 1
        if in_force not in (None, wanted):
            click.echo(f"{unit} has another matrix in force, which an Approver has put there")
        return
    if rejected is not None and not is_again:
        count.there += 1
        click.echo(f"the matrix of {unit}: {rejected.decider} has rejected it (change {rejected.number}); --again proposes it anew")
        return

    def propose() -> calls.Outcome:
        office.propose(unit, person, values.Kind.matrix, None, 0, wanted)
        return calls.Outcome.done

    count.make(f"propose the matrix of {unit} as a change", propose)


@click.command(name="open")
@click.argument("unit", type=options.UNIT)
@click.option("--steward", type=options.PERSON, required=True, help="Who is its first steward.")
@click.option("--matrix", "file", type=options.FILE, required=True, help="A TOML file with bands and cells.")
@click.option("--quota", type=QUOTA, default=values.MAX_QUOTA, show_default=True, help="How many alarms may be shelved at once.")
@click.option("--again", is_flag=True, help="Proposes the matrix anew if it was rejected.")
@options.dry_run
@options.connected
def command(unit: str, steward: str, file: pathlib.Path, quota: int, again: bool, dry_run: bool, **words: typing.Any) -> int:
    """Opens UNIT, and proposes its matrix once more as a change.

    No call gives the matrix of the opening. As an approved change it can be read from then on: by office approve, which shows the priority that a
    record will get. So this is typed twice, with the same words: the administrator opens the unit, and once there is one an Engineer of it proposes
    the matrix. An Approver then approves the change. The file has the times to respond that part the bands, and a row of cells for each severity,
    the least first:

    \b
        bands = [300, 1800]
        cells = [["P3", "P4", "N"], ["P2", "P3", "P4"], ["P1", "P2", "P3"]]

    Status: 0 done, 1 refused, 2 the file or the command line is wrong, 3 the office cannot be reached.
    """
    wanted = matrix.read_matrix(file)
    with options.office_of(**words) as office, tally.Tally(dry_run) as count:
        roles = office.units().get(unit)
        if roles is None:
            count.make(f"open {unit} with {steward} as its steward", functools.partial(office.open_unit, unit, steward, wanted, quota))
        else:
            count.there += 1
        if roles is not None and values.Role.Engineer in roles:
            propose_matrix(office, unit, office.caller()[0], wanted, list(office.changes(unit)), count, again)
        elif not count.refused:
            click.echo(f"an Engineer of {unit} types this line next, which proposes the matrix as a change that can be read")
    return count.status()
