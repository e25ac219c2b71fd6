"""`office approve`: the proposals of a unit that wait, and what is decided of them."""

import collections.abc
import dataclasses
import functools
import typing

import click
import rich.box
import rich.console
import rich.table
import rich.text

from companions import calls, changes, matrix, options, tally, values

Changes = collections.abc.Sequence[calls.Change]
NOT_READABLE = "not readable: no matrix was approved as a change"


@dataclasses.dataclass(frozen=True)
class Shown:
    """A proposal beside what is in force: each line has a name and both values."""

    change: calls.Change
    revision: int
    lines: list[tuple[str, str, str]]

    def title(self) -> str:
        it = self.change
        late = "" if it.base == self.revision else f", OUT OF DATE: revision {self.revision} is in force, and it can only be rejected"
        return f"change {it.number}: {changes.name_of(it)}, by {it.proposer} at {values.text_of(it.proposed)}, for revision {it.base}{late}"

    def show(self, console: rich.console.Console) -> None:
        """As a table where somebody looks at it; elsewhere as lines, which are written faster."""
        if not console.is_terminal:
            wide = max(len(before) for _, before, _ in self.lines)
            rows = (f"  {name:<12} {before:<{wide}} -> {after}" for name, before, after in self.lines)
            click.echo("\n".join((self.title(), *rows)))
            return
        console.print(self.title(), markup=False, highlight=False)
        table = rich.table.Table("", "in force", "proposed", box=rich.box.SIMPLE_HEAD, pad_edge=True, show_edge=False)
        for name, before, after in self.lines:
            table.add_row(name, rich.text.Text(before), rich.text.Text(after), style="bold" if before != after else "")
        console.print(table, markup=False, highlight=False)


def rows_of_matrix(found: matrix.Matrix | None) -> dict[str, str]:
    """The most severe row first, as it is drawn."""
    if found is None:
        return {}
    limits = [*(f"below {it} s" for it in found.bands), "longer"]
    rows = {"times": ", ".join(limits)}
    for severity in range(len(found.cells), 0, -1):
        rows[f"severity {severity}"] = ", ".join(found.cells[severity - 1])
    return rows


def beside(before: collections.abc.Mapping[str, object], after: collections.abc.Mapping[str, object]) -> list[tuple[str, str, str]]:
    names = [*after, *(it for it in before if it not in after)]
    return [(it, str(before.get(it, "-")), str(after.get(it, "-"))) for it in names]


class Unit:
    """A unit of an office, with what the caller needs to decide."""

    def __init__(self, office: calls.Office, unit: str) -> None:
        self.office, self.unit = office, unit
        self.changes = list(tally.over(office.changes(unit), "looks at the changes"))
        self.matrix = changes.matrix_in_force(self.changes)
        waiting = changes.waiting(self.changes)
        self.waiting = [it for it in waiting if not changes.is_note(it)]
        self.notes = len(waiting) - len(self.waiting)
        # an alarm without a record has no priority in the list
        self.recorded = {it.tag for it in office.alarms(unit) if it.priority is not None} if self.waiting else set()

    def shown(self, change: calls.Change) -> Shown:
        content = change.content
        if isinstance(content, matrix.Matrix):
            return Shown(change, changes.matrix_revision(self.changes), beside(rows_of_matrix(self.matrix), rows_of_matrix(content)))
        tag = change.tag or ""
        if isinstance(content, int):
            status = self.office.status(self.unit, tag)
            revision, limit = (status.limit_revision, status.limit) if status else (0, 0)
            return Shown(change, revision, [("limit", f"{limit} s", f"{content} s")])
        in_force = self.office.record(self.unit, tag) if tag in self.recorded else None
        priority = self.matrix.priority(content.severity, content.response) if self.matrix else NOT_READABLE
        before: dict[str, object] = {} if in_force is None else {**in_force.record.members(), "priority": in_force.priority}
        after: dict[str, object] = {**content.members(), "priority": priority or "none: the matrix has no row of this severity"}
        return Shown(change, in_force.revision if in_force else 0, beside(before, after))

    def is_blind(self, change: calls.Change) -> bool:
        """Whether an approver cannot see which priority an alarm gets by this change."""
        return self.matrix is None and change.kind is values.Kind.record

    def decide_all(self, those: Changes, state: values.State, count: tally.Tally, may_be_blind: bool) -> None:
        for it in tally.over(those, "decides"):
            if state is values.State.Approved and self.is_blind(it) and not may_be_blind:
                words = "its priority cannot be read: approve a matrix first (office open proposes it), or give --blind"
                count.refused.append(f"refused: approve change {it.number}, {changes.name_of(it)}: {words}")
            else:
                self.decide(it, state, count)

    def decide(self, change: calls.Change, state: values.State, count: tally.Tally) -> bool:
        word = "approve" if state is values.State.Approved else "reject"
        what = f"{word} change {change.number}, {changes.name_of(change)}"
        is_made = count.make(what, functools.partial(self.office.decide, self.unit, change.number, state))
        if is_made and state is values.State.Approved and change.tag is not None and change.kind is values.Kind.record:
            self.recorded.add(change.tag)
        if is_made and state is values.State.Approved and isinstance(change.content, matrix.Matrix):
            self.changes = [dataclasses.replace(it, state=state) if it.number == change.number else it for it in self.changes]
            self.matrix = change.content
        return is_made


def decide_each(unit: Unit, those: Changes, count: tally.Tally, console: rich.console.Console) -> None:
    for change in those:
        unit.shown(change).show(console)
        answer = click.prompt("approve, reject, skip or quit", type=click.Choice(["a", "r", "s", "q"]), default="s")
        if answer == "q":
            return
        if answer != "s":
            unit.decide(change, values.State.Approved if answer == "a" else values.State.Rejected, count)


def show_and_decide(unit: Unit, those: Changes, whole: str | None, blind: bool, count: tally.Tally, console: rich.console.Console) -> bool:
    """Shows changes, and decides of them as the command line or the approver says. Whether the approver goes on."""
    for it in those:
        unit.shown(it).show(console)
    click.echo(f"{values.plural(len(those), 'proposal')} shown")
    answer = whole[0] if whole else "q"
    if those and whole is None and not count.is_dry:
        answer = click.prompt("approve all, reject all, one by one, or quit", type=click.Choice(["a", "r", "o", "q"]), default="q")
    if answer == "o":
        decide_each(unit, those, count, console)
    elif answer != "q":
        unit.decide_all(those, values.State.Approved if answer == "a" else values.State.Rejected, count, blind)
    return answer != "q" or count.is_dry


@click.command(name="approve")
@click.option("--unit", type=options.UNIT, required=True, help="The unit.")
@click.option("--proposer", type=options.PERSON, help="Only what this person has proposed.")
@click.option("--kind", type=click.Choice([it.name for it in values.Kind]), help="Only changes of this kind.")
@click.option("--all", "whole", type=click.Choice(["approve", "reject"]), help="Decides of all that are shown, without asking.")
@click.option("--blind", is_flag=True, help="Approves records whose priority cannot be read, too.")
@options.dry_run
@options.connected
def command(unit: str, proposer: str | None, kind: str | None, whole: str | None, blind: bool, dry_run: bool, **words: typing.Any) -> int:
    """Shows the proposals that wait in a unit, and approves or rejects them.

    Each is shown beside what is in force, with the priority that a record will get by the matrix in force. Matrices come first, and are decided
    before the rest is shown, since the priorities of records come of them. A priority can be read if a matrix was approved as a change; no call gives
    the matrix of the opening (see office open). Records whose priority cannot be read are not approved all at once, unless --blind says so. All that
    were shown are approved or rejected, or one by one. The caller is an Approver of the unit. Nobody decides what they proposed themselves: such
    proposals are only counted.

    May be stopped at any moment and typed again: what is decided does not wait any more.

    Status: 0 done, 1 refused, 2 the command line is wrong, 3 the office cannot be reached.
    """
    console = rich.console.Console()
    with options.office_of(**words) as office, tally.Tally(dry_run) as count:
        person = office.caller()[0]
        found = Unit(office, unit)
        meant = [it for it in found.waiting if proposer in (None, it.proposer) and kind in (None, it.kind.name)]
        waiting = [it for it in meant if it.proposer != person]
        if found.notes:
            click.echo(f"{values.plural(found.notes, 'note')} of office successor: whoever has left it takes it back")
        if len(waiting) < len(meant):
            click.echo(f"{values.plural(len(meant) - len(waiting), 'proposal')} of your own: somebody else decides")
        first = [it for it in waiting if it.kind is values.Kind.matrix]
        rest = [it for it in waiting if it not in first]
        if (not first or show_and_decide(found, first, whole, blind, count, console)) and (rest or not first):
            show_and_decide(found, rest, whole, blind, count, console)
    return count.status()
