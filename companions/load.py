"""`office load`: a master alarm database into a unit."""

import collections
import collections.abc
import dataclasses
import functools
import operator
import pathlib
import typing

import click

from companions import alarms, aside as aside_of, backups, calls, changes, lists, mappings, options, sheets, tally, values

LIMIT, RECORD = values.Kind.limit, values.Kind.record


@dataclasses.dataclass(frozen=True)
class Proposal:
    """What the file says otherwise than the office: a limit or a record, on the revision in force."""

    wanted: alarms.Wanted
    kind: values.Kind
    base: int
    content: int | values.Record
    in_force: int | values.Record | None

    def words(self) -> str:
        tag = self.wanted.tag
        if isinstance(self.content, int):
            return f"limit of {tag}: {self.in_force} s, by the file {self.content} s"
        if not isinstance(self.in_force, values.Record):
            return f"record of {tag}: none in force"
        ours, theirs = self.in_force.members(), self.content.members()
        return f"record of {tag}: " + "; ".join(f"{it} {ours[it]!r}, by the file {theirs[it]!r}" for it in ours if ours[it] != theirs[it])


@dataclasses.dataclass(frozen=True)
class Comparison:
    """What a unit lacks of a file, has otherwise, and has besides."""

    missing: list[alarms.Wanted]
    differing: list[Proposal]
    besides: list[str]
    latching: list[str]  # tags that latch in the one and not in the other

    def is_equal(self) -> bool:
        return not (self.missing or self.differing or self.besides or self.latching)

    def show(self) -> None:
        for wanted in self.missing:
            click.echo(f"line {wanted.line}: {wanted.tag} is not in the office")
        for proposal in self.differing:
            click.echo(f"line {proposal.wanted.line}: {proposal.words()}")
        for tag in self.latching:
            click.echo(f"{tag} latches in the one and not in the other: that can never be changed")
        for tag in self.besides:
            click.echo(f"{tag} is in the office, and not in the file")


def compare(office: calls.Office, unit: str, wanted: collections.abc.Sequence[alarms.Wanted], latching: dict[str, bool]) -> Comparison:
    """What stands in the unit beside what the file wants."""
    there = {it.tag: it for it in office.alarms(unit)}
    named = {it.tag for it in wanted}
    differing: list[Proposal] = []
    for it in tally.over(wanted, "compares", len(wanted)):
        differing += differences(office, unit, it, there.get(it.tag))
    odd = [it.tag for it in wanted if it.tag in there and latching.get(it.tag, it.latching) != it.latching]
    return Comparison([it for it in wanted if it.tag not in there], differing, sorted(set(there) - named), odd)


def differences(office: calls.Office, unit: str, wanted: alarms.Wanted, there: lists.Alarm | None) -> collections.abc.Iterator[Proposal]:
    if there is not None and there.limit != wanted.limit:
        status = office.status(unit, wanted.tag)
        if status is not None and status.limit != wanted.limit:
            yield Proposal(wanted, LIMIT, status.limit_revision, wanted.limit, status.limit)
    if wanted.record is not None:
        # the list has no priority of an alarm without a record
        in_force = office.record(unit, wanted.tag) if there is not None and there.priority is not None else None
        if in_force is None or in_force.record != wanted.record:
            revision = 0 if in_force is None else in_force.revision
            yield Proposal(wanted, RECORD, revision, wanted.record, in_force.record if in_force else None)


@dataclasses.dataclass(frozen=True)
class Loading:
    """A load: where to, by whom, what it counts, whether what was rejected is proposed anew, whether nothing is that was proposed or changed there
    before, and with which limit an alarm is registered."""

    office: calls.Office
    unit: str
    person: str
    count: tally.Tally
    is_again: bool = False
    is_once: bool = False
    first_limit: collections.abc.Callable[[alarms.Wanted], int] = operator.attrgetter("limit")

    def place(self, wanted: alarms.Wanted) -> str:
        """The line of the file, if the alarm is of one."""
        return f"line {wanted.line}: " if wanted.line else ""


class Waiting:
    """What was proposed before: what still waits, what was rejected on the revision in force, and all else."""

    def __init__(self, there: collections.abc.Iterable[calls.Change]) -> None:
        self.proposed: dict[tuple[values.Kind, str | None], list[calls.Change]] = collections.defaultdict(list)
        self.decided: dict[tuple[values.Kind, str | None], list[calls.Change]] = collections.defaultdict(list)
        for it in there:
            if not changes.is_note(it):
                (self.proposed if it.state is values.State.Proposed else self.decided)[it.thing].append(it)

    def same(self, proposal: Proposal) -> calls.Change | None:
        return alike(self.proposed[proposal.kind, proposal.wanted.tag], proposal)

    def refused(self, proposal: Proposal) -> calls.Change | None:
        found = self.decided[proposal.kind, proposal.wanted.tag]
        return alike((it for it in found if it.state is values.State.Rejected), proposal)

    def was_decided(self, proposal: Proposal) -> bool:
        """Whether the same was put into force, rejected or taken back before, on whatever revision."""
        return any(it.content == proposal.content for it in self.decided[proposal.kind, proposal.wanted.tag])

    def others(self, proposal: Proposal) -> list[calls.Change]:
        return [it for it in self.proposed[proposal.kind, proposal.wanted.tag] if it.content != proposal.content]

    def twice(self, person: str) -> list[calls.Change]:
        """Of the proposals of a person that stand twice, each but the first."""
        found, seen = [], set()
        for those in self.proposed.values():
            for it in those:
                key = (it.thing, it.base, it.content)
                if it.proposer == person and key in seen:
                    found.append(it)
                seen.add(key)
        return found


def alike(changes: collections.abc.Iterable[calls.Change], proposal: Proposal) -> calls.Change | None:
    return next((it for it in changes if (it.base, it.content) == (proposal.base, proposal.content)), None)


def propose(loading: Loading, proposals: collections.abc.Sequence[Proposal], waiting: Waiting) -> None:
    count = loading.count
    for it in tally.over(proposals, "proposes"):
        same, refused, place = waiting.same(it), waiting.refused(it), loading.place(it.wanted)
        if same is not None:
            count.there += 1
        elif refused is not None and not loading.is_again:
            count.there += 1
            anew = "" if loading.is_once else "; --again proposes it anew"
            click.echo(f"{place}{it.words()}: {refused.decider} has rejected it (change {refused.number}){anew}")
        elif loading.is_once and (it.base or waiting.was_decided(it)):
            count.there += 1
        else:
            for other in waiting.others(it):
                what = f"the {it.kind.name} of {it.wanted.tag}"
                click.echo(f"{place}change {other.number} of {other.proposer} on {what} waits too, and says otherwise")
            count.make(f"{place}propose {it.words()}", functools.partial(proposed, loading, it))


def proposed(loading: Loading, it: Proposal) -> calls.Outcome:
    loading.office.propose(loading.unit, loading.person, it.kind, it.wanted.tag, it.base, it.content)
    return calls.Outcome.done


def take_back_twice(loading: Loading, waiting: Waiting) -> None:
    """A call that had no answer may have been made after it was repeated: then a proposal stands twice."""
    for it in waiting.twice(loading.person):
        words = f"take back change {it.number}, which says the same as one before"
        loading.count.make(words, functools.partial(loading.office.decide, loading.unit, it.number, values.State.Withdrawn))


def load(
    loading: Loading, wanted: collections.abc.Sequence[alarms.Wanted], latching: dict[str, bool], there: collections.abc.Iterable[calls.Change]
) -> None:
    """Registers what is missing and proposes what differs. What was done before is seen in the office itself; its changes are `there`."""
    office, unit, count = loading.office, loading.unit, loading.count
    registered = {it.tag for it in office.alarms(unit)}
    for it in tally.over(wanted, "registers"):
        if it.tag in registered:
            count.there += 1
        else:
            limit = loading.first_limit(it)
            words = f"{loading.place(it)}register {it.tag}, limit {limit} s" + (", latching" if it.latching else "")
            count.make(words, functools.partial(office.register, unit, it.tag, it.latching, limit))
    found = compare(office, unit, wanted, latching)
    if count.is_dry:
        first = ((it, loading.first_limit(it)) for it in found.missing)
        found.differing.extend(Proposal(it, LIMIT, 0, it.limit, limit) for it, limit in first if limit != it.limit)
    waiting = Waiting(there)
    in_force = sum(it.record is not None for it in wanted) - sum(it.kind is RECORD for it in found.differing)
    count.there += in_force
    take_back_twice(loading, waiting)
    propose(loading, found.differing, waiting)
    # in a dry run nothing was registered: what is missing is not said twice
    dataclasses.replace(found, missing=[], differing=[]).show()


OUT = click.Path(dir_okay=False, path_type=pathlib.Path)


def read_file(file: pathlib.Path, mapping: pathlib.Path | None, unit: str, bad: pathlib.Path | None) -> tuple[list[alarms.Wanted], int]:
    """The alarms of a file, and how many rows were set aside. Without a file for these all rows have to be good."""
    found = alarms.read(file, mappings.read_mapping(mapping, alarms.COLUMNS), unit)
    aside = 0
    if bad is None:
        found.sheet.check()
    else:
        aside = aside_of.set_aside(found.sheet, bad)
    for it in found.repeated:
        click.echo(f"{file}: {it}")
    if aside and bad is not None:
        click.echo("\n".join(sheets.summary(file, found.sheet.faults)))
        click.echo(f"{values.plural(aside, 'row')} with what is wrong: {bad}")
    return found.good(), aside


@click.command(name="load")
@click.argument("file", type=options.FILE)
@click.option("--unit", type=options.UNIT, required=True, help="The unit; of a file with a column `unit`, its lines.")
@options.mapping
@click.option("--check", is_flag=True, help="Compares only: status 0 if the unit is as the file says, 1 if not.")
@click.option("--good", "bad", type=OUT, metavar="FILE", help="Loads the good rows, and writes the bad ones into this file, with what is wrong.")
@click.option("--again", is_flag=True, help="Proposes anew what was rejected.")
@click.option("--backup", type=options.FOLDER, envvar="OFFICE_BACKUP", help="A backup: it says which alarms latch, as no call does.")
@options.dry_run
@options.connected
def command(
    file: pathlib.Path,
    unit: str,
    mapping: pathlib.Path | None,
    check: bool,
    bad: pathlib.Path | None,
    again: bool,
    backup: pathlib.Path | None,
    dry_run: bool,
    **words: typing.Any,
) -> int:
    """Loads a master alarm database, FILE, into a unit.

    FILE has comma-separated values, with the columns tag, latching (yes or no), limit (the longest shelf, in seconds), and for a record cause,
    consequence, action, severity (1 to 5) and response (the time to respond, in seconds). A line without the last five has no record. UTF-8, with a
    mark or without; semicolons and line ends within quotes do no harm. Other columns are left out. A line that says once more what another says is
    taken once. All that is wrong is counted by kind and listed by line before anything is sent; then --good FILE loads the other rows. In FILE the
    bad ones can be mended, and be loaded with the same mapping.

    Alarms that are missing are registered; records and limits that differ are proposed, for an approver (office approve). What waits already is not
    proposed twice, nor what an approver has rejected. The caller is an Engineer of the unit. May be stopped at any moment and typed again.

    A mapping, for a file of a plant's own:

    \b
        encoding = "cp1252"           # otherwise utf-8
        delimiter = ";"               # otherwise that of the header
        header = 3                    # its line, or a text that stands in it
        decimal = ","                 # for times as 0,25 h
        capitals = ["tag"]            # columns whose small letters become capitals
        [columns]
        tag = "Tag name"
        limit = "Longest shelf"
        [seconds]
        limit = "minutes"             # of a time without a unit; or hours, days
        [units]
        Std = "hours"                 # beside s, min, h and d
        [values.latching]
        Latched = "yes"
        "" = "no"
        [replace]
        "\u00e4" = "ae"                   # in every column
        [skip]
        row = ["Section .*"]          # patterns of Python, of the whole row or a column

    Status: 0 done, 1 refused, a row set aside or (with --check) different, 2 the file or the command line is wrong, 3 the office cannot be reached.
    """
    wanted, aside = read_file(file, mapping, unit, bad)
    latching: dict[str, bool] = {}
    if backup is not None:
        with backups.opened(backup) as books:
            latching = books.latching(unit)
    with options.office_of(**words) as office:
        if check:
            found = compare(office, unit, wanted, latching)
            found.show()
            said = "as in the office" if found.is_equal() else "the office differs"
            click.echo(f"{values.plural(len(wanted), 'alarm')} in {file.name}: {said}")
            return 0 if found.is_equal() and not aside else 1
        with tally.Tally(dry_run) as count:
            there = tally.over(office.changes(unit), "looks at the changes")
            load(Loading(office, unit, office.caller()[0], count, again), wanted, latching, there)
        return count.status() or int(aside > 0)
