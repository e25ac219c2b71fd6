"""`office successor`: the next unit after one that is full.

Everything is read from a backup; what is shelved and out of service now is asked of the full unit itself. Each step is made by whoever may make it:
the same line is typed by the administrator, a steward and an engineer, one after the other.

What was done before is recognised in the new unit, and not done again, also after people have worked there. A unit and its alarms stay for ever, and
so does a proposal, whatever was decided of it. What leaves nothing once it has ended has a note (carrying.py). While roles are granted a name that
nobody signs on with is a Viewer there, and says that they are not all granted.
"""

import collections.abc
import dataclasses
import datetime
import functools
import pathlib
import time
import typing

import click

from companions import alarms, backups, calls, carrying, changes, connection, leaving, lists, load, matrix, opening, options, pages, tally, values

Role = values.Role
# the limit of an alarm whose limit an approver put into force, until one does so here
FIRST_LIMIT = 60
MOST_NAMES = 3
GRANTING = "successor."  # how the name begins that is a Viewer while roles are granted


@dataclasses.dataclass(frozen=True)
class Old:
    """The full unit, as its backup has it."""

    unit: str
    moment: datetime.datetime
    quota: int
    matrix: matrix.Matrix
    grants: list[backups.Grant]
    alarms: list[backups.Alarm]
    records: dict[str, values.Record]
    waiting: list[calls.Change]
    shelves: list[backups.Shelf]

    def holders(self, role: Role, at: datetime.datetime) -> list[str]:
        return [it.person for it in self.grants if it.role is role and it.holds_at(at) and it.person != leaving.NOBODY]


def read_old(books: backups.Books, unit: str) -> Old:
    found = books.unit(unit)
    waiting = [it for it in books.changes(unit) if it.state is values.State.Proposed]
    return Old(
        unit,
        books.moment(),
        found.quota,
        books.matrix(unit),
        books.grants(unit),
        books.alarms(unit),
        books.records(unit),
        waiting,
        books.shelves(unit, found.last),
    )


@dataclasses.dataclass(frozen=True)
class Present:
    """What the full unit itself says: its alarms, and what is shelved."""

    alarms: dict[str, lists.Alarm]
    shelves: list[lists.Shelf]


def ask_present(office: calls.Office, unit: str) -> Present | None:
    """None if the caller holds no role in the unit."""
    try:
        return Present({it.tag: it for it in office.alarms(unit)}, office.shelves(unit))
    except connection.Refusal as refusal:
        if refusal.name != "NotGranted":
            raise
        return None


def shelf_of(it: lists.Shelf | backups.Shelf) -> carrying.Running:
    return carrying.Running(it.tag, carrying.SHELVED, it.start, None if it.is_one_shot else it.until, it.person, it.words)


class Succession:
    """Makes the new unit as the old one is, as far as the caller may. `again` has the tags and persons that are wanted whatever was done before."""

    def __init__(self, office: calls.Office, old: Old, to: str, count: tally.Tally, again: collections.abc.Collection[str] = ()) -> None:
        self.office, self.old, self.to, self.count, self.again = office, old, to, count, again
        self.person, self.at = office.caller()
        self.begin = time.monotonic()
        self.roles = office.units()
        self.present = ask_present(office, old.unit)
        shelved = [shelf_of(it) for it in self.present.shelves] if self.present else [shelf_of(it) for it in old.shelves if it.until > self.at]
        self.running = [*self.out_of_service(), *shelved]
        # what a person still has to decide of roles and of what runs, and who carries over the rest of it
        self.said: list[str] = []
        self.lacking = {it.role for it in self.running}

    def moment(self) -> datetime.datetime:
        """The office's moment, which a trial may have fixed."""
        if self.office.link.target.moment is not None:
            return self.at
        return self.at + datetime.timedelta(seconds=int(time.monotonic() - self.begin))

    def seconds_left(self, until: datetime.datetime) -> int:
        return int((until - self.moment()).total_seconds())

    def out_of_service(self) -> collections.abc.Iterator[carrying.Running]:
        """What the backup has out of service, but for what is in service again."""
        for it in self.old.alarms:
            if it.out and (self.present is None or it.tag in self.present.alarms and self.present.alarms[it.tag].out_of_service):
                yield carrying.Running(it.tag, carrying.OUT, it.out.since, None, it.out.person, it.out.words)

    # ---- the steps

    def open_unit(self, steward: str) -> None:
        words = f"open {self.to} with the matrix in force, the quota {self.old.quota}, and {steward} as its steward"
        self.count.make(words, functools.partial(self.office.open_unit, self.to, steward, self.old.matrix, self.old.quota))

    @property
    def granting(self) -> str:
        """A name that nobody signs on with. It is a Viewer of the new unit from before the first grant until after the last, so that a command
        that was stopped in between finishes its grants."""
        return GRANTING + self.old.unit.lower()

    def grant(self) -> None:
        """Grants what is held, unless it was done before: what is lacking later may have been taken. It was not done while `granting` is a Viewer,
        nor while nobody but stewards holds any of it in the new unit, and that has no alarm."""
        held = [it for it in self.old.grants if it.holds_at(self.at) and it.person != leaving.NOBODY and not it.person.startswith(GRANTING)]
        others = [it for it in held if it.role is not Role.Steward]
        lacking = [it for it in others if not self.office.holds(self.to, it.person, it.role)]
        was_stopped = self.office.holds(self.to, self.granting, Role.Viewer) and len(held) < values.MAX_GRANTS
        is_first = was_stopped or (len(lacking) == len(others) and not self.office.alarms(self.to))
        marks = is_first and len(held) < values.MAX_GRANTS and not self.count.is_dry
        if was_stopped:
            click.echo(f"the command was stopped while it granted roles in {self.to}: it goes on")
        elif marks:
            self.office.grant(self.to, self.granting, Role.Viewer)
        for it in tally.over(held, "grants"):
            if not is_first and it.person not in self.again:
                self.count.there += it not in lacking
                if it in lacking:
                    self.said.append(f"{it.person}: not {it.role.name} in {self.to}, where roles were granted before; --again {it.person} grants it")
            elif self.has_left(it):
                self.said.append(f"{it.person}: {it.role.name} in {self.old.unit} by the backup, and no longer; so not in {self.to}")
            else:
                words = f"{it.person} is {it.role.name} in {self.to}" + (f" until {values.text_of(it.end)}" if it.end else "")
                self.count.make(words, functools.partial(self.office.grant, self.to, it.person, it.role, it.end))
        if marks:
            self.office.take_role(self.to, self.granting, Role.Viewer)

    def has_left(self, grant: backups.Grant) -> bool:
        """Whether the role was taken in the full unit since the backup, as far as the caller can see it."""
        if grant.role is Role.Steward or Role.Steward not in self.roles.get(self.old.unit, ()):
            return False
        return not self.office.holds(self.old.unit, grant.person, grant.role)

    def first_limit(self, wanted: alarms.Wanted) -> int:
        """A limit that was never changed is that of the registration. One that an approver put into force is proposed, and until it is approved here
        the alarm has one that its running shelf needs."""
        revised = next(it.limit_revision for it in self.old.alarms if it.tag == wanted.tag)
        needed = max((self.seconds_left(it.until) for it in self.running if it.tag == wanted.tag and it.until), default=0)
        return min(wanted.limit, max(FIRST_LIMIT, needed)) if revised else wanted.limit

    def load(self, there: list[calls.Change]) -> None:
        opening.propose_matrix(self.office, self.to, self.person, self.old.matrix, there, self.count, is_once=True)
        wanted = []
        for it in self.old.alarms:
            record = self.old.records.get(it.tag)
            needs = record is not None and self.priority(record) != "N"
            wanted.append(alarms.Wanted(0, it.tag, it.latching, it.limit, record if needs else None))
        loading = load.Loading(self.office, self.to, self.person, self.count, is_once=True, first_limit=self.first_limit)
        load.load(loading, wanted, {}, there)

    def priority(self, record: values.Record) -> str | None:
        return self.old.matrix.priority(record.severity, record.response)

    def carry_over(self, roles: set[Role], there: list[calls.Change]) -> None:
        """What is out of service and shelved, in this order."""
        is_current = self.present is not None
        carrier = carrying.Carrying(
            self.office, self.old.unit, self.to, self.person, roles, there, self.old.matrix, is_current, self.again, self.count
        )
        for it in tally.over(self.running, "carries over"):
            left = None if it.until is None else self.seconds_left(it.until)
            if it.state == carrying.OUT:
                call = functools.partial(self.office.remove_from_service, self.to, it.tag, it.words)
                carrier.carry_over(it, f"take {it.tag} out of service: {it.words}", call)
            elif left is None or left > 0:
                end = "until it returns to normal" if left is None else f"for {left} s"
                call = functools.partial(self.office.shelve, self.to, it.tag, left, it.words)
                carrier.carry_over(it, f"shelve {it.tag} {end}: {it.words}", call)
        self.said += carrier.said
        self.lacking = carrier.lacking

    def make(self, steward: str) -> None:
        roles = self.roles.get(self.to)
        if roles is None:
            self.open_unit(steward)
            return
        self.count.there += 1
        if Role.Steward in roles:
            self.grant()
        is_engineer = Role.Engineer in roles
        there = list(tally.over(self.office.changes(self.to), "looks at the changes")) if is_engineer or self.running else []
        if is_engineer:
            self.load(there)
        self.carry_over(roles, there)

    # ---- what is left to people

    def next_callers(self) -> list[str]:
        """Who types the line, too: a Steward, an Engineer, and for what runs an Engineer with these roles besides."""
        there = self.roles.get(self.to, set())
        found = [f"{it.name} ({some_of(self.old.holders(it, self.at))})" for it in (Role.Steward, Role.Engineer) if it not in there]
        besides = " and ".join(it.name for it in sorted(self.lacking - {Role.Engineer}))
        return [*found, f"an Engineer who is {besides} of {self.to}, too"] if besides else found

    def decisions(self) -> collections.abc.Iterator[str]:
        """What no step carries over."""
        old, to = self.old.unit, self.to
        for change in self.old.waiting:
            what = f"change {change.number} of {old}, {changes.name_of(change)}, by {change.proposer}"
            yield f"{what}, waits there: decide it, and propose it anew in {to} if it is wanted"
        for tag, record in self.old.records.items():
            if self.priority(record) == "N":
                yield f"{tag}: by the matrix no alarm is needed, so its record is not proposed: is the alarm wanted?"
        yield from self.said
        for name in sorted(set(self.again) - {it.tag for it in self.running} - {it.person for it in self.old.grants}):
            yield f"{name}: nothing of it runs in {old}, and nobody of this name holds a role there: --again has no effect"
        for it in self.old.alarms:
            if it.active:
                yield f"{it.tag}: stands in {old} since {pages.minute(it.active)}; {to} learns of it by its next event"
            if it.suppressed:
                yield f"{it.tag}: suppressed by design in {old}; {to} learns of it by its next event"
        yield from self.since_the_backup()
        ended = [it for it in self.old.grants if not it.holds_at(self.at)]
        if ended:
            yield f"{values.plural(len(ended), 'grant')} of {old} that ended are not granted in {to}"
        yield f"send the events of the control system to {to} from now on, and take the roles in {old} once nobody needs it"

    def since_the_backup(self) -> collections.abc.Iterator[str]:
        """What the full unit has, and the backup has not."""
        known = {it.tag: it for it in self.old.alarms}
        for tag, alarm in self.present.alarms.items() if self.present else ():
            if tag not in known:
                yield f"{tag}: registered in {self.old.unit} since the backup: take a newer one"
            elif alarm.out_of_service and not known[tag].out:
                yield f"{tag}: out of service in {self.old.unit} since the backup, which has not why: take a newer one"


def some_of(names: collections.abc.Sequence[str]) -> str:
    """A few of the names."""
    more = f" and {len(names) - MOST_NAMES} more" if len(names) > MOST_NAMES else ""
    return ", ".join(names[:MOST_NAMES]) + more if names else "nobody holds this role"


@click.command(name="successor")
@click.option("--from", "backup", type=options.FOLDER, required=True, help="A backup, or a folder of backups, of which the newest is taken.")
@click.option("--unit", type=options.UNIT, required=True, help="The unit that is full.")
@click.option("--to", type=options.UNIT, required=True, help="The code of the new unit.")
@click.option("--steward", type=options.PERSON, help="Its first steward.  [default: the first one of the full unit]")
@click.option("--again", multiple=True, metavar="TAG|PERSON", help="Carries over once more what runs of an alarm, or the roles of a person.")
@options.dry_run
@options.connected
def command(backup: pathlib.Path, unit: str, to: str, steward: str | None, again: tuple[str, ...], dry_run: bool, **words: typing.Any) -> int:
    """Opens a successor of a full unit, as the full one stands.

    It is typed by one after the other, with the same words, and each makes what they may: the administrator opens the unit with the matrix in force;
    a Steward grants what is held; an Engineer registers the alarms, and proposes the matrix, the limits that were approved and the records, for an
    Approver (office approve). An alarm whose limit was approved has a minute, or what its shelf needs, until the limit is approved here.

    What is out of service goes over if the Engineer is a Maintainer of the new unit, too, and what is shelved, for as long as is left, if an
    Operator: let the Steward grant that with an end (office join). An Engineer, since the office forgets a shelf that was ended, and keeps proposals:
    each alarm that goes over has one as its note, a record that is proposed and taken back.

    All is read from the backup; of what is shelved and out of service the full unit is asked, too. The list at the end says what a person still has
    to decide. May be stopped at any moment and typed again, also while people work in the new unit: what they have ended there is not shelved and not
    taken out of service again; what was rejected or taken back is not proposed again; and no roles are granted once all were. Where only a person
    knows what was done, since the command was stopped at it, the list says so, and --again does it.

    Status: 0 done, 1 refused, 2 the command line is wrong, 3 the office cannot be reached.
    """
    if unit == to:
        raise click.UsageError("--unit and --to are one unit")
    with backups.opened(backup) as books:
        old = read_old(books, unit)
    with options.office_of(**words) as office:
        with tally.Tally(dry_run) as count:
            succession = Succession(office, old, to, count, again)
            stewards = [steward] if steward else old.holders(Role.Steward, succession.at)
            if not stewards:
                raise connection.Trouble(f"{unit} has no steward but {leaving.NOBODY}: name one with --steward")
            succession.make(stewards[0])
        click.echo(f"by the backup of {pages.minute(old.moment)} UTC")
        if others := succession.next_callers():
            click.echo("the others who type this line, in this order: " + ", ".join(others))
        for it in succession.decisions():
            click.echo(f"to decide: {it}")
    return count.status()
