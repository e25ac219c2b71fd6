"""`office feed`: the event files of a control system into a unit.

No state is kept: whether an event was imported, the office knows. A file that is done is moved away, and if the command is killed before that, its
rows are sent once more and counted as repeated. A row that the office does not take goes to a file of its own, with the office's cause, and the rows
before and after it are imported.
"""

import collections.abc
import dataclasses
import datetime
import math
import os
import pathlib
import statistics
import time
import typing

import click

from companions import calls, connection, events, newest, options, spool, tally, values

DONE, BAD = "done", "bad"
LONGEST_PAUSE = 60.0
MOST_LISTED = 10  # bad rows of a file that are printed; all stand in its file of bad rows
GROWS_LONG = 60.0  # seconds after which a file that still grows is named
MOST_READ = 16_777_216  # bytes of a growing file that are read between two looks
COMPARED = 1_024  # bytes at the begin of a growing file, and before the place that was read to
GREATEST_STEP = 10_000_000  # by how much the number of an event may be beyond the greatest before
NUMBER_DIGITS = 18
Opener = collections.abc.Callable[[str, int], int]


@dataclasses.dataclass(frozen=True)
class Fault:
    """A row that the office does not take, the cause, and what the office says."""

    row: events.Row
    cause: str
    said: str


def fault_of(rows: list[events.Row], refusal: connection.Refusal) -> Fault:
    """The row of an import that a refusal is about; a refusal of another kind is raised."""
    if refusal.name != "BadFile" or not isinstance(refusal.value, dict):
        raise refusal
    # the header is the first record
    return Fault(rows[int(refusal.value["line"]) - 2], str(refusal.value["cause"]), refusal.line)


def number_of(row: events.Row) -> int | None:
    """The number of a row; None if it has none, which the office says."""
    text = events.split(row.text.decode(errors="replace"), ",")[0]
    return int(text) if text.isascii() and text.isdigit() and len(text) <= NUMBER_DIGITS else None


def moment_of(row: events.Row) -> datetime.datetime:
    """The moment of a row that the office has taken."""
    return values.moment_of(events.split(row.text.decode(), ",")[1])


@dataclasses.dataclass
class Sent:
    """How many rows were imported: new ones, repeated ones, and all since they were last taken."""

    new: int = 0
    repeated: int = 0
    kept: int = 0

    def add(self, kept: int, new: int, repeated: int) -> None:
        self.kept, self.new, self.repeated = self.kept + kept, self.new + new, self.repeated + repeated

    def take_kept(self) -> int:
        kept, self.kept = self.kept, 0
        return kept


class Bad(Exception):
    """A file that the office does not take: the line of the file, and what the office says."""

    def __init__(self, line: int, cause: str, said: str) -> None:
        super().__init__(f"line {line}: {cause}: {said}")


@dataclasses.dataclass
class BadRows:
    """The rows of a file that the office does not take, in a file of the folder `bad`, and beside it NAME.txt with their lines and causes. A row that
    stands there already is not written again, so that the command may be killed and started anew."""

    folder: pathlib.Path
    name: str
    header: bytes
    known: set[bytes] = dataclasses.field(default_factory=set)
    count: int = 0

    def add(self, fault: Fault) -> str:
        """Keeps a row, and gives what is said of it."""
        row, words = fault.row, f"line {fault.row.line}: {fault.cause}: {fault.said}"
        self.count += 1
        with spool.opened(self.folder) as folder:
            if not self.known and folder.has(self.name):
                with folder.open(self.name, "rb") as rows:
                    self.known = set(rows.read().splitlines())
            if row.original not in self.known:
                with folder.open(self.name, "ab") as rows, folder.open(self.name + ".txt", "ab") as causes:
                    causes.write(words.encode() + b": " + row.original + b"\n")
                    causes.flush()
                    rows.write(b"".join(it + b"\n" for it in ([] if self.known else [self.header]) + [row.original]))
                self.known |= {self.header, row.original}
        return words


@dataclasses.dataclass
class Feeding:
    """A feed: where to, how rows are read, and what is counted."""

    office: calls.Office
    unit: str
    reader: events.Reader
    count: tally.Tally
    longest_wait: float
    every: float
    state: pathlib.Path | None = None  # the file that has the newest event
    bad_folder: pathlib.Path | None = None  # otherwise the folder `bad` beside what is read
    bad: BadRows | None = None
    newest: datetime.datetime | None = None  # the moment of the newest event that was imported
    named: datetime.datetime | None = None  # the one that was said to be too old
    greatest_step: int = GREATEST_STEP  # 0 for any
    greatest: int | None = None  # the greatest number that was sent
    strangers: set[str] = dataclasses.field(default_factory=set)  # those that were said

    def send(self, piece: events.Piece) -> tuple[int, int]:
        """Imports a piece. A row that the office does not take is kept aside; while there are many, the rows go in small pieces."""
        sent = Sent()
        rows = self.rows_in_reach(piece)
        size = len(rows)
        while rows:
            part = events.Piece(rows[:size])
            fault = self.send_good(part, sent)
            rows = rows[sent.take_kept() :]
            if fault is None:
                size *= 2
                continue
            self.keep_aside(fault)
            before = rows.index(fault.row)
            rows, size = rows[:before] + rows[before + 1 :], max(before, 1)
        return sent.new, sent.repeated

    def rows_in_reach(self, piece: events.Piece) -> list[events.Row]:
        """The rows whose numbers are not far beyond the greatest before, or at first beyond that in the middle. One that is far beyond would end the
        unit's feed: each event with a lesser number and a later moment would be out of order. It is kept aside."""
        if self.greatest_step == 0:
            return piece.rows
        found = []
        for row in piece.rows:
            number = number_of(row)
            if number is not None:
                if self.greatest is None:
                    self.greatest = statistics.median_low(it for it in map(number_of, piece.rows) if it is not None)
                if number > self.greatest + self.greatest_step:
                    self.keep_aside(Fault(row, "NumberFarAhead", f"more than {self.greatest_step:,} beyond {self.greatest}: see --greatest-step"))
                    continue
                self.greatest = max(self.greatest, number)
            found.append(row)
        return found

    def note_newest(self) -> None:
        """Keeps the moment of the newest event that was imported, also one of a run before this, and the greatest number."""
        if self.state is None or self.newest is None:
            return
        if self.state.is_file():
            self.newest = max(self.newest, newest.read_state(self.state)[1])
        newest.write_state(self.state, self.unit, self.newest, self.greatest)

    def say_strangers(self, folder: pathlib.Path) -> list[str]:
        """What is in a spool folder under the name of a file of events, and is none; what was not said before."""
        found = spool.strangers_in(folder)
        said = [f"{it} is not a regular file of this folder, and is not read" for it in found if it not in self.strangers]
        self.strangers = set(found)
        return said

    def say_age(self) -> None:
        """Names the newest event once it is too old, and again once another one has come and is too old, too."""
        if self.newest is None or self.office.link.target.moment is not None:
            return
        found = newest.of_moments({"by this feed": self.newest}, values.now(), newest.LIMIT)
        if found.is_old and self.named != self.newest:
            self.named = self.newest
            click.echo(found.words(), err=True)

    def keep_aside(self, fault: "Fault") -> None:
        if self.bad is None:
            raise Bad(fault.row.line, fault.cause, fault.said)
        words = self.bad.add(fault)
        if self.bad.count <= MOST_LISTED:
            self.count.refused.append(f"refused: {self.bad.name}: {words}")
        else:
            self.count.unlisted += 1

    def send_good(self, piece: events.Piece, sent: "Sent") -> "Fault | None":
        """Imports a piece up to a row that the office does not take, which is given. Rows that are ahead of the office's clock wait until it has
        passed them."""
        until = time.monotonic() + self.longest_wait
        rows = piece.rows
        while rows:
            try:
                sent.add(len(rows), *self.office.import_events(self.unit, events.Piece(rows).body()))
                self.newest = max([*filter(None, [self.newest]), *map(moment_of, rows)])
                return None
            except connection.Refusal as refusal:
                if refusal.name == "MomentBehind" and self.may_wait(until):
                    # the clock that the office is given is behind that of its last change, for seconds as a rule
                    time.sleep(self.every)
                    continue
                fault = fault_of(rows, refusal)
            at = rows.index(fault.row)
            if fault.cause != "MomentAhead" or (at == 0 and not self.may_wait(until)):
                return fault
            if at:
                if (earlier := self.send_good(events.Piece(rows[:at]), sent)) is not None:
                    return earlier
                rows, until = rows[at:], time.monotonic() + self.longest_wait
            if self.may_wait(until):
                self.wait_for(fault.row)
        return None

    def may_wait(self, until: float) -> bool:
        """Whether the office's clock goes on, and may still be waited for."""
        return self.office.link.target.moment is None and time.monotonic() <= until

    def wait_for(self, row: events.Row) -> None:
        if self.office.link.target.moment is not None:
            return
        text = row.text.decode(errors="replace").split(",")[1].strip('"')
        ahead = (values.moment_of(text) - values.now()).total_seconds()
        click.echo(f"line {row.line}: its moment {text} is ahead of the office's clock: waits", err=True)
        time.sleep(min(max(ahead, self.every), LONGEST_PAUSE))

    def import_rows(self, rows: collections.abc.Iterable[events.Row], name: str) -> None:
        """Imports rows piece by piece, and says how many are new."""
        new = repeated = 0
        try:
            with tally.progress(name, None) as advance:
                for piece in events.pieces(rows):
                    found = self.send(piece)
                    self.note_newest()
                    new, repeated = new + found[0], repeated + found[1]
                    self.count.done += found[0]
                    self.count.there += found[1]
                    advance(len(piece.rows))
        finally:
            if new or repeated:
                click.echo(f"{name}: {new:,} new, {repeated:,} repeated")

    def import_file(self, path: pathlib.Path, bad: pathlib.Path, opener: Opener | None = None) -> None:
        """Imports a file, with its bad rows to a folder, or raises Bad for its header. A dry run only counts its rows."""
        try:
            with open(path, "rb", opener=opener) as opened_file:
                lines = events.Lines().rows(events.chunks_of(opened_file))
                head = next(lines, None)
                if head is None:
                    raise events.BadHeader("the file is empty")
                rows = self.reader.columns(head).rows(lines)
                if self.count.is_dry:
                    size, number = events.count_pieces(rows)
                    click.echo(f"would: import {values.plural(size, 'event')} of {path.name} in {values.plural(number, 'piece')}")
                    self.count.done += size
                else:
                    self.bad = BadRows(bad, path.name, head.text)
                    self.import_rows(rows, path.name)
                    self.say_bad()
        except events.BadHeader as error:
            raise Bad(1, "Header", str(error)) from error
        except OSError as error:
            if isinstance(error, FileNotFoundError) and error.filename == str(path):
                click.echo(f"{path.name} is there no longer", err=True)
                return
            raise connection.Trouble(f"{error.filename or path}: {error.strerror}") from error

    def say_bad(self) -> None:
        """How many rows of a file are kept aside, where not all are listed."""
        if self.bad is not None and self.bad.count:
            click.echo(f"{self.bad.name}: {values.plural(self.bad.count, 'bad row')} in {self.bad.folder / self.bad.name}", err=True)

    # ---- a spool folder

    def import_spool(self, folder: pathlib.Path, names: collections.abc.Iterable[str]) -> None:
        """Imports files of a folder in this order. One that is done goes to the folder `done`, a bad one to `bad`, with what the office said."""
        for name in names:
            path, bad = folder / name, None
            before = spool.mark_of(path)
            try:
                self.import_file(path, self.bad_folder or folder / BAD, spool.open_regular)
            except Bad as error:
                bad = error
            after = spool.mark_of(path)
            if after not in (None, before):
                # what has come since was not read
                click.echo(f"{name} was written meanwhile, and stays in the folder", err=True)
                continue
            if bad is not None:
                self.count.refused.append(f"refused: {name}: {bad}")
            if after is None or self.count.is_dry:
                continue
            if bad is not None:
                set_aside(path, str(bad))
            else:
                with spool.opened(folder / DONE) as done:
                    done.take(path, done.free_name(name))

    def follow_spool(self, folder: pathlib.Path) -> typing.NoReturn:
        """Imports what is there and what comes, for ever. A file is taken once it has not changed between two looks. One that still grows does not
        stop the others, since the office takes events in any order."""
        seen: dict[str, spool.Mark | None] = {}
        first: dict[str, float] = {}
        while True:
            for words in self.say_strangers(folder):
                click.echo(words, err=True)
            marks = {it: spool.mark_of(folder / it) for it in spool.names_in(folder)}
            growing = [it for it in marks if seen.get(it) != marks[it]]
            first = {it: first.get(it, time.monotonic()) for it in growing}
            for name in growing:
                if time.monotonic() - first[name] > GROWS_LONG:
                    first[name] = math.inf
                    click.echo(f"{name} still grows, and is taken once it rests: let it be written under a name that begins with a dot", err=True)
            self.import_spool(folder, [it for it in sorted(marks) if it not in growing])
            self.count.show_refused()
            self.say_age()
            seen = marks
            time.sleep(self.every)

    # ---- a file that grows

    def follow_file(self, path: pathlib.Path) -> typing.NoReturn:
        """Imports the lines of a file as they come, and those of the file that takes its name or its place. Raises Bad if it has no header."""
        while True:
            try:
                opened_file = path.open("rb")
            except FileNotFoundError:
                time.sleep(self.every)
                continue
            with opened_file:
                growing, columns = Growing(path, opened_file), None
                while not growing.has_ended:
                    rows = growing.new_rows()
                    if columns is None and (head := next(rows, None)) is not None:
                        columns = self.columns_of(head)
                        self.bad = BadRows(self.bad_folder or path.parent / BAD, path.name, head.text)
                    if columns is not None:
                        self.import_rows(columns.rows(rows), path.name)
                        self.count.show_refused()
                        self.say_age()
                    if growing.was_rewritten:
                        click.echo(f"{path.name} was written anew in its place: it is read from its begin", err=True)
                    else:
                        time.sleep(self.every)

    def columns_of(self, head: events.Row) -> events.Columns:
        try:
            return self.reader.columns(head)
        except events.BadHeader as error:
            raise Bad(1, "Header", str(error)) from error


class Growing:
    """A file to which lines are added. It has ended once another file has its name, and from one look to the next nothing came; or at once, if what
    was read of it is no longer what it holds: then it was written anew in its place."""

    def __init__(self, path: pathlib.Path, opened_file: typing.BinaryIO) -> None:
        self.path, self.opened_file = path, opened_file
        self.numbers, self.rest = events.Lines(), b""
        self.was_replaced = self.was_rewritten = self.has_ended = False
        # how the file began, and what was read last of it
        self.head = self.tail = b""

    def new_rows(self) -> collections.abc.Iterator[events.Row]:
        """The rows of the whole lines that have come since; at the end of the file also of one without a line feed."""
        yield from self.numbers.rows(self.whole_lines())

    def whole_lines(self) -> list[bytes]:
        is_replaced, begin = self.is_replaced(), self.opened_file.tell()
        read = self.opened_file.read(MOST_READ)
        if self.is_other(begin):
            # what was read may be of the new content, and may begin within a line
            self.has_ended = self.was_rewritten = True
            return []
        self.head = (self.head + read)[:COMPARED]
        self.tail = (self.tail + read)[-COMPARED:]
        *lines, self.rest = (self.rest + read).split(b"\n")
        # who had the file open may have written to it after it lost its name
        self.has_ended = is_replaced and self.was_replaced and self.opened_file.tell() == begin
        self.was_replaced = is_replaced
        if self.has_ended and self.rest:
            lines.append(self.rest)
        return [it + b"\n" for it in lines]

    def is_other(self, end: int) -> bool:
        """Whether the file no longer begins as it did, or no longer holds what was read of it last, up to this place."""
        number, tail_at = self.opened_file.fileno(), end - len(self.tail)
        return os.pread(number, len(self.head), 0) != self.head or os.pread(number, len(self.tail), tail_at) != self.tail

    def is_replaced(self) -> bool:
        try:
            return os.stat(self.path).st_ino != os.fstat(self.opened_file.fileno()).st_ino
        except FileNotFoundError:
            return False


def set_aside(path: pathlib.Path, said: str) -> None:
    """Moves a bad file away, after it was written beside it why."""
    with spool.opened(path.parent / BAD) as folder:
        name = folder.free_name(path.name)
        with folder.open(name + ".txt", "wb") as cause:
            cause.write(said.encode() + b"\n")
        folder.take(path, name)


@click.command(name="feed")
@click.argument("source", metavar="DIR|FILE", type=options.FOLDER)
@click.option("--unit", type=options.UNIT, required=True, help="The unit; of files with a column `unit`, its lines.")
@click.option("--follow", is_flag=True, help="Goes on for ever, with what comes.")
@options.mapping
@click.option("--bad", type=click.Path(file_okay=False, path_type=pathlib.Path), help="Where bad rows go.  [default: DIR/bad, or bad beside FILE]")
@click.option("--state", type=click.Path(dir_okay=False, path_type=pathlib.Path), help="A file to write, with the moment of the newest event.")
@click.option("--every", type=click.FloatRange(0.05, 3_600), default=2.0, show_default=True, help="With --follow: seconds between two looks.")
@click.option("--greatest-step", type=click.IntRange(0), default=GREATEST_STEP, show_default=True, help="How far a number may leap; 0: any.")
@click.option("--longest-wait", type=click.FloatRange(0), default=3_600.0, show_default=True, help="Seconds to wait for the office's clock.")
@options.dry_run
@options.connected
def command(
    source: pathlib.Path,
    unit: str,
    follow: bool,
    mapping: pathlib.Path | None,
    bad: pathlib.Path | None,
    state: pathlib.Path | None,
    every: float,
    greatest_step: int,
    longest_wait: float,
    dry_run: bool,
    **words: typing.Any,
) -> int:
    """Imports the event files of a control system into a unit.

    DIR is a spool folder: its files *.csv are imported in the order of their names, and a file that is done goes to DIR/done. A row that the office
    does not take goes to DIR/bad/NAME, and to NAME.txt beside it with its line, its cause and the office's answer; the rows before and after it are
    imported. Mend the rows in DIR/bad/NAME and put that file into DIR. A file without the columns goes to DIR/bad whole. Only regular files of DIR
    are read, and no links. Let the control system write under a name that begins with a dot, and rename the file once it is whole; one that still
    grows waits, and does not stop the others. FILE is a single file; with --follow it may grow, be replaced by one of its name, or be written anew in
    its place. A file that was replaced while no command ran is imported by its new name.

    The files have the columns seq, moment, tag and event, also among others, and as the mapping names them; each event is one line. They are sent in
    pieces of at most 10,000 rows and 1 MiB. Where the office says MomentAhead, the rest waits until its clock has passed the moment. No state is
    kept: what was imported the office knows, and counts as repeated. So the command may be killed at any moment. The caller is an Operator of the
    unit.

    A mapping, for files of a system's own:

    \b
        delimiter = ";"
        [columns]
        seq = "Number"
        [values.event]
        "ALM" = "ACT"
        [moments]
        format = "%d.%m.%Y %H:%M:%S"
        zone = "Europe/Berlin"        # otherwise UTC
        twice = "order"
        [skip]
        event = ["INFO"]              # rows that are not wanted

    A row whose number is more than --greatest-step beyond the greatest before goes to DIR/bad: by it the office would refuse all that follows.

    --state writes the moment of the newest event to a file, for office handover and the board. With --follow the command says so if that is more than
    15 minutes ago.

    A moment has its time of day to the second, unless the format says otherwise. In the hour through which a clock goes twice a row needs a column
    `offset`, as +02:00, which the mapping names under [columns]. Or the mapping says twice = "order", for files whose rows stand in the order of time
    and which have that hour whole. A row of which neither says it is a bad one, and so is each such row of a file that grows, without an offset.

    Status: 0 done, 1 refused or kept aside, 2 the mapping or the command line is wrong, 3 the office cannot be reached.
    """
    if follow and dry_run:
        raise click.UsageError("--dry-run does not go with --follow")
    reader = events.Reader(unit, mapping)
    with options.office_of(**words) as office, tally.Tally(dry_run) as count:
        feeding = Feeding(office, unit, reader, count, longest_wait, every, state, bad, greatest_step=greatest_step)
        if state is not None:
            feeding.greatest = newest.greatest_of(state)
        try:
            if follow and source.is_dir():
                feeding.follow_spool(source)
            if follow:
                feeding.follow_file(source)
            if source.is_dir():
                count.refused += [f"refused: {it}" for it in feeding.say_strangers(source)]
                feeding.import_spool(source, spool.names_in(source))
            else:
                feeding.import_file(source, bad or source.parent / BAD)
        except Bad as error:
            count.refused.append(f"refused: {source.name}: {error}")
        except OSError as error:
            raise connection.Trouble(f"{error.filename or source}: {error.strerror}") from error
        except connection.Refusal as refusal:
            if refusal.name == "UnitFull":
                raise connection.Trouble(f"{unit} is full, and takes no new events: {refusal.line}; see office successor") from refusal
            raise
    return count.status()
