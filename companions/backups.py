"""Backups of an office's books, read by SQLite. A copy of a backup is opened, never the backup itself, and never a file that an office has open."""

import collections.abc
import contextlib
import dataclasses
import datetime
import fcntl
import hashlib
import pathlib
import re
import shutil
import sqlite3
import tempfile
import typing

from companions import calls, connection, matrix as matrices, values

FOLDER = re.compile(r"[0-9]{8}T[0-9]{6}Z")
MAGIC = b"SQLite format 3\0"
SCHEMA = 2
# the bytes of a file that SQLite locks
LOCK_BEGIN, LOCK_LENGTH = 0x40000000, 512


@dataclasses.dataclass(frozen=True)
class Unit:
    unit: str
    last: datetime.datetime
    matrix_no: int
    quota: int


@dataclasses.dataclass(frozen=True)
class Grant:
    """A role that is held before `end`, or for good."""

    person: str
    role: values.Role
    end: datetime.datetime | None

    def holds_at(self, moment: datetime.datetime) -> bool:
        return self.end is None or moment < self.end


@dataclasses.dataclass(frozen=True)
class OutOfService:
    """Since when an alarm is out of service, by whom and why."""

    since: datetime.datetime
    person: str
    words: str


@dataclasses.dataclass(frozen=True)
class Alarm:
    tag: str
    latching: bool
    limit: int
    limit_revision: int
    suppressed: bool
    active: datetime.datetime | None
    out: OutOfService | None


@dataclasses.dataclass(frozen=True)
class Shelf:
    tag: str
    is_one_shot: bool
    start: datetime.datetime
    until: datetime.datetime
    person: str
    words: str


class Event(typing.NamedTuple):
    moment: int  # seconds, as in the file: a unit has many events
    tag: str
    kind: str


EVENTS = {1: "ACT", 2: "RTN", 3: "ACK", 4: "RESET", 5: "SUP", 6: "UNSUP"}
CELLS = ("N", "P1", "P2", "P3", "P4")


def moment_of_folder(name: str) -> datetime.datetime | None:
    """When a backup was made, by the name of its folder; None if the name is another one."""
    try:
        return datetime.datetime.strptime(name, "%Y%m%dT%H%M%SZ").replace(tzinfo=datetime.timezone.utc) if FOLDER.fullmatch(name) else None
    except ValueError:
        return None


def moment_or_none(seconds: int | None) -> datetime.datetime | None:
    return None if seconds is None else values.moment_at(seconds)


class Books:
    """The books of one backup."""

    def __init__(self, rows: sqlite3.Connection, path: pathlib.Path) -> None:
        self.rows, self.path = rows, path

    def units(self) -> list[Unit]:
        found = self.rows.execute("SELECT unit, last_s, matrix_no, quota FROM units ORDER BY unit")
        return [Unit(unit, values.moment_at(last), *rest) for unit, last, *rest in found]

    def moment(self) -> datetime.datetime:
        """When the backup was made, by the name of its folder; otherwise the moment of the last change in it."""
        named = moment_of_folder(self.path.name)
        return max((it.last for it in self.units()), default=values.EPOCH) if named is None else named

    def unit(self, unit: str) -> Unit:
        found = next((it for it in self.units() if it.unit == unit), None)
        if found is None:
            raise connection.Trouble(f"{self.path} has no unit {unit}")
        return found

    def matrix(self, unit: str) -> matrices.Matrix:
        """The matrix in force."""
        return self.matrix_of(unit, self.unit(unit).matrix_no)

    def matrix_of(self, unit: str, number: int) -> matrices.Matrix:
        bands = self.rows.execute("SELECT limit_s FROM bands WHERE unit = ? AND matrix_no = ? ORDER BY band_no", (unit, number))
        cells: dict[int, list[str]] = {}
        found = self.rows.execute("SELECT severity, cell_no FROM cells WHERE unit = ? AND matrix_no = ? ORDER BY severity, band_no", (unit, number))
        for severity, cell in found:
            cells.setdefault(severity, []).append(CELLS[cell])
        return matrices.Matrix(tuple(it for it, in bands), tuple(tuple(it) for it in cells.values()))

    def grants(self, unit: str) -> list[Grant]:
        found = self.rows.execute("SELECT person, role_no, end_s FROM grants WHERE unit = ? ORDER BY person, role_no", (unit,))
        return [Grant(person, values.Role(role), moment_or_none(end)) for person, role, end in found]

    def alarms(self, unit: str) -> list[Alarm]:
        text = """SELECT tag, latching, max_s, max_rev, suppressed, active_s, out_s, out_by, out_words
            FROM alarms WHERE unit = ? ORDER BY tag"""
        found = []
        for tag, latching, limit, revision, suppressed, active, since, person, words in self.rows.execute(text, (unit,)):
            out = None if since is None else OutOfService(values.moment_at(since), person, words)
            found.append(Alarm(tag, bool(latching), limit, revision, bool(suppressed), moment_or_none(active), out))
        return found

    def latching(self, unit: str) -> dict[str, bool]:
        return {it.tag: it.latching for it in self.alarms(unit)}

    def records(self, unit: str) -> dict[str, values.Record]:
        """The records in force."""
        text = """SELECT r.tag, cause, consequence, remedy, severity, response_s
            FROM records AS r JOIN changes AS c ON c.unit = r.unit AND c.number = r.change_no WHERE r.unit = ? ORDER BY r.tag"""
        return {tag: values.Record(*rest) for tag, *rest in self.rows.execute(text, (unit,))}

    def changes(self, unit: str) -> list[calls.Change]:
        text = """SELECT number, kind_no, tag, base, state_no, proposer, proposed_s, decider, decided_s, cause, consequence, remedy, severity,
            response_s, max_s FROM changes WHERE unit = ? ORDER BY number"""
        return [self.read_change(unit, it) for it in self.rows.execute(text, (unit,))]

    def read_change(self, unit: str, row: tuple[typing.Any, ...]) -> calls.Change:
        number, kind_no, tag, base, state, proposer, proposed, decider, decided, *record, limit = row
        kind = values.Kind(kind_no)
        content = values.Record(*record) if kind is values.Kind.record else limit if kind is values.Kind.limit else self.matrix_of(unit, number)
        moments = values.moment_at(proposed), moment_or_none(decided)
        return calls.Change(number, kind, tag, base, values.State(state), proposer, moments[0], decider, moments[1], content)

    def shelves(self, unit: str, moment: datetime.datetime) -> list[Shelf]:
        """The shelves that hold at a moment."""
        text = """SELECT s.tag, one_shot, start_s, until_s, person, words FROM shelves AS s JOIN alarms AS a ON a.unit = s.unit AND a.tag = s.tag
            WHERE s.unit = ? AND until_s > ? AND NOT (one_shot = 1 AND return_s IS NOT NULL AND return_s > start_s) ORDER BY s.tag"""
        found = self.rows.execute(text, (unit, values.seconds_at(moment)))
        return [Shelf(tag, bool(one), values.moment_at(start), values.moment_at(until), *rest) for tag, one, start, until, *rest in found]

    def last_shelves(self, unit: str) -> list[Shelf]:
        """The last shelf of each alarm, also one that is over; one that a person ended is not kept."""
        text = "SELECT tag, one_shot, start_s, until_s, person, words FROM shelves WHERE unit = ? ORDER BY tag"
        found = self.rows.execute(text, (unit,))
        return [Shelf(tag, bool(one), values.moment_at(start), values.moment_at(until), *rest) for tag, one, start, until, *rest in found]

    def priorities(self, unit: str) -> dict[str, str]:
        """The priorities in force, by alarm; one without a record has none."""
        return {tag: CELLS[cell] for tag, cell in self.rows.execute("SELECT tag, cell_no FROM records WHERE unit = ?", (unit,))}

    def events(self, unit: str) -> collections.abc.Iterator[Event]:
        """The events in the order of their numbers, in which they take effect."""
        for moment, tag, kind in self.rows.execute("SELECT moment_s, tag, kind_no FROM events WHERE unit = ? ORDER BY seq", (unit,)):
            yield Event(moment, tag, EVENTS[kind])

    def newest_event(self, unit: str) -> datetime.datetime | None:
        return moment_or_none(self.rows.execute("SELECT max(moment_s) FROM events WHERE unit = ?", (unit,)).fetchone()[0])

    def count(self, unit: str, table: str) -> int:
        """How many rows a unit has in a table."""
        return int(self.rows.execute(f"SELECT count(*) FROM {table} WHERE unit = ?", (unit,)).fetchone()[0])

    def first(self, unit: str, table: str, column: str) -> datetime.datetime | None:
        """The first moment in a column."""
        return moment_or_none(self.rows.execute(f"SELECT min({column}) FROM {table} WHERE unit = ?", (unit,)).fetchone()[0])

    def count_since(self, unit: str, table: str, column: str, since: datetime.datetime) -> int:
        text = f"SELECT count(*) FROM {table} WHERE unit = ? AND {column} >= ?"
        return int(self.rows.execute(text, (unit, values.seconds_at(since))).fetchone()[0])


def newest_in(path: pathlib.Path) -> pathlib.Path:
    """The backup that is meant by a path: itself, or the newest in a folder of backups."""
    if not path.is_dir():
        return path
    inside = sorted(it for it in path.iterdir() if moment_of_folder(it.name) and it.is_dir())
    return inside[-1] if inside else path


def files_of(path: pathlib.Path) -> list[pathlib.Path]:
    """The file of the books, and its log if there is one. A backup with sums has to fit them."""
    if path.is_dir():
        sums = path / "SHA256SUMS"
        if sums.exists():
            return checked_files(path, sums)
        inside = [it for it in path.iterdir() if it.is_file() and begins_as_books(it)]
        if len(inside) != 1:
            raise connection.Trouble(f"{path} is not a backup: it has {len(inside)} files of books")
        path = inside[0]
    elif not begins_as_books(path):
        raise connection.Trouble(f"{path} is not a file of books, nor a folder of backups")
    log = path.with_name(path.name + "-wal")
    return [path, log] if log.exists() else [path]


def begins_as_books(file: pathlib.Path) -> bool:
    with file.open("rb") as opened_file:
        return opened_file.read(len(MAGIC)) == MAGIC


def checked_files(path: pathlib.Path, sums: pathlib.Path) -> list[pathlib.Path]:
    found = []
    for line in sums.read_text(errors="replace").splitlines():
        wanted, _, name = line.partition("  ")
        file = path / name
        if not file.is_file() or sum_of(file) != wanted:
            raise connection.Trouble(f"{file} is not what was backed up: take another backup")
        found.append(file)
    if not found:
        raise connection.Trouble(f"{sums} is empty: take another backup")
    return sorted(found, key=lambda it: it.name.endswith("-wal"))


def sum_of(file: pathlib.Path) -> str:
    with file.open("rb") as opened_file:
        return hashlib.file_digest(opened_file, "sha256").hexdigest()


def is_open_elsewhere(file: pathlib.Path) -> bool:
    """Whether an office has the file open, which then has the lock that SQLite asks for."""
    with file.open("rb") as opened_file:
        try:
            fcntl.lockf(opened_file, fcntl.LOCK_SH | fcntl.LOCK_NB, LOCK_LENGTH, LOCK_BEGIN)
            fcntl.flock(opened_file, fcntl.LOCK_SH | fcntl.LOCK_NB)
        except OSError:
            return True
    return False


def copied(backup: pathlib.Path, room: pathlib.Path) -> pathlib.Path:
    """A copy of a backup's files in a room, which SQLite may change. Gives the file of the books."""
    try:
        files = files_of(backup)
        if is_open_elsewhere(files[0]):
            raise connection.Trouble(f"{files[0]} is open in an office: name a backup of it")
        for it in files:
            shutil.copyfile(it, room / it.name)
        return room / files[0].name
    except OSError as error:
        raise connection.Trouble(f"{backup} cannot be read: {error}") from error


@contextlib.contextmanager
def opened(path: pathlib.Path) -> collections.abc.Iterator[Books]:
    """The books of a backup, or of the newest in a folder of backups."""
    backup = newest_in(path)
    with tempfile.TemporaryDirectory(prefix="office-") as room:
        with contextlib.closing(sqlite3.connect(copied(backup, pathlib.Path(room)))) as rows:
            try:
                check_schema(rows, backup)
                yield Books(rows, backup)
            except sqlite3.DatabaseError as error:
                raise connection.Trouble(f"{backup} cannot be read: {error}") from error


def check_schema(rows: sqlite3.Connection, path: pathlib.Path) -> None:
    rows.execute("PRAGMA query_only = 1")
    try:
        found = rows.execute("SELECT schema_no FROM office").fetchone()
    except sqlite3.OperationalError:
        found = None
    if found != (SCHEMA,):
        raise connection.Trouble(f"{path} is not the books of an office, or of another schema than {SCHEMA}")


@contextlib.contextmanager
def opened_all(paths: collections.abc.Iterable[pathlib.Path]) -> collections.abc.Iterator[dict[str, Books]]:
    """The books of the offices of a plant, by unit."""
    with contextlib.ExitStack() as stack:
        found: dict[str, Books] = {}
        for path in paths:
            books = stack.enter_context(opened(path))
            for unit in books.units():
                if unit.unit in found:
                    raise connection.Trouble(f"{unit.unit} is in {found[unit.unit].path} and in {books.path}")
                found[unit.unit] = books
        yield found
