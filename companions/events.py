"""Files of events, and the pieces in which an office takes them.

The office judges each row: what cannot be mapped is sent as it stands, so that the line and the cause of a bad file are always the office's own. A
file has the office's columns (seq, moment, tag, event), or these among others, or under the names of a mapping:

    delimiter = ";"
    [columns]
    seq = "Number"
    moment = "Time"
    [values.event]
    "ALM" = "ACT"
    [moments]
    format = "%d.%m.%Y %H:%M:%S"     # as of Python's strptime, with a time of day; otherwise ISO 8601 to the second
    zone = "Europe/Berlin"           # otherwise UTC
    twice = "order"                  # the hour that comes twice is told by the order of the rows; otherwise by a column `offset`, as +02:00
    [skip]
    event = ["INFO", "OPERATOR"]     # rows that are left out
"""

import collections.abc
import csv
import dataclasses
import datetime
import functools
import itertools
import pathlib
import re
import typing
import zoneinfo

from companions import mappings, pages, sheets, values

COLUMNS = ("seq", "moment", "tag", "event")
OTHERS = ("unit", "offset")
HEADER = ",".join(COLUMNS).encode()
MARK = b"\xef\xbb\xbf"
# no row that the office takes is as long; of a longer one so much is sent
LONGEST_ROW = 1_000
# what has to be the same bytes in every encoding that a mapping names, as lines and fields are told apart by them
PLAIN = '\r\n,;\t"0'
# a moment in ISO 8601 with its time of day to the second: of a date or a week alone the time would be invented
ISO = re.compile(r"[0-9]{4}-?[0-9]{2}-?[0-9]{2}[T ][0-9]{2}:?[0-9]{2}:?[0-9]{2}([.,][0-9]+)?(Z|[+-][0-9]{2}(:?[0-9]{2})?)?")
TIMES_OF_DAY = ({"%c"}, {"%X"}, {"%H", "%M"}, {"%I", "%p", "%M"})


@dataclasses.dataclass(frozen=True)
class Row:
    """A row as the office takes it, the line of the file on which it begins, and what stands there if that is something else."""

    line: int
    text: bytes
    written: bytes | None = None

    @property
    def original(self) -> bytes:
        return self.text if self.written is None else self.written


@dataclasses.dataclass(frozen=True)
class Piece:
    """Rows that fit into one import."""

    rows: list[Row]

    def body(self) -> bytes:
        return b"\n".join([HEADER, *(it.text for it in self.rows), b""])


class BadHeader(Exception):
    """The columns of a file are not those of events."""


def pieces(rows: collections.abc.Iterable[Row]) -> collections.abc.Iterator[Piece]:
    """The rows in pieces of at most 10,000 rows and 1 MiB, in their order."""
    room = values.MAX_BODY - len(HEADER) - 1
    held: list[Row] = []
    size = 0
    for row in rows:
        if len(row.text) > LONGEST_ROW:
            row = Row(row.line, row.text[:LONGEST_ROW], row.original)
        if held and (len(held) == values.MAX_FILE_ROWS or size + len(row.text) + 1 > room):
            yield Piece(held)
            held, size = [], 0
        held.append(row)
        size += len(row.text) + 1
    if held:
        yield Piece(held)


class Lines:
    """Numbers the lines of a file that is given line feed by line feed. Blank ones are counted, and left out."""

    def __init__(self) -> None:
        self.line = 1

    def rows(self, blocks: collections.abc.Iterable[bytes]) -> collections.abc.Iterator[Row]:
        for block in blocks:
            for text in block.splitlines():
                if text:
                    yield Row(self.line, text)
                self.line += 1


OFFSET = re.compile(r"([+-])([0-9]{2}):?([0-9]{2})")
EARLY, LATE = 0, 1  # which of the two times is meant, in the hour through which a clock goes twice
NO_TIME = datetime.datetime.min
TURN = datetime.timedelta(minutes=10)  # so much at least a clock goes back in that hour; rows that are less out of order say nothing


@dataclasses.dataclass(frozen=True)
class Moments:
    """How a file writes moments. With `in_order` its rows stand in the order of time."""

    form: str | None = None
    zone: datetime.tzinfo = datetime.timezone.utc
    in_order: bool = False

    def text(self, written: str, fold: int | None = None, offset: str | None = None) -> str:
        """A moment as the office writes it; what is none stays as it is."""
        if self.form is None and offset is None and values.MOMENT.fullmatch(written):
            return written
        try:
            found = self.read(written)
            if offset is not None and found.tzinfo is None:
                found = found.replace(tzinfo=offset_of(offset))
            return values.text_of(found if found.tzinfo else self.in_zone(found, fold))
        except (ValueError, OverflowError):
            return written

    def read(self, written: str) -> datetime.datetime:
        if self.form is not None:
            return datetime.datetime.strptime(written, self.form)
        if not ISO.fullmatch(written):
            raise ValueError("no time of day")
        return datetime.datetime.fromisoformat(written)

    def in_zone(self, local: datetime.datetime, fold: int | None) -> datetime.datetime:
        """ValueError for a time that a clock leaps over, and for one of the hour that it goes through twice if nothing says which is meant."""
        early, late = (local.replace(tzinfo=self.zone, fold=it) for it in (EARLY, LATE))
        if early.utcoffset() == late.utcoffset():
            return early
        if fold is None or not self.comes_twice(local):
            raise ValueError("not one moment")
        return late if fold == LATE else early

    def comes_twice(self, local: datetime.datetime) -> bool:
        early, late = (local.replace(tzinfo=self.zone, fold=it).utcoffset() for it in (EARLY, LATE))
        return early is not None and late is not None and early > late

    def local_twice(self, written: str) -> datetime.datetime | None:
        """The local time of a moment that comes twice; None of any other."""
        try:
            found = self.read(written)
        except (ValueError, OverflowError):
            return None
        return found if found.tzinfo is None and self.comes_twice(found) else None


def offset_of(text: str) -> datetime.timezone:
    """The time zone of an offset as +02:00; ValueError if it is none."""
    found = OFFSET.fullmatch(text)
    if found is None:
        raise ValueError("not an offset")
    length = datetime.timedelta(hours=int(found[2]), minutes=int(found[3]))
    return datetime.timezone(-length if found[1] == "-" else length)


Item = typing.TypeVar("Item")


def folds(items: collections.abc.Iterable[tuple[Item, datetime.datetime | None]]) -> collections.abc.Iterator[tuple[Item, int | None]]:
    """Which of the two hours each item is in, whose local time is given if it comes twice, and NO_TIME if it has none. Items wait until the clock
    goes back among them, once: those before it are in the early hour, the others in the late one. Otherwise nothing says it."""
    held: list[tuple[Item, datetime.datetime]] = []
    for item, local in items:
        if local is NO_TIME:
            yield item, None
            continue
        if held and (local is None or local - held[0][1] > datetime.timedelta(days=1)):
            yield from settled(held)
            held = []
        if local is None:
            yield item, None
        else:
            held.append((item, local))
    yield from settled(held)


def settled(held: collections.abc.Sequence[tuple[Item, datetime.datetime]]) -> collections.abc.Iterator[tuple[Item, int | None]]:
    back = [at for at in range(1, len(held)) if held[at][1] < held[at - 1][1]]
    is_clear = len(back) == 1 and held[back[0] - 1][1] - held[back[0]][1] >= TURN
    for at, (item, _) in enumerate(held):
        yield item, None if not is_clear else EARLY if at < back[0] else LATE


def read_moments(path: pathlib.Path | None, members: object) -> Moments:
    if not isinstance(members, dict) or set(members) - {"format", "zone", "twice"} or not all(isinstance(it, str) for it in members.values()):
        raise sheets.Wrong(f"{path}: [moments] has format and zone and twice, and nothing else")
    if members.get("twice") not in (None, "order"):
        raise sheets.Wrong(f"{path}: the value of twice is 'order', for a file whose rows stand in the order of time")
    form = members.get("format")
    if form is not None and not any(it <= set(re.findall("%[A-Za-z]", form)) for it in TIMES_OF_DAY):
        raise sheets.Wrong(f"{path}: the format {form!r} has no time of day: an event needs its hour and minute")
    try:
        return Moments(form, zoneinfo.ZoneInfo(members.get("zone", "UTC")), "twice" in members)
    except (zoneinfo.ZoneInfoNotFoundError, ValueError, OSError) as error:
        raise sheets.Wrong(f"{path}: {members.get('zone')!r} is not the name of a time zone") from error


@dataclasses.dataclass(frozen=True)
class Columns:
    """Where the columns of a file stand, so that its lines become rows of the office; without `places` they are such rows already."""

    reader: "Reader"
    delimiter: str = ","
    width: int = len(COLUMNS)
    places: dict[str, int] | None = None

    def rows(self, lines: collections.abc.Iterable[Row]) -> collections.abc.Iterable[Row]:
        return lines if self.places is None else self.mapped(lines, self.places)

    def mapped(self, lines: collections.abc.Iterable[Row], places: dict[str, int]) -> collections.abc.Iterator[Row]:
        found, reader = self.fields_of(lines, places), self.reader
        if not reader.moments.in_order:
            for row, fields in found:
                yield reader.row(row, fields, places, None)
            return
        local = ((it, reader.moments.local_twice(it[1][places["moment"]]) if it[1] else NO_TIME) for it in found)
        for (row, fields), fold in folds(local):
            yield reader.row(row, fields, places, fold)

    def fields_of(self, lines: collections.abc.Iterable[Row], places: dict[str, int]) -> collections.abc.Iterator[tuple[Row, list[str]]]:
        """The lines that are wanted, with their fields; without any, a line that has another number of them."""
        mapping, unit_at, event_at = self.reader.mapping, places.get("unit"), places["event"]
        for row in lines:
            fields = [it.strip() for it in split(row.text.decode(mapping.encoding, "surrogateescape"), self.delimiter)]
            if not any(fields):
                continue
            if len(fields) != self.width:
                yield row, []
            elif unit_at is not None and mapping.meant("unit", fields[unit_at]) != self.reader.unit:
                continue
            elif fields[event_at] not in self.reader.skipped:
                yield row, fields


class Reader:
    """Reads the rows of one unit."""

    def __init__(self, unit: str, path: pathlib.Path | None = None) -> None:
        self.unit = unit
        self.mapping = mappings.read_mapping(path, (*COLUMNS, *OTHERS), ("moments", "skip"))
        if PLAIN.encode(self.mapping.encoding) != PLAIN.encode():
            raise sheets.Wrong(f"{path}: events are not read in {self.mapping.encoding}: save them as UTF-8")
        self.moments = read_moments(path, self.mapping.more.get("moments", {}))
        self.moment = functools.lru_cache(maxsize=4_096)(self.moments.text)
        self.skipped = read_skipped(path, self.mapping.more.get("skip", {}))

    def rows(self, blocks: collections.abc.Iterable[bytes]) -> collections.abc.Iterable[Row]:
        """The rows of a whole file."""
        lines = Lines().rows(blocks)
        head = next(lines, None)
        if head is None:
            raise BadHeader("the file is empty")
        return self.columns(head).rows(lines)

    def columns(self, head: Row) -> Columns:
        """The columns that the first line of a file names."""
        text = head.text.removeprefix(MARK)
        if text == HEADER and self.mapping == sheets.Mapping():
            return Columns(self)
        decoded = text.decode(self.mapping.encoding, "surrogateescape")
        delimiter = self.mapping.delimiter or sheets.delimiter_of(decoded)
        names = [" ".join(it.split()) for it in split(decoded, delimiter)]
        wanted = [it for it in (*COLUMNS, *OTHERS) if it != "offset" or it in self.mapping.columns]
        places = {it: names.index(self.mapping.header(it)) for it in wanted if self.mapping.header(it) in names}
        twice = [it for it in places if names.count(self.mapping.header(it)) > 1]
        if twice:
            raise BadHeader(f"the column {self.mapping.header(twice[0])!r} stands twice")
        lacking = [self.mapping.header(it) for it in (*COLUMNS, *sorted(set(self.mapping.columns) & set(OTHERS))) if it not in places]
        if lacking:
            # without the names that are there: the first line of a file that is none of events may be anything
            raise BadHeader(f"there is no column {', '.join(map(repr, lacking))} among the {len(names)} of the first line")
        return Columns(self, delimiter, len(names), places)

    def row(self, row: Row, fields: list[str], places: dict[str, int], fold: int | None) -> Row:
        """What the office is sent of a line. Of one that has another number of fields the office says FieldCount."""
        if not fields:
            return Row(row.line, b"-", row.text)
        texts = ",".join(map(quoted, self.texts(fields, places, fold)))
        return Row(row.line, texts.encode("utf-8", "surrogateescape"), row.text)

    def texts(self, fields: list[str], places: dict[str, int], fold: int | None) -> collections.abc.Iterator[str]:
        offset = self.mapping.meant("offset", fields[places["offset"]]) if "offset" in places else None
        for column in COLUMNS:
            text = self.mapping.meant(column, pages.bare(fields[places[column]]))
            yield self.moment(text, fold, offset) if column == "moment" else text


def read_skipped(path: pathlib.Path | None, members: object) -> frozenset[str]:
    """The kinds of events that are left out, as the file writes them."""
    if not isinstance(members, dict) or set(members) - {"event"}:
        raise sheets.Wrong(f"{path}: [skip] has event, and nothing else")
    found = members.get("event", [])
    if not isinstance(found, list) or not all(isinstance(it, str) for it in found):
        raise sheets.Wrong(f"{path}: the event of [skip] is a list of texts")
    return frozenset(found)


def split(text: str, delimiter: str) -> list[str]:
    """The fields of a line; one field where it is not well formed."""
    if '"' not in text:
        return text.split(delimiter)
    try:
        return next(csv.reader([text], delimiter=delimiter, strict=True), [text])
    except csv.Error:
        return [text]


def quoted(text: str) -> str:
    """A field that has a comma or a quote goes within quotes."""
    if "," in text or '"' in text:
        return '"' + text.replace('"', '""') + '"'
    return text


def count_pieces(rows: collections.abc.Iterable[Row]) -> tuple[int, int]:
    """How many rows there are, and how many pieces."""
    sizes = [len(it.rows) for it in pieces(rows)]
    return sum(sizes), len(sizes)


def chunks_of(opened_file: typing.BinaryIO) -> collections.abc.Iterator[bytes]:
    """What a file has, line feed by line feed, its end too if that has none."""
    yield from itertools.takewhile(bool, iter(opened_file.readline, b""))
