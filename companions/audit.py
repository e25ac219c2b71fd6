"""The audit log of the proxy: a JSON object for each call, in files that logrotate sets aside and compresses."""

import collections.abc
import dataclasses
import datetime
import gzip
import json
import pathlib
import re
import typing
import zlib

from companions import connection, values

CURRENT = "audit.log"
NAME = re.compile(re.escape(CURRENT) + "(-.*)?")
MEMBERS = ("moment", "person", "request", "body", "status", "office")
REFUSED = (403, 409)


@dataclasses.dataclass(frozen=True)
class Call:
    """A call as the log has it. `answer` is the status of the office's answer, None if the office did not see the call or gave none."""

    moment: datetime.datetime
    person: str
    method: str
    path: tuple[str, ...]
    body: dict[str, typing.Any]
    status: int
    answer: int | None

    @property
    def is_done(self) -> bool:
        return self.status == 200 and self.answer == 200

    @property
    def is_refused(self) -> bool:
        return self.status in REFUSED and self.answer == self.status

    @property
    def is_open(self) -> bool:
        """Whether the log leaves open if the call was made."""
        return self.method == "POST" and self.status in (502, 503, 504) and self.answer is not None

    def unit(self) -> str:
        return self.path[1] if len(self.path) > 1 and self.path[0] == "units" else ""

    def kind(self) -> str:
        """The last word of its path that is not a name of something: `timed-shelve`, `grants`, `alarms`."""
        if self.path[:1] == ("units",) and len(self.path) == 2:
            return "open"
        if self.path[2:3] == ("changes",) and len(self.path) == 5:
            return self.path[4]
        if self.path[2:3] == ("alarms",) and len(self.path) == 5:
            return self.path[4]
        return self.path[2] if len(self.path) > 2 else self.path[-1] if self.path else ""

    def tag(self) -> str:
        return self.path[3] if self.path[2:3] == ("alarms",) and len(self.path) > 3 else ""


@dataclasses.dataclass(frozen=True)
class Log:
    """The calls of a log in the order of their moments, how many lines could not be read, and the moment of the last line, also of one that only
    reads."""

    calls: list[Call]
    damaged: int
    until: datetime.datetime | None = None

    def begin(self) -> datetime.datetime | None:
        return self.calls[0].moment if self.calls else None

    def end(self) -> datetime.datetime | None:
        return self.calls[-1].moment if self.calls else None


def files_in(path: pathlib.Path) -> list[pathlib.Path]:
    """The files of a log, the oldest first: those of a folder, or the one."""
    if not path.is_dir():
        return [path]
    return sorted((it for it in path.iterdir() if NAME.fullmatch(it.name) and it.is_file()), key=lambda it: (it.name == CURRENT, it.name))


def lines_in(path: pathlib.Path) -> collections.abc.Iterator[bytes]:
    """The lines of a file, as far as it can be read."""
    with gzip.open(path, "rb") if path.name.endswith(".gz") else path.open("rb") as opened_file:
        try:
            # each line of the log follows a line feed of its own
            yield from (it for it in opened_file if it.strip())
        except (EOFError, zlib.error, gzip.BadGzipFile):
            # what is cut off counts as a damaged line
            yield b"cut off"


def read_line(line: bytes) -> Call | None:
    """The call of a line; None if the line is damaged."""
    try:
        said = json.loads(line.decode(errors="replace"))
        moment, person, request, body, status, office = (said[it] for it in MEMBERS)
        method, _, target = request.partition(" ")
        members = json.loads(body) if method == "POST" and body.startswith("{") else {}
    except (ValueError, KeyError, TypeError, AttributeError, RecursionError):
        return read_bare(line)
    try:
        path = tuple(target.split("/")[1:]) if target.startswith("/") else (target,)
        answer = int(office) if str(office).isdigit() else None
        return Call(values.moment_of(moment), person, method, path, members if isinstance(members, dict) else {}, int(status), answer)
    except (ValueError, TypeError):
        return None


def read_bare(line: bytes) -> Call | None:
    """A call whose body is not JSON, which the office has answered BadBody, so that nothing was changed."""
    try:
        said = json.loads(line.decode(errors="replace"))
        return read_line(json.dumps(said | {"body": ""}).encode()) if said.get("body") else None
    except (ValueError, TypeError, AttributeError, RecursionError):
        return None


def read_log(paths: collections.abc.Iterable[pathlib.Path]) -> Log:
    """The whole log, of files and folders."""
    found: list[Call] = []
    damaged = 0
    until: datetime.datetime | None = None
    for path in paths:
        for file in files_in(path):
            try:
                for line in lines_in(file):
                    call = read_line(line)
                    damaged += call is None
                    if call is not None and (until is None or call.moment > until):
                        until = call.moment
                    # a call that only reads and was answered says nothing that a report has
                    if call is not None and (call.method == "POST" or call.is_refused):
                        found.append(call)
            except OSError as error:
                raise connection.Trouble(f"{file}: {error.strerror or error}") from error
    found.sort(key=lambda it: it.moment)
    return Log(found, damaged, until)
