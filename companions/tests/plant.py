"""A plant for tests: the real program over a file of its own, and behind it the real proxy, on ports that are free."""

import contextlib
import dataclasses
import io
import json
import os
import pathlib
import shutil
import signal
import socket
import sqlite3
import subprocess
import sys
import time
import typing
import unittest.mock
import urllib.error
import urllib.request

from companions import main

TOP = pathlib.Path(__file__).resolve().parent.parent.parent
PROGRAM = os.path.abspath(os.environ.get("PROGRAM") or TOP / "out/shelfoffice")
DEPLOY = TOP / "examples/deploy"
MATRIX: dict[str, object] = {"bands": [300], "cells": [["P3", "P4"], ["P1", "P2"]]}
ROLES = {"eve": "Engineer", "ann": "Operator", "amy": "Approver", "moe": "Maintainer", "vic": "Viewer"}
LONGEST = 30.0


def free_port() -> int:
    with socket.socket() as tried:
        tried.bind(("127.0.0.1", 0))
        return int(tried.getsockname()[1])


def wait_for(what: str, is_there: typing.Callable[[], bool]) -> None:
    until = time.monotonic() + LONGEST
    while not is_there():
        assert time.monotonic() < until, f"{what}: not within {LONGEST:.0f} s"
        time.sleep(0.01)


def listens(port: int) -> bool:
    with socket.socket() as tried:
        return tried.connect_ex(("127.0.0.1", port)) == 0


class Plant:
    """An office of a plant. What runs ends with the test."""

    def __init__(self, folder: pathlib.Path) -> None:
        self.folder, self.port, self.proxy_port = folder, free_port(), free_port()
        self.office: subprocess.Popen[bytes] | None = None
        self.proxy: subprocess.Popen[bytes] | None = None
        folder.mkdir(parents=True, exist_ok=True)

    @property
    def file(self) -> pathlib.Path:
        return self.folder / "plant.db"

    def start(self) -> None:
        said = self.folder / "office.log"
        said.write_text("")
        words = [PROGRAM, "--admin", "root", "--db", str(self.file), "--port", str(self.port), "--forever"]
        with said.open("wb") as log:
            self.office = subprocess.Popen(words, stdout=log, stderr=log)
        wait_for(f"the office ({said})", lambda: "listening" in said.read_text())

    def kill(self) -> None:
        if self.office is not None:
            self.office.kill()
            self.office.wait()
            self.office = None

    def start_proxy(self) -> None:
        folder = self.folder / "proxy"
        if not folder.exists():
            subprocess.run([DEPLOY / "on-loopback", folder, "root", "ste", *ROLES], check=True)
            for name, usual, port in ("site", "8080", self.port), ("site.d/listen.conf", "8081", self.proxy_port):
                file = folder / name
                file.write_text(file.read_text().replace(usual, str(port)))
        words = ["nginx", "-c", str(folder / "nginx.conf"), "-e", str(folder / "error.log")]
        # a session of its own: nginx has a worker, which a kill has to reach, too
        self.proxy = subprocess.Popen(words, env=os.environ | {"TZ": "UTC"}, start_new_session=True)
        wait_for("the proxy", lambda: listens(self.proxy_port))

    def stop_proxy(self) -> None:
        if self.proxy is not None:
            self.proxy.terminate()
            self.proxy.wait()
            self.proxy = None

    def kill_proxy(self) -> None:
        if self.proxy is not None:
            os.killpg(self.proxy.pid, signal.SIGKILL)
            self.proxy.wait()
            self.proxy = None

    @property
    def url(self) -> str:
        return f"http://127.0.0.1:{self.proxy_port}"

    def stop(self) -> None:
        self.stop_proxy()
        self.kill()

    def call(self, person: str, moment: str, path: str, body: object = None) -> typing.Any:
        """What the office answers at its own port; a text is sent as it is."""
        raw = None if body is None else body.encode() if isinstance(body, str) else json.dumps(body).encode()
        asked = urllib.request.Request(f"http://127.0.0.1:{self.port}{path}", raw, {"X-Person": person, "X-Moment": moment})
        try:
            with urllib.request.urlopen(asked, timeout=LONGEST) as answer:
                text = answer.read().decode()
        except urllib.error.HTTPError as error:
            text = error.read().decode()
        return json.loads(text) if text.startswith("{") else text

    def open(self, *units: str, moment: str = "2026-03-01T08:00:00Z") -> None:
        """Opens units, in which each of the people has a role."""
        for unit in units:
            opening: dict[str, object] = {"steward": "ste", **MATRIX}
            assert self.call("root", moment, f"/units/{unit}", opening) == {"done": True}
            for person, role in ROLES.items():
                assert self.call("ste", moment, f"/units/{unit}/grants", {"person": person, "role": role}) == {"done": True}

    def register(self, unit: str, *tags: str, moment: str = "2026-03-01T08:00:00Z") -> None:
        for tag in tags:
            members = {"tag": tag, "latching": False, "max": 3600}
            assert self.call("eve", moment, f"/units/{unit}/alarms", members) == {"done": True}

    def words(self, person: str, at: str = "2026-03-01T10:00:00Z") -> list[str]:
        """The options by which a command speaks to the port."""
        return ["--url", f"http://127.0.0.1:{self.port}", "--as", person, "--at", at]

    def copy(self, name: str = "look") -> pathlib.Path:
        """A copy of both files in a folder of its own, with the office stopped meanwhile."""
        room = self.folder / name
        shutil.rmtree(room, ignore_errors=True)
        room.mkdir()
        if self.office is not None:
            self.office.send_signal(signal.SIGSTOP)
            time.sleep(0.05)
        for it in self.folder.glob("plant.db*"):
            if it.name in ("plant.db", "plant.db-wal"):
                shutil.copy(it, room)
        if self.office is not None:
            self.office.send_signal(signal.SIGCONT)
        return room

    def rows(self, text: str) -> list[tuple[typing.Any, ...]]:
        """What sqlite3 reads in a copy."""
        with contextlib.closing(sqlite3.connect(self.copy() / "plant.db")) as books:
            return books.execute(text).fetchall()

    def dump(self, *without: str) -> dict[str, list[tuple[typing.Any, ...]]]:
        """All rows of all tables, but for these columns."""
        with contextlib.closing(sqlite3.connect(self.copy() / "plant.db")) as books:
            tables = [it for it, in books.execute("SELECT name FROM sqlite_schema WHERE type = 'table' ORDER BY name")]
            found = {}
            for table in tables:
                columns = [it[1] for it in books.execute(f"PRAGMA table_info({table})") if it[1] not in without]
                found[table] = sorted(books.execute(f"SELECT {', '.join(columns)} FROM {table}").fetchall(), key=repr)
            return found


@dataclasses.dataclass(frozen=True)
class Typed:
    """How a command ended, and what it printed on both outputs."""

    returncode: int
    stdout: str


def office(*words: object, stdin: str = "", **settings: str) -> Typed:
    """Runs a command in this process."""
    plain = {key: it for key, it in os.environ.items() if not key.startswith("OFFICE_") and key != "NETRC"}
    said = io.StringIO()
    with unittest.mock.patch.dict(os.environ, plain | settings, clear=True), unittest.mock.patch("sys.stdin", io.StringIO(stdin)):
        with contextlib.redirect_stdout(said), contextlib.redirect_stderr(said):
            status = main.run([str(it) for it in words])
    return Typed(status, said.getvalue())


def command(*words: object) -> list[str]:
    return [sys.executable, "-B", "-c", f"import sys; sys.path.insert(0, {str(TOP)!r}); from companions.main import main; main()", *map(str, words)]


def signed_on(person: str) -> dict[str, str]:
    """The environment of a person whose name is the password."""
    return {"OFFICE_USER": person, "OFFICE_PASSWORD": person}
