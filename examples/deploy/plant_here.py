"""A plant for a test: the package in a root of its own, nginx before several offices, and people whose names are their passwords.

What runs in it is a script's `main`, which `run_in_own_root` calls there. scripts/systemctl stands in for systemd.
"""

import base64
import contextlib
import datetime
import http.client
import json
import os
import pathlib
import re
import shutil
import sqlite3
import subprocess
import sys
import tempfile
import threading
import time

TOP = pathlib.Path(__file__).resolve().parent.parent.parent
sys.path.append(str(TOP / "packaging"))
import own_root  # noqa: E402

BOOKS, SETTINGS = pathlib.Path("/var/lib/shelfoffice"), pathlib.Path("/etc/shelfoffice")
TOOLS = pathlib.Path("/usr/lib/shelfoffice")
OPENING = {"steward": "ste", "bands": [300], "cells": [["P3", "P4"], ["P1", "P2"]]}
DONE = (200, b'{"done":true}')


def check(holds, words):
    if not holds:
        sys.exit(f"WRONG: {words}")


def run(*words, status=0, **how):
    """What a command prints on both outputs; it has to end with this status, if one is given."""
    done = subprocess.run([str(it) for it in words], stdin=subprocess.DEVNULL, stdout=subprocess.PIPE, stderr=subprocess.STDOUT, text=True, **how)
    check(status is None or done.returncode == status, f"{' '.join(map(str, words))}: status {done.returncode}\n{done.stdout}")
    return done.stdout


def run_in_own_root(script, program, main, words, **how):
    """Builds the package, and runs main(*words) where it can be installed. Whoever calls it is called once more, with --inside, which gives how that ended."""
    if words[:1] == ["--inside"]:
        room = pathlib.Path(words[1])
        (room / "root").mkdir()
        own_root.enter(room / "root")
        try:
            main(room, *words[2:])
        finally:
            for unit in pathlib.Path("/run/stand-in").glob("*.json"):
                subprocess.run(["systemctl", "stop", unit.stem], check=False)
            subprocess.run(["systemctl", "stop", "nginx"], check=False)
        return 0
    missing = [it for it in ("nginx", "dh", "sqlite3", "jq", "curl") if not shutil.which(it)] + ["root"] * (os.geteuid() != 0)
    check(not missing, f"it needs {', '.join(missing)}")
    with tempfile.TemporaryDirectory() as name:
        room = pathlib.Path(name)
        room.chmod(0o755)
        run(TOP / "packaging/build", "--out", room, program)
        return own_root.again(script, "--inside", room, *words, **how)


def install(room, people, connections=4096):
    """The package, its site, and people who may sign on."""
    run("dpkg", "-i", *room.glob("*.deb"))
    (SETTINGS / "users").write_text("".join(f"{it}:{{PLAIN}}{it}\n" for it in people))
    with open(SETTINGS / "persons", "a") as persons:
        persons.writelines(f"{it} {it};\n" for it in people)
    config = pathlib.Path("/etc/nginx/nginx.conf")
    text = config.read_text().replace("worker_processes auto", "worker_processes 1").replace("worker_connections 768", f"worker_connections {connections}")
    check("worker_processes 1;" in text and f"worker_connections {connections};" in text, "nginx.conf is another one than Debian's")
    config.write_text(text)
    for it in pathlib.Path("/etc/nginx/sites-enabled").iterdir():
        it.unlink()
    pathlib.Path("/etc/nginx/sites-enabled/shelfoffice").symlink_to("../sites-available/shelfoffice")


def add_office(name, port, upstream=None, admin="root"):
    """The settings of an office, its upstream and its address; it does not start yet."""
    (SETTINGS / f"{name}.conf").write_text(f"ADMIN={admin}\nPORT={port}\nCLIENTS=256\n")
    with open(SETTINGS / "offices", "a") as offices:
        offices.write(f"{name} {upstream or name};\n")
    if upstream is None:
        with open(SETTINGS / "upstreams", "a") as upstreams:
            upstreams.write(f"upstream {name} {{ server 127.0.0.1:{port}; keepalive 16; keepalive_timeout 20s; }}\n")


def start(name):
    run("systemctl", "enable", "--now", f"shelfoffice@{name}")


def pid_of(name):
    return int(run("systemctl", "show", "--property=MainPID", "--value", f"shelfoffice@{name}"))


def at_port(port, person, path, body=None, moment=None):
    """The answer of an office at its own port, now or at another moment."""
    moment = moment or datetime.datetime.now(datetime.timezone.utc).strftime("%Y-%m-%dT%H:%M:%SZ")
    connection = http.client.HTTPConnection("127.0.0.1", port, timeout=60)
    connection.request("GET" if body is None else "POST", path, body and json.dumps(body), {"X-Person": person, "X-Moment": moment})
    answer = connection.getresponse()
    return answer.status, answer.read()


class Person:
    """Someone with a connection to the proxy."""

    def __init__(self, name, port=8081):
        self.name, self.port, self.connection, self.head = name, port, None, {}
        self.fields = {"Authorization": "Basic " + base64.b64encode(f"{name}:{name}".encode()).decode()}

    def call(self, path, body=None):
        """The status and the body of the answer; 0 if the connection ended without one."""
        body = json.dumps(body) if isinstance(body, dict) else body
        try:
            if self.connection is None:
                self.connection = http.client.HTTPConnection("127.0.0.1", self.port, timeout=120)
            self.connection.request("GET" if body is None else "POST", path, body, self.fields)
            answer = self.connection.getresponse()
            self.head = answer.headers
            text = answer.read()
        except (OSError, http.client.HTTPException):
            self.connection = None
            return 0, b""
        return answer.status, text

    def done(self, path, body):
        found = self.call(path, body)
        check(found[0] == 200, f"{self.name} {path}: {found}")
        return found[1]


def fill(units, alarms):
    """Opens units through the proxy, each with two stewards, an operator, an engineer and alarms AL-0000 and on."""
    root, ste, eve = map(Person, ("root", "ste", "eve"))
    for unit in units:
        root.done(f"/units/{unit}", OPENING)
        for person, role in ("sue", "Steward"), ("eve", "Engineer"), ("ann", "Operator"):
            ste.done(f"/units/{unit}/grants", {"person": person, "role": role})
        for number in range(alarms):
            eve.done(f"/units/{unit}/alarms", {"tag": f"AL-{number:04}", "latching": False, "max": 86400})


def until_it_answers(port, path="/board/"):
    for _ in range(200):
        try:
            connection = http.client.HTTPConnection("127.0.0.1", port, timeout=5)
            connection.request("GET", path)
            connection.getresponse().read()
            return
        except (OSError, http.client.HTTPException):
            time.sleep(0.05)
    check(False, f"nothing answers at {port}")


class Client(threading.Thread):
    """Shelves, unshelves and proposes in one unit until it is ended."""

    numbers = iter(range(1, 600_000))

    def __init__(self, unit):
        super().__init__()
        self.unit, self.is_ended, self.first = unit, False, next(self.numbers)
        self.ann, self.eve = Person("ann"), Person("eve")
        # proposals: confirmed; refused by 503; sent on a connection that ended without an answer; answered 502 or 504
        self.confirmed, self.refused, self.ended, self.unsure, self.wrong = [], [], [], [], []
        self.shelf, self.turn = "", 0  # the words of the shelf that stands, if they are known

    def try_once(self, person, path, body):
        """The list in which a call goes."""
        status, text = person.call(f"/units/{self.unit}/{path}", body)
        if status == 503:
            if person.head.get("Retry-After") != "2" or b"fault" in text:
                self.wrong.append((path, status, text))
            return self.refused
        if status in (0, 502, 504):
            return self.unsure if status else self.ended
        if status != 200:
            self.wrong.append((path, status, text))
        return self.confirmed

    def run(self):
        self.ann.call(f"/units/{self.unit}/alarms/AL-0000/unshelve", "")
        while not self.is_ended:
            number = next(self.numbers)
            said = self.try_once(self.eve, "changes", {"kind": "limit", "base": 0, "tag": "AL-0001", "max": number})
            said.append(number)
            if said is self.confirmed:
                said = self.shelve(f"call {number}")
            time.sleep(0.005 if said is self.confirmed else 0.05)

    def shelve(self, words):
        """One way of shelving after the other, since the same way again is refused."""
        path, body = [("one-shot-shelve", {"words": words}), ("timed-shelve", {"seconds": 3600, "words": words})][self.turn]
        said = self.try_once(self.ann, f"alarms/AL-0000/{path}", body)
        if said is self.confirmed:
            self.shelf, self.turn = words, 1 - self.turn
        else:
            said.append(words)
        if said is self.ended or said is self.unsure:
            self.settle(words)
        return said

    def settle(self, words):
        """Asks which shelf stands, after a call without an answer: the one before, or this one."""
        while not self.is_ended:
            status, text = self.ann.call(f"/units/{self.unit}/shelves")
            if status == 503:
                self.refused.append("shelves")
            if status == 200:
                if re.search(rf"{words}$", text.decode(), re.M):
                    self.shelf, self.turn = words, 1 - self.turn
                return
            time.sleep(0.05)
        self.shelf = None


@contextlib.contextmanager
def clients(*units):
    """Clients, one in each of these units, that call until the end."""
    found = [Client(it) for it in units]
    for it in found:
        it.start()
    try:
        time.sleep(0.3)
        yield found
        time.sleep(0.3)
    finally:
        for it in found:
            it.is_ended = True
        for it in found:
            it.join()


def proposals(name, file=None):
    """The proposals of each unit in the books of an office that runs, by a backup; or in a file that nobody has open."""
    copies = pathlib.Path("/var/looks")
    shutil.rmtree(copies, ignore_errors=True)
    copies.mkdir()
    if file is None:
        copy = pathlib.Path(run(TOOLS / "backup", "--office", name, copies).splitlines()[0]) / "plant.db"
    else:
        copy = copies / file.name
        for it in file.parent.glob(f"{file.name}*"):
            shutil.copy(it, copies)
    with contextlib.closing(sqlite3.connect(copy)) as books:
        found = {}
        for unit, most in books.execute("SELECT unit, max_s FROM changes"):
            found.setdefault(unit, []).append(most)
        return found


def check_client(client, there, case, stays=False):
    """What was confirmed to a client has to stand once, and nothing that was not; `there` are the proposals of its unit."""
    name = f"{case}: {client.unit}"
    there = [it for it in there if it >= client.first]
    check(not client.wrong, f"{name}: {client.wrong[:3]}")
    check(not stays or not client.refused, f"{name}, which stays, was refused {len(client.refused)} calls")
    check(len(client.confirmed) > 5, f"{name} had {len(client.confirmed)} calls confirmed: nothing was tried")
    check(len(there) == len(set(there)), f"{name} has a proposal twice")
    lost = set(client.confirmed) - set(there)
    check(not lost, f"{name} has lost {len(lost)} of {len(client.confirmed)} confirmed proposals, as {min(lost, default=0)}")
    # also not of those that were sent as nginx closed a kept connection, to take its new lines
    more = set(there) - set(client.confirmed) - set(client.unsure)
    check(not more, f"{name} has {len(more)} proposals that were not confirmed, as {min(more, default=0)}; {len(more & set(client.ended))} had no answer")
    if client.shelf is not None:
        shelves = Person("ann").done(f"/units/{client.unit}/shelves", None).decode()
        check(re.search(rf"{client.shelf}$", shelves, re.M), f"{name} is not shelved as in {client.shelf!r}: {shelves}")


def count_of(found, *lists):
    return [sum(len(getattr(it, name)) for it in found) for name in lists]


def units_of(port, person):
    return {it["unit"] for it in json.loads(at_port(port, person, "/units")[1])["units"]}


def stub_curl():
    """A curl that takes each name as its password, which nobody is there to type."""
    stubs = pathlib.Path("/tmp/stubs")
    stubs.mkdir()
    (stubs / "curl").write_text(
        '#!/bin/bash\nfor word; do shift; [ "$before" = -u ] && word=$word:$word; before=$word; set -- "$@" "$word"; done; exec /usr/bin/curl "$@"\n'
    )
    (stubs / "curl").chmod(0o755)
    os.environ["PATH"] = f"{stubs}:{os.environ['PATH']}"


def merged(person, what, *offices, status=0):
    return run(TOOLS / "merge-lists", person, what, *offices, status=status)
