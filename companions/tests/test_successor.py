"""`office full` and `office successor` against the program."""

import json
import random
import signal
import subprocess
import sys
import typing

import pytest

from companions import connection, successor, tally
from companions.calls import Office
from companions.backups import opened
from companions.tests import plant as plants
from companions.tests.plant import MATRIX, Plant, office as typed

AT = "2026-03-01T10:00:00Z"
LATER = "2026-03-01T10:30:00Z"
TYPISTS = ("root", "ste", "eve")
EVERYTHING = ("A", "C", "L", "amy", "ann", "con", "eve", "moe", "vic")
RECORD = {"kind": "record", "base": 0, "cause": "seal leak", "consequence": "loss", "action": "close", "severity": 2, "response": 120}


@pytest.fixture
def plant(office: Plant) -> Plant:
    return filled(office)


def filled(office: Plant) -> Plant:
    """A unit with something of every kind."""
    office.open("U1")
    for role in "Maintainer", "Operator":
        office.call("ste", AT, "/units/U1/grants", {"person": "eve", "role": role})
    office.call("ste", AT, "/units/U1/grants", {"person": "con", "role": "Viewer", "end": "2026-04-01T00:00:00Z"})
    office.call("ste", AT, "/units/U1/grants", {"person": "gone", "role": "Viewer", "end": "2026-03-01T10:10:00Z"})
    office.register("U1", "A", "B", "C", "D", moment=AT)
    assert office.call("eve", AT, "/units/U1/alarms", {"tag": "L", "latching": True, "max": 7200}) == {"done": True}
    office.register("U1", *(f"N{it}" for it in range(20)), moment=AT)
    matrix = {"kind": "matrix", "base": 0, "bands": [60, 600], "cells": [["P3", "P4", "N"], ["P1", "P2", "P3"]]}
    members = [matrix, *(RECORD | {"tag": it} for it in ("A", "B", "L")), RECORD | {"tag": "C", "severity": 1, "response": 60}]
    members += [{"kind": "limit", "base": 0, "tag": it, "max": 5400} for it in ("A", "D")]
    for number, it in enumerate(members, 1):
        assert office.call("eve", AT, "/units/U1/changes", it) == {"number": number}
        assert office.call("amy", AT, f"/units/U1/changes/{number}/approve", {}) == {"done": True}
    office.call("eve", AT, "/units/U1/changes", {"kind": "limit", "base": 0, "tag": "B", "max": 60})
    office.call("ann", AT, "/units/U1/imports", "seq,moment,tag,event\n1,2026-03-01T09:00:00Z,B,ACT\n2,2026-03-01T09:10:00Z,C,SUP\n")
    office.call("ann", AT, "/units/U1/alarms/A/timed-shelve", {"seconds": 5000, "words": "pump test"})
    office.call("ann", AT, "/units/U1/alarms/B/timed-shelve", {"seconds": 600, "words": "is over soon"})
    office.call("ann", AT, "/units/U1/alarms/C/one-shot-shelve", {"words": "wiring"})
    office.call("moe", AT, "/units/U1/alarms/L/remove-from-service", {"words": "valve"})
    return office


def succeed(plant: Plant, person: str, to: str = "U2", *words: object) -> tuple[int, list[str]]:
    said = typed("successor", "--from", plant.folder / "backup", "--unit", "U1", "--to", to, *words, *plant.words(person, LATER))
    return said.returncode, said.stdout.splitlines()


def of_unit(plant: Plant, unit: str) -> dict[str, list[tuple[object, ...]]]:
    """All rows of a unit, but for its code."""
    found = {}
    for table, rows in plant.dump().items():
        if table != "office":
            found[table] = [it[1:] for it in rows if it[0] == unit]
    return found


def notes_in(plant: Plant, unit: str) -> list[tuple[object, ...]]:
    """The notes of what was carried over."""
    text = "SELECT tag, consequence, remedy, state_no FROM changes WHERE unit = '%s' AND cause = 'carried over from U1' ORDER BY number"
    return plant.rows(text % unit)


def decisions(said: list[str]) -> list[str]:
    return [it.removeprefix("to decide: ") for it in said if it.startswith("to decide: ")]


def running(plant: Plant, unit: str, at: str = LATER) -> set[str]:
    """The alarms of a unit that are shelved or out of service."""
    rows = str(plant.call("vic", at, f"/units/{unit}/alarms")).splitlines()[1:]
    return {it.split()[0] for it in rows if it.split()[3].replace("D", "-") != "---"}


def test_a_successor_is_as_the_full_unit(plant: Plant) -> None:
    plant.copy("backup")
    before = plant.dump()
    counts = {}
    for person in TYPISTS:
        status, said = succeed(plant, person, "U2")
        assert status == 0, said
        counts[person] = next(it for it in said if it.startswith("done"))
    assert counts == {
        "root": "done 1, there already 0, refused 0",
        "ste": "done 8, there already 2, refused 0",
        # 25 alarms, the matrix, 4 records, the 2 limits that were approved, 2 shelves, and what is out of service
        "eve": "done 35, there already 1, refused 0",
    }
    old, new = of_unit(plant, "U1"), of_unit(plant, "U2")
    assert of_unit(plant, "U1") == {key: [it[1:] for it in rows if it[0] == "U1"] for key, rows in before.items() if key != "office"}
    assert new["grants"] == [it for it in old["grants"] if it[0] != "gone"]
    assert [it[:2] for it in new["alarms"]] == [it[:2] for it in old["alarms"]]
    limits = {typing.cast(str, it[0]): it[2] for it in new["alarms"]}
    assert (limits["A"], limits["D"], limits["B"], limits["L"]) == (3200, 60, 3600, 7200)
    assert [it[9:] for it in new["alarms"] if it[8] is not None] == [("eve", "valve")]
    # the same ends, words and kinds
    shelves = {typing.cast(str, it[0]): it[1:] for it in old["shelves"]}
    assert [(it[0], it[1], it[5]) for it in new["shelves"]] == [("A", 0, "pump test"), ("C", 1, "wiring")]
    assert new["shelves"][0][3] == shelves["A"][2]
    changes = plant.rows("SELECT kind_no, tag, max_s, severity, state_no FROM changes WHERE unit = 'U2' AND state_no != 4 ORDER BY number")
    assert changes == [
        (2, None, None, None, 1), (3, "A", 5400, None, 1), (1, "A", None, 2, 1), (1, "B", None, 2, 1), (1, "C", None, 1, 1),
        (3, "D", 5400, None, 1), (1, "L", None, 2, 1)]
    assert notes_in(plant, "U2") == [
        ("L", "out of service since 2026-03-01T10:00:00Z by moe", "valve", 4),
        ("A", "shelved since 2026-03-01T10:00:00Z by ann", "pump test", 4),
        ("C", "shelved since 2026-03-01T10:00:00Z by ann", "wiring", 4),
    ]
    # once all is approved limits, records and matrix are those of the full unit
    assert typed("approve", "--unit", "U2", "--all", "approve", *plant.words("amy", LATER)).returncode == 0
    for text in (
        "SELECT tag, max_s FROM alarms WHERE unit = '%s' ORDER BY tag",
        "SELECT r.tag, cell_no, cause, severity, response_s FROM records AS r JOIN changes AS c ON c.unit = r.unit AND number = change_no"
        " WHERE r.unit = '%s'",
        "SELECT severity, band_no, cell_no FROM cells WHERE unit = '%s' AND matrix_no = 1",
    ):
        assert sorted(plant.rows(text % "U2")) == sorted(plant.rows(text % "U1"))


def test_it_says_what_is_left_and_does_nothing_twice(plant: Plant) -> None:
    plant.copy("backup")
    status, said = succeed(plant, "root", "U2", "--dry-run")
    opens = "would: open U2 with the matrix in force, the quota 2000, and ste as its steward"
    assert said[:2] == [opens, "would be done 1, there already 0, refused 0"]
    assert plant.rows("SELECT count(*) FROM units") == [(1,)]
    others = "Steward (ste), Engineer (eve), an Engineer who is Operator and Maintainer of U2, too"
    assert said[3] == f"the others who type this line, in this order: {others}"
    for person in TYPISTS:
        status, said = succeed(plant, person)
    assert decisions(said) == [
        "change 8 of U1, limit of B, by eve, waits there: decide it, and propose it anew in U2 if it is wanted",
        "L: out of service in U1 since 2026-03-01 10:00 by moe; in U2 since now",
        "A: ann shelved it in U1, until 2026-03-01 11:23; in U2 it is shelved by whoever carries it over",
        "C: ann shelved it in U1, its limit begins anew; in U2 it is shelved by whoever carries it over",
        "B: stands in U1 since 2026-03-01 09:00; U2 learns of it by its next event",
        "C: suppressed by design in U1; U2 learns of it by its next event",
        "1 grant of U1 that ended are not granted in U2",
        "send the events of the control system to U2 from now on, and take the roles in U1 once nobody needs it",
    ]
    assert "the others who type this line, in this order: Steward (ste)" in said
    first = plant.dump()
    for person in (*TYPISTS[1:], "moe", "ann"):
        status, said = succeed(plant, person)
        assert status == 0 and next(it for it in said if it.startswith("done")).startswith("done 0, "), said
    assert plant.dump() == first
    assert succeed(plant, "root")[1][0] == "done 0, there already 1, refused 0"


def test_who_may_not_open_it_is_refused(plant: Plant) -> None:
    plant.copy("backup")
    status, said = succeed(plant, "ann")
    assert status == 1 and "NotAdministrator" in "".join(said)
    said = typed("successor", "--from", plant.folder / "backup", "--unit", "U7", "--to", "U2", *plant.words("root")).stdout.splitlines()
    assert said[-1].endswith("has no unit U7")
    assert succeed(plant, "root", "U1")[0] == 2


class Kill(BaseException):
    """Stands for a kill."""


def run_until(plant: Plant, person: str, to: str, steps: int | None, again: tuple[str, ...] = ()) -> int:
    """The part of a person, killed before its step of this number: a call that is sent, or one that was answered. How many steps it has, 0 if it was
    killed."""
    made = 0
    target = connection.Target(f"http://127.0.0.1:{plant.port}", person, LATER)
    with opened(plant.folder / "backup") as books:
        old = successor.read_old(books, "U1")
    with Office(target) as office, pytest.MonkeyPatch.context() as patch:
        send = office.link.send

        def step() -> None:
            nonlocal made
            if made == steps:
                raise Kill
            made += 1

        def killed_send(method: str, path: str, body: bytes | None) -> str | connection.Missing:
            step()
            answer = send(method, path, body)
            step()
            return answer

        patch.setattr(office.link, "send", killed_send)
        try:
            with tally.Tally() as count:
                successor.Succession(office, old, to, count, again).make("ste")
        except Kill:
            return 0
    return made


def test_killed_at_any_step_it_ends_in_the_books_of_one_clean_run(plant: Plant) -> None:
    plant.copy("backup")
    for person in TYPISTS:
        assert run_until(plant, person, "CLEAN", None)
    chosen = random.Random(1)
    for number in range(4):
        unit, kills = f"K{number}", 0
        for person in TYPISTS:
            again: tuple[str, ...] = ()
            while not run_until(plant, person, unit, chosen.randrange(4, 60) if kills < 12 else None, again):
                # at what it was killed only a person knows: here everything is meant
                kills, again = kills + 1, EVERYTHING
        assert kills > 2
        assert of_unit(plant, unit) == of_unit(plant, "CLEAN")


def test_grants_that_were_stopped_are_finished_when_the_line_is_typed_again(plant: Plant) -> None:
    plant.copy("backup")
    for person in TYPISTS[:2]:
        assert run_until(plant, person, "CLEAN", None)
    wanted, numbers = of_unit(plant, "CLEAN")["grants"], set[int]()
    for steps in range(4, 48, 3):
        unit = f"G{steps}"
        assert run_until(plant, "root", unit, None) and not run_until(plant, "ste", unit, steps)
        numbers.add(len(of_unit(plant, unit)["grants"]))
        assert run_until(plant, "ste", unit, None)
        assert of_unit(plant, unit)["grants"] == wanted, f"killed at step {steps}"
    # the kills met every stage, from the opening to the last grant
    assert {1, 3, 5, 7, len(wanted)} <= numbers


def test_a_role_that_was_taken_after_all_were_granted_stays_taken(plant: Plant) -> None:
    plant.copy("backup")
    for person in TYPISTS[:2]:
        assert run_until(plant, person, "U2", None)
    assert plant.call("ste", LATER, "/units/U2/withdrawals", {"person": "ann", "role": "Operator"}) == {"done": True}
    status, said = succeed(plant, "ste")
    assert status == 0 and "ann: not Operator in U2, where roles were granted before; --again ann grants it" in decisions(said)
    assert plant.rows("SELECT count(*) FROM grants WHERE unit = 'U2' AND person IN ('ann', 'successor.u1')") == [(0,)]


def test_the_command_itself_is_killed(plant: Plant) -> None:
    plant.copy("backup")
    chosen, kills = random.Random(2), 0
    for person in TYPISTS:
        words = plants.command("successor", "--from", plant.folder / "backup", "--unit", "U1", "--to", "KILLED", *plant.words(person, LATER))
        again: list[str] = []
        while True:
            process = subprocess.Popen([*words, *again], stdout=subprocess.DEVNULL)
            try:
                assert process.wait(0.3 + 0.7 * chosen.random() if kills < 12 else None) == 0
                break
            except subprocess.TimeoutExpired:
                process.send_signal(signal.SIGKILL)
                process.wait()
                kills, again = kills + 1, [word for it in EVERYTHING for word in ("--again", it)]
        assert succeed(plant, person, "CLEAN")[0] == 0
    assert kills and of_unit(plant, "KILLED") == of_unit(plant, "CLEAN")


def test_how_full_each_unit_is(plant: Plant) -> None:
    plant.open("V1", moment="2026-03-01T10:00:00Z")
    plant.register("V1", "A", moment=AT)
    rows = "".join(f"{it},2026-02-{1 + it // 40:02}T08:{it % 40:02}:00Z,A,ACT\n" for it in range(1, 401))
    assert plant.call("ann", AT, "/units/V1/imports", "seq,moment,tag,event\n" + rows)["new"] == 400
    backup = plant.copy("backup")
    said = typed("full", backup)
    assert said.returncode == 0 and f"by the backup of 2026-03-01 10:00 UTC, {backup}" in said.stdout
    assert "25 (1 %)" in said.stdout and "10 (2 %)" in said.stdout and "full 2045-04-22" in said.stdout
    found = json.loads(typed("full", backup, "--json").stdout)
    assert [(it["what"], it["count"], it["most"]) for it in found["U1"]] == [
        ("alarms", 25, 2000), ("grants", 10, 500), ("changes", 8, 20000), ("events", 2, 100000)]
    events = found["V1"][3]
    # 400 events in the 28.1 days since the first one: 99,600 more take 6,993 days
    assert (events["count"], events["a_day"], events["full"]) == (400, 14.2, "2045-04-22")
    assert typed("full", backup, "--warn", "1").returncode == 1


def test_the_newest_of_a_folder_of_backups_is_read_if_it_is_whole(plant: Plant) -> None:
    folder = plant.folder / "backups"
    folder.mkdir()
    for name in "20260301T030000Z", "20260302T030000Z":
        plant.copy(f"backups/{name}")
        subprocess.run("sha256sum plant.db plant.db-wal >SHA256SUMS", shell=True, cwd=folder / name, check=True)
        plant.open("Z" + name[7])
    said = typed("full", folder)
    assert "2026-03-02 03:00" in said.stdout and "Z1" in said.stdout and "Z2" not in said.stdout
    with (folder / "20260302T030000Z/plant.db-wal").open("ab") as log:
        log.write(b"x")
    said = typed("full", folder)
    assert said.returncode == 1 and "plant.db-wal is not what was backed up: take another backup" in said.stdout
    assert typed("full", folder / "20260301T030000Z").returncode == 0
    (folder / "20260302T030000Z/SHA256SUMS").write_bytes(b"")
    said = typed("full", folder)
    assert said.returncode == 1 and "SHA256SUMS is empty: take another backup" in said.stdout
    # a folder whose name is no moment is none of them
    (folder / "20260399T030000Z").mkdir()
    (folder / "20260302T030000Z").rename(folder / "aside")
    assert "2026-03-01 03:00" in typed("full", folder).stdout


def test_what_the_offices_own_backup_makes_is_read(plant: Plant) -> None:
    folder = plant.folder / "backups"
    folder.mkdir()
    assert plant.office is not None
    words = [str(it) for it in (plants.DEPLOY / "backup", "--pid", plant.office.pid, "--file", plant.file, folder)]
    made = subprocess.run(words, capture_output=True, text=True, check=True).stdout.splitlines()[0]
    said = typed("full", folder)
    assert said.returncode == 0 and made in said.stdout and "25 (1 %)" in said.stdout, said.stdout
    # of what was called since the backup knows nothing
    plant.register("U1", "LATE", moment=LATER)
    assert "25 (1 %)" in typed("full", folder).stdout


HOLD = """
import fcntl, sys, time
file = open(sys.argv[1], "r+b")
fcntl.lockf(file, fcntl.LOCK_EX, 510, 0x40000002)
print("held", flush=True)
time.sleep(60)
"""


def test_a_file_that_is_locked_is_not_read(plant: Plant) -> None:
    backup = plant.copy("backup")
    holder = subprocess.Popen([sys.executable, "-c", HOLD, backup / "plant.db"], stdout=subprocess.PIPE, text=True)
    try:
        assert holder.stdout is not None and holder.stdout.readline() == "held\n"
        said = typed("full", backup)
        assert said.returncode == 1 and "is open in an office: name a backup of it" in said.stdout
    finally:
        holder.kill()
        holder.wait()
    assert typed("full", backup).returncode == 0


def test_matrix_is_that_of_the_opening_if_none_was_approved(office: Plant) -> None:
    office.open("U1")
    with opened(office.copy("backup")) as books:
        assert books.matrix("U1").members() == MATRIX
