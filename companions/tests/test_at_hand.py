"""The commands for one alarm, and `office who`, against the program."""

import json
import pathlib

import pytest

from companions import at_hand
from companions.tests.plant import Plant, office as typed
from companions.tests.test_handover import log_line

AT = "2026-03-01T10:00:00Z"


@pytest.fixture
def plant(office: Plant) -> Plant:
    office.open("U1")
    office.register("U1", "A", "B")
    return office


def run(plant: Plant, person: str, *words: object) -> tuple[int, str]:
    said = typed(*words, *plant.words(person, AT))
    return said.returncode, said.stdout


def state(plant: Plant, tag: str = "A") -> tuple[str, bool]:
    found = plant.call("vic", AT, f"/units/U1/alarms/{tag}")
    return found["shelf"], found["out_of_service"]


@pytest.mark.parametrize("text, seconds", [
    ("90", 90), ("45 min", 2_700), ("1,5 h", 5_400), ("1.5 h", 5_400), ("1 d 6 h", 108_000), ("7 d", 604_800), ("2h30min", 9_000),
    ("", None), ("0", None), ("8 d", None), ("1,5", None), ("-1 h", None), ("1 h x", None), ("0,0001 s", None), ("1 week", None),
])
def test_a_length_of_time(text: str, seconds: int | None) -> None:
    if seconds is None:
        with pytest.raises(ValueError):
            at_hand.seconds_of(text)
    else:
        assert at_hand.seconds_of(text) == seconds


def test_an_alarm_is_shelved_and_unshelved(plant: Plant) -> None:
    line = ("shelve", "A", "--unit", "U1", "--for", "0,5 h", "--why", "pump test")
    assert run(plant, "ann", *line, "--dry-run") == (0, "would: shelve A for 30 min: pump test\nwould be done 1, there already 0, refused 0\n")
    assert state(plant) == ("Unshelved", False)
    assert run(plant, "ann", *line) == (0, "done 1, there already 0, refused 0\n") and state(plant) == ("TimedShelved", False)
    assert run(plant, "ann", *line)[1] == "done 0, there already 1, refused 0\n"
    assert run(plant, "ann", "shelve", "B", "--unit", "U1", "--why", "wiring")[0] == 0 and state(plant, "B") == ("OneShotShelved", False)
    status, said = run(plant, "vic", "shelves")
    assert status == 0 and said.splitlines()[0] == f"U1       {'A':<24} timed    until 2026-03-01 10:30 by ann: pump test"
    assert said.endswith("2 shelves\n")
    assert run(plant, "ann", "unshelve", "A", "--unit", "U1", "--dry-run")[1].startswith("would: unshelve A\n")
    assert run(plant, "ann", "unshelve", "A", "--unit", "U1")[0] == 0 and state(plant) == ("Unshelved", False)
    assert run(plant, "ann", "unshelve", "A", "--unit", "U1")[1] == "done 0, there already 1, refused 0\n"
    status, said = run(plant, "ann", "shelve", "A", "--unit", "U1", "--for", "2 h", "--why", "x")
    assert status == 1 and "ShelvingTimeOutOfRange" in said


@pytest.mark.parametrize("why", ["", "   ", "d\u00fcse", "x" * 121])
def test_a_reason_is_wanted(plant: Plant, why: str) -> None:
    for line in ("shelve", "A", "--for", "60"), ("out", "A"):
        status, said = run(plant, "ann", *line, "--unit", "U1", "--why", why)
        assert status == 2 and "not blanks alone" in said and state(plant) == ("Unshelved", False)


def test_an_alarm_is_taken_out_of_service_and_back(plant: Plant) -> None:
    line = ("out", "A", "--unit", "U1", "--why", "valve")
    assert run(plant, "moe", *line, "--dry-run")[1].startswith("would: take A out of service: valve\n") and state(plant)[1] is False
    assert run(plant, "moe", *line)[0] == 0 and state(plant)[1] is True
    assert run(plant, "moe", *line)[1] == "done 0, there already 1, refused 0\n"
    status, said = run(plant, "vic", "show", "A", "--unit", "U1", "--backup", plant.copy("backup"))
    assert status == 0 and "service      out of service, since 2026-03-01 10:00 by moe: valve (backup of 2026-03-01 10:00)" in said
    assert "shelf        not shelved" in said and "priority     none: no record was approved" in said
    assert "not known (no backup and no line of an audit log has it)" in run(plant, "vic", "show", "A", "--unit", "U1")[1]
    assert run(plant, "moe", "back", "A", "--unit", "U1", "--dry-run")[1].startswith("would: place A in service\n")
    assert run(plant, "moe", "back", "A", "--unit", "U1")[0] == 0 and state(plant)[1] is False
    assert run(plant, "moe", "back", "A", "--unit", "U1")[1] == "done 0, there already 1, refused 0\n"
    status, said = run(plant, "ann", *line)
    assert status == 1 and "RoleLacking" in said
    assert run(plant, "vic", "show", "Z", "--unit", "U1")[0] == 1


def test_who_holds_which_role(plant: Plant, tmp_path: pathlib.Path) -> None:
    end = "2026-03-05T12:00:00Z"
    plant.call("ste", AT, "/units/U1/grants", {"person": "con", "role": "Viewer", "end": end})
    backup, log = plant.copy("20260301T100000Z"), tmp_path / "audit.log"
    said = typed("who", "--backup", backup, "--at", AT)
    assert said.returncode == 0 and said.stdout.splitlines() == [
        "by the backup of 2026-03-01 10:00: U1",
        "what was given and taken since is not known: name the audit log with --log",
        *(f"U1       {person:<32} {role:<10}" + (" until 2026-03-05 12:00" if person == "con" else "") for person, role in (
            ("amy", "Approver"), ("ann", "Operator"), ("con", "Viewer"), ("eve", "Engineer"), ("moe", "Maintainer"), ("ste", "Steward"),
            ("vic", "Viewer"))),
    ]
    later, grants, taken = "2026-03-01T11:00:00Z", "POST /units/U1/grants", "POST /units/U1/withdrawals"
    log.write_text(
        log_line("2026-03-01T09:00:00Z", "ste", grants, json.dumps({"person": "old", "role": "Viewer"}))
        + log_line(later, "ste", grants, json.dumps({"person": "tpyo", "role": "Approver"}))
        + log_line(later, "ste", taken, json.dumps({"person": "ann", "role": "Operator"}))
        + log_line(later, "ste", taken, json.dumps({"person": "amy", "role": "Approver"}), 409)
        + log_line(later, "ste", taken, json.dumps({"person": "vic", "role": "Viewer"}), 504)
    )
    said = typed("who", "--backup", backup, "--log", log, "--at", AT, "--units", "U1")
    people = [it.split()[1] for it in said.stdout.splitlines() if it.startswith("U1 ")]
    assert people == ["amy", "con", "eve", "moe", "ste", "tpyo", "vic"] and "and by the audit log to 2026-03-01 11:00.\n" in said.stdout
    assert said.stdout.splitlines()[-1] == "not known: withdrawals by ste at 2026-03-01 11:00 in U1, which had no answer"
    # what has ended is left out
    rows = typed("who", "--backup", backup, "--at", "2026-03-06T00:00:00Z", "--csv").stdout.splitlines()
    assert rows[:2] == ["unit,person,role,end", "U1,amy,Approver,"] and len(rows) == 7
    assert typed("who", "--backup", backup, "--units", "U9").returncode == 1 and typed("who").returncode == 2
