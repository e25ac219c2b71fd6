"""`office load` against the program."""

import pathlib

import pytest

from companions.tests.plant import Plant, office as typed

HEADER = "tag,latching,limit,cause,consequence,action,severity,response\n"
LT, TT = "LT-2,yes,86400,,,,,\n", "TT-3,no,600,fouling,hot outlet,open bypass,1,900\n"
FILE = HEADER + "PT-101,no,3600,seal leak,loss of pressure,close XV-7,2,120\n" + LT + TT


@pytest.fixture
def plant(office: Plant) -> Plant:
    office.open("U1")
    return office


def load(plant: Plant, text: str, *words: str, person: str = "eve", at: str = "2026-03-01T10:00:00Z") -> tuple[int, list[str]]:
    path = plant.folder / "alarms.csv"
    path.write_text(text)
    said = typed("load", path, "--unit", "U1", *words, *plant.words(person, at))
    return said.returncode, said.stdout.splitlines()


def test_a_file_is_registered_and_proposed_once(plant: Plant) -> None:
    assert load(plant, FILE, "--check")[0] == 1
    assert load(plant, FILE, "--dry-run") == (0, [
        "would: line 2: register PT-101, limit 3600 s",
        "would: line 3: register LT-2, limit 86400 s, latching",
        "would: line 4: register TT-3, limit 600 s",
        "would: line 2: propose record of PT-101: none in force",
        "would: line 4: propose record of TT-3: none in force",
        "would be done 5, there already 0, refused 0",
    ])
    assert plant.rows("SELECT count(*) FROM alarms") == [(0,)]
    assert load(plant, FILE) == (0, ["done 5, there already 0, refused 0"])
    first = plant.dump()
    assert load(plant, FILE) == (0, ["done 0, there already 5, refused 0"])
    assert plant.dump() == first
    assert plant.rows("SELECT tag, latching, max_s FROM alarms ORDER BY tag") == [("LT-2", 1, 86400), ("PT-101", 0, 3600), ("TT-3", 0, 600)]
    assert plant.rows("SELECT tag, cause, severity, response_s, base, proposer FROM changes ORDER BY number") == [
        ("PT-101", "seal leak", 2, 120, 0, "eve"),
        ("TT-3", "fouling", 1, 900, 0, "eve"),
    ]


def test_check_says_what_differs(plant: Plant) -> None:
    load(plant, FILE)
    for number in 1, 2:
        plant.call("amy", "2026-03-01T10:00:00Z", f"/units/U1/changes/{number}/approve", {})
    assert load(plant, FILE, "--check") == (0, ["3 alarms in alarms.csv: as in the office"])
    other = HEADER + "PT-101,no,1800,seal leak,loss of pressure,close XV-8,3,120\n" + TT.replace("no", "yes") + "FT-4,no,60,,,,,\n"
    assert load(plant, other, "--check", "--backup", str(plant.copy("backup"))) == (1, [
        "line 4: FT-4 is not in the office",
        "line 2: limit of PT-101: 3600 s, by the file 1800 s",
        "line 2: record of PT-101: action 'close XV-7', by the file 'close XV-8'; severity 2, by the file 3",
        "TT-3 latches in the one and not in the other: that can never be changed",
        "LT-2 is in the office, and not in the file",
        "3 alarms in alarms.csv: the office differs",
    ])
    assert load(plant, other.replace("3,120", "2,120"))[1] == ["LT-2 is in the office, and not in the file", "done 3, there already 3, refused 0"]
    changes = plant.rows("SELECT tag, kind_no, base, max_s FROM changes WHERE number > 2 ORDER BY number")
    assert changes == [("PT-101", 3, 0, 1800), ("PT-101", 1, 1, None)]


def test_what_was_rejected_is_proposed_again_only_if_asked(plant: Plant) -> None:
    load(plant, FILE)
    plant.call("amy", "2026-03-01T10:00:00Z", "/units/U1/changes/1/reject", {})
    words = "line 2: record of PT-101: none in force: amy has rejected it (change 1); --again proposes it anew"
    assert load(plant, FILE) == (0, [words, "done 0, there already 5, refused 0"])
    assert load(plant, FILE, "--again") == (0, ["done 1, there already 4, refused 0"])
    assert load(plant, FILE) == (0, ["done 0, there already 5, refused 0"])


def test_a_refusal_has_the_offices_name_and_line(plant: Plant) -> None:
    # the matrix of the unit has no row of severity 3
    status, said = load(plant, FILE.replace("XV-7,2", "XV-7,3"))
    assert (status, said) == (1, [
        'refused: line 2: propose record of PT-101: none in force: OutsideMatrix: {"name":"OutsideMatrix","refused":22}',
        "done 4, there already 0, refused 1",
    ])


@pytest.mark.parametrize("person, name", [("ann", "RoleLacking"), ("zoe", "NotGranted")])
def test_it_stops_where_all_would_be_refused(plant: Plant, person: str, name: str) -> None:
    status, said = load(plant, FILE, person=person)
    assert status == 1 and said[-1].startswith("office: ") and name in said[-1], said
    assert plant.rows("SELECT count(*) FROM alarms") == [(0,)]


def test_a_proposal_that_stands_twice_is_taken_back(plant: Plant) -> None:
    load(plant, FILE)
    texts = {"cause": "fouling", "consequence": "hot outlet", "action": "open bypass"}
    body = {"kind": "record", "base": 0, "tag": "TT-3", **texts, "severity": 1, "response": 900}
    assert plant.call("eve", "2026-03-01T10:00:00Z", "/units/U1/changes", body) == {"number": 3}
    assert load(plant, FILE) == (0, ["done 1, there already 5, refused 0"])
    assert plant.rows("SELECT number, state_no FROM changes") == [(1, 1), (2, 1), (3, 4)]


@pytest.mark.parametrize("text", ["", "tag,latching\n", FILE + "PT-101,no,60,,,,,\n", FILE.replace("3600", "x")])
def test_nothing_of_a_bad_file_is_sent(plant: Plant, text: str) -> None:
    before = plant.dump()
    status, said = load(plant, text)
    assert status == 2 and ": line " in said[0], said
    assert plant.dump() == before


def test_an_office_that_is_away_is_named(tmp_path: pathlib.Path) -> None:
    path = tmp_path / "alarms.csv"
    path.write_text(FILE)
    said = typed("load", path, "--unit", "U1", "--url", "http://127.0.0.1:9", "--as", "eve", "--patience", "0.3")
    assert said.returncode == 3 and "gave up after 0 s: no connection to http://127.0.0.1:9" in said.stdout
