"""`office join` and `office leave` against the program."""

import pytest

from companions.tests.plant import Plant, office as typed

ROLES = ("Viewer", "Operator", "Maintainer", "Engineer", "Approver", "Steward")


@pytest.fixture
def plant(office: Plant) -> Plant:
    office.open("U1", "U2")
    return office


def run(plant: Plant, *words: object, person: str = "ste") -> tuple[int, list[str]]:
    said = typed(*words, *plant.words(person))
    return said.returncode, said.stdout.splitlines()


def roles(plant: Plant, person: str) -> list[tuple[str, str, int | None]]:
    found = plant.rows(f"SELECT unit, role_no, end_s FROM grants WHERE person = '{person}' ORDER BY 1, 2")
    return [(unit, ROLES[role - 1], end) for unit, role, end in found]


def test_a_person_joins_all_units_and_leaves_them(plant: Plant) -> None:
    join = ("join", "bob", "--units", "all", "--role", "Operator", "--role", "Viewer")
    assert run(plant, *join, "--dry-run") == (0, [
        "would: bob is Operator in U1",
        "would: bob is Viewer in U1",
        "would: bob is Operator in U2",
        "would: bob is Viewer in U2",
        "would be done 4, there already 0, refused 0",
    ])
    assert roles(plant, "bob") == []
    assert run(plant, *join) == (0, ["done 4, there already 0, refused 0"])
    assert run(plant, *join) == (0, ["done 0, there already 4, refused 0"])
    assert roles(plant, "bob") == [(unit, role, None) for unit in ("U1", "U2") for role in ("Viewer", "Operator")]
    assert run(plant, "leave", "bob", "--units", "U1") == (0, [
        "bob is no longer Viewer in U1",
        "bob is no longer Operator in U1",
        "done 2, there already 0, refused 0",
    ])
    assert run(plant, "leave", "bob")[1][-1] == "done 2, there already 1, refused 0"
    assert run(plant, "leave", "bob") == (0, ["done 0, there already 2, refused 0"])
    assert roles(plant, "bob") == []


def test_an_end_is_granted(plant: Plant) -> None:
    end = "2026-03-02T10:00:00Z"
    assert run(plant, "join", "con", "--units", "U1", "--role", "Viewer", "--end", end)[0] == 0
    assert plant.rows("SELECT datetime(end_s + 946684800, 'unixepoch') FROM grants WHERE person = 'con'") == [("2026-03-02 10:00:00",)]
    status, said = run(plant, "join", "con", "--units", "U1", "--role", "Operator", "--end", "2026-03-01T10:00:00Z")
    assert status == 1 and "EndNotAhead" in said[0] and said[-1] == "done 0, there already 0, refused 1"


def test_a_sheet_of_people(plant: Plant) -> None:
    sheet = plant.folder / "people.csv"
    sheet.write_text("person;units;role;end\nbob;U1 U2;Operator;\nzoe;U2;Viewer, Engineer;2026-04-01T00:00:00Z\nste;U9;Viewer;\n")
    status, said = run(plant, "join", "--file", sheet)
    assert (status, said) == (1, [
        'refused: line 4: ste is Viewer in U9: NotGranted: {"name":"NotGranted","refused":3}',
        "done 4, there already 0, refused 1",
    ])
    assert [it[:2] for it in roles(plant, "bob") + roles(plant, "zoe")] == [
        ("U1", "Operator"), ("U2", "Operator"), ("U2", "Viewer"), ("U2", "Engineer")]
    before = plant.dump()
    sheet.write_text(
        "person,units,role,end\nBob,U1,Operator,\nzoe,u2,Boss,tomorrow\nyve,,,\nxan,U1,Steward,2026-04-01T00:00:00Z\n"
        "zoe,U1 U2,Viewer,\nzoe,U2,Viewer Operator,2026-04-01T00:00:00Z\n"
    )
    status, said = run(plant, "join", "--file", sheet)
    assert status == 2 and [it.partition("people.csv: ")[2] for it in said] == [
        "line 2, column 1 (person): 'Bob' is not a person's name: 1 to 32 of a to z, 0 to 9, '.' and '-'",
        "line 3, column 2 (units): 'u2' is not a unit's code: 1 to 8 of A to Z and 0 to 9",
        "line 3, column 3 (role): 'Boss' is none of Viewer, Operator, Maintainer, Engineer, Approver, Steward",
        "line 3, column 4 (end): 'tomorrow' is not a moment as 2026-03-01T10:00:00Z",
        "line 4, column 2 (units): '' is not a unit's code: 1 to 8 of A to Z and 0 to 9",
        "line 4, column 3 (role): '' is none of Viewer, Operator, Maintainer, Engineer, Approver, Steward",
        "line 5, column 4 (end): the role of a steward has no end",
        "line 7, column 3 (role): zoe is Viewer in U2 on line 6, too",
    ]
    assert plant.dump() == before


def test_the_only_steward_of_a_unit_is_named_first_and_stays(plant: Plant) -> None:
    assert run(plant, "join", "sue", "--units", "U1", "--role", "Steward")[0] == 0
    assert run(plant, "join", "ste", "--units", "all", "--role", "Operator")[0] == 0
    # of oneself no call says it
    status, said = run(plant, "leave", "ste")
    assert status == 1 and said[-1].startswith("office: you are ste yourself, and no call says who else is a steward"), said
    assert len(roles(plant, "ste")) == 4
    backup = plant.copy("backup")
    status, said = run(plant, "leave", "ste", "--backup", backup)
    assert (status, said) == (1, [
        "refused: ste is the only steward of U2: nothing is taken there; make another one first",
        "ste is no longer Operator in U1",
        "ste is no longer Steward in U1",
        "done 2, there already 0, refused 1",
    ])
    assert [it[:2] for it in roles(plant, "ste")] == [("U2", "Operator"), ("U2", "Steward")]
    # another steward takes the role of the one who has left
    assert run(plant, "join", "sue", "--units", "U2", "--role", "Steward")[0] == 0
    assert run(plant, "leave", "ste", person="sue") == (0, [
        "ste is no longer Operator in U2", "ste is no longer Steward in U2", "done 2, there already 1, refused 0"])
    # a backup that is older than what happened since: the office itself refuses
    status, said = run(plant, "leave", "sue", "--backup", backup, "--units", "U1", person="sue")
    assert status == 1 and said[0] == 'refused: sue, Steward in U1: LastSteward: {"name":"LastSteward","refused":16}', said


def test_a_mapping_names_units_and_people(plant: Plant) -> None:
    sheet, mapping = plant.folder / "people.csv", plant.folder / "map.toml"
    sheet.write_text("who,units,role\nBob B.,Boiler house,fitter\n")
    mapping.write_text('[columns]\nperson = "who"\n[values.person]\n"Bob B." = "bob"\n[values.units]\n"Boiler house" = "U1"\n'
                       '[values.role]\nfitter = "Maintainer"\n')
    assert run(plant, "join", "--file", sheet, "--map", mapping) == (0, ["done 1, there already 0, refused 0"])
    assert roles(plant, "bob") == [("U1", "Maintainer", None)]


def test_who_is_a_steward_of_no_unit_is_told(plant: Plant) -> None:
    for words in ("leave", "bob"), ("join", "bob", "--units", "all", "--role", "Viewer"):
        assert run(plant, *words, person="eve") == (0, ["you are a steward of no unit", "done 0, there already 0, refused 0"])


@pytest.mark.parametrize("words", [
    ["join"], ["join", "bob"], ["join", "bob", "--role", "Viewer"], ["join", "Bob", "--units", "U1", "--role", "Viewer"],
    ["join", "bob", "--units", "U1,U1", "--role", "Viewer"], ["join", "bob", "--units", "U1", "--role", "Boss"],
    ["join", "bob", "--units", "U1", "--role", "Steward", "--end", "2026-04-01T00:00:00Z"], ["leave"], ["leave", "bob", "--at", "noon"],
])
def test_a_wrong_command_line_is_refused(plant: Plant, words: list[str]) -> None:
    before = plant.dump()
    said = typed(*words, *([] if "--at" in words else plant.words("ste")))
    assert said.returncode == 2 and "Error: " in said.stdout
    assert plant.dump() == before
