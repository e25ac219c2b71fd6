"""`office open` and `office approve` against the program."""

import io

import pytest
import rich.console

from companions import approve as approve_command, calls, values
from companions.tests.plant import MATRIX, Plant, office as typed

TOML = 'bands = [300]\ncells = [["P3", "P4"], ["P1", "P2"]]\n'
AT = "2026-03-01T10:00:00Z"
RECORD = {"kind": "record", "base": 0, "tag": "A", "cause": "seal [leak]", "consequence": "loss", "action": "close", "severity": 2, "response": 120}


@pytest.fixture
def plant(office: Plant) -> Plant:
    office.open("U1")
    office.register("U1", "A", "B")
    return office


def approve(plant: Plant, *words: str, person: str = "amy", stdin: str = "") -> tuple[int, str]:
    said = typed("approve", "--unit", "U1", *words, *plant.words(person), stdin=stdin)
    return said.returncode, said.stdout


def propose(plant: Plant, members: dict[str, object], person: str = "eve") -> int:
    number = plant.call(person, AT, "/units/U1/changes", members)["number"]
    assert isinstance(number, int)
    return number


def states(plant: Plant) -> list[int]:
    return [it for it, in plant.rows("SELECT state_no FROM changes ORDER BY number")]


def test_a_unit_is_opened_and_its_matrix_proposed_once(plant: Plant) -> None:
    file = plant.folder / "matrix.toml"
    file.write_text(TOML)

    def opens(unit: str, person: str, *words: str) -> list[str]:
        return typed("open", unit, "--steward", "ste", "--matrix", file, "--quota", "7", *words, *plant.words(person)).stdout.splitlines()

    hint = "an Engineer of U2 types this line next, which proposes the matrix as a change that can be read"
    assert opens("U2", "root", "--dry-run") == ["would: open U2 with ste as its steward", hint, "would be done 1, there already 0, refused 0"]
    assert opens("U2", "root") == [hint, "done 1, there already 0, refused 0"]
    assert opens("U2", "root") == [hint, "done 0, there already 1, refused 0"]
    assert plant.rows("SELECT quota FROM units WHERE unit = 'U2'") == [(7,)]
    assert opens("U1", "eve") == ["done 1, there already 1, refused 0"]
    assert opens("U1", "eve") == ["done 0, there already 2, refused 0"]
    assert plant.call("amy", "2026-03-01T10:00:00Z", "/units/U1/changes/1/approve", {}) == {"done": True}
    assert opens("U1", "eve") == ["done 0, there already 2, refused 0"]
    assert plant.rows("SELECT count(*) FROM changes") == [(1,)]
    said = typed("open", "U3", "--steward", "ste", "--matrix", file, *plant.words("eve"))
    assert said.returncode == 1 and "NotAdministrator" in said.stdout
    file.write_text(TOML.replace("300", "60"))
    assert opens("U1", "eve") == ["U1 has another matrix in force, which an Approver has put there", "done 0, there already 2, refused 0"]
    assert plant.rows("SELECT count(*) FROM changes") == [(1,)]


def test_a_matrix_that_was_rejected_is_proposed_again_only_if_asked(plant: Plant) -> None:
    file = plant.folder / "matrix.toml"
    file.write_text(TOML)
    line = ("open", "U1", "--steward", "ste", "--matrix", file, *plant.words("eve"))
    assert typed(*line).returncode == 0 and plant.call("amy", AT, "/units/U1/changes/1/reject", {}) == {"done": True}
    said = typed(*line).stdout.splitlines()
    words = "the matrix of U1: amy has rejected it (change 1); --again proposes it anew"
    assert said == [words, "done 0, there already 2, refused 0"] and states(plant) == [3]
    assert typed(*line, "--again").stdout == "done 1, there already 1, refused 0\n" and states(plant) == [3, 1]
    assert typed(*line, "--again").stdout == "done 0, there already 2, refused 0\n"


@pytest.mark.parametrize("text, words", [
    ("bands = [300]", "it needs bands and cells"),
    ("bands = [300, 300]\ncells = [['P1', 'P1', 'P1']]", "bands are at most 4 rising times"),
    ("bands = []\ncells = [['P1', 'P2']]", "each with one cell more than there are bands"),
    ("bands = []\ncells = [['P5']]", "a cell is P1, P2, P3, P4 or N"),
    ("bands = []\ncells = [['P1'], ['P2']]", "more severity or less time must not lead to a lower cell"),
    ("bands = [1]\ncells = [['P2', 'P1']]", "more severity or less time must not lead to a lower cell"),
    ("bands = ", "matrix.toml: "),
])
def test_a_bad_matrix_is_refused_before_anything_is_sent(plant: Plant, text: str, words: str) -> None:
    file = plant.folder / "matrix.toml"
    file.write_text(text)
    said = typed("open", "U2", "--steward", "ste", "--matrix", file, *plant.words("root"))
    assert said.returncode == 2 and words in said.stdout, said.stdout


def test_all_that_are_shown_are_approved(plant: Plant) -> None:
    propose(plant, {"kind": "matrix", "base": 0, **MATRIX})
    propose(plant, RECORD)
    propose(plant, {"kind": "limit", "base": 0, "tag": "B", "max": 60})
    status, said = approve(plant, "--dry-run", "--all", "approve")
    assert status == 0 and states(plant) == [1, 1, 1]
    assert "would: approve change 2, record of A" in said and "would be done 3" in said
    assert "not readable" not in said and "seal [leak]" in said
    assert "3600 s" in said and "60 s" in said
    status, said = approve(plant, "--all", "approve")
    assert status == 0 and said.endswith("done 3, there already 0, refused 0\n") and states(plant) == [2, 2, 2]
    assert approve(plant, "--all", "approve") == (0, "0 proposals shown\ndone 0, there already 0, refused 0\n")
    # from now on the matrix can be read
    propose(plant, RECORD | {"base": 1, "response": 600})
    said = approve(plant, stdin="q\n")[1]
    priorities = next(it.split() for it in said.splitlines() if it.split()[:1] == ["priority"])
    assert priorities == ["priority", "P1", "->", "P2"]


def test_a_matrix_is_decided_before_records_are_shown_with_their_priority(plant: Plant) -> None:
    propose(plant, RECORD)
    propose(plant, {"kind": "matrix", "base": 0, **MATRIX})
    status, said = approve(plant, stdin="q\n")
    assert status == 0 and "severity 2" in said and "seal [leak]" not in said and states(plant) == [1, 1]
    status, said = approve(plant, stdin="a\nq\n")
    assert said.index("severity 2") < said.index("seal [leak]") and states(plant) == [1, 2]
    assert [it.split() for it in said.splitlines() if it.split()[:1] == ["priority"]] == [["priority", "-", "->", "P1"]]


@pytest.mark.parametrize("words, stdin", [(("--all", "approve"), ""), ((), "a\n")])
def test_records_without_a_readable_priority_are_not_approved_all_at_once(plant: Plant, words: tuple[str, ...], stdin: str) -> None:
    propose(plant, RECORD)
    propose(plant, {"kind": "limit", "base": 0, "tag": "B", "max": 60})
    status, said = approve(plant, *words, stdin=stdin)
    assert status == 1 and states(plant) == [1, 2], said
    assert "refused: approve change 1, record of A: its priority cannot be read" in said and "done 1, there already 0, refused 1" in said
    assert approve(plant, "--blind", *words, stdin=stdin)[0] == 0 and states(plant) == [2, 2]


def test_one_by_one_of_one_proposer_and_kind(plant: Plant) -> None:
    plant.call("ste", AT, "/units/U1/grants", {"person": "emil", "role": "Engineer"})
    for tag in "A", "B":
        for person in "eve", "emil":
            propose(plant, RECORD | {"tag": tag}, person)
            propose(plant, {"kind": "limit", "base": 0, "tag": tag, "max": 60}, person)
    status, said = approve(plant, "--proposer", "emil", "--kind", "record", stdin="o\nr\na\n")
    assert status == 0 and "2 proposals shown" in said and said.endswith("done 2, there already 0, refused 0\n")
    assert states(plant) == [1, 1, 3, 1, 1, 1, 2, 1]
    assert approve(plant, stdin="o\ns\nq\n")[0] == 0 and states(plant) == [1, 1, 3, 1, 1, 1, 2, 1]
    # eve's record of B was drawn up before that of emil came into force
    status, said = approve(plant, "--kind", "record", "--all", "approve", "--blind")
    assert "OUT OF DATE: revision 1 is in force" in said
    assert status == 1 and 'BaseChanged: {"name":"BaseChanged","refused":21,"value":1}' in said
    assert states(plant) == [2, 1, 3, 1, 1, 1, 2, 1]


def test_on_a_terminal_a_proposal_is_a_table() -> None:
    moment = values.moment_of(AT)
    change = calls.Change(7, values.Kind.limit, "A", 0, values.State.Proposed, "eve", moment, None, None, 60)
    written = io.StringIO()
    console = rich.console.Console(file=written, force_terminal=True, width=200, color_system=None)
    approve_command.Shown(change, 1, [("limit", "3600 s", "60 s [new]")]).show(console)
    title, head, rule, row = (it.split() for it in written.getvalue().splitlines())
    assert title[:5] == ["change", "7:", "limit", "of", "A,"] and "OUT" in title
    assert head == ["in", "force", "proposed"] and row == ["limit", "3600", "s", "60", "s", "[new]"]


def test_all_that_are_shown_are_rejected(plant: Plant) -> None:
    propose(plant, RECORD)
    propose(plant, {"kind": "limit", "base": 0, "tag": "B", "max": 60})
    assert approve(plant, stdin="r\n")[1].endswith("done 2, there already 0, refused 0\n") and states(plant) == [3, 3]
    propose(plant, RECORD)
    assert approve(plant, "--all", "reject")[0] == 0 and states(plant) == [3, 3, 3]
    assert approve(plant, person="ann", stdin="a\n")[0] == 0
    propose(plant, RECORD)
    status, said = approve(plant, "--all", "approve", "--blind", person="ann")
    assert status == 1 and "RoleLacking" in said and states(plant) == [3, 3, 3, 1]


def test_who_leaves_at_a_question_sees_what_was_done(plant: Plant) -> None:
    propose(plant, RECORD)
    propose(plant, RECORD | {"tag": "B"})
    # the end of what is typed stands for a person who presses Control and C
    status, said = approve(plant, stdin="o\na\n")
    assert status == 130 and said.splitlines()[-1] == "done 1, there already 0, refused 0" and states(plant) == [2, 1], said


def test_nobody_decides_their_own(plant: Plant) -> None:
    plant.call("ste", AT, "/units/U1/grants", {"person": "eve", "role": "Approver"})
    propose(plant, RECORD)
    assert approve(plant, "--all", "approve", person="eve") == (
        0, "1 proposal of your own: somebody else decides\n0 proposals shown\ndone 0, there already 0, refused 0\n")
    assert states(plant) == [1]
