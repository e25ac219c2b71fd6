"""`office successor` typed again while people work in the new unit: what they have ended stays ended."""

import pytest

from companions import calls, carrying, connection, matrix, values
from companions.tests.plant import Plant, office as typed
from companions.tests.test_successor import LATER, RECORD, TYPISTS, decisions, filled, notes_in, run_until, running, succeed

ENDS = {"A": ("ann", "unshelve"), "C": ("ann", "unshelve"), "L": ("moe", "place-in-service")}


@pytest.fixture
def plant(office: Plant) -> Plant:
    """A unit with something of every kind, and a backup of it."""
    filled(office).copy("backup")
    return office


def succeed_all(plant: Plant, to: str = "U2") -> None:
    for person in TYPISTS:
        status, said = succeed(plant, person, to)
        assert status == 0, said


def end(plant: Plant, tag: str, unit: str = "U2") -> None:
    """A person ends what runs."""
    person, word = ENDS[tag]
    assert plant.call(person, LATER, f"/units/{unit}/alarms/{tag}/{word}", {}) == {"done": True}


@pytest.mark.parametrize("tags", [["A"], ["C"], ["L"], ["A", "C", "L"]])
def test_what_a_person_has_ended_stays_ended(plant: Plant, tags: list[str]) -> None:
    succeed_all(plant)
    assert running(plant, "U2") == {"A", "C", "L"}
    for tag in tags:
        end(plant, tag)
    first = plant.dump()
    for person in (*TYPISTS, "moe", "ann", "eve"):
        status, said = succeed(plant, person)
        assert status == 0 and any(it.startswith("done 0, ") for it in said), said
    assert plant.dump() == first and running(plant, "U2") == {"A", "C", "L"} - set(tags)
    for tag in tags:
        state = "out of service" if tag == "L" else "shelved"
        words = f"{tag}: was carried over, and is no longer {state} in U2; --again {tag} carries it over once more"
        assert words in decisions(said), said
    # a person may want it all the same, once for each time that it is typed so
    status, said = succeed(plant, "eve", "U2", *(word for tag in tags for word in ("--again", tag)))
    assert status == 0 and f"done {len(tags)}, there already {36 - len(tags)}, refused 0" in said, said
    assert running(plant, "U2") == {"A", "C", "L"}


def test_what_has_ended_by_itself_stays_ended(plant: Plant) -> None:
    succeed_all(plant)
    # A was shelved for a shorter time, which is over, and C has returned to normal; in the full unit both run on
    end(plant, "A")
    assert plant.call("ann", LATER, "/units/U2/alarms/A/timed-shelve", {"seconds": 60, "words": "short"}) == {"done": True}
    later = "2026-03-01T10:40:00Z"
    rows = "seq,moment,tag,event\n1,2026-03-01T10:35:00Z,C,ACT\n2,2026-03-01T10:36:00Z,C,RTN\n"
    assert plant.call("ann", later, "/units/U2/imports", rows) == {"new": 2, "repeated": 0}
    assert running(plant, "U1", later) == {"A", "C", "L"} and running(plant, "U2", later) == {"L"}
    line = ("successor", "--from", plant.folder / "backup", "--unit", "U1", "--to", "U2")
    said = typed(*line, *plant.words("eve", later))
    assert "done 0, there already 36, refused 0" in said.stdout and running(plant, "U2", later) == {"L"}, said.stdout


def test_what_is_shelved_anew_in_the_full_unit_is_carried_over(plant: Plant) -> None:
    succeed_all(plant)
    end(plant, "A")
    end(plant, "A", "U1")
    assert plant.call("ann", LATER, "/units/U1/alarms/A/timed-shelve", {"seconds": 600, "words": "once more"}) == {"done": True}
    status, said = succeed(plant, "eve")
    assert status == 0 and "done 1, there already 35, refused 0" in said, said
    assert running(plant, "U2") == {"A", "C", "L"} and len(notes_in(plant, "U2")) == 4


def test_killed_on_the_way_nothing_that_a_person_ends_comes_back(plant: Plant) -> None:
    """Eve is killed at each step of what she carries over, people end whatever runs then, and she types it again."""
    seen: set[frozenset[str]] = set()
    steps = [run_until(plant, person, "WHOLE", None) for person in TYPISTS][-1]
    # of the three each has five calls: two that look, the note, the alarm, and the end of the note
    for last in range(steps - 32, steps + 1, 2):
        unit = f"K{last}"
        for person in TYPISTS[:2]:
            assert run_until(plant, person, unit, None)
        was_whole = run_until(plant, "eve", unit, last) > 0
        ended = running(plant, unit)
        seen.add(frozenset(ended))
        for tag in ended:
            end(plant, tag, unit)
        status, said = succeed(plant, "eve", unit)
        assert status == 0 and not running(plant, unit) & ended, (last, said)
        # what was not begun is carried over, and of the one at which she was killed a person is asked
        asked = {it.split(":")[0] for it in decisions(said) if "was stopped at it" in it}
        assert running(plant, unit) | ended | asked == {"A", "C", "L"} and len(asked) <= 1, (last, said)
        status, said = succeed(plant, "eve", unit, *(word for tag in asked for word in ("--again", tag)))
        assert status == 0 and running(plant, unit) == {"A", "C", "L"} - ended | asked, (last, said)
        assert {it[3] for it in notes_in(plant, unit)} == {4}
        assert was_whole == (last == steps) and not (was_whole and asked)
    assert seen == {frozenset(), frozenset("L"), frozenset("LA"), frozenset("LAC")}


def test_who_can_leave_no_note_carries_nothing_over(plant: Plant) -> None:
    for person in TYPISTS[:2]:
        assert succeed(plant, person)[0] == 0
    assert plant.call("ste", LATER, "/units/U2/withdrawals", {"person": "eve", "role": "Operator"}) == {"done": True}
    status, said = succeed(plant, "eve")
    assert status == 0 and running(plant, "U2") == {"L"} and "an Engineer who is Operator of U2, too" in "".join(said), said
    assert "A: shelved since 2026-03-01T10:00:00Z by ann in U1; who is Engineer and Operator in U2 carries it over" in decisions(said)
    for again in (), ("--again", "A"):
        status, said = succeed(plant, "ann", "U2", *again)
        assert status == 0 and "done 0, there already 2, refused 0" in said and running(plant, "U2") == {"L"}, said
    assert plant.call("ste", LATER, "/units/U2/grants", {"person": "eve", "role": "Operator", "end": "2026-03-01T11:30:00Z"}) == {"done": True}
    status, said = succeed(plant, "eve")
    assert "done 2, there already 34, refused 0" in said and running(plant, "U2") == {"A", "C", "L"}, said


def test_a_call_that_is_refused_is_not_taken_for_made(plant: Plant) -> None:
    for person in TYPISTS[:2]:
        assert succeed(plant, person)[0] == 0
    # the alarm is there with a limit that its shelf is above
    assert plant.call("eve", LATER, "/units/U2/alarms", {"tag": "A", "latching": False, "max": 60}) == {"done": True}
    status, said = succeed(plant, "eve")
    assert status == 1 and any("ShelvingTimeOutOfRange" in it for it in said) and running(plant, "U2") == {"C", "L"}, said
    status, said = succeed(plant, "eve")
    words = "A: shelved since 2026-03-01T10:00:00Z by ann in U1, and perhaps carried over: the command was stopped at it (change 9 of U2)"
    assert status == 0 and f"{words}; --again A carries it over" in decisions(said), said


@pytest.mark.parametrize("is_made", [True, False])
def test_where_no_answer_came_and_a_person_was_quicker_nothing_is_done_twice(plant: Plant, is_made: bool) -> None:
    for person in TYPISTS[:2]:
        assert succeed(plant, person)[0] == 0
    send = connection.Connection.send

    def lost(link: connection.Connection, method: str, path: str, body: bytes | None) -> str | connection.Missing:
        if not path.endswith("/A/timed-shelve"):
            return send(link, method, path, body)
        if is_made:
            send(link, method, path, body)
            end(plant, "A")
        return connection.Missing(connection.Doubt.may_be_made, "the office is away or too slow (504)")

    with pytest.MonkeyPatch.context() as patch:
        patch.setattr(connection.Connection, "send", lost)
        status, said = succeed(plant, "eve")
    words = "A: shelved since 2026-03-01T10:00:00Z by ann in U1, and perhaps carried over: the office is away or too slow (504)"
    assert status == 0 and f"{words}; --again A carries it over" in decisions(said) and running(plant, "U2") == {"C", "L"}, said
    assert succeed(plant, "eve")[0] == 0 and running(plant, "U2") == {"C", "L"}
    assert succeed(plant, "eve", "U2", "--again", "A")[0] == 0 and running(plant, "U2") == {"A", "C", "L"}
    assert {it[3] for it in notes_in(plant, "U2")} == {4} and len(notes_in(plant, "U2")) == 3


def test_the_full_unit_says_what_runs_now_and_the_backup_alone_is_not_enough(plant: Plant) -> None:
    end(plant, "A", "U1")
    end(plant, "L", "U1")
    plant.register("U1", "NEW", moment=LATER)
    assert plant.call("moe", LATER, "/units/U1/alarms/D/remove-from-service", {"words": "since"}) == {"done": True}
    succeed_all(plant)
    assert running(plant, "U2") == {"C"}
    said = decisions(succeed(plant, "eve")[1])
    assert "NEW: registered in U1 since the backup: take a newer one" in said
    assert "D: out of service in U1 since the backup, which has not why: take a newer one" in said
    # who has no role in the full unit is asked of all that the backup has
    for person in TYPISTS[:2]:
        assert succeed(plant, person, "U3")[0] == 0
    for role in "Engineer", "Maintainer", "Operator":
        assert plant.call("ste", LATER, "/units/U3/grants", {"person": "zoe", "role": role}) == {"done": True}
    status, said = succeed(plant, "zoe", "U3")
    assert status == 0 and not running(plant, "U3")
    words = "A: shelved since 2026-03-01T10:00:00Z by ann in U1, by the backup: you hold no role in U1, which may have ended it since"
    assert f"{words}; --again A carries it over" in decisions(said), said
    assert succeed(plant, "zoe", "U3", "--again", "C")[0] == 0 and running(plant, "U3") == {"C"}


def test_roles_that_were_taken_are_not_granted_again(plant: Plant) -> None:
    assert succeed(plant, "root")[0] == 0
    # who has left the full unit since the backup is not let in
    assert plant.call("ste", LATER, "/units/U1/withdrawals", {"person": "vic", "role": "Viewer"}) == {"done": True}
    status, said = succeed(plant, "ste")
    assert "done 7, there already 2, refused 0" in said and "vic: Viewer in U1 by the backup, and no longer; so not in U2" in decisions(said)
    assert plant.call("ste", LATER, "/units/U2/withdrawals", {"person": "amy", "role": "Approver"}) == {"done": True}
    first = plant.dump()
    for dry in ("--dry-run",), ():
        status, said = succeed(plant, "ste", "U2", *dry)
        assert any(it.endswith("done 0, there already 8, refused 0") for it in said), said
        assert "amy: not Approver in U2, where roles were granted before; --again amy grants it" in decisions(said)
    assert plant.dump() == first
    assert "done 1, there already 8, refused 0" in succeed(plant, "ste", "U2", "--again", "amy")[1]
    # nor once all are taken, if there are alarms
    assert succeed(plant, "eve")[0] == 0
    taken = plant.rows("SELECT person, role_no FROM grants WHERE unit = 'U2' AND role_no != 6")
    for person, role in taken:
        assert plant.call("ste", LATER, "/units/U2/withdrawals", {"person": person, "role": values.Role(role).name}) == {"done": True}
    status, said = succeed(plant, "ste")
    assert "done 0, there already 5, refused 0" in said and len(plant.rows("SELECT 1 FROM grants WHERE unit = 'U2'")) == 1, said


def test_killed_while_roles_are_granted_none_that_is_taken_comes_back(plant: Plant) -> None:
    steps = [run_until(plant, person, "WHOLE", None) for person in TYPISTS[:2]][-1]
    seen: set[int] = set()

    def held(unit: str) -> set[tuple[str, int]]:
        found = plant.rows(f"SELECT person, role_no FROM grants WHERE unit = '{unit}' AND role_no != 6")
        return {(str(person), int(role)) for person, role in found}

    for last in range(steps - 41, steps + 1, 4):
        unit = f"K{last}"
        assert run_until(plant, "root", unit, None)
        run_until(plant, "ste", unit, last)
        first = held(unit)
        seen.add(len(first))
        taken = set(sorted(first)[:1])
        for person, role in taken:
            assert plant.call("ste", LATER, f"/units/{unit}/withdrawals", {"person": person, "role": values.Role(role).name}) == {"done": True}
        status, said = succeed(plant, "ste", unit)
        # as long as one is held, a person is asked of each that is not; where none is the books are those of a unit that was just opened
        assert status == 0 and held(unit) == (first - taken if first - taken else held("WHOLE")), (last, said)
        asked = [it.split(":")[0] for it in decisions(said) if "where roles were granted before" in it]
        assert len(asked) == (len(held("WHOLE")) - len(first - taken) if first - taken else 0), (last, said)
        assert succeed(plant, "ste", unit, *(word for it in asked for word in ("--again", it)))[0] == 0
        assert held(unit) == held("WHOLE")
    assert {0, 8} < seen


def test_what_was_rejected_taken_back_or_changed_is_not_proposed_again(plant: Plant) -> None:
    succeed_all(plant)
    numbers = {(kind, tag): number for number, kind, tag in plant.rows("SELECT number, kind_no, tag FROM changes WHERE unit = 'U2' AND state_no = 1")}
    assert sorted(numbers.values()) == [1, 2, 3, 4, 5, 6, 7]

    def decide(number: int, word: str, person: str = "amy") -> None:
        assert plant.call(person, LATER, f"/units/U2/changes/{number}/{word}", {}) == {"done": True}

    decide(1, "reject")
    decide(numbers[3, "A"], "approve")
    decide(numbers[1, "A"], "withdraw", "eve")
    decide(numbers[1, "B"], "reject")
    decide(numbers[3, "D"], "withdraw", "eve")
    # the limit of A and that of L, which was registered as it is, are changed in the new unit
    for number, tag, base in (11, "A", 1), (12, "L", 0):
        assert plant.call("eve", LATER, "/units/U2/changes", {"kind": "limit", "tag": tag, "base": base, "max": 100}) == {"number": number}
        decide(number, "approve")
    first = plant.dump()
    status, said = succeed(plant, "eve")
    assert status == 0 and "done 0, there already 37, refused 0" in said, said
    assert f"record of B: none in force: amy has rejected it (change {numbers[1, 'B']})" in said
    assert plant.dump() == first


def test_a_dry_run_changes_nothing_and_says_what_would_be_done(plant: Plant) -> None:
    for person in TYPISTS[:2]:
        assert succeed(plant, person)[0] == 0
    first = plant.dump()
    status, said = succeed(plant, "eve", "U2", "--dry-run", "--again", "Z")
    assert status == 0 and plant.dump() == first and "would be done 35, there already 1, refused 0" in said
    for words in "take L out of service: valve", "shelve A for 3200 s: pump test", "shelve C until it returns to normal: wiring":
        assert f"would: {words}" in said
    assert "Z: nothing of it runs in U1, and nobody of this name holds a role there: --again has no effect" in decisions(said)


def test_an_approver_is_not_shown_a_note(plant: Plant) -> None:
    succeed_all(plant)
    note = RECORD | {"tag": "N1", "cause": "carried over from U1", "consequence": "shelved since 2026-03-01T10:00:00Z by ann"}
    assert plant.call("eve", LATER, "/units/U2/changes", note) == {"number": 11}
    said = typed("approve", "--unit", "U2", "--all", "approve", *plant.words("amy", LATER))
    assert said.stdout.startswith("1 note of office successor: whoever has left it takes it back\n"), said.stdout
    assert said.stdout.endswith("7 proposals shown\ndone 7, there already 0, refused 0\n")
    assert plant.rows("SELECT state_no FROM changes WHERE unit = 'U2' AND number = 11") == [(1,)]
    said = typed("handover", "--units", "U2", *plant.words("vic", LATER))
    words = "11 note of office successor on N1: the command was stopped, and takes it back when it is typed again, by eve since 10:30"
    assert f"Proposals that wait: 1\n  U2          {words}\n" in said.stdout, said.stdout


def test_the_place_of_a_note_is_one_of_little_weight_at_which_an_alarm_is_needed() -> None:
    for cells, bands, place in (
        ((("P3", "P4"), ("P1", "P2")), (300,), (1, 300)),
        ((("P3", "P4", "N"), ("P1", "P2", "P3")), (60, 600), (1, 60)),
        ((("N",), ("P2",)), (), (2, 1)),
        ((("P1", "N"),), (60,), (1, 1)),
        ((("N",),), (), (1, 1)),
    ):
        found = matrix.Matrix(bands, cells)
        assert carrying.place_in(found) == place
        assert found.priority(*place) != "N" or cells == (("N",),)


def test_whether_a_role_is_held_is_asked_without_a_change(plant: Plant) -> None:
    first = plant.dump()
    with calls.Office(connection.Target(f"http://127.0.0.1:{plant.port}", "ste", LATER)) as office:
        assert office.holds("U1", "ann", values.Role.Operator) and not office.holds("U1", "ann", values.Role.Viewer)
        # gone's role has ended
        assert not office.holds("U1", "gone", values.Role.Viewer)
        with pytest.raises(connection.Refusal):
            office.holds("U9", "ann", values.Role.Viewer)
    assert plant.dump() == first
