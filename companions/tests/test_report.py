"""`office report`: a log in the form of the proxy's beside the books that the same calls leave, and the log of the proxy itself."""

import csv
import gzip
import json
import pathlib
import random
import typing

import pytest

from companions import audit, floods, reporting, shelvings, values
from companions.backups import opened
from companions.calls import Office
from companions.connection import Target
from companions.tests import plant as plants
from companions.tests.plant import Plant, office as typed
from companions.tests.test_handover import Tags

RECORD = {"kind": "record", "base": 0, "tag": "A", "cause": "x", "consequence": "y", "action": "z", "severity": 2, "response": 120}


class Logged:
    """Makes calls, and writes a line for each as the proxy does."""

    def __init__(self, plant: Plant) -> None:
        self.plant, self.lines = plant, list[str]()

    def call(self, person: str, moment: str, path: str, body: object = None) -> typing.Any:
        said = self.plant.call(person, moment, path, body)
        refused = isinstance(said, dict) and "refused" in said
        status = (403 if said["refused"] in (1, 3, 4) else 409) if refused else 400 if isinstance(said, dict) and "malformed" in said else 200
        is_import = path.endswith("/imports")
        text = "" if body is None or is_import else body if isinstance(body, str) else json.dumps(body)
        self.write(person, moment, f"{'GET' if body is None else 'POST'} {path}", text, status, str(status))
        return said

    def write(self, person: str, moment: str, request: str, body: str, status: int, office: str) -> None:
        members = {"moment": moment, "id": "0" * 32, "address": "127.0.0.1", "name": person, "person": person, "request": request}
        self.lines.append(json.dumps(members | {"body": body, "status": status, "office": office, "seconds": "0.001"}))


@pytest.fixture
def plant(office: Plant) -> Plant:
    """Two months of a unit with shelvings of every end."""
    logged = Logged(office)
    call = logged.call
    opening: dict[str, object] = {"steward": "ste", **plants.MATRIX, "quota": 4}
    call("root", "2026-02-01T08:00:00Z", "/units/U1", opening)
    for person, role in plants.ROLES.items():
        call("ste", "2026-02-01T08:00:00Z", "/units/U1/grants", {"person": person, "role": role})
    for tag in "A", "B", "C", "D", "E":
        call("eve", "2026-02-01T08:00:00Z", "/units/U1/alarms", {"tag": tag, "latching": False, "max": 7200})
    shelve = "/units/U1/alarms/{}/{}-shelve"
    call("ann", "2026-02-27T08:00:00Z", shelve.format("A", "timed"), {"seconds": 3600, "words": "before"})
    call("ann", "2026-03-01T08:00:00Z", shelve.format("A", "timed"), {"seconds": 3600, "words": "is over"})
    call("ann", "2026-03-01T08:10:00Z", shelve.format("B", "timed"), {"seconds": 3600, "words": "is <ended>"})
    call("ann", "2026-03-01T08:20:00Z", "/units/U1/alarms/B/unshelve", {})
    call("ann", "2026-03-01T08:30:00Z", shelve.format("C", "one-shot"), {"words": "returns"})
    call("ann", "2026-03-01T08:30:00Z", shelve.format("D", "one-shot"), {"words": "to its limit"})
    call("ann", "2026-03-01T08:40:00Z", shelve.format("E", "one-shot"), {"words": "replaced"})
    call("ann", "2026-03-01T08:50:00Z", shelve.format("E", "timed"), {"seconds": 60, "words": "in its place"})
    call("ann", "2026-03-01T08:51:00Z", shelve.format("A", "timed"), {"seconds": 7201, "words": "too long"})
    call("ann", "2026-03-01T08:51:00Z", shelve.format("Z", "timed"), {"seconds": 60, "words": "unknown"})
    call("vic", "2026-03-01T08:51:00Z", shelve.format("A", "timed"), {"seconds": 60, "words": "may not"})
    call("vic", "2026-03-01T08:52:00Z", "/units/U9/shelves")
    logged.write("ann", "2026-03-01T08:53:00Z", "POST /units/U1/alarms/A/unshelve", "", 502, "502")
    logged.lines.append('{"moment":"2026-03-01T08:5')
    rows = [f"{it + 1},2026-03-01T08:55:0{it % 10}Z,{'ABCDE'[it % 5]},{'ACT' if it // 5 % 2 == 0 else 'RTN'}" for it in range(10)]
    rows += [f"{it + 11},2026-03-01T09:00:{it:02}Z,{'ABCDE'[it % 5]},{'ACT' if it // 5 % 2 == 0 else 'RTN'}" for it in range(60)]
    assert call("ann", "2026-03-01T10:00:00Z", "/units/U1/imports", "seq,moment,tag,event\n" + "\n".join(rows))["new"] == 70
    call("eve", "2026-03-02T08:00:00Z", "/units/U1/changes", RECORD)
    call("amy", "2026-03-02T09:30:00Z", "/units/U1/changes/1/approve", {})
    call("eve", "2026-03-03T08:00:00Z", "/units/U1/changes", {"kind": "limit", "base": 0, "tag": "B", "max": 60})
    call("ste", "2026-03-04T08:00:00Z", "/units/U1/grants", {"person": "con", "role": "Viewer", "end": "2026-04-01T00:00:00Z"})
    call("ste", "2026-03-04T09:00:00Z", "/units/U1/withdrawals", {"person": "con", "role": "Viewer"})
    call("ann", "2026-03-31T23:30:00Z", shelve.format("A", "timed"), {"seconds": 3600, "words": "over the end"})
    call("ann", "2026-04-01T08:00:00Z", shelve.format("A", "timed"), {"seconds": 60, "words": "after"})
    folder = office.folder / "log"
    folder.mkdir()
    with gzip.open(folder / "audit.log-20260301-1.gz", "wt") as old:
        old.write("\n".join(logged.lines[:12]) + "\n")
    (folder / "audit.log").write_text("\n".join(logged.lines[12:]) + "\n")
    office.copy("backup")
    return office


def report(plant: Plant, *words: object) -> pathlib.Path:
    out = plant.folder / "out"
    said = typed("report", "--month", "2026-03", "--log", plant.folder / "log", "--out", out, *words)
    assert said.returncode == 0, said.stdout
    return out


def table(out: pathlib.Path, name: str) -> list[list[str]]:
    with (out / f"report-2026-03-{name}.csv").open(newline="") as opened_file:
        return list(csv.reader(opened_file))[1:]


def test_every_shelving_has_its_length_and_reason(plant: Plant) -> None:
    out = report(plant, "--backup", plant.folder / "backup")
    assert [it[:-1] for it in table(out, "shelvings")] == [
        ["U1", "A", "timed", "2026-03-01T08:00:00Z", "2026-03-01T09:00:00Z", "3600", "its time was over", "ann", "is over"],
        ["U1", "B", "timed", "2026-03-01T08:10:00Z", "2026-03-01T08:20:00Z", "600", "ended by ann", "ann", "is <ended>"],
        ["U1", "C", "one-shot", "2026-03-01T08:30:00Z", "2026-03-01T08:55:07Z", "1507", "returned to normal", "ann", "returns"],
        ["U1", "D", "one-shot", "2026-03-01T08:30:00Z", "2026-03-01T08:55:08Z", "1508", "returned to normal", "ann", "to its limit"],
        ["U1", "E", "one-shot", "2026-03-01T08:40:00Z", "2026-03-01T08:50:00Z", "600", "replaced by ann", "ann", "replaced"],
        ["U1", "E", "timed", "2026-03-01T08:50:00Z", "2026-03-01T08:51:00Z", "60", "its time was over", "ann", "in its place"],
        ["U1", "A", "timed", "2026-03-31T23:30:00Z", "2026-04-01T00:30:00Z", "3600", "its time was over", "ann", "over the end"],
    ]
    assert table(out, "changes") == [
        ["U1", "1", "record of A", "eve", "2026-03-02T08:00:00Z", "Approved", "amy", "2026-03-02T09:30:00Z", "5400"],
        ["U1", "2", "limit of B: 60 s", "eve", "2026-03-03T08:00:00Z", "Proposed", "", "", ""],
    ]
    assert table(out, "grants") == [
        ["U1", "2026-03-04T08:00:00Z", "given", "con", "Viewer", "2026-04-01T00:00:00Z", "ste"],
        ["U1", "2026-03-04T09:00:00Z", "taken", "con", "Viewer", "", "ste"],
    ]
    assert table(out, "floods") == [["U1", "2026-03-01T09:00:00Z", "2026-03-01T09:10:00Z", "30", "30"]]


def test_refusals_have_the_names_that_are_possible(plant: Plant) -> None:
    refused = sorted(table(report(plant, "--backup", plant.folder / "backup"), "refusals"))
    assert refused == [
        ["AlarmUnknown", "timed-shelve", "ann", "U1", "1"],
        ["NotGranted or RoleLacking", "timed-shelve", "vic", "U1", "1"],
        ["ShelvingTimeOutOfRange", "timed-shelve", "ann", "U1", "1"],
    ]
    # without a backup nothing is ruled out
    assert sorted(table(report(plant), "refusals")) == [
        ["AlarmUnknown or ShelvingTimeOutOfRange or ConditionAlreadyShelved or ShelfQuota", "timed-shelve", "ann", "U1", "2"],
        ["NotGranted or RoleLacking", "timed-shelve", "vic", "U1", "1"],
    ]


def small_plant(office: Plant) -> Logged:
    """A unit with two alarms."""
    logged = Logged(office)
    opening: dict[str, object] = {"steward": "ste", **plants.MATRIX}
    logged.call("root", "2026-02-01T08:00:00Z", "/units/U1", opening)
    for person, role in plants.ROLES.items():
        logged.call("ste", "2026-02-01T08:00:00Z", "/units/U1/grants", {"person": person, "role": role})
    for tag in "A", "B":
        logged.call("eve", "2026-02-01T08:00:00Z", "/units/U1/alarms", {"tag": tag, "latching": False, "max": 7200})
    return logged


def reported(logged: Logged, name: str, backup: str | None = None) -> list[list[str]]:
    """A table of the report of March, over a backup of this name or of now."""
    folder = logged.plant.folder
    (folder / "log").mkdir(exist_ok=True)
    (folder / "log/audit.log").write_text("\n".join(logged.lines) + "\n")
    return table(report(logged.plant, "--backup", folder / backup if backup else logged.plant.copy("now")), name)


def test_refused_reads_have_names_of_their_own(office: Plant) -> None:
    logged = small_plant(office)
    for path in "alarms/Z", "alarms/A/record", "alarms/Z/record", "changes/1", "floods/2026-03-01T09:00:01Z/2026-03-01T10:00:00Z":
        assert "refused" in logged.call("vic", "2026-03-02T08:00:00Z", f"/units/U1/{path}")
    # a backup is as old as the last change in it
    logged.call("eve", "2026-03-03T08:00:00Z", "/units/U1/alarms", {"tag": "C", "latching": False, "max": 7200})
    for path in "alarms", "shelves":
        assert logged.call("vic", "2026-03-02T08:00:00Z", f"/units/U1/{path}")["name"] == "MomentBehind"
    assert sorted(reported(logged, "refusals")) == [
        ["AlarmUnknown", "read alarms", "vic", "U1", "1"],
        ["AlarmUnknown", "read record", "vic", "U1", "1"],
        ["ChangeUnknown", "read changes", "vic", "U1", "1"],
        ["MomentBehind", "read alarms", "vic", "U1", "1"],
        ["MomentBehind", "read shelves", "vic", "U1", "1"],
        ["RangeNotAligned", "read floods", "vic", "U1", "1"],
        ["RecordUnknown", "read record", "vic", "U1", "1"],
    ]


def test_an_alarm_is_unknown_until_it_is_registered_and_perhaps_after_the_backup(office: Plant) -> None:
    logged = small_plant(office)
    shelve = "/units/U1/alarms/NEW/one-shot-shelve"
    assert logged.call("ann", "2026-03-02T08:00:00Z", shelve, {"words": "too early"})["name"] == "AlarmUnknown"
    office.copy("20260302T090000Z")
    assert logged.call("ann", "2026-03-02T10:00:00Z", shelve, {"words": "too early"})["name"] == "AlarmUnknown"
    # by the first backup nobody knows when the alarm came
    both = "AlarmUnknown or ConditionAlreadyShelved or ShelfQuota"
    assert sorted(reported(logged, "refusals", "20260302T090000Z")) == [
        ["AlarmUnknown", "one-shot-shelve", "ann", "U1", "1"], [both, "one-shot-shelve", "ann", "U1", "1"]]
    logged.call("eve", "2026-03-02T11:00:00Z", "/units/U1/alarms", {"tag": "NEW", "latching": False, "max": 7200})
    for _ in range(2):
        logged.call("ann", "2026-03-02T12:00:00Z", shelve, {"words": "in time"})
    assert sorted(reported(logged, "refusals")) == [
        ["AlarmUnknown", "one-shot-shelve", "ann", "U1", "2"], ["ConditionAlreadyShelved or ShelfQuota", "one-shot-shelve", "ann", "U1", "1"]]


def test_how_a_one_shot_ended_after_the_backup_is_not_guessed(office: Plant) -> None:
    logged = small_plant(office)
    logged.call("ann", "2026-03-02T08:00:00Z", "/units/U1/alarms/A/one-shot-shelve", {"words": "first"})
    office.copy("20260302T090000Z")
    rows = "seq,moment,tag,event\n1,2026-03-02T09:10:00Z,A,ACT\n2,2026-03-02T09:20:00Z,A,RTN\n"
    assert logged.call("ann", "2026-03-02T09:30:00Z", "/units/U1/imports", rows)["new"] == 2
    logged.call("ann", "2026-03-02T09:40:00Z", "/units/U1/alarms/A/one-shot-shelve", {"words": "second"})
    logged.call("ann", "2026-03-02T09:50:00Z", "/units/U1/alarms/A/unshelve", {})
    words = [["A", "2026-03-02T09:20:00Z", "returned to normal"], ["A", "2026-03-02T09:50:00Z", "ended by ann"]]
    assert [[it[1], it[4], it[6]] for it in reported(logged, "shelvings")] == words
    words[0][1:] = ["", "not known: the backup is of 2026-03-02 09:00"]
    assert [[it[1], it[4], it[6]] for it in reported(logged, "shelvings", "20260302T090000Z")] == words


def test_the_page_says_what_it_cannot(plant: Plant) -> None:
    out = report(plant, "--backup", plant.folder / "backup")
    page = Tags((out / "report-2026-03.html").read_text())
    text = " ".join(it.strip() for it in page.texts)
    assert page.open_tags == []
    for words in (
        "The log has no answers", "Lines of the log that are damaged, and left out: 1.", "and left out: 1. ", "is <ended>",
        "Calls without an answer (502, 503 or 504), of which the log does not say if they were made, and left out: 1.",
        "The log goes from 2026-02-01 08:00 to 2026-04-01 08:00", "2026-03: U1",
    ):
        assert words in text, words
    assert (out / "report-2026-03.html").read_text().count("<svg") == 1
    without = Tags((report(plant) / "report-2026-03.html").read_text())
    assert any("U1 is in no backup that was named" in it for it in without.texts)
    shelved = table(plant.folder / "out", "shelvings")
    assert shelved[2][4:7] == ["", "", "not known: the unit is in no backup"]


def test_words_that_are_a_formula_are_a_text_in_the_tables() -> None:
    begin, end = values.EPOCH, values.END_OF_TIME
    shelving = shelvings.Shelving("U1", "-A", "timed", begin, end, "ended by ann", "ann", "=HYPERLINK(1)")
    refused = reporting.Refused("AlarmUnknown", "timed-shelve", "-ann", "U1", 2)
    tables = reporting.tables(reporting.Report("2026-03", ["U1"], [shelving], [], [], [], [refused], [], [], []))
    assert tables["shelvings"].splitlines()[1].startswith("U1,'-A,timed,2000-01-01") and tables["shelvings"].endswith(",ann,'=HYPERLINK(1),\r\n")
    assert tables["refusals"].splitlines()[1] == "AlarmUnknown,timed-shelve,'-ann,U1,2"


def test_most_and_longest(plant: Plant) -> None:
    with opened(plant.folder / "backup") as books:
        log = audit.read_log([plant.folder / "log"])
        found = shelvings.all_shelvings(log, {"U1": shelvings.UnitPast(books, "U1")})
    assert [it.words for it in found] == [
        "before", "is over", "is <ended>", "returns", "to its limit", "replaced", "in its place", "over the end", "after"]
    assert [(it.tag, it.seconds(), it.how) for it in found[-1:]] == [("A", None, "runs at the end of the log")]


@pytest.mark.parametrize("words, said", [
    (["--month", "2026-13"], "'2026-13' is not a month"), (["--month", "march"], "'march' is not a month"), ([], "Missing option '--month'"),
])
def test_a_wrong_command_line(words: list[str], said: str) -> None:
    found = typed("report", *words)
    assert found.returncode == 2 and said in found.stdout


def test_a_log_that_is_no_log(tmp_path: pathlib.Path) -> None:
    path = tmp_path / "audit.log"
    path.write_bytes(b"\xff\xfe\n{}\n[1]\n\"x\"\n" + gzip.compress(b"x" * 1000)[:20])
    assert audit.read_log([path]) == audit.Log([], 5)
    broken = tmp_path / "audit.log-1.gz"
    broken.write_bytes(gzip.compress(path.read_bytes() * 100)[:-12])
    assert audit.read_log([broken]).damaged > 0


def test_a_body_that_is_nested_too_deep_is_a_call_without_members(tmp_path: pathlib.Path) -> None:
    path, body = tmp_path / "audit.log", '{"a":' + "[" * 100_000
    members = {"moment": "2026-03-01T08:00:00Z", "person": "ann", "request": "POST /units/U1/alarms", "status": 400, "office": "400"}
    path.write_text(json.dumps(members | {"body": body}) + "\n" + "[" * 100_000 + "\n")
    found = audit.read_log([path])
    assert found.damaged == 1 and [(it.person, it.status, it.body) for it in found.calls] == [("ann", 400, {})]


def test_calls_of_one_second_stay_in_the_order_of_the_files(tmp_path: pathlib.Path) -> None:
    for name, person in ("audit.log", "late"), ("audit.log-20260301", "early"), ("audit.log-20260302", "later"):
        members = {"moment": "2026-03-01T08:00:00Z", "person": person, "request": "POST /units/U1/alarms", "status": 200, "office": "200", "body": ""}
        (tmp_path / name).write_text(json.dumps(members) + "\n")
    assert [it.person for it in audit.read_log([tmp_path]).calls] == ["early", "later", "late"]


def test_floods_are_those_that_the_office_finds(office: Plant) -> None:
    office.open("U1")
    tags = [f"A{it}" for it in range(30)]
    office.register("U1", *tags)
    chosen, second, rows = random.Random(3), 0, []
    for seq in range(1, 3_001):
        second += chosen.choice((0, 1, 5, 9) if seq // 200 % 2 else (60, 300, 900))
        rows.append(f"{seq},{values.text_of(values.moment_of('2026-03-01T00:00:00Z') + (values.moment_at(second) - values.EPOCH))},"
                    f"{chosen.choice(tags)},{chosen.choice(('ACT', 'ACT', 'RTN', 'RTN', 'ACK', 'RESET', 'SUP'))}")
    at = "2026-03-20T00:00:00Z"
    assert office.call("ann", at, "/units/U1/imports", "seq,moment,tag,event\n" + "\n".join(rows))["new"] == 3_000
    with opened(office.copy("backup")) as books, Office(Target(f"http://127.0.0.1:{office.port}", "vic", at)) as asked:
        for begin, until in ("2026-03-01T00:00:00Z", "2026-03-08T00:00:00Z"), ("2026-03-02T03:20:00Z", "2026-03-04T00:10:00Z"):
            span = values.moment_of(begin), values.moment_of(until)
            found = floods.floods(books.events("U1"), *span)
            assert found == asked.floods("U1", *span) and len(found) > 0


def test_the_log_of_the_proxy_is_read(office: Plant) -> None:
    office.start_proxy()
    file = office.folder / "matrix.toml"
    file.write_text('bands = [300]\ncells = [["P3", "P4"], ["P1", "P2"]]\n')
    url = f"http://127.0.0.1:{office.proxy_port}"
    assert typed("open", "U1", "--steward", "ste", "--matrix", file, "--url", url, **plants.signed_on("root")).returncode == 0
    for role in "Operator", "Engineer", "Boss":
        typed("join", "ann", "--units", "U1", "--role", role, "--url", url, **plants.signed_on("ste"))
    assert typed("join", "ann", "--units", "U1", "--role", "Viewer", "--url", url, **plants.signed_on("ann")).returncode == 1
    plants.wait_for("the log", lambda: len(audit.read_log([office.folder / "proxy/audit.log"]).calls) == 4)
    log = audit.read_log([office.folder / "proxy/audit.log"])
    assert log.damaged == 0
    assert [(it.kind(), it.person, it.is_done, it.is_refused) for it in log.calls] == [
        ("open", "root", True, False), ("grants", "ste", True, False), ("grants", "ste", True, False), ("grants", "ann", False, True)]
    assert log.calls[1].body == {"person": "ann", "role": "Operator"}
