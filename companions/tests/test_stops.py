"""Commands that are stopped by a signal, and any sheet that is loaded: what the second run finds."""

import collections.abc
import contextlib
import csv
import io
import itertools
import json
import pathlib
import signal
import subprocess
import tempfile

import hypothesis
import pytest
from hypothesis import strategies

from companions import connection
from companions.tests import plant as plants
from companions.tests.plant import Plant, office as typed

HEADER = "tag,latching,limit,cause,consequence,action,severity,response\n"


def heeds_interrupts() -> None:
    """Also where the tests themselves run in the background, with SIGINT ignored."""
    signal.signal(signal.SIGINT, signal.SIG_DFL)


@pytest.mark.parametrize("how", [signal.SIGINT, signal.SIGTERM])
def test_a_stopped_command_says_what_it_has_done(office: Plant, how: signal.Signals) -> None:
    office.open("U1")
    file = office.folder / "alarms.csv"
    file.write_text(HEADER + "".join(f"A-{it},no,3600,cause,effect,act,2,{1 + it}\n" for it in range(2_000)))
    words = plants.command("load", file, "--unit", "U1", *office.words("eve"))
    process = subprocess.Popen(words, stdout=subprocess.PIPE, stderr=subprocess.STDOUT, text=True, preexec_fn=heeds_interrupts)
    plants.wait_for("ten alarms", lambda: int(office.rows("SELECT count(*) FROM alarms")[0][0]) > 9)
    process.send_signal(how)
    said = process.communicate()[0]
    there = office.rows("SELECT count(*) FROM alarms")[0][0]
    assert process.returncode == 130 and "type the same line again, and it goes on" in said
    # the call on its way may have been made
    assert any(f"done {it:,}, there already 0, refused 0" in said for it in (there, there - 1)), (said, there)


def test_a_service_that_is_stopped_has_not_failed(office: Plant) -> None:
    office.open("U1")
    spool = office.folder / "spool"
    spool.mkdir()
    process = subprocess.Popen(
        plants.command("feed", spool, "--unit", "U1", "--follow", "--every", "0.1", *office.words("ann")), stdout=subprocess.PIPE, text=True
    )
    (spool / "a.csv").write_text("seq,moment,tag,event\n")
    plants.wait_for("the file", lambda: (spool / "done/a.csv").exists())
    process.send_signal(signal.SIGTERM)
    assert "done 0, there already 0, refused 0" in process.communicate()[0]
    unit = (plants.TOP / "companions/shelfoffice-feed@.service").read_text().splitlines()
    assert f"SuccessExitStatus={process.returncode}" in unit


def test_a_dry_run_sends_nothing_that_changes_anything(office: Plant, monkeypatch: pytest.MonkeyPatch) -> None:
    office.open("U1")
    office.register("U1", "A")
    change = {"kind": "limit", "base": 0, "tag": "A", "max": 60}
    assert office.call("eve", "2026-03-01T08:00:00Z", "/units/U1/changes", change) == {"number": 1}
    backup, matrix, alarms, events = office.copy("backup"), office.folder / "m.toml", office.folder / "a.csv", office.folder / "e.csv"
    matrix.write_text('bands = [300]\ncells = [["P3", "P4"], ["P1", "P2"]]\n')
    alarms.write_text(HEADER + "A,no,60,x,y,z,2,60\nB,no,60,,,,,\n")
    events.write_text("seq,moment,tag,event\n1,2026-03-01T09:00:00Z,A,ACT\n")
    sent: list[tuple[str, str, bytes | None]] = []
    send = connection.Connection.send

    def noted(link: connection.Connection, method: str, path: str, body: bytes | None) -> str | connection.Missing:
        sent.append((method, path, body))
        return send(link, method, path, body)

    monkeypatch.setattr(connection.Connection, "send", noted)
    lines: list[tuple[str, list[object]]] = [
        ("root", ["open", "U2", "--steward", "ste", "--matrix", matrix]),
        ("eve", ["open", "U1", "--steward", "ste", "--matrix", matrix]),
        ("ste", ["join", "bob", "--units", "all", "--role", "Viewer"]),
        ("ste", ["leave", "vic"]),
        ("eve", ["load", alarms, "--unit", "U1"]),
        ("amy", ["approve", "--unit", "U1", "--all", "approve"]),
        ("ann", ["feed", events, "--unit", "U1"]),
        ("root", ["successor", "--from", backup, "--unit", "U1", "--to", "U2"]),
        ("eve", ["successor", "--from", backup, "--unit", "U1", "--to", "U2"]),
    ]
    for person, words in lines:
        said = typed(*words, "--dry-run", *office.words(person))
        assert said.returncode == 0 and "would be done " in said.stdout, said.stdout
    assert sent and {method for method, _, _ in sent} == {"GET"}
    # in the new unit a steward asks who holds a role by a call that the office refuses in any case
    office.open("U3")
    sent.clear()
    assert typed("successor", "--from", backup, "--unit", "U1", "--to", "U3", "--dry-run", *office.words("ste")).returncode == 0
    posts = [(path, json.loads(body or b"{}")) for method, path, body in sent if method == "POST"]
    assert posts and all(path.endswith("/grants") and members["end"] == "2000-01-01T00:00:00Z" for path, members in posts)


@pytest.fixture(scope="module")
def long_plant() -> collections.abc.Iterator[Plant]:
    with tempfile.TemporaryDirectory() as room, contextlib.ExitStack() as stack:
        found = Plant(pathlib.Path(room) / "office")
        stack.callback(found.stop)
        found.start()
        yield found


TAG = strategies.text("ABC019-._", min_size=1, max_size=4)
WORDS = strategies.text(strategies.characters(min_codepoint=33, max_codepoint=126), min_size=1, max_size=12)
RECORD = strategies.tuples(WORDS, WORDS, WORDS, strategies.integers(1, 2), strategies.integers(1, 604_800))
ALARM = strategies.tuples(strategies.booleans(), strategies.integers(1, 604_800), strategies.none() | RECORD)
fresh = itertools.count(1)


def sheet_of(alarms: dict[str, tuple[bool, int, tuple[str, str, str, int, int] | None]]) -> str:
    written = io.StringIO(newline="")
    writer = csv.writer(written)
    writer.writerow(HEADER.strip().split(","))
    for tag, (latching, limit, record) in alarms.items():
        writer.writerow([tag, "yes" if latching else "no", limit, *(record or [""] * 5)])
    return written.getvalue()


@hypothesis.settings(max_examples=12, suppress_health_check=list(hypothesis.HealthCheck))
@hypothesis.given(first=strategies.dictionaries(TAG, ALARM, max_size=5), second=strategies.dictionaries(TAG, ALARM, max_size=5))
def test_any_sheet_that_is_loaded_and_approved_is_as_in_the_office(
    long_plant: Plant,
    first: dict[str, tuple[bool, int, tuple[str, str, str, int, int] | None]],
    second: dict[str, tuple[bool, int, tuple[str, str, str, int, int] | None]],
) -> None:
    plant, unit = long_plant, f"S{next(fresh)}"
    plant.open(unit)
    file = plant.folder / f"{unit}.csv"
    # the second sheet has all alarms of the first, of which it changes limits and records, and never drops one
    later = {tag: (it[0], second.get(tag, it)[1], second.get(tag, it)[2] or it[2]) for tag, it in first.items()}
    for alarms in first, later | {tag: it for tag, it in second.items() if tag not in first}:
        file.write_text(sheet_of(alarms))
        line = ("load", file, "--unit", unit)
        assert typed(*line, *plant.words("eve")).returncode == 0
        waiting = plant.rows(f"SELECT count(*) FROM changes WHERE unit = '{unit}'")
        said = typed(*line, *plant.words("eve"))
        assert said.returncode == 0 and "done 0, " in said.stdout, said.stdout
        assert plant.rows(f"SELECT count(*) FROM changes WHERE unit = '{unit}'") == waiting
        assert typed("approve", "--unit", unit, "--all", "approve", *plant.words("amy")).returncode == 0
        said = typed(*line, "--check", *plant.words("vic"))
        assert said.returncode == 0, said.stdout
    wanted = {tag: (latching, limit) for tag, (latching, limit, _) in alarms.items()}
    found = plant.rows(f"SELECT tag, latching, max_s FROM alarms WHERE unit = '{unit}'")
    assert {tag: (bool(latching), limit) for tag, latching, limit in found} == wanted
