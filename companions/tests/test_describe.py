"""`office describe`, and where descriptions are shown."""

import contextlib
import dataclasses
import json
import os
import pathlib
import shutil
import sqlite3
import subprocess
import time

import pytest

from companions import descriptions, handover, sheets
from companions.tests import busy, plant
from companions.tests.books import Made
from companions.tests.plant import Plant, office as typed
from companions.tests.test_handover import Tags, log_line
from companions.tests.test_messy import MAPPING
from companions.tests.test_monitor import BEGIN, ENDS, comes

HEADER = "unit,tag,description,area\n"
SHEET = HEADER + "U1,A,Feed pressure <high>,Reactor\nU1,B,,\nU1,C,Level,\nU2,A,Other,Boiler\n"


def describe(folder: pathlib.Path, text: str, *words: object, unit: str = "U1") -> tuple[int, list[str]]:
    file = folder / "alarms.csv"
    file.write_text(text, encoding="utf-8")
    said = typed("describe", file, "--unit", unit, "--into", folder / "about.db", *words)
    return said.returncode, said.stdout.splitlines()


def test_descriptions_are_kept_and_typed_again(tmp_path: pathlib.Path) -> None:
    assert describe(tmp_path, SHEET, "--dry-run") == (0, ["would be done 2, there already 0, refused 0"])
    assert not (tmp_path / "about.db").exists()
    assert describe(tmp_path, SHEET) == (0, ["done 2, there already 0, refused 0"])
    assert describe(tmp_path, SHEET) == (0, ["done 0, there already 2, refused 0"])
    assert describe(tmp_path, SHEET, unit="U2") == (0, ["done 1, there already 0, refused 0"])
    assert describe(tmp_path, HEADER + "U1,A,Feed pressure,Reactor\n") == (0, ["done 1, there already 0, refused 0"])
    found = descriptions.read(tmp_path / "about.db")
    assert {key: it.words() for key, it in found.found.items()} == {
        ("U1", "A"): "Feed pressure, Reactor", ("U1", "C"): "Level", ("U2", "A"): "Other, Boiler"}


def test_the_mapping_of_the_load_serves(tmp_path: pathlib.Path) -> None:
    file, toml = tmp_path / "alarms.csv", tmp_path / "map.toml"
    toml.write_text(MAPPING.replace("[seconds]", 'description = "Beschreibung"\narea = "Bereich"\n[seconds]'), encoding="utf-8")
    file.write_bytes("Anlage\nKennzeichen;Beschreibung;Bereich\nAbschnitt: 1\npt-1;Zulauf;Kühler\n".encode("cp1252"))
    said = typed("describe", file, "--unit", "U1", "--map", toml, "--into", tmp_path / "about.db")
    assert said.stdout == "done 1, there already 0, refused 0\n"
    assert descriptions.read(tmp_path / "about.db").words("U1", "PT-1") == "Zulauf, Kuehler"


def test_bad_rows_are_listed_or_set_aside(tmp_path: pathlib.Path) -> None:
    text = SHEET + f"U1,x,lower,\nU1,D,{'x' * 121},\nU1,C,Another,\nU1,E,\x07,\n"
    status, said = describe(tmp_path, text)
    assert status == 2 and said[0].endswith("5 faults on 5 lines:") and not (tmp_path / "about.db").exists()
    status, said = describe(tmp_path, text, "--good", tmp_path / "bad.csv")
    assert status == 1 and said[-1] == "done 1, there already 0, refused 5"
    assert list(descriptions.read(tmp_path / "about.db").found) == [("U1", "A")]
    assert describe(tmp_path, "tag,name\nA,x\n")[1][0].endswith("there is neither a column 'description' nor one 'area': a mapping may name them")


def test_no_other_file_is_written(tmp_path: pathlib.Path) -> None:
    """Books of an office, a text, a folder: what is no file of descriptions stays byte by byte."""
    Made(tmp_path, "about.db")
    books = tmp_path / "about.db/plant.db"
    shutil.move(books, tmp_path / "books.db")
    shutil.rmtree(tmp_path / "about.db")
    for content in (tmp_path / "books.db").read_bytes(), b"tag,limit\n", b"SQLite format 3\0":
        (tmp_path / "about.db").write_bytes(content)
        status, said = describe(tmp_path, SHEET)
        assert status == 2 and said == [f"{tmp_path / 'about.db'} is not a file of descriptions, and is left as it is"]
        assert (tmp_path / "about.db").read_bytes() == content and len(os.listdir(tmp_path)) == 3
    with pytest.raises(sheets.Wrong):
        descriptions.read(tmp_path / "about.db")
    (tmp_path / "about.db").unlink()
    (tmp_path / "about.db").mkdir()
    assert describe(tmp_path, SHEET)[0] == 2


def test_a_file_that_another_writes_is_left_as_it_is(tmp_path: pathlib.Path) -> None:
    describe(tmp_path, SHEET)
    before = (tmp_path / "about.db").read_bytes()
    with contextlib.closing(sqlite3.connect(tmp_path / "about.db")) as rows:
        rows.execute("BEGIN EXCLUSIVE")
        status, said = describe(tmp_path, SHEET.replace("Level", "x"))
    assert status == 1 and "database is locked" in said[0]
    assert (tmp_path / "about.db").read_bytes() == before


def test_a_full_disk_changes_nothing(tmp_path: pathlib.Path) -> None:
    describe(tmp_path, SHEET)
    before = (tmp_path / "about.db").read_bytes()
    file = tmp_path / "many.csv"
    file.write_text(HEADER + "".join(f"U1,A{it},description {it},area\n" for it in range(2_000)))
    words = plant.command("describe", file, "--unit", "U1", "--into", tmp_path / "about.db")
    said = subprocess.run(["prlimit", f"--fsize={2 * len(before)}", *words], capture_output=True, text=True, check=False)
    assert said.returncode == 1 and "about.db cannot be written" in said.stderr, said.stderr
    assert descriptions.read(tmp_path / "about.db").words("U1", "C") == "Level" and len(descriptions.read(tmp_path / "about.db").found) == 2
    assert typed("describe", file, "--unit", "U1", "--into", tmp_path / "about.db").stdout == "done 2,000, there already 0, refused 0\n"


def test_killed_in_the_middle_it_has_all_or_nothing(tmp_path: pathlib.Path) -> None:
    file, out = tmp_path / "alarms.csv", tmp_path / "about.db"
    file.write_text(HEADER + "".join(f"U1,A{it},description {it},area\n" for it in range(20_000)))
    for number in range(6):
        run = subprocess.Popen(plant.command("describe", file, "--unit", "U1", "--into", out))
        until = time.monotonic() + 20
        while not out.exists() and run.poll() is None and time.monotonic() < until:
            time.sleep(0.001)
        time.sleep(0.004 * number)
        run.kill()
        run.wait()
        if descriptions.check(out):
            with contextlib.closing(sqlite3.connect(out)) as rows:
                assert rows.execute("SELECT count(*) FROM sqlite_schema").fetchone()[0] in (0, 2)
                assert rows.execute("PRAGMA integrity_check").fetchone() == ("ok",)
    said = typed("describe", file, "--unit", "U1", "--into", out)
    assert said.returncode == 0 and len(descriptions.read(out).found) == 20_000


def test_pages_show_them_as_text(tmp_path: pathlib.Path) -> None:
    tag = "QT-0063-HI"
    about = descriptions.Described({("U1", tag): descriptions.Description("Feed <b>pressure</b>", "Reactor")})
    page = dataclasses.replace(busy.page(tmp_path, handover.Times(8, None, None)), described=about)
    html = Tags(handover.text_of(page, "html", True))
    assert html.open_tags == [] and html.texts.count("Feed <b>pressure</b>, Reactor") >= 2
    assert "2 d 18 h: Feed <b>pressure</b>, Reactor" in handover.text_of(page, "text", False)
    assert json.loads(handover.text_of(page, "json", False))["described"] == {"U1": {tag: {"description": "Feed <b>pressure</b>", "area": "Reactor"}}}


def test_monitor_and_report_have_them(tmp_path: pathlib.Path) -> None:
    made = Made(tmp_path)
    made.unit("U1", ["A", "X"])
    made.events("U1", ENDS + comes("A", BEGIN))
    describe(tmp_path, SHEET)
    words = ["--descriptions", tmp_path / "about.db", "--month", "2026-03", "--out", tmp_path / "out"]
    assert typed("monitor", "--from", made.path, *words).returncode == 0
    page = Tags((tmp_path / "out/monitor-2026-03.html").read_text())
    assert "Feed pressure <high>, Reactor" in page.texts
    assert (tmp_path / "out/monitor-2026-03-frequent.csv").read_text().splitlines()[1] == 'U1,U1,A,1,1.0,"Feed pressure <high>, Reactor"'
    log = tmp_path / "audit.log"
    log.write_text(log_line("2026-03-01T08:00:00Z", "ann", "POST /units/U1/alarms/A/timed-shelve", '{"seconds":3600,"words":"x"}'))
    said = typed("report", *words, "--log", log, "--backup", made.path)
    assert said.returncode == 0, said.stdout
    assert "Feed pressure <high>, Reactor" in Tags((tmp_path / "out/report-2026-03.html").read_text()).texts
    assert "Feed pressure <high>, Reactor" in (tmp_path / "out/report-2026-03-shelvings.csv").read_text()


def test_a_file_that_is_not_there_is_said(tmp_path: pathlib.Path) -> None:
    (tmp_path / "empty.db").touch()
    said = typed("monitor", "--from", tmp_path, "--descriptions", tmp_path / "empty.db")
    assert said.returncode == 1 and "there is no file of descriptions: office describe writes it" in said.stdout


def test_show_and_shelves_have_them(office: Plant, tmp_path: pathlib.Path) -> None:
    office.open("U1")
    office.register("U1", "A")
    describe(tmp_path, SHEET)
    office.call("ann", "2026-03-01T09:30:00Z", "/units/U1/alarms/A/timed-shelve", {"seconds": 3600, "words": "test"})
    words = ["--descriptions", tmp_path / "about.db", *office.words("vic")]
    assert "description  Feed pressure <high>, Reactor\n" in typed("show", "A", "--unit", "U1", *words).stdout
    assert "by ann: test (Feed pressure <high>, Reactor)\n" in typed("shelves", *words).stdout
