"""`office feed`: how files are read and cut, and what the program's books have in the end."""

import collections.abc
import contextlib
import itertools
import os
import pathlib
import random
import signal
import subprocess
import tempfile
import time
import typing

import hypothesis
import pytest
from hypothesis import strategies

from companions import calls, connection, events, feed, newest, sheets, tally, values
from companions import spool as spools
from companions.tests import plant as plants
from companions.tests.plant import Plant, office as typed

HEADER = "seq,moment,tag,event\n"
EVENTS = ("ACT", "RTN", "ACK", "RESET", "SUP", "UNSUP")
TAGS = ("A", "B", "C")


def line(seq: int, tag: str = "A", event: str = "ACT", second: int | None = None) -> str:
    second = seq if second is None else second
    return f"{seq},2026-03-01T{8 + second // 3600:02}:{second // 60 % 60:02}:{second % 60:02}Z,{tag},{event}\n"


def rows_of(text: str | bytes, reader: events.Reader | None = None) -> list[tuple[int, bytes]]:
    raw = text.encode() if isinstance(text, str) else text
    found = (reader or events.Reader("U1")).rows(raw.splitlines(keepends=True))
    return [(it.line, it.text) for it in found]


# ---- reading and cutting


def test_the_offices_columns_are_sent_as_they_stand() -> None:
    text = "\ufeff" + HEADER + "\r\n" + line(1) + "\n\n" + '"2",x\r\n'
    assert rows_of(text) == [(3, line(1).strip().encode()), (6, b'"2",x')]


def test_other_columns_are_put_in_order_and_of_another_unit_left_out() -> None:
    text = "unit;event;tag;note;moment;seq\nU1;ACT;A;a,b;2026-03-01T08:00:01Z;1\nU2;ACT;A;;;2\n"
    text += 'U1;RTN;A\nU1;RTN;"A";;2026-03-01 09:00:02+01:00;3\n'
    assert rows_of(text) == [(2, b"1,2026-03-01T08:00:01Z,A,ACT"), (4, b"-"), (5, b"3,2026-03-01T08:00:02Z,A,RTN")]


def test_a_mapping_names_columns_words_and_moments(tmp_path: pathlib.Path) -> None:
    path = tmp_path / "map.toml"
    path.write_text(
        '[columns]\nseq = "No"\nmoment = "Time"\n[values.event]\nALM = "ACT"\n[moments]\nformat = "%d.%m.%Y %H:%M:%S"\nzone = "Europe/Berlin"\n'
    )
    times = "01.03.2026 09:00:01,A,ALM", "01.07.2026 09:00:01,A,OFF", "25.10.2026 02:30:00,A,ALM", "29.03.2026 02:30:00,A,ALM", '"x,""y",A,ALM'
    text = "No,Time,tag,event\n" + "".join(f"{number},{it}\n" for number, it in enumerate(times, 1))
    assert [it for _, it in rows_of(text, events.Reader("U1", path))] == [
        b"1,2026-03-01T08:00:01Z,A,ACT",
        b"2,2026-07-01T07:00:01Z,A,OFF",
        # the hour that comes twice, and the one that does not come: the office says BadMoment
        b"3,25.10.2026 02:30:00,A,ACT",
        b"4,29.03.2026 02:30:00,A,ACT",
        b'5,"x,""y",A,ACT',
    ]


WITHOUT_A_TIME = ("2026-11-28", "20261128", "2026-W48-6", "2026W486", "2026-11-28T10", "2026-11-28T10:00", "2026-11-28 10", "10:00:00")
TEN_O_CLOCK = ("2026-11-28T10:00:01Z", "2026-11-28 10:00:01", "2026-11-28T11:00:01+01:00", "20261128T100001Z", "2026-11-28 10:00:01,25")


@pytest.mark.parametrize("text", WITHOUT_A_TIME)
def test_the_time_of_a_day_is_never_invented(text: str) -> None:
    assert rows_of(f"{HEADER}1,{text},A,ACT\n".replace("tag", " tag")) == [(2, f"1,{text},A,ACT".encode())]


@pytest.mark.parametrize("text", TEN_O_CLOCK)
def test_moments_of_iso_8601_are_mapped(text: str) -> None:
    assert rows_of(f'{HEADER}1,"{text}",A,ACT\n'.replace("tag", " tag")) == [(2, b"1,2026-11-28T10:00:01Z,A,ACT")]


def test_a_wide_file_is_read_to_the_end_of_its_lines() -> None:
    names = ",".join(f"column {number}" for number in range(200))
    text = f"seq,{names},moment,tag,event\n1,{'x' * 5_000}{',' * 200}2026-03-01T08:00:01Z,A,ACT\n"
    assert rows_of(text) == [(2, b"1,2026-03-01T08:00:01Z,A,ACT")]


def test_lines_of_nothing_but_delimiters_are_left_out() -> None:
    assert rows_of("seq;moment;tag;event\n1;2026-03-01T08:00:01Z;A;ACT\n;;;\n ; ; ; \n") == [(2, b"1,2026-03-01T08:00:01Z,A,ACT")]


def test_which_unit_a_line_is_of_is_never_guessed(tmp_path: pathlib.Path) -> None:
    path = tmp_path / "map.toml"
    path.write_text('[columns]\nunit = "Area"\n[values.unit]\n"Boiler house" = "U1"\n')
    reader, line_of_a = events.Reader("U1", path), "2026-03-01T08:00:01Z,A,ACT"
    assert rows_of(f"Area,seq,moment,tag,event\nBoiler house,1,{line_of_a}\nU2,2,{line_of_a}\nU1,3,{line_of_a}\n", reader) == [
        (2, f"1,{line_of_a}".encode()), (4, f"3,{line_of_a}".encode())]
    # the mapping names a column that says the unit, and the file has none
    for head, words in (HEADER, "there is no column 'Area'"), ("Area,Area,seq,moment,tag,event\n", "the column 'Area' stands twice"):
        with pytest.raises(events.BadHeader) as found:
            rows_of(head, reader)
        assert words in str(found.value)
    with pytest.raises(events.BadHeader):
        rows_of("seq,moment,tag,tag,event\n")


@pytest.mark.parametrize("text, words", [
    ("encoding = 'utf-16'", "events are not read in utf-16: save them as UTF-8"),
    ("encoding = 'cp037'", "events are not read in cp037: save them as UTF-8"),
    ("[moments]\nform = 'x'", "[moments] has format and zone"),
    ("[moments]\nformat = '%d.%m.%Y'", "the format '%d.%m.%Y' has no time of day"),
    ("[moments]\nformat = '%d.%m.%Y %H'", "has no time of day"),
    ("[moments]\nzone = 'Europe/Atlantis'", "'Europe/Atlantis' is not the name of a time zone"),
    ("[columns]\nnumber = 'x'", "number is not known here"),
])
def test_a_bad_mapping_is_refused(tmp_path: pathlib.Path, text: str, words: str) -> None:
    path = tmp_path / "map.toml"
    path.write_text(text)
    with pytest.raises(sheets.Wrong) as found:
        events.Reader("U1", path)
    assert words in str(found.value)


@hypothesis.given(
    strategies.lists(strategies.sampled_from([b"x", b"y" * 64, b"z" * 900, b"w" * 5000]), max_size=40),
    strategies.integers(1, 30),
)
def test_pieces_keep_all_rows_in_their_order(texts: list[bytes], times: int) -> None:
    raw = b"".join(it + b"\n" for it in texts * times * 40)
    rows = list(events.Lines().rows(raw.splitlines(keepends=True)))
    pieces = list(events.pieces(rows))
    assert [(it.line, it.text) for piece in pieces for it in piece.rows] == [(it.line, it.text[:1000]) for it in rows]
    assert [it.text for it in rows] == texts * times * 40
    for piece in pieces:
        assert 1 <= len(piece.rows) <= 10_000 and len(piece.body()) <= 1_048_576
    for piece, after in zip(pieces, pieces[1:]):
        assert len(piece.rows) == 10_000 or len(piece.body()) + len(after.rows[0].text) + 1 > 1_048_576


# ---- against the program


@pytest.fixture
def plant(office: Plant) -> Plant:
    office.open("U1", "U2")
    office.register("U1", *TAGS)
    return office


def spool(plant: Plant, **files: str | bytes) -> pathlib.Path:
    folder = plant.folder / "spool"
    folder.mkdir(exist_ok=True)
    for name, text in files.items():
        (folder / f"{name}.csv").write_bytes(text.encode() if isinstance(text, str) else text)
    return folder


def names(folder: pathlib.Path) -> list[str]:
    return sorted(str(it.relative_to(folder)) for it in folder.rglob("*") if it.is_file())


def test_a_spool_is_imported_in_order_and_moved_away(plant: Plant) -> None:
    folder = spool(plant, b=HEADER + line(2, event="RTN"), a=HEADER + line(1), c=HEADER)
    said = typed("feed", folder, "--unit", "U1", "--dry-run", *plant.words("ann"))
    assert said.stdout.splitlines() == [
        "would: import 1 event of a.csv in 1 piece",
        "would: import 1 event of b.csv in 1 piece",
        "would: import 0 events of c.csv in 0 pieces",
        "would be done 2, there already 0, refused 0",
    ]
    assert names(folder) == ["a.csv", "b.csv", "c.csv"] and plant.rows("SELECT count(*) FROM events") == [(0,)]
    said = typed("feed", folder, "--unit", "U1", *plant.words("ann"))
    assert (said.returncode, said.stdout.splitlines()) == (
        0, ["a.csv: 1 new, 0 repeated", "b.csv: 1 new, 0 repeated", "done 2, there already 0, refused 0"])
    assert names(folder) == ["done/a.csv", "done/b.csv", "done/c.csv"]
    spool(plant, a=HEADER + line(1) + line(3))
    said = typed("feed", folder, "--unit", "U1", *plant.words("ann"))
    assert said.stdout.splitlines() == ["a.csv: 1 new, 1 repeated", "done 1, there already 1, refused 0"]
    assert names(folder) == ["done/a.csv", "done/a.csv.2", "done/b.csv", "done/c.csv"]


BAD: dict[str, tuple[str | bytes, str]] = {
    "Header": ("number,moment,tag,event\n", "line 1: Header: there is no column 'seq'"),
    "FieldCount": (HEADER + line(1) + "2,x\n", "line 3: FieldCount"),
    "NotUtf8": (HEADER.encode() + b"1,2026-03-01T08:00:01Z,\xff,ACT\n", "line 2: NotUtf8"),
    "BadNumber": (HEADER + "\n\n" + line(1).replace("1,", "01,", 1), "line 4: BadNumber"),
    "BadMoment": (HEADER + "1,2026-02-29T08:00:01Z,A,ACT\n", "line 2: BadMoment"),
    "BadTag": (HEADER + line(1, tag="a"), "line 2: BadTag"),
    "BadEvent": (HEADER + line(1, event="ON"), "line 2: BadEvent"),
    "TagUnknown": (HEADER + line(1) + line(2, tag="Z"), "line 3: TagUnknown"),
    "SequenceClash": (HEADER + line(1) + line(1, event="RTN"), "line 3: SequenceClash"),
    "MomentOutOfOrder": (HEADER + line(1, second=9) + line(2, second=8), "line 3: MomentOutOfOrder"),
    "MomentAhead": (HEADER + line(1) + "2,2026-03-01T10:00:01Z,A,ACT\n", "line 3: MomentAhead"),
    "empty": ("", "line 1: Header: the file is empty"),
    "binary": (bytes(range(256)) * 20, "line 1: Header"),
    "long": (HEADER + "1" * 2_000_000 + "\n", "line 2: FieldCount"),
}


@pytest.mark.parametrize("cause", BAD)
def test_a_bad_row_is_kept_aside_with_the_offices_line_and_cause(plant: Plant, cause: str) -> None:
    text, words = BAD[cause]
    folder = spool(plant, a=text, b=HEADER + line(9))
    said = typed("feed", folder, "--unit", "U1", *plant.words("ann"))
    assert said.returncode == 1 and f"refused: a.csv: {words}" in said.stdout, said.stdout
    is_whole = "Header" in words
    assert names(folder) == ["bad/a.csv", "bad/a.csv.txt", *([] if is_whole else ["done/a.csv"]), "done/b.csv"]
    assert (folder / "bad/a.csv.txt").read_text().startswith(words)
    raw = text.encode() if isinstance(text, str) else text
    lines = [it for it in raw.splitlines() if it]
    assert (folder / "bad/a.csv").read_bytes() == (raw if is_whole else lines[0] + b"\n" + lines[-1] + b"\n")
    before = [(1,)] if len(lines) == 3 and not is_whole else []
    assert plant.rows("SELECT seq FROM events ORDER BY seq") == [*before, (9,)]


def test_the_rows_before_and_after_bad_ones_go_in_and_mended_ones_follow(plant: Plant) -> None:
    rows = [line(it, second=it // 20) for it in range(1, 301)]
    bad = {7: ",tag?,", 8: ",Z,", 9: ",a,", 150: ",Z,", 299: ",Z,", 300: ",Z,"}
    text = "".join(it.replace(",A,", bad.get(number, ",A,")) for number, it in enumerate(rows, 1))
    folder = spool(plant, a=HEADER + text)
    said = typed("feed", folder, "--unit", "U1", *plant.words("ann"))
    assert said.returncode == 1 and "a.csv: 294 new, 0 repeated" in said.stdout and "done 294, there already 0, refused 6" in said.stdout, said.stdout
    causes = [it.split(": ")[:2] for it in (folder / "bad/a.csv.txt").read_text().splitlines()]
    assert sorted(causes) == sorted([f"line {it + 1}", "BadTag" if it in (7, 9) else "TagUnknown"] for it in bad)
    # typed again with the same rows nothing is added to the bad ones; the rows that are mended go in
    spool(plant, a=HEADER + text)
    said = typed("feed", folder, "--unit", "U1", *plant.words("ann"))
    assert "done 0, there already 294, refused 6" in said.stdout and len((folder / "bad/a.csv").read_bytes().splitlines()) == 7
    mended = (folder / "bad/a.csv").read_text()
    spool(plant, mended=mended.replace(",Z,", ",A,").replace(",a,", ",A,").replace(",tag?,", ",A,"))
    assert typed("feed", folder, "--unit", "U1", *plant.words("ann")).returncode == 0
    assert plant.rows("SELECT count(*), min(seq), max(seq) FROM events") == [(300, 1, 300)]


def test_the_newest_event_is_kept_for_others(plant: Plant) -> None:
    state = plant.folder / "U1.json"
    folder = spool(plant, a=HEADER + line(1) + line(9) + line(5, tag="Z"))
    assert typed("feed", folder, "--unit", "U1", "--state", state, *plant.words("ann")).returncode == 1
    assert newest.read_state(state) == ("U1", values.moment_of("2026-03-01T08:00:09Z"))
    # a later file with earlier events puts nothing back
    spool(plant, b=HEADER + line(2))
    assert typed("feed", folder, "--unit", "U1", "--state", state, *plant.words("ann")).returncode == 0
    assert newest.read_state(state)[1] == values.moment_of("2026-03-01T08:00:09Z")


def test_kinds_that_are_not_wanted_are_left_out(plant: Plant, tmp_path: pathlib.Path) -> None:
    path = tmp_path / "map.toml"
    path.write_text('[skip]\nevent = ["INFO", "SYS"]\n')
    folder = spool(plant, a=HEADER + line(1) + line(2, tag="?", event="INFO") + line(3, event="SYS") + line(4))
    said = typed("feed", folder, "--unit", "U1", "--map", path, *plant.words("ann"))
    assert said.returncode == 0 and "done 2, there already 0, refused 0" in said.stdout


BERLIN = '[moments]\nformat = "%d.%m.%Y %H:%M:%S"\nzone = "Europe/Berlin"\n'


def test_the_hour_that_comes_twice_is_told_by_an_offset(tmp_path: pathlib.Path) -> None:
    path = tmp_path / "map.toml"
    path.write_text('[columns]\noffset = "DST"\n' + BERLIN + '[values.offset]\n"S" = "+02:00"\n"W" = "+01:00"\n')
    rows = "".join(f"{number},25.10.2026 02:30:00,A,ACT,{it}\n" for number, it in enumerate(("S", "W", "+01:00", "?"), 1))
    assert [it.decode().split(",")[1] for _, it in rows_of("seq,moment,tag,event,DST\n" + rows, events.Reader("U1", path))] == [
        "2026-10-25T00:30:00Z", "2026-10-25T01:30:00Z", "2026-10-25T01:30:00Z", "25.10.2026 02:30:00"]


@pytest.mark.parametrize("times, wanted", [
    # the clock goes back among the rows, once
    ("01:59:58 02:10:00 02:59:59 02:00:01 02:50:00 03:00:00", "23:59:58 00:10:00 00:59:59 01:00:01 01:50:00 02:00:00"),
    # nothing says it: these are for the office to refuse
    ("01:59:58 02:10:00 02:40:00 03:00:00", "23:59:58 - - 02:00:00"),
    # rows that are out of order by seconds say nothing, nor does a clock that goes back twice
    ("02:10:00 02:09:59 03:00:00", "- - 02:00:00"),
    ("02:50:00 02:10:00 02:50:00 02:10:00", "- - - -"),
])
def test_the_hour_that_comes_twice_is_told_by_the_order(tmp_path: pathlib.Path, times: str, wanted: str) -> None:
    path = tmp_path / "map.toml"
    path.write_text(BERLIN + 'twice = "order"\n')
    rows = "".join(f"{number},25.10.2026 {it},A,ACT\n" for number, it in enumerate(times.split(), 1))
    found = [it.decode().split(",")[1] for _, it in rows_of(HEADER + rows, events.Reader("U1", path))]
    assert [it[11:19] if it.endswith("Z") else "-" for it in found] == wanted.split()


def test_large_files_are_cut_and_lines_counted_over_the_pieces(plant: Plant) -> None:
    good = [line(it, tag=TAGS[it % 3], second=it // 10) for it in range(1, 20_002)]
    folder = spool(plant, a=HEADER + "".join(good), b=HEADER + "\n".join(good[:10_001]) + "x,y\n")
    said = typed("feed", folder, "--unit", "U1", *plant.words("ann"))
    assert "a.csv: 20,001 new, 0 repeated" in said.stdout and "b.csv: 0 new, 10,001 repeated" in said.stdout
    assert "refused: b.csv: line 20003: FieldCount" in said.stdout
    assert plant.rows("SELECT count(*) FROM events") == [(20_001,)]


@pytest.mark.parametrize("person, unit, words", [("vic", "U1", "RoleLacking"), ("ann", "U9", "NotGranted")])
def test_what_is_refused_as_a_whole_stays_in_the_spool(plant: Plant, person: str, unit: str, words: str) -> None:
    folder = spool(plant, a=HEADER + line(1))
    said = typed("feed", folder, "--unit", unit, *plant.words(person))
    assert said.returncode == 1 and words in said.stdout and names(folder) == ["a.csv"]


def test_a_folder_in_which_nothing_can_be_moved_is_named(plant: Plant) -> None:
    folder = spool(plant, a=HEADER + line(1))
    (folder / "done").write_text("")
    said = typed("feed", folder, "--unit", "U1", *plant.words("ann"))
    assert said.returncode == 1 and "spool/done: Not a directory" in said.stdout and "done 1, there already 0, refused 0" in said.stdout
    assert "a.csv" in names(folder)


@pytest.mark.parametrize("what", ["environment", "file", "pipe", "folder"])
def test_nothing_but_regular_files_of_the_folder_is_read(plant: Plant, what: str, tmp_path: pathlib.Path, monkeypatch: pytest.MonkeyPatch) -> None:
    monkeypatch.setenv("OFFICE_PASSWORD", "first-secret")
    secret = tmp_path / "secret.csv"
    secret.write_text(HEADER + "second-secret,x,A,ACT\n")
    folder = spool(plant, b=HEADER + line(1))
    if what == "pipe":
        os.mkfifo(folder / "a.csv")
    elif what == "folder":
        (folder / "a.csv").mkdir()
    else:
        (folder / "a.csv").symlink_to("/proc/self/environ" if what == "environment" else secret)
    words = plants.command("feed", folder, "--unit", "U1", *plant.words("ann"))
    said = subprocess.run(words, capture_output=True, text=True, timeout=60)
    assert said.returncode == 1 and "refused: a.csv is not a regular file of this folder, and is not read" in said.stdout, said
    assert names(folder) == (["a.csv"] if what in ("file", "environment") else []) + ["done/b.csv"]
    written = [it.read_bytes() for it in folder.rglob("*") if it.is_file() and not it.is_symlink()]
    assert not any(b"secret" in it for it in [said.stdout.encode(), said.stderr.encode(), *written])


def test_a_header_that_is_wrong_shows_nothing_of_the_file(plant: Plant) -> None:
    folder = spool(plant, a="OFFICE_PASSWORD=secret,x\n")
    said = typed("feed", folder, "--unit", "U1", *plant.words("ann"))
    words = "there is no column 'seq', 'moment', 'tag', 'event' among the 2 of the first line"
    assert f"refused: a.csv: line 1: Header: {words}" in said.stdout, said.stdout
    assert "secret" not in said.stdout + (folder / "bad/a.csv.txt").read_text()


@pytest.mark.parametrize("link", ["bad", "bad/a.csv", "bad/a.csv.txt"])
def test_nothing_is_written_through_a_link(plant: Plant, link: str, tmp_path: pathlib.Path) -> None:
    folder = spool(plant, a=HEADER + line(1, tag="Z"))
    target = tmp_path / "target"
    if link == "bad":
        target.mkdir()
    else:
        (folder / "bad").mkdir()
        target.write_text("its own\n")
    (folder / link).symlink_to(target)
    said = typed("feed", folder, "--unit", "U1", *plant.words("ann"))
    assert said.returncode != 0, said.stdout
    assert list(target.iterdir()) == [] if link == "bad" else target.read_text() == "its own\n"


@pytest.mark.parametrize("mode, wanted", [(0o2770, "2770 660"), (0o755, "755 644")])
def test_who_may_write_to_the_spool_may_put_mended_files_back(plant: Plant, mode: int, wanted: str) -> None:
    folder = spool(plant, a=HEADER + line(1, tag="Z"))
    folder.chmod(mode)
    assert typed("feed", folder, "--unit", "U1", *plant.words("ann")).returncode == 1
    for name in "bad", "done":
        assert f"{(folder / name).stat().st_mode & 0o7777:o}" == wanted.split()[0]
    for name in "bad/a.csv", "bad/a.csv.txt":
        assert f"{(folder / name).stat().st_mode & 0o7777:o}" == wanted.split()[1]


def test_a_number_far_beyond_the_others_is_not_sent(plant: Plant) -> None:
    state = plant.folder / "U1.json"
    poison = "999999999999,2026-03-01T08:00:03Z,A,RTN\n"
    folder = spool(plant, a=HEADER + line(1) + poison + line(4), b=HEADER + line(5))
    said = typed("feed", folder, "--unit", "U1", "--state", state, *plant.words("ann"))
    assert said.returncode == 1, said.stdout
    assert "refused: a.csv: line 3: NumberFarAhead: more than 10,000,000 beyond 4: see --greatest-step" in said.stdout, said.stdout
    assert plant.rows("SELECT seq FROM events ORDER BY seq") == [(1,), (4,), (5,)]
    assert (folder / "bad/a.csv").read_text() == HEADER + poison
    # a file of this row alone: the number before is that of an earlier run
    spool(plant, c=HEADER + poison)
    assert "more than 10,000,000 beyond 5" in typed("feed", folder, "--unit", "U1", "--state", state, *plant.words("ann")).stdout
    far = line(20_000_000, second=9)
    spool(plant, d=HEADER + far)
    assert typed("feed", folder, "--unit", "U1", "--state", state, "--greatest-step", "0", *plant.words("ann")).returncode == 0
    assert plant.rows("SELECT max(seq) FROM events") == [(20_000_000,)]


def test_it_waits_until_the_offices_clock_has_passed_a_moment(plant: Plant) -> None:
    ahead = time.strftime("%Y-%m-%dT%H:%M:%SZ", time.gmtime(time.time() + 3))
    folder = spool(plant, a=HEADER + line(1) + f"2,{ahead},A,RTN\n")
    said = typed("feed", folder, "--unit", "U1", "--every", "0.2", *plant.words("ann", "now"))
    assert "a.csv: 2 new, 0 repeated" in said.stdout and f"line 3: its moment {ahead} is ahead" in said.stdout
    far = time.strftime("%Y-%m-%dT%H:%M:%SZ", time.gmtime(time.time() + 3_000))
    spool(plant, b=HEADER + f"3,{far},A,ACT\n")
    said = typed("feed", folder, "--unit", "U1", "--every", "0.1", "--longest-wait", "0", *plant.words("ann", "now"))
    assert "refused: b.csv: line 2: MomentAhead" in said.stdout


def test_it_waits_where_the_clock_is_behind_the_units_last_change(plant: Plant) -> None:
    ahead = time.strftime("%Y-%m-%dT%H:%M:%SZ", time.gmtime(time.time() + 15))
    assert plant.call("ann", ahead, "/units/U1/alarms/A/one-shot-shelve", {"words": "ahead"}) == {"done": True}
    folder = spool(plant, a=HEADER + line(1))
    said = typed("feed", folder, "--unit", "U1", "--every", "0.2", "--longest-wait", "0", *plant.words("ann", "now"))
    assert said.returncode == 1 and "MomentBehind" in said.stdout and names(folder) == ["a.csv"]
    said = typed("feed", folder, "--unit", "U1", "--every", "0.2", *plant.words("ann", "now"))
    assert said.returncode == 0 and names(folder) == ["done/a.csv"]


@pytest.mark.parametrize("first", [HEADER + line(1), HEADER + "x\n"])
@pytest.mark.parametrize("how", ["replaced", "longer"])
def test_what_is_written_while_a_file_is_read_is_not_moved_away_unread(plant: Plant, first: str, how: str) -> None:
    folder = spool(plant, a=first)
    send = connection.Connection.send

    def send_and_write(link: connection.Connection, method: str, path: str, body: bytes | None) -> str | connection.Missing:
        if method == "POST":
            if how == "replaced":
                (folder / ".a.csv").write_text(HEADER + line(2))
                (folder / ".a.csv").rename(folder / "a.csv")
            else:
                (folder / "a.csv").write_text(HEADER + line(1) + line(2))
        return send(link, method, path, body)

    with pytest.MonkeyPatch.context() as patch:
        patch.setattr(connection.Connection, "send", send_and_write)
        said = typed("feed", folder, "--unit", "U1", *plant.words("ann"))
    assert said.returncode == 0 and "a.csv was written meanwhile, and stays in the folder" in said.stdout and names(folder) == ["a.csv"]
    assert typed("feed", folder, "--unit", "U1", *plant.words("ann")).returncode == 0
    assert names(folder) == ["done/a.csv"] and (2,) in plant.rows("SELECT seq FROM events")


def test_who_still_writes_to_a_file_that_lost_its_name_is_read(tmp_path: pathlib.Path) -> None:
    path = tmp_path / "events.csv"
    with path.open("w") as written, path.open("rb") as opened_file:
        growing = feed.Growing(path, opened_file)

        def look(text: str) -> tuple[list[bytes], bool]:
            written.write(text)
            written.flush()
            return [it.text for it in growing.new_rows()], growing.has_ended

        assert look("one\ntw") == ([b"one"], False)
        path.rename(tmp_path / "events.1")
        path.write_text("new\n")
        assert look("o\nthree\n") == ([b"two", b"three"], False)
        assert look("four\nfi") == ([b"four"], False)
        assert look("") == ([b"fi"], True)


@contextlib.contextmanager
def following(*words: object) -> collections.abc.Iterator["subprocess.Popen[str]"]:
    process = subprocess.Popen(plants.command("feed", *words), stdout=subprocess.PIPE, stderr=subprocess.STDOUT, text=True)
    try:
        yield process
    finally:
        process.kill()
        process.wait()


def count(plant: Plant) -> int:
    return int(plant.rows("SELECT count(*) FROM events")[0][0])


def test_a_spool_is_followed(plant: Plant) -> None:
    folder = spool(plant, a=HEADER + line(1))
    with following(folder, "--unit", "U1", "--follow", "--every", "0.1", *plant.words("ann")):
        plants.wait_for("the first file", lambda: names(folder) == ["done/a.csv"])
        (folder / ".b.csv").write_text(HEADER + line(2))
        spool(plant, c="x\n")
        plants.wait_for("the bad file", lambda: "bad/c.csv" in names(folder))
        # one that always grows stops no other, though its name comes first
        with (folder / "a-grows.csv").open("w") as growing:
            growing.write(HEADER)
            spool(plant, d=HEADER + line(3))

            def is_done() -> bool:
                growing.write(line(4))
                growing.flush()
                return "done/d.csv" in names(folder)

            plants.wait_for("a file after one that grows", is_done)
            (folder / "a-grows.csv").unlink()
        (folder / ".b.csv").rename(folder / "b.csv")
        plants.wait_for("the second file", lambda: "done/b.csv" in names(folder))
        assert count(plant) == 3


def test_a_growing_file_is_followed_and_its_successor(plant: Plant) -> None:
    path = plant.folder / "events.csv"
    path.write_text(HEADER[:8])
    with following(path, "--unit", "U1", "--follow", "--every", "0.05", *plant.words("ann")) as process:
        with path.open("a") as growing:
            for text in (HEADER[8:] + line(1)[:9], line(1)[9:] + line(2), "\n" + line(3)[:-1]):
                growing.write(text)
                growing.flush()
                time.sleep(0.2)
            plants.wait_for("two rows", lambda: count(plant) == 2)
            # the last line is whole once the file has a successor
            path.rename(plant.folder / "events.1")
            path.write_text(HEADER + line(4))
        plants.wait_for("four rows", lambda: count(plant) == 4)
        # a bad row does not end it
        with path.open("a") as growing:
            growing.write("x\n" + line(5))
        plants.wait_for("five rows", lambda: count(plant) == 5)
        assert process.poll() is None
        process.terminate()
        assert process.wait(20) == 130
        assert process.stdout is not None and "refused: events.csv: line 3: FieldCount" in process.stdout.read()
    assert (plant.folder / "bad/events.csv").read_text() == HEADER + "x\n"


@pytest.mark.parametrize("more", [0, 10])
def test_a_growing_file_that_is_written_anew_in_its_place_is_read_from_its_begin(plant: Plant, more: int) -> None:
    """As by copytruncate, or an export of the last events: the same file, of the same size or longer."""
    path = plant.folder / "events.csv"
    path.write_text(HEADER + "".join(line(it) for it in range(11, 31)))
    with following(path, "--unit", "U1", "--follow", "--every", "0.05", *plant.words("ann")) as process:
        plants.wait_for("the first rows", lambda: count(plant) == 20)
        node = path.stat().st_ino
        with path.open("r+") as again:
            again.write(HEADER + "".join(line(it) for it in range(31, 51 + more)))
        assert path.stat().st_ino == node
        plants.wait_for("the other rows", lambda: count(plant) == 40 + more)
        assert process.poll() is None
        process.terminate()
        assert process.stdout is not None and "events.csv was written anew in its place: it is read from its begin" in process.stdout.read()


def test_a_growing_file_is_followed_through_kills(plant: Plant) -> None:
    path = plant.folder / "events.csv"
    path.write_text(HEADER)
    chosen, rows = random.Random(4), [line(it, tag=TAGS[it % 3], second=it // 20) for it in range(1, 6_001)]
    for begin in range(0, 6_000, 1_000):
        with following(path, "--unit", "U1", "--follow", "--every", "0.05", *plant.words("ann")):
            for at in range(begin, begin + 1_000, 100):
                with path.open("a") as growing:
                    growing.write("".join(rows[at : at + 100]))
                time.sleep(0.15 * chosen.random())
            if begin == 5_000:
                plants.wait_for("all rows", lambda: count(plant) == 6_000)
    assert plant.rows("SELECT count(*), min(seq), max(seq) FROM events") == [(6_000, 1, 6_000)]


def test_a_full_unit_is_named(plant: Plant) -> None:
    rows = [line(it, second=it // 20) for it in range(1, 100_001)]
    folder = spool(plant, **{f"f{it:02}": HEADER + "".join(rows[it * 20_000 : (it + 1) * 20_000]) for it in range(5)})
    assert typed("feed", folder, "--unit", "U1", *plant.words("ann")).returncode == 0
    spool(plant, g=HEADER + line(100_001, second=5_001))
    said = typed("feed", folder, "--unit", "U1", *plant.words("ann"))
    assert said.returncode == 1 and "U1 is full, and takes no new events" in said.stdout and "see office successor" in said.stdout
    assert "g.csv" in names(folder)


# ---- any order of files, any kill


class Kill(BaseException):
    """Stands for a kill: nothing after it is done."""


def run_until(plant: Plant, unit: str, folder: pathlib.Path, steps: int | None) -> bool:
    """Feeds a spool, and is killed before its step of this number: a call that is sent, a call that was answered, or a file that is moved."""
    left = itertools.count(0) if steps is None else iter(range(steps))

    def step() -> None:
        if next(left, None) is None:
            raise Kill

    target = connection.Target(f"http://127.0.0.1:{plant.port}", "ann", "2026-03-01T23:00:00Z")
    with calls.Office(target) as office, pytest.MonkeyPatch.context() as patch:
        send, rename = office.link.send, pathlib.Path.rename

        def killed_send(method: str, path: str, body: bytes | None) -> str | connection.Missing:
            step()
            answer = send(method, path, body)
            step()
            return answer

        def killed_rename(path: pathlib.Path, to: typing.Any) -> pathlib.Path:
            step()
            return rename(path, to)

        patch.setattr(office.link, "send", killed_send)
        patch.setattr(pathlib.Path, "rename", killed_rename)
        try:
            with tally.Tally() as found:
                feed.Feeding(office, unit, events.Reader(unit), found, 0.0, 0.0).import_spool(folder, spools.names_in(folder))
        except Kill:
            return False
    return True


@pytest.fixture(scope="module")
def long_plant() -> collections.abc.Iterator[Plant]:
    with tempfile.TemporaryDirectory() as room:
        found = Plant(pathlib.Path(room) / "office")
        found.start()
        yield found
        found.stop()


fresh = itertools.count(1)


def new_unit(plant: Plant) -> str:
    unit = f"F{next(fresh)}"
    plant.open(unit)
    plant.register(unit, *TAGS)
    return unit


@hypothesis.settings(max_examples=25, suppress_health_check=list(hypothesis.HealthCheck))
@hypothesis.given(data=strategies.data())
def test_any_order_and_any_kills_end_in_the_books_of_one_clean_run(long_plant: Plant, data: strategies.DataObject) -> None:
    seed = data.draw(strategies.integers(0, 2**32))
    chosen = random.Random(seed)
    lines = [line(it, chosen.choice(TAGS), chosen.choice(EVENTS), it // 3) for it in range(1, chosen.randrange(2, 60))]
    cuts = sorted(chosen.sample(range(len(lines) + 1), min(len(lines), chosen.randrange(1, 5))))
    files = [lines[begin:end] for begin, end in zip([0, *cuts], [*cuts, len(lines)])]
    clean, killed = new_unit(long_plant), new_unit(long_plant)
    with tempfile.TemporaryDirectory() as room:
        for unit, order in (clean, list(range(len(files)))), (killed, data.draw(strategies.permutations(range(len(files))))):
            folder = pathlib.Path(room, unit)
            folder.mkdir()
            for number, at in enumerate(order):
                # some rows stand in a second file, too
                (folder / f"{number}.csv").write_text(HEADER + "".join(files[at] + files[at - 1][:2] * (unit == killed)))
            if unit == killed:
                (folder / "0bad.csv").write_text(HEADER + "x\n")
                for steps in data.draw(strategies.lists(strategies.integers(0, 12), max_size=6)):
                    run_until(long_plant, unit, folder, steps)
            assert run_until(long_plant, unit, folder, None)
            assert spools.names_in(folder) == []
    for table, columns in ("events", "seq, moment_s, tag, kind_no"), ("alarms", "tag, state_no, suppressed, active_s, return_s"):
        rows = [long_plant.rows(f"SELECT {columns} FROM {table} WHERE unit = '{it}' ORDER BY 1") for it in (clean, killed)]
        assert rows[0] == rows[1] and len(rows[0]) == (len(lines) if table == "events" else len(TAGS))


def test_killed_again_and_again_it_loses_and_repeats_nothing(plant: Plant) -> None:
    """The command itself, killed by a signal at random moments."""
    rows = [line(it, tag=TAGS[it % 3], second=it // 20) for it in range(1, 40_001)]
    folder = spool(plant, **{f"f{it:02}": HEADER + "".join(rows[it * 5_000 : (it + 1) * 5_000]) for it in range(8)})
    chosen, kills = random.Random(1), 0
    words = plants.command("feed", folder, "--unit", "U1", *plant.words("ann"))
    while spools.names_in(folder):
        process = subprocess.Popen(words, stdout=subprocess.DEVNULL)
        try:
            process.wait(0.5 + chosen.random())
        except subprocess.TimeoutExpired:
            process.send_signal(signal.SIGKILL)
            process.wait()
            kills += 1
    assert kills > 0
    assert plant.rows("SELECT count(*), min(seq), max(seq), count(DISTINCT seq) FROM events") == [(40_000, 1, 40_000, 40_000)]
    assert len(os.listdir(folder / "done")) == 8
