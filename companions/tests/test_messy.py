"""Sheets as plants have them: a header further down, rows of sections, decimal commas, units, small letters, umlauts, rows that stand there twice."""

import csv
import os
import pathlib

import pytest

from companions import alarms, aside, connection, mappings, sheets, values
from companions.tests.plant import Plant, office as typed

MAPPING = """\
encoding = "cp1252"
header = "Kennzeichen"
decimal = ","
capitals = ["tag"]
[columns]
tag = "Kennzeichen"
latching = "Selbsthaltend"
limit = "Längste Unterdrückung"
cause = "Ursache"
consequence = "Folge"
action = "Maßnahme"
severity = "Schwere"
response = "Reaktionszeit"
[seconds]
limit = "hours"
response = "minutes"
[units]
Std = "hours"
[values.latching]
ja = "yes"
nein = "no"
[replace]
"ä" = "ae"
"ö" = "oe"
"ü" = "ue"
"Ö" = "Oe"
"ß" = "ss"
[skip]
row = ["Abschnitt.*", "Summe.*"]
tag = ["frei", ""]
"""
TOP = 'Anlage Nord;Export vom 30.11.2026;"17\nUhr";;;;;;\nhalb "offen;;;;;;;;\n'
HEADER = "Kennzeichen;Selbsthaltend;Längste Unterdrückung;Ursache;Folge;Maßnahme;Schwere;Reaktionszeit;Bereich\n"
ROWS = (
    "Abschnitt: Reaktor\n"
    "pt-101;nein;0,25 h;Dichtung undicht;Druckverlust;Schieber schließen;2;2 min;Reaktor\n"
    "LT-2;ja;24;;;;;;Kessel\n"
    "frei;;;;;;;;\n"
    ";nein;1;;;;;;Kessel\n"
    "tt-3;nein;1,5 Std.;Öl zu heiß;Kühler fällt aus;Bypass öffnen;1;0,5 h;Kessel\n"
    "Summe;;3;;;;;;\n"
)


def room_of(tmp_path: pathlib.Path, rows: str = ROWS, mapping: str = MAPPING, top: str = TOP) -> tuple[pathlib.Path, pathlib.Path]:
    file, toml = tmp_path / "alarms.csv", tmp_path / "map.toml"
    file.write_bytes((top + HEADER + rows).encode("cp1252"))
    toml.write_text(mapping, encoding="utf-8")
    return file, toml


def read(tmp_path: pathlib.Path, rows: str = ROWS, mapping: str = MAPPING, top: str = TOP) -> alarms.Read:
    file, toml = room_of(tmp_path, rows, mapping, top)
    return alarms.read(file, mappings.read_mapping(toml, alarms.COLUMNS), "U1")


def test_a_messy_sheet_loads(tmp_path: pathlib.Path) -> None:
    found = read(tmp_path)
    assert found.sheet.faults == [] and found.repeated == []
    assert [(it.line, it.tag, it.latching, it.limit) for it in found.wanted] == [
        (6, "PT-101", False, 900), (7, "LT-2", True, 86_400), (10, "TT-3", False, 5_400)]
    assert [it.record for it in found.wanted] == [
        values.Record("Dichtung undicht", "Druckverlust", "Schieber schliessen", 2, 120), None,
        values.Record("Oel zu heiss", "Kuehler faellt aus", "Bypass oeffnen", 1, 1_800)]


def test_a_header_is_found_by_its_line(tmp_path: pathlib.Path) -> None:
    assert [it.tag for it in read(tmp_path, mapping=MAPPING.replace('"Kennzeichen"\ndecimal', "4\ndecimal")).wanted] == ["PT-101", "LT-2", "TT-3"]


@pytest.mark.parametrize("head, words", [
    ('"Tagname"', "no line has 'Tagname', by which the mapping finds the header"), ("99", "the header is on line 99 by the mapping"),
])
def test_a_header_that_is_nowhere_is_said(tmp_path: pathlib.Path, head: str, words: str) -> None:
    with pytest.raises(sheets.Faulty, match=words):
        read(tmp_path, mapping=MAPPING.replace('"Kennzeichen"\ndecimal', f"{head}\ndecimal"))


@pytest.mark.parametrize("text, seconds", [
    ("0,25 h", 900), ("0,25h", 900), ("15 min", 900), ("900 s", 900), ("15 MIN", 900), ("1 d", 86_400), ("1", 3_600), ("0,5", 1_800),
    ("2 Std", 7_200), ("1,5 Std.", 5_400), ("168", 604_800), ("1.5 h", None), ("1.500 h", None), ("1,5,5 h", None),
    ("0,0001 h", None), ("0 h", None), ("168,1", None),
    ("-1 h", None), ("+1 h", None), ("1e3", None), ("1 Woche", None), ("h", None), ("1 h 30 min", None), ("\u0661 h", None), ("9" * 30, None),
])
def test_a_time_has_decimals_and_a_unit(tmp_path: pathlib.Path, text: str, seconds: int | None) -> None:
    """What is not surely one time is a fault: of 1.500 h nobody knows if a point parts thousands."""
    file, toml = room_of(tmp_path, "", MAPPING.replace('encoding = "cp1252"\n', ""))
    file.write_text(TOP + HEADER + f"A;nein;{text};;;;;;\n", encoding="utf-8")
    found = alarms.read(file, mappings.read_mapping(toml, alarms.COLUMNS), "U1")
    assert [it.limit for it in found.wanted] == ([] if seconds is None else [seconds]), text
    assert len(found.sheet.faults) == (seconds is None)


def test_without_a_decimal_sign_of_the_mapping_there_are_no_decimals(tmp_path: pathlib.Path) -> None:
    found = read(tmp_path, "A;nein;0,25 h;;;;;;\nB;nein;0.25 h;;;;;;\nC;nein;1 h;;;;;;\n", MAPPING.replace('decimal = ","\n', ""))
    assert [it.tag for it in found.wanted] == ["C"] and len(found.sheet.faults) == 2


def test_rows_that_say_the_same_are_taken_once_and_others_are_faults(tmp_path: pathlib.Path) -> None:
    """Two tags that become one by their letters are one alarm, too."""
    first = "a-1;nein;1;;;;;;x\nA-1;nein;60 min;;;;;;y\nB-1;nein;1;;;;;;\nb-1;nein;2;;;;;;\n"
    found = read(tmp_path, first + "C-1;nein;1;;;;;;\nä-1;nein;1;;;;;;\nAE-1;ja;1;;;;;;\n")
    assert found.repeated == ["line 6: A-1 stands on line 5, too, and says the same: it is taken once"]
    assert [(it.line, it.words) for it in sorted(found.sheet.faults, key=lambda it: it.line)] == [
        (7, "B-1 stands on line 8, too"), (8, "B-1 stands on line 7, too"), (10, "AE-1 stands on line 11, too"), (11, "AE-1 stands on line 10, too")]
    # nobody knows which is meant: neither is good
    assert [it.tag for it in found.good()] == ["A-1", "C-1"]


def test_faults_are_counted_by_kind_and_then_listed_by_line(tmp_path: pathlib.Path) -> None:
    rows = "".join(f"A{it};vielleicht;{it} Wochen;;;;;;\n" for it in range(150)) + "zu kurz;nein\n"
    with pytest.raises(sheets.Faulty) as found:
        read(tmp_path, rows).sheet.check()
    file, lines = tmp_path / "alarms.csv", str(found.value).splitlines()
    assert lines[:4] == [
        f"{file}: 301 faults on 151 lines:",
        f"{file}:    150 Längste Unterdrückung: not a time in its range",
        f"{file}:    150 Selbsthaltend: neither yes nor no",
        f"{file}:      1 another number of columns than the header",
    ]
    assert lines[4].startswith(f"{file}: line 5, column 2 (Selbsthaltend): 'vielleicht'") and lines[-1] == f"{file}: and 101 more"


def test_bad_rows_are_set_aside_mended_and_read_with_the_same_mapping(tmp_path: pathlib.Path) -> None:
    rows = ROWS + "q-4;nein;nie;- Ventil zu;=1+1;x;2;2 min;\nzu kurz;nein\nzu lang;nein;1;;;;;;;;;\n"
    found = read(tmp_path, rows)
    out = tmp_path / "bad.csv"
    assert aside.set_aside(found.sheet, out) == 3 and [it.tag for it in found.good()] == ["PT-101", "LT-2", "TT-3"]
    text = out.read_bytes().decode("cp1252")
    # a spreadsheet runs nothing of it
    assert ";'- Ventil zu;'=1+1;" in text and text.startswith(TOP)
    kept = list(csv.reader(text[len(TOP):].splitlines(), delimiter=";"))
    assert kept[0][-2:] == list(sheets.ASIDE) and [it[-2] for it in kept[1:]] == ["12", "13", "14"]
    assert kept[1][-1].startswith("Längste Unterdrückung: 'nie' is not a whole number from 1 to 168")
    assert "2 columns, where the header has 9" in kept[2][-1]
    mended = [it for it in text.splitlines(keepends=True) if not it.startswith("zu ")]
    out.write_bytes("".join(mended).replace(";nie;", ";2;").encode("cp1252"))
    again = alarms.read(out, mappings.read_mapping(tmp_path / "map.toml", alarms.COLUMNS), "U1")
    assert [(it.tag, it.limit, it.record) for it in again.good()] == [("Q-4", 7_200, values.Record("- Ventil zu", "=1+1", "x", 2, 120))]
    # of a file that was set aside the bad rows are set aside alike
    out.write_bytes("".join(mended).encode("cp1252"))
    second = alarms.read(out, mappings.read_mapping(tmp_path / "map.toml", alarms.COLUMNS), "U1")
    assert aside.set_aside(second.sheet, tmp_path / "bad2.csv") == 1
    assert (tmp_path / "bad2.csv").read_bytes().decode("cp1252").count(sheets.ASIDE[0]) == 1


def test_the_sheet_itself_is_never_overwritten(tmp_path: pathlib.Path) -> None:
    found = read(tmp_path, ROWS + "q-4;nein;nie;;;;;;\n")
    before = (tmp_path / "alarms.csv").read_bytes()
    (tmp_path / "link.csv").symlink_to("alarms.csv")
    os.link(tmp_path / "alarms.csv", tmp_path / "same.csv")
    for name in "alarms.csv", "link.csv", "same.csv":
        with pytest.raises(sheets.Wrong, match="is the sheet itself"):
            aside.set_aside(found.sheet, tmp_path / name)
    assert (tmp_path / "alarms.csv").read_bytes() == before


def test_nothing_is_loaded_where_bad_rows_have_no_room(tmp_path: pathlib.Path) -> None:
    found = read(tmp_path, ROWS + "q-4;nein;nie;;;;;;\n")
    with pytest.raises(connection.Trouble, match="No space left on device: nothing was loaded"):
        aside.set_aside(found.sheet, pathlib.Path("/dev/full"))


def test_what_is_wrong_with_the_whole_file_is_no_bad_row(tmp_path: pathlib.Path) -> None:
    with pytest.raises(sheets.Faulty, match="there is no column 'Schwere'"):
        read(tmp_path, mapping=MAPPING, top=TOP + HEADER.replace("Schwere", "Gewicht"))


@pytest.mark.parametrize("text, words", [
    ("header = 0\n", "the header is the number of a line"), ("header = true\n", "the header is the number of a line"),
    ('header = " "\n', "the header is"), ('decimal = ".."\n', "the decimal is one character"),
    ("capitals = 'tag'\n", "capitals is a list of columns"), ("capitals = ['x']\n", "x is not known"),
    ("[units]\nStd = 'weeks'\n", "'weeks' is none of"), ("[replace]\n'' = 'x'\n", "an empty text"),
    ("[skip]\nrow = 'x'\n", "is a list of patterns"), ("[skip]\nrow = ['(']\n", "'(' is not a pattern"),
    ("[skip]\ncolour = ['x']\n", "colour is not known"), ("skip = 3\n", "skip is not known"),
])
def test_a_bad_mapping_is_refused(tmp_path: pathlib.Path, text: str, words: str) -> None:
    path = tmp_path / "map.toml"
    path.write_text(text)
    with pytest.raises(sheets.Wrong) as found:
        mappings.read_mapping(path, alarms.COLUMNS)
    assert words in str(found.value)


def test_good_rows_are_loaded_and_bad_ones_written(office: Plant, tmp_path: pathlib.Path) -> None:
    office.open("U1")
    file, toml = room_of(tmp_path, ROWS + "q-4;nein;nie;;;;;;\nPT-101;nein;0,25 h;Dichtung undicht;Druckverlust;Schieber schließen;2;2 min;\n")
    words = ["load", file, "--map", toml, "--unit", "U1", *office.words("eve")]
    said = typed(*words)
    assert said.returncode == 2 and "'nie' is not a whole number" in said.stdout and office.rows("SELECT count(*) FROM alarms") == [(0,)]
    bad = tmp_path / "bad.csv"
    said = typed(*words, "--good", bad)
    assert said.returncode == 1 and said.stdout.splitlines() == [
        f"{file}: line 13: PT-101 stands on line 6, too, and says the same: it is taken once",
        f"{file}: 1 fault on 1 line:", f"{file}:      1 Längste Unterdrückung: not a time in its range",
        f"1 row with what is wrong: {bad}", "done 5, there already 0, refused 0"]
    assert office.rows("SELECT tag, max_s FROM alarms ORDER BY tag") == [("LT-2", 86_400), ("PT-101", 900), ("TT-3", 5_400)]
    bad.write_bytes(bad.read_bytes().replace(b";nie;", b";2;"))
    assert typed("load", bad, "--map", toml, "--unit", "U1", *office.words("eve")).stdout == "done 1, there already 0, refused 0\n"
    assert typed(*words, "--good", "/dev/full").stdout.endswith("No space left on device: nothing was loaded\n")
