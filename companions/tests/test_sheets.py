"""The reader of sheets: every way in which a spreadsheet writes the same table, and each kind of bad file."""

import csv
import io
import pathlib
import tempfile

import hypothesis
import pytest
from hypothesis import strategies

from companions import alarms, mappings, sheets, values

HEADER = "tag,latching,limit,cause,consequence,action,severity,response\n"
GOOD = 'PT-101,no,3600,seal leak,loss of pressure,close XV-7,2,120\n'
CELL = strategies.text(strategies.characters(min_codepoint=32, max_codepoint=126), max_size=8).map(lambda it: " ".join(it.split()))
LINES = strategies.lists(strategies.tuples(CELL, CELL, CELL), max_size=6)


def read(text: str | bytes, mapping: sheets.Mapping = sheets.Mapping(), unit: str = "U1") -> list[alarms.Wanted]:
    with tempfile.TemporaryDirectory() as room:
        path = pathlib.Path(room, "alarms.csv")
        path.write_bytes(text if isinstance(text, bytes) else text.encode())
        return alarms.read_alarms(path, mapping, unit)


def faults(text: str | bytes, mapping: sheets.Mapping = sheets.Mapping()) -> list[str]:
    with pytest.raises(sheets.Faulty) as found:
        read(text, mapping)
    return [str(it) for it in found.value.faults]


@hypothesis.given(
    lines=LINES,
    delimiter=strategies.sampled_from(",;\t"),
    end=strategies.sampled_from(["\n", "\r\n", "\r"]),
    mark=strategies.booleans(),
    quoting=strategies.sampled_from([csv.QUOTE_MINIMAL, csv.QUOTE_ALL]),
    blank=strategies.booleans(),
    order=strategies.permutations(["one", "two", "three", "more"]),
)
def test_every_way_to_write_a_table_is_read_alike(
    lines: list[tuple[str, str, str]], delimiter: str, end: str, mark: bool, quoting: int, blank: bool, order: list[str]
) -> None:
    written = io.StringIO(newline="")
    writer = csv.writer(written, delimiter=delimiter, lineterminator=end, quoting=quoting)
    writer.writerow(order)
    for line in lines:
        cells = dict(zip(("one", "two", "three", "more"), (*line, "left out")))
        writer.writerow([cells[it] for it in order])
        if blank:
            written.write(end)
    raw = ("\ufeff" if mark else "").encode() + written.getvalue().encode()
    with tempfile.TemporaryDirectory() as room:
        path = pathlib.Path(room, "table.csv")
        path.write_bytes(raw)
        sheet = sheets.read_sheet(path, sheets.Mapping(), ("one", "two"), ("three", "four"))
    assert not sheet.faults
    assert [tuple(it.texts[name] for name in ("one", "two", "three")) for it in sheet.rows] == lines


def test_a_line_has_its_alarm_and_record() -> None:
    record = values.Record("seal leak", "loss of pressure", "close XV-7", 2, 120)
    assert read(HEADER + GOOD + "LT-2,YES,86400,,,,,\n") == [
        alarms.Wanted(2, "PT-101", False, 3600, record),
        alarms.Wanted(3, "LT-2", True, 86400, None),
    ]


def test_a_mark_semicolons_and_line_ends_in_quotes() -> None:
    text = "\ufeff" + (HEADER + 'PT-101;no;3600;"seal\r\nleak; or\nworse";loss;close;2;120\n\nLT-2;no;60;;;;;\n').replace(",", ";")
    first, second = read(text)
    assert first.record is not None and first.record.cause == "seal leak; or worse"
    assert (first.line, second.line) == (2, 6)


@pytest.mark.parametrize("delimiter", [",", ";", "\t"])
def test_a_header_may_have_line_ends_in_quotes(delimiter: str) -> None:
    names = ['"Longest\nshelf (min)"', "tag", '"latching"', '"note, or; more\r\nof it"']
    text = delimiter.join(names) + "\n" + delimiter.join(["60", "A", "no", "x"]) + "\n"
    mapping = sheets.Mapping(columns={"limit": "Longest shelf (min)"}, seconds={"limit": 60})
    assert [(it.line, it.tag, it.limit) for it in read("\n\n" + text, mapping)] == [(6, "A", 3600)]


def test_a_mapping_names_columns_values_times_and_encoding(tmp_path: pathlib.Path) -> None:
    path = tmp_path / "map.toml"
    path.write_text(
        'encoding = "cp1252"\n[columns]\ntag = "Tag name"\nlimit = "Longest shelf (min)"\n[seconds]\nlimit = "minutes"\n'
        '[values.latching]\nLatched = "yes"\n"" = "no"\n'
    )
    mapping = mappings.read_mapping(path, alarms.COLUMNS)
    text = "Bemerkung,Tag name,Latching,Longest shelf (min)\nfür alle,A,Latched,60\nx,B,,1\n".encode("cp1252")
    assert [(it.tag, it.latching, it.limit) for it in read(text, mapping)] == [("A", True, 3600), ("B", False, 60)]


def test_a_mapping_gives_every_column_its_meanings(tmp_path: pathlib.Path) -> None:
    path = tmp_path / "map.toml"
    path.write_text(
        '[columns]\nunit = "Area"\ntag = "Tag  name"\n[values.unit]\n"Boiler house" = "U1"\n[values.tag]\n"pt 101" = "PT-101"\n'
        '[values.cause]\n"-" = "not known"\n[values.severity]\nhigh = "2"\n'
    )
    mapping = mappings.read_mapping(path, alarms.COLUMNS)
    text = "Area,Tag name,latching,limit,cause,consequence,action,severity,response\n" + (
        "Boiler house,pt 101,no,60,-,loss,close,high,120\nU2,B,no,60,,,,,\nU1,C,no,60,,,,,\n")
    first, second = read(text, mapping)
    assert (first.tag, first.record) == ("PT-101", values.Record("not known", "loss", "close", 2, 120)) and second.tag == "C"


@pytest.mark.parametrize("text, words", [
    ("[columns]\ncolour = 'x'", "colour is not known here"),
    ("[columns]\ntag = 3", "has texts as its values"),
    ("[seconds]\nlimit = 'weeks'", "'weeks' is none of"),
    ("encoding = 'utf-99'", "'utf-99' is not the name of an encoding"),
    ("encoding = 'base64'", "'base64' is not the name of an encoding"),
    ("encoding = 'undefined'", "'undefined' is not the name of an encoding"),
    ("encoding = 8", "8 is not the name of an encoding"),
    ("delimiter = ';;'", "the delimiter is one character"),
    ("delimiter = '\"'", "the delimiter is one character"),
    ("tag = 'Tag'", "tag is not known here"),
    ("[columns", "map.toml: "),
])
def test_a_bad_mapping_is_refused(tmp_path: pathlib.Path, text: str, words: str) -> None:
    path = tmp_path / "map.toml"
    path.write_text(text)
    with pytest.raises(sheets.Wrong) as found:
        mappings.read_mapping(path, alarms.COLUMNS)
    assert words in str(found.value)


def test_all_faults_are_listed_at_once_by_line_and_column() -> None:
    text = HEADER + GOOD + (
        "pt-101,no,3600,,,,,\n"
        "A,perhaps,0,,,,,\n"
        "PT-101,no,604801,x,,close,6,1.5\n"
        f"B,no,60,{'x' * 121},caf\u00e9,close,1,60\n"
        "C,no,60\n"
        f"D\0,no,{'9' * 1000},,,,,\n"
    )
    assert faults(text) == [
        "line 2, column 1 (tag): PT-101 stands on line 5, too",
        "line 3, column 1 (tag): 'pt-101' is not a tag: 1 to 24 of A to Z, 0 to 9, '-', '.' and '_'",
        "line 4, column 2 (latching): 'perhaps' is neither yes nor no",
        "line 4, column 3 (limit): '0' is not a whole number from 1 to 604800",
        "line 5, column 1 (tag): PT-101 stands on line 2, too",
        "line 5, column 3 (limit): '604801' is not a whole number from 1 to 604800",
        "line 5, column 5 (consequence): is empty, where the line has other parts of a record",
        "line 5, column 7 (severity): '6' is not a whole number from 1 to 5",
        "line 5, column 8 (response): '1.5' is not a whole number from 1 to 604800",
        "line 6, column 4 (cause): has 121 characters; 120 are the most",
        "line 6, column 5 (consequence): has '\u00e9', which is not a printable character of ASCII",
        "line 7: 3 columns, where the header has 8",
        "line 8, column 1 (tag): 'D\\x00' is not a tag: 1 to 24 of A to Z, 0 to 9, '-', '.' and '_'",
        f"line 8, column 3 (limit): '{'9' * 60}..' is not a whole number from 1 to 604800",
    ]


@pytest.mark.parametrize("text, words", [
    (b"", "line 1: the file is empty: its first line names the columns"),
    (b"\n\n", "line 1: the file is empty: its first line names the columns"),
    (b"tag,latching\nA,no\n", "line 1: there is no column 'limit'; the columns are tag, latching"),
    (b"tag,tag,limit,latching\n", "line 1, column 2 (tag): the column 'tag' stands twice"),
    (b"tag,latching,limit,cause\nA,no,60,x\n", "line 1: a record needs all of its columns: there is no 'consequence', "),
    (b"tag,latching,limit\nA,no,60\nB\xff,no,60\n", "line 3: byte 2 of the line is not utf-8 (invalid start byte)"),
    ("tag,latching,limit\n".encode("utf-16"), "line 1: byte 1 of the line is not utf-8"),
    (b'tag,latching,limit\nA,no,60\n"B,no,60\n', "line 3: not a line of comma-separated values: unexpected end of data"),
    (b'tag,latching,limit\nA,no,60\nB,"n"o,60\n', "line 3: not a line of comma-separated values: ',' expected after '\"'"),
    (b"tag,latching,limit,note\nA,no,60,x\nB,no,60," + b"y" * 200_000, "line 3: not a line of comma-separated values: field larger than field limit"),
])
def test_a_bad_file_is_refused(text: bytes, words: str) -> None:
    assert faults(text)[0].startswith(words)


def test_a_file_of_another_encoding_is_refused() -> None:
    assert faults(b"tag,latching,limit\n", sheets.Mapping("utf-16"))[0].startswith("line 1: byte 19 of the line is not utf-16 (truncated data)")
    assert faults(b"xn--zz-,latching,limit\n", sheets.Mapping("idna"))[0].startswith("line 1: the file is not idna")


def test_another_case_of_letters_stands_for_a_column_only_where_no_name_is_the_same() -> None:
    assert [(it.tag, it.limit) for it in read("TAG,tag,Limit,latching\nx,A,60,no\n")] == [("A", 60)]
    assert faults("TAG,Tag,limit,latching\nA,B,60,no\n") == ["line 1, column 2 (tag): the column 'tag' stands twice"]


@pytest.mark.parametrize("text", ["\u0662\u0660\u0662\u0666-03-01T10:00:00Z", "2026-03-01T10:00:60Z", "2026-02-29T10:00:00Z", "1999-12-31T23:59:59Z",
                                  "2100-01-01T00:00:00Z", "2026-03-01T10:00:00Z\n", "2026-03-01T10:00:00+00:00"])
def test_what_is_not_a_moment(text: str) -> None:
    with pytest.raises(ValueError):
        values.moment_of(text)


def test_moments_are_counted_from_the_first_one_of_2000() -> None:
    for text, seconds in ("2000-01-01T00:00:00Z", 0), ("2026-03-01T10:00:00Z", 825_674_400), ("2099-12-31T23:59:59Z", 3_155_759_999):
        assert values.seconds_at(values.moment_of(text)) == seconds
        assert values.text_of(values.moment_at(seconds)) == text


def test_a_unit_has_no_more_than_2000_alarms() -> None:
    text = "tag,latching,limit\n" + "".join(f"A{it},no,60\n" for it in range(2001))
    assert faults(text) == ["line 2002, column 1 (tag): this is alarm 2,001: a unit has 2,000 at most"]
    assert len(faults(text + "B,no,60\n" * 3)) == 2


def test_a_column_unit_parts_a_file() -> None:
    text = "unit,tag,latching,limit\nU1,A,no,60\nU2,A,no,90\nU2,B,no,90\n"
    assert [it.tag for it in read(text, unit="U1")] == ["A"]
    assert [it.limit for it in read(text, unit="U2")] == [90, 90]
    assert faults("unit,tag,latching,limit\nu1,A,no,60\n") == ["line 2, column 1 (unit): 'u1' is not a unit's code: 1 to 8 of A to Z and 0 to 9"]
