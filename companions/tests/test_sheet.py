"""The one sheet of a handover: of a busy shift without a program, its pages counted by Chromium; and shifts by a zone's clock."""

import datetime
import json
import pathlib
import re
import shutil
import subprocess
import typing
import zoneinfo

import pytest

from companions import audit, handover, happenings, lists, sheet, shifts, values
from companions.tests import busy
from companions.tests.plant import office as typed
from companions.tests.test_handover import Tags, log_line

BERLIN = zoneinfo.ZoneInfo("Europe/Berlin")
SHIFTS = (datetime.time(6), datetime.time(14), datetime.time(22))
OF_HOURS, OF_SHIFTS = handover.Times(8, None, None), handover.Times(None, SHIFTS, BERLIN)
CHROMIUM = shutil.which("chromium")


def count_of_pages(html: str, folder: pathlib.Path) -> int:
    """On A4, as Chromium prints it."""
    (folder / "page.html").write_text(html)
    words = [str(CHROMIUM), "--headless", "--no-sandbox", "--disable-gpu", f"--user-data-dir={folder / 'profile'}", "--no-pdf-header-footer"]
    subprocess.run([*words, f"--print-to-pdf={folder / 'page.pdf'}", str(folder / "page.html")], check=True, capture_output=True, timeout=120)
    said = subprocess.run(["pdfinfo", folder / "page.pdf"], check=True, capture_output=True, text=True).stdout
    assert "(A4)" in said
    return int(re.search(r"Pages: +([0-9]+)", said)[1])  # type: ignore[index]


@pytest.mark.skipif(CHROMIUM is None or shutil.which("pdfinfo") is None, reason="chromium or poppler-utils is not installed")
@pytest.mark.parametrize("times", [OF_HOURS, OF_SHIFTS])
def test_three_busy_units_are_one_sheet(tmp_path: pathlib.Path, times: handover.Times) -> None:
    page = busy.page(tmp_path, times)
    assert [it.sum() for it in page.sheet.totals if it.what == "suppressed by design"] == [342]
    assert count_of_pages(handover.text_of(page, "html", False), tmp_path) == 1
    assert count_of_pages(handover.text_of(page, "html", True), tmp_path) > 4


def test_every_p1_and_p2_is_named_and_nothing_is_left_out_without_a_number(tmp_path: pathlib.Path) -> None:
    page = busy.page(tmp_path, OF_HOURS)
    html = Tags(handover.text_of(page, "html", False))
    assert html.open_tags == []
    text, plain = " ".join(html.texts), handover.text_of(page, "text", False)
    urgent = [(unit.unit, it.tag) for unit in page.units for it in unit.standing if it.priority in ("P1", "P2")]
    assert len(urgent) == 50
    for unit, tag in urgent:
        assert tag in text and (f"{unit} {tag}" in plain or re.search(rf"{unit} +P[12] {tag}", plain))
    splits: list[sheet.Split[typing.Any]] = [page.sheet.standing, page.sheet.shelved, page.sheet.out, page.sheet.suppressed]
    for split in splits:
        assert len(split.oldest) == 10 and split.others() > 10 and split.urgent_more == 0
    # totals come first, then what stands
    assert text.index("together") < text.index("Standing: 780") < text.index("Shelved: 90") < text.index("Suppressed by design: 342")
    assert text.index("QT-0063-HI") < text.index("TT-0001-LO") < text.index("FT-0126-HI")
    assert "P3 206, P4 467, no record 57; the ten oldest:" in text and busy.REASON in text


def test_what_has_no_room_is_counted() -> None:
    at = busy.AT
    rows = [sheet.Of("U1", f"A{it:03}", "P1", at + datetime.timedelta(minutes=it)) for it in range(100)]
    found = sheet.split(rows, lambda it: it, 20, 60)
    assert (len(found.urgent), len(found.urgent_tags), found.urgent_more, found.total()) == (20, 60, 20, 100)
    assert found.urgent[0].tag == "A000" and found.urgent_tags[-1].tag == "A079"


def test_the_most_frequent_are_those_of_the_shift_and_to_the_backup_alone(tmp_path: pathlib.Path) -> None:
    page = busy.page(tmp_path, OF_HOURS)
    assert [it.count for it in page.sheet.frequent] == [3] * 10
    assert all(it.came is not None and it.came.activations == 685 for it in page.units)
    (tmp_path / "late").mkdir()
    late = busy.page(tmp_path / "late", handover.Times(1, None, None), busy.AT + datetime.timedelta(hours=2))
    assert all(it.came is None for it in late.units) and late.sheet.frequent == []
    assert "U1: not known, the backup is of 2026-03-01 13:50" in handover.text_of(late, "text", False)


def test_local_time_stands_beside_utc(tmp_path: pathlib.Path) -> None:
    page = busy.page(tmp_path, OF_SHIFTS)
    for form in "text", "html":
        text = " ".join(Tags(handover.text_of(page, form, False)).texts)
        for words in "2026-03-01 06:00 (05:00Z)", "2026-03-01 14:00 (13:00Z)", "14:46 (13:46Z)", "Times are Europe/Berlin, UTC in brackets":
            assert words in text, words
        # every time of the day has that of UTC behind it
        assert not [it for it in re.findall(r"[0-9]{2}:[0-9]{2}(?! ?\([^)]*Z\)|Z)", text)], form
    assert json.loads(handover.text_of(page, "json", False))["begin"] == "2026-03-01T05:00:00Z"


def test_json_has_the_whole_lists(tmp_path: pathlib.Path) -> None:
    page = json.loads(handover.text_of(busy.page(tmp_path, OF_HOURS), "json", False))
    assert [len(it["standing"]) for it in page["units"]] == [260] * 3 and sum(len(it["suppressed"]) for it in page["units"]) == 342
    assert len(page["happened"]["found"]) == 6 * 121 and "clock" not in page and "priorities" not in page["units"][0]


@pytest.mark.parametrize("at, begin, until", [
    # local 06:59: that of the night; 07:00: that of the morning, which runs
    ("2026-03-01T05:59:00Z", "2026-02-28T21:00:00Z", "2026-03-01T05:00:00Z"),
    ("2026-03-01T06:00:00Z", "2026-03-01T05:00:00Z", "2026-03-01T06:00:00Z"),
    ("2026-03-01T12:55:00Z", "2026-03-01T05:00:00Z", "2026-03-01T12:55:00Z"),
    ("2026-03-01T13:00:00Z", "2026-03-01T05:00:00Z", "2026-03-01T13:00:00Z"),
    # the nights in which the clock is changed have seven and nine hours
    ("2026-03-29T04:10:00Z", "2026-03-28T21:00:00Z", "2026-03-29T04:00:00Z"),
    ("2026-10-25T05:10:00Z", "2026-10-24T20:00:00Z", "2026-10-25T05:00:00Z"),
])
def test_shifts_are_by_the_zones_clock(at: str, begin: str, until: str) -> None:
    found = shifts.by_times(SHIFTS, values.moment_of(at), BERLIN)
    assert (values.text_of(found.begin), values.text_of(found.until)) == (begin, until)


def test_a_time_that_a_clock_leaves_out_or_has_twice_is_a_moment() -> None:
    times = (datetime.time(2, 30), datetime.time(14))
    found = [values.text_of(it) for it in shifts.begins(times, values.moment_of("2026-03-29T10:00:00Z"), BERLIN)]
    assert "2026-03-29T01:30:00Z" in found and len(found) == 10
    found = [values.text_of(it) for it in shifts.begins(times, values.moment_of("2026-10-25T10:00:00Z"), BERLIN)]
    assert "2026-10-25T00:30:00Z" in found and len(found) == 10


@pytest.mark.parametrize("begin, until, at, span", [
    ("2026-03-01T05:05:00Z", "2026-03-01T13:15:00Z", "2026-03-01T13:40:00Z", ("2026-03-01T05:00:00Z", "2026-03-01T13:20:00Z")),
    ("2026-03-01T05:00:00Z", "2026-03-01T12:55:00Z", "2026-03-01T12:55:00Z", ("2026-03-01T05:00:00Z", "2026-03-01T12:50:00Z")),
    ("2026-03-01T13:00:00Z", "2026-03-01T13:05:00Z", "2026-03-01T13:05:00Z", ("2026-03-01T12:50:00Z", "2026-03-01T13:00:00Z")),
])
def test_the_office_is_asked_for_full_ten_minutes(begin: str, until: str, at: str, span: tuple[str, str]) -> None:
    shift = shifts.Shift(values.moment_of(begin), values.moment_of(until))
    assert tuple(map(values.text_of, shift.flood_span(values.moment_of(at)))) == span


@pytest.mark.parametrize("words, said", [
    (["--shift", "06:00,14:00", "--hours", "8"], "--hours and --shift both say"), (["--shift", "14:00,06:00"], "is not a list of rising times"),
    (["--shift", "6"], "is not a list of rising times"), (["--shift", "25:00"], "is not a list of rising times"),
    (["--zone", "Mars/Olympus"], "is no time zone"), (["--zone", "../../etc/passwd"], "is no time zone"),
    (["--zone", "/etc/passwd"], "is no time zone"),
])
def test_a_wrong_command_line(words: list[str], said: str) -> None:
    found = typed("handover", *words, "--as", "vic")
    assert found.returncode == 2 and said in found.stdout, found.stdout


def logged(folder: pathlib.Path, *lines: str) -> audit.Log:
    file = folder / "audit.log"
    file.write_text("".join(lines))
    return audit.read_log([file])


def test_what_people_did_is_taken_from_the_log(tmp_path: pathlib.Path) -> None:
    path, span = "POST /units/U1/alarms/A/", (values.moment_of("2026-03-01T06:00:00Z"), values.moment_of("2026-03-01T14:00:00Z"))
    log = logged(
        tmp_path,
        log_line("2026-03-01T05:59:59Z", "ann", f"{path}timed-shelve", '{"seconds":600,"words":"the shift before"}'),
        log_line("2026-03-01T06:00:00Z", "ann", f"{path}timed-shelve", '{"seconds":600,"words":"first"}'),
        log_line("2026-03-01T06:10:00Z", "ann", f"{path}one-shot-shelve", '{"words":"second"}'),
        log_line("2026-03-01T06:20:00Z", "ann", f"{path}one-shot-shelve", '{"words":"refused"}', 409),
        log_line("2026-03-01T06:30:00Z", "moe", f"{path}remove-from-service", '{"words":"valve"}'),
        log_line("2026-03-01T06:40:00Z", "moe", f"{path}place-in-service", "", 504),
        log_line("2026-03-01T06:50:00Z", "amy", "POST /units/U1/changes/7/approve"),
        log_line("2026-03-01T06:55:00Z", "ste", "POST /units/U1/grants", '{"person":"con","role":"Viewer","end":"2026-03-09T00:00:00Z"}'),
        log_line("2026-03-01T06:56:00Z", "ste", "POST /units/U2/grants", '{"person":"con","role":"Viewer"}'),
        log_line("2026-03-01T07:00:00Z", "ste", "POST /units/U1/withdrawals", '{"person":"con","role":"Viewer"}'),
        "damaged\n",
    )
    found = happenings.happened(log, ["U1"], *span)
    assert [(it.kind, it.person, it.what, it.words) for it in found.found or ()] == [
        ("withdrawn", "ste", "con as Viewer", ""), ("granted", "ste", "con as Viewer", "until 2026-03-09"), ("approved", "amy", "change 7", ""),
        ("taken out", "moe", "A", "valve"), ("shelved", "ann", "A", "until it returns: second"), ("shelved", "ann", "A", "10 min: first")]
    assert found.notes == [
        "The audit log ends 2026-03-01 07:00 UTC: what was done since is not here.",
        "Lines of the audit log that are damaged, and left out: 1.",
        "Calls of which the audit log does not say if they were made, and left out: 1.",
    ]


def test_without_a_log_what_people_did_is_not_known(tmp_path: pathlib.Path) -> None:
    found = happenings.happened(None, ["U1"], busy.AT, busy.AT)
    assert found.found is None and "is not known: no audit log was given" in found.notes[0]
    late = logged(tmp_path, log_line("2026-03-01T13:00:00Z", "ann", "POST /units/U1/imports"))
    notes = happenings.happened(late, ["U1"], values.moment_of("2026-03-01T06:00:00Z"), values.moment_of("2026-03-01T12:00:00Z")).notes
    assert notes == ["The audit log begins 2026-03-01 13:00 UTC: it may lack the begin of this shift."]


def test_bodies_of_bad_intent_are_words(tmp_path: pathlib.Path) -> None:
    """A plant account that calls past the forms: members of other types than a board sends."""
    bodies = ['{"seconds":true,"words":["x"]}', '{"seconds":"1","words":null}', '{"person":{"a":1},"role":7,"end":["x"]}', "[1]", "{}"]
    kinds = ("alarms/A/timed-shelve", "alarms/A/one-shot-shelve", "grants", "withdrawals", "changes/7/approve")
    lines = [log_line("2026-03-01T06:00:00Z", "ann", f"POST /units/U1/{kind}", body) for kind in kinds for body in bodies]
    moment = values.moment_of("2026-03-01T06:00:00Z")
    found = happenings.happened(logged(tmp_path, *lines), ["U1"], moment, moment)
    assert len(found.found or ()) == len(kinds) * len(bodies)


def test_a_list_of_nobody_is_short() -> None:
    assert sheet.split(list[sheet.Of[lists.Standing]](), lambda it: it.since, 20, 60).total() == 0
