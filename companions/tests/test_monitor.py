"""`office monitor`: what is measured, on events that are counted by hand, and on a month of a large plant."""

import csv
import json
import pathlib
import random
import resource
import typing

import pytest

from companions import floods, measuring, values
from companions.backups import Event, opened
from companions.tests.books import Made, second
from companions.tests.plant import office as typed
from companions.tests.test_handover import Tags, log_line

BEGIN = second("2026-03-01T00:00:00Z")
END = second("2026-04-01T00:00:00Z")
ENDS = [(BEGIN, "X", "ACK"), (END - 1, "X", "ACK")]  # a feed that runs from the first to the last moment


def monitor(made: Made, *words: object) -> pathlib.Path:
    out = made.path.parent / "out"
    said = typed("monitor", "--from", made.path, "--month", "2026-03", "--out", out, *words)
    assert said.returncode == 0, said.stdout
    return out


def section(made: Made, *words: object, number: int = 0) -> typing.Any:
    return json.loads((monitor(made, *words) / "monitor-2026-03.json").read_text())["sections"][number]


def figures(found: typing.Any) -> dict[str, float]:
    return {it["what"]: it["value"] for it in found["figures"]}


def comes(tag: str, begin: int, seconds: int = 60) -> list[tuple[int, str, str]]:
    return [(begin, tag, "ACT"), (begin + seconds, tag, "RTN")]


@pytest.fixture
def made(tmp_path: pathlib.Path) -> Made:
    found = Made(tmp_path)
    found.unit("U1", [*"ABCDEFGHIJKLMNOPX"])
    return found


def test_rates_are_counted_by_day_hour_and_ten_minutes(made: Made) -> None:
    hour, day = measuring.HOUR, measuring.DAY
    events = ENDS + [it for number in range(31) for it in comes("A", BEGIN + number * day + 300)]
    events += [it for number in range(4) for it in comes("B", BEGIN + 5 * day + 2 * hour + 700 * number)]
    events += [(BEGIN + 5 * day + 2 * hour + 30, "B", "ACT")]  # is active already
    made.events("U1", events)
    found = section(made)
    said = figures(found)
    assert said["activations"] == 35 and said["activations a day, mean"] == round(35 / 31, 2) and said["activations a day, most"] == 5
    assert said["activations an hour, mean"] == round(35 / 31 / 24, 2) and said["activations an hour, most"] == 4
    assert said["activations in ten minutes, most"] == 1
    at = {it["what"]: it["at"] for it in found["figures"]}
    assert (at["activations a day, most"], at["activations an hour, most"]) == ("2026-03-06T00:00:00Z", "2026-03-06T02:00:00Z")
    assert [it["activations"] for it in found["days"]] == [1] * 5 + [5] + [1] * 25
    assert [(it["tag"], it["count"], round(it["share"], 3)) for it in found["frequent"]] == [("A", 31, 0.886), ("B", 4, 0.114)]
    assert said["share of the ten most frequent"] == 100


def test_a_flood_has_its_length_and_peak_and_is_that_of_the_office(made: Made) -> None:
    events = [it for number in range(16) for it in comes("ABCDEFGHIJKLMNOP"[number], BEGIN + 3_600 + number)]
    events += [it for number in range(5) for it in comes("ABCDE"[number], BEGIN + 4_200 + number)]
    events += [it for number in range(4) for it in comes("ABCDE"[number], BEGIN + 4_800 + number)]
    made.events("U1", ENDS + events)
    found = section(made)
    assert found["floods"] == [{"start": "2026-03-01T01:00:00Z", "until": "2026-03-01T01:20:00Z", "total": 21, "peak": 16}]
    said = figures(found)
    assert said["time in flood"] == round(100 * 1_200 / (END - BEGIN), 2) and said["activations in ten minutes, most"] == 16
    with opened(made.path) as books:
        those = floods.floods(books.events("U1"), values.moment_at(BEGIN), values.moment_at(END))
    assert [values.text_of(it.start) for it in those] == [it["start"] for it in found["floods"]]


def test_three_in_a_minute_chatter_and_what_goes_at_once_is_fleeting(made: Made) -> None:
    # the third comes after 60 s: chatters; after 61 s: does not
    events = [it for at in (0, 30, 60, 500) for it in comes("A", BEGIN + at, 5)] + [it for at in (0, 30, 61) for it in comes("B", BEGIN + at, 9)]
    # two windows that share an activation are one burst of four
    events += [it for at in (0, 20, 40, 70) for it in comes("C", BEGIN + at, 10)] + comes("D", BEGIN + 7_200, 10) + comes("E", BEGIN + 7_200, 9)
    made.events("U1", ENDS + events)
    found = section(made)
    assert [(it["tag"], it["bursts"], it["count"]) for it in found["chattering"]] == [("C", 1, 4), ("A", 1, 3)]
    # the activation of A that is not of the burst, and all of B
    assert [(it["tag"], it["count"], it["shortest"]) for it in found["fleeting"]] == [("B", 3, 9), ("A", 1, 5), ("E", 1, 9)]


def test_stale_is_what_was_active_for_a_day_also_from_the_month_before(made: Made) -> None:
    day = measuring.DAY
    events = ENDS + [(BEGIN - 5 * day, "A", "ACT"), (BEGIN + 60, "A", "RTN")]  # ends in the month
    events += comes("B", BEGIN + day, day) + comes("C", BEGIN + day, day + 1)  # exactly a day is not above
    events += [(END - 2 * day, "D", "ACT"), (END - 3_600, "E", "ACT")] + comes("F", BEGIN - 5 * day, 4 * day)
    made.events("U1", events)
    found = section(made)
    assert [(it["tag"], it["since"], it["end"], it["seconds"]) for it in found["stale"]] == [
        ("A", "2026-02-24T00:00:00Z", "2026-03-01T00:01:00Z", 5 * day + 60), ("D", "2026-03-30T00:00:00Z", None, 2 * day),
        ("C", "2026-03-02T00:00:00Z", "2026-03-03T00:00:01Z", day + 1),
    ]
    assert figures(found)["stale alarms at the end"] == 1 and figures(found)["stale alarms on the worst day"] == 1
    # what came before the month is no activation of it
    assert figures(found)["activations"] == 4


def test_a_feed_that_died_does_not_make_the_rates_look_low(made: Made) -> None:
    """144 a day for ten days, and then no event more, though the backup is of the 31st."""
    made.events("U1", [it for number in range(1_440) for it in comes("A", BEGIN + 600 * number)])
    found = section(made)
    assert figures(found)["activations a day, mean"] == 144 and len(found["days"]) == 10
    assert (found["begin"], found["until"], found["covered_percent"]) == ("2026-03-01T00:00:00Z", "2026-03-11T00:00:00Z", 32.26)
    page = Tags((made.path.parent / "out/monitor-2026-03.html").read_text())
    text = " ".join(page.texts)
    assert "The events cover 32 % of the month, 2026-03-01 00:00 to 2026-03-11 00:00" in text and "TOO OLD: does the feed run?" in text


def test_a_month_without_an_event_has_no_figures(made: Made) -> None:
    made.events("U1", comes("A", BEGIN - 3_600))
    found = section(made)
    assert found["figures"] == [] and "There is no event in this time: nothing is measured." in found["notes"]


def test_the_longest_time_without_an_event_is_named(made: Made) -> None:
    hours = (1, 24, 98, *range(110, 744))  # those that have an event
    made.events("U1", ENDS + [(BEGIN + it * 3_600, "A", "ACK") for it in hours])
    assert "The longest time without an event: 3 d 2 h, from 2026-03-02 00:00." in section(made)["notes"]


def test_priorities_stand_beside_those_that_came(made: Made) -> None:
    made.rows("records", [("U1", "A", 1, 1, 1), ("U1", "B", 2, 1, 4), ("U1", "C", 3, 1, 0)])
    made.events("U1", ENDS + [it for number in range(3) for it in comes("A", BEGIN + 600 * number)] + comes("D", BEGIN))
    found = {it["name"]: it for it in section(made)["priorities"]}
    assert [(name, it["alarms"], it["activations"]) for name, it in found.items()] == [
        ("P1", 1, 3), ("P2", 0, 0), ("P3", 0, 0), ("P4", 1, 0), ("N", 1, 0), ("no record", 14, 1)]
    assert (found["P1"]["activations_percent"], found["P1"]["target_percent"]) == (75.0, 1)


def test_what_was_suppressed_by_design_is_counted_and_for_how_long(made: Made) -> None:
    events = [(BEGIN - 600, "A", "SUP"), (BEGIN + 600, "A", "UNSUP"), (END - 300, "B", "SUP")] + comes("A", BEGIN + 60) + comes("A", BEGIN + 700)
    made.events("U1", ENDS + events)
    found = section(made)
    assert figures(found)["activations"] == 2 and figures(found)["of these suppressed by design"] == 1
    assert [(it["tag"], it["how"], it["seconds"]) for it in found["kept"]] == [("A", "suppressed by design", 600), ("B", "suppressed by design", 300)]


def logged(path: pathlib.Path, *calls: tuple[str, str, str, str, int]) -> pathlib.Path:
    path.write_text("".join(log_line(moment, person, f"POST /units/U1/{to}", body, status) for moment, person, to, body, status in calls))
    return path


def kept(found: typing.Any) -> list[tuple[object, ...]]:
    return [(it["tag"], it["how"], it["count"], it["seconds"], it["unknown"]) for it in found["kept"]]


def test_how_long_alarms_were_shelved_or_out_is_by_the_log(made: Made) -> None:
    made.events("U1", ENDS)
    made.change("UPDATE alarms SET out_s = ?, out_by = 'moe', out_words = 'x' WHERE tag IN ('D', 'E')", second("2026-02-10T00:00:00Z"))
    log = logged(
        made.path.parent / "audit.log",
        ("2026-02-20T00:00:00Z", "ann", "alarms/X/timed-shelve", '{"seconds":60,"words":"first line"}', 200),
        ("2026-03-01T08:00:00Z", "ann", "alarms/A/timed-shelve", '{"seconds":3600,"words":"x"}', 200),
        ("2026-03-02T08:00:00Z", "ann", "alarms/A/timed-shelve", '{"seconds":3600,"words":"x"}', 200),
        ("2026-03-02T08:10:00Z", "ann", "alarms/A/unshelve", "", 200),
        ("2026-03-03T00:00:00Z", "moe", "alarms/B/remove-from-service", '{"words":"x"}', 200),
        ("2026-03-03T01:00:00Z", "moe", "alarms/B/place-in-service", "", 200),
        ("2026-03-03T00:00:00Z", "moe", "alarms/C/remove-from-service", '{"words":"x"}', 200),
        ("2026-03-04T01:00:00Z", "moe", "alarms/C/place-in-service", "", 504),
        ("2026-03-05T01:00:00Z", "moe", "alarms/F/place-in-service", "", 200),
        ("2026-03-05T01:00:00Z", "moe", "alarms/G/remove-from-service", '{"words":"x"}', 409),
        ("2026-03-31T00:00:00Z", "moe", "alarms/H/remove-from-service", '{"words":"x"}', 200),
    )
    found = section(made, "--log", log)
    assert kept(found) == [
        ("A", "shelved", 2, 4_200, 0), ("D", "out of service", 1, 31 * 86_400, 0), ("E", "out of service", 1, 31 * 86_400, 0),
        ("H", "out of service", 1, 86_400, 0), ("B", "out of service", 1, 3_600, 0),
        ("C", "out of service", 1, 0, 1), ("F", "out of service", 1, 0, 1),
    ]


def test_without_a_log_the_page_says_what_is_not_known(made: Made) -> None:
    start = second("2026-03-05T00:00:00Z")
    made.rows("shelves", [("U1", "A", 0, start, start + 600, "ann", "x"), ("U1", "B", 1, start, start + 3_600, "ann", "x")])
    made.events("U1", ENDS + comes("B", start + 60, 60) + comes("B", start + 600, 60))
    assert kept(section(made)) == [("A", "shelved", 1, 600, 0), ("B", "shelved", 1, 120, 0)]
    text = (made.path.parent / "out/monitor-2026-03.html").read_text()
    assert "No audit log was given. So of shelves only the last one" in text and "The office counts nothing of this." in text


def test_targets_are_settings(made: Made) -> None:
    made.events("U1", ENDS + [it for at in (0, 100, 200) for it in comes("A", BEGIN + at, 15)])
    aims = made.path.parent / "targets.toml"
    aims.write_text("[rules]\nchattering_seconds = 200\nfleeting_seconds = 20\n[targets]\nactivations_a_day = 0.01\n[priorities]\nP1 = 5\n")
    found = section(made, "--targets", aims)
    assert [it["tag"] for it in found["chattering"]] == ["A"] and found["fleeting"] == []
    assert [it["target"] for it in found["figures"] if it["what"] == "activations a day, mean"] == [0.01]
    assert "MISSED" in (made.path.parent / "out/monitor-2026-03.html").read_text()


@pytest.mark.parametrize("text, words", [
    ("[rules]\nchattering_times = 1\n", "chattering_times is 2 or more"), ("[targets]\nflood = 1\n", "flood is not known here"),
    ("[targets]\nstale = \"x\"\n", "stale is a number"), ("[targets]\nstale = nan\n", "stale is a number"), ("[other]\n", "other is not known here"),
    ("targets = 1\n", "[targets] is a table"), ("[rules]\nstale_hours = 0\n", "stale_hours is a number from 1"), ("x", "Expected"),
])
def test_settings_that_are_wrong_are_said(made: Made, text: str, words: str) -> None:
    aims = made.path.parent / "targets.toml"
    aims.write_text(text)
    said = typed("monitor", "--from", made.path, "--targets", aims)
    assert said.returncode == 2 and words in said.stdout, said.stdout


def test_several_units_stand_together_and_alone(made: Made) -> None:
    made.unit("U2", ["A"])
    for unit in "U1", "U2":
        made.events(unit, ENDS + [it for number in range(6) for it in comes("A", BEGIN + 100 * number, 50)])
    whole, first, second_unit = (section(made, number=it) for it in range(3))
    assert [it["name"] for it in (whole, first, second_unit)] == ["all units together", "U1", "U2"]
    assert [figures(it)["activations"] for it in (whole, first, second_unit)] == [12, 6, 6]
    # a flood of both together, of neither alone
    assert [len(it["floods"]) for it in (whole, first, second_unit)] == [1, 0, 0]
    assert [(it["unit"], it["tag"]) for it in whole["frequent"]] == [("U1", "A"), ("U2", "A")]
    assert len(json.loads((monitor(made, "--units", "U2") / "monitor-2026-03.json").read_text())["sections"]) == 1


def test_the_tables_have_all_rows_and_no_formula(made: Made) -> None:
    made.rows("alarms", [("U1", "-1", 0, 3_600, 0, 1, 0, None, None, None, None, None)])
    made.events("U1", ENDS + [it for number in range(40) for it in comes("-1", BEGIN + 1_000 * number, 3)])
    out = monitor(made)
    with (out / "monitor-2026-03-frequent.csv").open(newline="") as opened_file:
        assert list(csv.reader(opened_file))[1] == ["U1", "U1", "'-1", "40", "1.0", ""]
    assert sorted(it.name for it in out.iterdir()) == sorted(
        ["monitor-2026-03.html", "monitor-2026-03.json",
         *(f"monitor-2026-03-{it}.csv" for it in
           ("figures", "days", "frequent", "floods", "chattering", "fleeting", "stale", "priorities", "kept-silent"))])
    page = Tags((out / "monitor-2026-03.html").read_text())
    assert page.open_tags == []


def test_without_a_month_all_events_are_measured(made: Made) -> None:
    made.events("U1", comes("A", BEGIN - 86_400 * 40) + comes("A", END - 100))
    said = typed("monitor", "--from", made.path, "--out", made.path.parent / "all")
    assert said.returncode == 0 and said.stdout.endswith("monitor.html: 2 activations\n"), said.stdout


def test_a_unit_that_no_backup_has_is_said(made: Made) -> None:
    said = typed("monitor", "--from", made.path, "--units", "U7")
    assert said.returncode == 1 and "U7 is in no backup" in said.stdout


def random_events(chosen: random.Random, count: int, tags: list[str]) -> list[Event]:
    moment, found = BEGIN, []
    for _ in range(count):
        moment += chosen.choice((0, 1, 5, 40, 700))
        found.append(Event(moment, chosen.choice(tags), chosen.choice(("ACT", "ACT", "RTN", "RTN", "ACK", "SUP", "UNSUP"))))
    return found


def test_activations_are_those_that_the_floods_count() -> None:
    for seed in range(20):
        events = random_events(random.Random(seed), 500, ["A", "B", "C"])
        past = measuring.past_of("U1", iter(events))
        assert sorted((it.begin, it.tag) for it in past.active) == sorted((it.moment, it.tag) for it in floods.activations(events))
        ended = [(it.tag, it.end) for it in past.active if it.end is not None]
        assert sorted(ended) == sorted((tag, it) for tag, those in floods.returns(events).items() for it in those)


def test_300_000_events_take_at_most_ten_seconds(tmp_path: pathlib.Path) -> None:
    made, chosen = Made(tmp_path), random.Random(7)
    tags = [f"T-{it:04}" for it in range(2_000)]
    for unit in "U1", "U2", "U3":
        made.unit(unit, tags)
        step = (END - BEGIN - 10) / 100_000
        begun = [(BEGIN + int(number * step), chosen.choice(tags), ("ACT", "ACK", "RTN", "RTN")[number % 4]) for number in range(99_998)]
        made.events(unit, ENDS + begun)
    before = resource.getrusage(resource.RUSAGE_SELF)
    out = monitor(made)
    after = resource.getrusage(resource.RUSAGE_SELF)
    took = after.ru_utime + after.ru_stime - before.ru_utime - before.ru_stime
    print(f"300,000 events: {took:.1f} s of a processor, {(out / 'monitor-2026-03.html').stat().st_size:,} bytes of HTML")
    assert took < 10
