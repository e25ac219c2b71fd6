"""The commands through the real proxy, while office, proxy and command are killed: typed again they end in the books of one clean run."""

import collections.abc
import contextlib
import os
import pathlib
import random
import subprocess
import threading
import time

import pytest

from companions.tests import measure, plant as plants
from companions.tests.plant import Plant, office as typed

# moments differ from run to run
MOMENTS = ("last_s", "proposed_s", "decided_s", "start_s", "until_s", "out_s")
HEADER = "tag,latching,limit,cause,consequence,action,severity,response\n"
ALARMS = HEADER + "".join(f"A-{it:03},{'no' if it % 7 else 'yes'},{60 + it},cause {it},effect,act,{1 + it % 2},{100 + it}\n" for it in range(250))
EVENTS = [f"{it},2026-03-01T{8 + it // 36_000:02}:{it // 600 % 60:02}:{it // 10 % 60:02}Z,A-{it % 50:03},ACT\n" for it in range(1, 24_001)]


class Killer(threading.Thread):
    """Kills the office and the proxy again and again, and starts them anew."""

    def __init__(self, plant: Plant, seed: int) -> None:
        super().__init__()
        self.plant, self.chosen, self.is_ended, self.kills = plant, random.Random(seed), threading.Event(), {"office": 0, "proxy": 0}

    def run(self) -> None:
        while not self.is_ended.wait(0.2 + self.chosen.random()):
            what = self.chosen.choice(("office", "proxy"))
            if what == "office":
                self.plant.kill()
                time.sleep(self.chosen.random() / 2)
                self.plant.start()
            else:
                self.plant.kill_proxy()
                time.sleep(self.chosen.random() / 2)
                self.plant.start_proxy()
            self.kills[what] += 1


@contextlib.contextmanager
def killing(plant: Plant, seed: int) -> collections.abc.Iterator[Killer]:
    found = Killer(plant, seed)
    found.start()
    try:
        yield found
    finally:
        found.is_ended.set()
        found.join()


def type_until_done(plant: Plant, seed: int, person: str, *words: object, most: int = 8, once_killed: collections.abc.Sequence[str] = ()) -> int:
    """Types a command, kills it after a random while, and types it again, with these words besides; how many times it was killed."""
    chosen, kills = random.Random(seed), 0
    plain = {key: it for key, it in os.environ.items() if not key.startswith("OFFICE_")}
    line = plants.command(*words, "--url", plant.url, "--patience", "30")
    while True:
        typed_now = [*line, *once_killed] if kills else line
        process = subprocess.Popen(typed_now, stdout=subprocess.PIPE, stderr=subprocess.STDOUT, text=True, env=plain | plants.signed_on(person))
        try:
            said, _ = process.communicate(timeout=0.6 + 1.5 * chosen.random() if kills < most else None)
        except subprocess.TimeoutExpired:
            process.kill()
            process.communicate()
            kills += 1
            continue
        assert process.returncode == 0, said
        return kills


def opened(room: pathlib.Path) -> Plant:
    """A plant with its proxy, in which a unit is open."""
    found = Plant(room)
    found.start()
    found.start_proxy()
    found.open("U1")
    return found


@pytest.fixture
def two(tmp_path: pathlib.Path) -> collections.abc.Iterator[tuple[Plant, Plant]]:
    """Two plants: the first runs clean, the second is killed."""
    both = opened(tmp_path / "clean"), opened(tmp_path / "killed")
    try:
        yield both
    finally:
        for it in both:
            it.stop()


def clean(plant: Plant, person: str, *words: object) -> None:
    said = typed(*words, "--url", plant.url, **plants.signed_on(person))
    assert said.returncode == 0, said.stdout


def test_load(two: tuple[Plant, Plant], tmp_path: pathlib.Path) -> None:
    file = tmp_path / "alarms.csv"
    file.write_text(ALARMS)
    words = ("load", file, "--unit", "U1")
    clean(two[0], "eve", *words)
    with killing(two[1], 1) as killer:
        kills = type_until_done(two[1], 1, "eve", *words)
    assert kills and all(killer.kills.values()), (kills, killer.kills)
    assert two[1].dump(*MOMENTS) == two[0].dump(*MOMENTS)
    assert len(two[0].dump()["changes"]) == 250
    clean(two[0], "amy", "approve", "--unit", "U1", "--all", "approve")
    with killing(two[1], 2):
        kills = type_until_done(two[1], 2, "amy", "approve", "--unit", "U1", "--all", "approve")
    assert kills and two[1].dump(*MOMENTS) == two[0].dump(*MOMENTS)
    assert len(two[0].dump()["records"]) == 250
    assert typed("load", file, "--unit", "U1", "--check", "--url", two[1].url, **plants.signed_on("eve")).returncode == 0


def test_feed(two: tuple[Plant, Plant], tmp_path: pathlib.Path) -> None:
    for plant in two:
        plant.register("U1", *(f"A-{it:03}" for it in range(50)))
        spool = plant.folder / "spool"
        spool.mkdir()
        for number in range(24):
            (spool / f"e{number:02}.csv").write_text("seq,moment,tag,event\n" + "".join(EVENTS[number * 1_000 : (number + 1) * 1_000]))
    clean(two[0], "ann", "feed", two[0].folder / "spool", "--unit", "U1")
    with killing(two[1], 3) as killer:
        kills = type_until_done(two[1], 3, "ann", "feed", two[1].folder / "spool", "--unit", "U1")
    assert kills + sum(killer.kills.values()) > 0
    assert two[1].dump(*MOMENTS) == two[0].dump(*MOMENTS)
    assert two[1].rows("SELECT count(*) FROM events") == [(24_000,)]


def test_successor(two: tuple[Plant, Plant], tmp_path: pathlib.Path) -> None:
    at, now = "2026-03-01T08:00:00Z", time.strftime("%Y-%m-%dT%H:%M:%SZ", time.gmtime())
    for plant in two:
        for role in "Maintainer", "Operator":
            assert plant.call("ste", at, "/units/U1/grants", {"person": "eve", "role": role}) == {"done": True}
        plant.register("U1", *(f"A-{it:03}" for it in range(60)))
        for number in range(1, 41):
            record: dict[str, object] = {"cause": "x", "consequence": "y", "action": "z", "severity": 2, "response": 60}
            kinds: dict[str, object] = {"kind": "record", **record} if number % 3 else {"kind": "limit", "max": 1_800}
            assert plant.call("eve", at, "/units/U1/changes", {"base": 0, "tag": f"A-{number:03}", **kinds}) == {"number": number}
            assert plant.call("amy", at, f"/units/U1/changes/{number}/approve", {}) == {"done": True}
        for number in range(41, 50):
            shelf = {"seconds": 3_600, "words": f"test {number}"}
            assert plant.call("ann", now, f"/units/U1/alarms/A-{number:03}/timed-shelve", shelf) == {"done": True}
            assert plant.call("moe", now, f"/units/U1/alarms/A-{number + 9:03}/remove-from-service", {"words": "valve"}) == {"done": True}
        plant.copy("backup")
    # of the one at which the command was killed a person is asked, and of roles
    meant = [*(f"A-{number:03}" for number in range(41, 59)), *plants.ROLES]
    again, kills = [word for it in meant for word in ("--again", it)], 0
    with killing(two[1], 4) as killer:
        for seed, person in enumerate(("root", "ste", "eve")):
            for plant in two:
                words = ("successor", "--from", plant.folder / "backup", "--unit", "U1", "--to", "U2")
                if plant is two[0]:
                    clean(plant, person, *words)
                else:
                    kills += type_until_done(plant, seed, person, *words, most=3, once_killed=again)
    # and of the one of which no answer came
    clean(two[1], "eve", *words, *again)
    assert kills and all(killer.kills.values())
    assert two[1].dump(*MOMENTS) == two[0].dump(*MOMENTS)
    assert two[1].rows("SELECT count(*) FROM shelves WHERE unit = 'U2'") == [(9,)]
    # the matrix, forty proposals, and a note of each that was carried over
    assert two[1].rows("SELECT count(*), sum(state_no = 4) FROM changes WHERE unit = 'U2'") == [(59, 18)]


def test_2000_alarms_with_records_in_two_minutes(tmp_path: pathlib.Path) -> None:
    assert measure.measure_load(tmp_path / "load") < 120


def test_a_feed_takes_at_most_twice_the_offices_own_time(tmp_path: pathlib.Path) -> None:
    own, fed = measure.measure_events(tmp_path, 100_000)
    assert fed < 2 * own + 1, (own, fed)
