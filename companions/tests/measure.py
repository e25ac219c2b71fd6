"""Measures the companions on a machine with nothing else to do: 2,000 alarms through the proxy, and 1,000,000 events beside the office's own time.

    [PROGRAM=..] python3 -m companions.tests.measure [EVENTS]

The office's own time is that of the same rows, sent to its port as they stand over one connection, in files of 10,000.
"""

import http.client
import pathlib
import sys
import tempfile
import time

from companions import values
from companions.tests import plant as plants

HEADER = "tag,latching,limit,cause,consequence,action,severity,response\n"
TAGS = [f"A-{it}" for it in range(200)]
AT = "2026-03-01T10:00:00Z"


def lines(count: int) -> list[str]:
    """Rows of one unit, in their order."""
    begin = values.moment_of("2026-02-01T00:00:00Z")
    found = []
    for seq in range(1, count + 1):
        moment = values.text_of(begin + (values.moment_at(seq * 20) - values.EPOCH))
        found.append(f"{seq},{moment},{TAGS[seq % 200]},{('ACT', 'ACK', 'RTN')[seq // 200 % 3]}\n")
    return found


def new_plant(room: pathlib.Path, units: list[str]) -> plants.Plant:
    found = plants.Plant(room)
    found.start()
    found.open(*units)
    for unit in units:
        found.register(unit, *TAGS)
    return found


def of_the_office(plant: plants.Plant, units: list[str], rows: list[str]) -> float:
    """The seconds that the office itself takes."""
    bodies = [("seq,moment,tag,event\n" + "".join(rows[it : it + 10_000])).encode() for it in range(0, len(rows), 10_000)]
    connection = http.client.HTTPConnection("127.0.0.1", plant.port, timeout=300)
    begin = time.monotonic()
    for unit in units:
        for body in bodies:
            connection.request("POST", f"/units/{unit}/imports", body, {"X-Person": "ann", "X-Moment": AT})
            answer = connection.getresponse()
            said = answer.read()
            assert answer.status == 200, said
    connection.close()
    return time.monotonic() - begin


def of_feed(plant: plants.Plant, units: list[str], spool: pathlib.Path) -> float:
    begin = time.monotonic()
    for unit in units:
        said = plants.office("feed", spool / unit, "--unit", unit, *plant.words("ann", AT))
        assert said.returncode == 0, said.stdout
    return time.monotonic() - begin


def measure_events(room: pathlib.Path, count: int) -> tuple[float, float]:
    """The seconds of the office itself, and of `office feed` over files of 25,000 rows."""
    units = [f"U{it}" for it in range(max(count // values.MAX_EVENTS, 1))]
    rows = lines(min(count, values.MAX_EVENTS))
    for unit in units:
        (room / "spool" / unit).mkdir(parents=True)
        for number in range(0, len(rows), 25_000):
            (room / "spool" / unit / f"e{number:06}.csv").write_text("seq,moment,tag,event\n" + "".join(rows[number : number + 25_000]))
    found = []
    for name in "office", "feed":
        plant = new_plant(room / name, units)
        try:
            found.append(of_the_office(plant, units, rows) if name == "office" else of_feed(plant, units, room / "spool"))
            assert plant.rows("SELECT count(*) FROM events") == [(len(units) * len(rows),)]
        finally:
            plant.stop()
    return found[0], found[1]


def measure_load(room: pathlib.Path) -> float:
    """The seconds of a load of 2,000 alarms with records through the proxy."""
    plant = plants.Plant(room)
    plant.start()
    try:
        plant.open("U1")
        plant.start_proxy()
        file = room / "alarms.csv"
        file.write_text(HEADER + "".join(f"A-{it},no,3600,cause,effect,act,2,{1 + it}\n" for it in range(2_000)))
        begin = time.monotonic()
        said = plants.office("load", file, "--unit", "U1", "--url", plant.url, **plants.signed_on("eve"))
        assert said.stdout == "done 4,000, there already 0, refused 0\n", said.stdout
        return time.monotonic() - begin
    finally:
        plant.stop()


def main(count: int) -> None:
    with tempfile.TemporaryDirectory() as name:
        print(f"2,000 alarms with records through the proxy: {measure_load(pathlib.Path(name, 'load')):.1f} s", flush=True)
        own, fed = measure_events(pathlib.Path(name), count)
        print(f"{count:,} events: the office itself {own:.1f} s, office feed {fed:.1f} s, {fed / own:.2f} times as long")


if __name__ == "__main__":
    main(int(sys.argv[1]) if len(sys.argv) > 1 else 1_000_000)
