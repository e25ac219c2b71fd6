"""A busy shift of three units of 2,000 alarms, without a program: what the office would answer, a backup, and an audit log."""

import datetime
import pathlib
import random

from companions import audit, backups, handover, handover_units, happenings, lists, sheet, shifts, values
from companions.tests.books import Made, second
from companions.tests.test_handover import log_line

AT = values.moment_of("2026-03-01T13:55:00Z")
UNITS = ("U1", "U2", "U3")
STATES = ("Unacknowledged", "Acknowledged")
REASON = "transmitter drifts since the washing of the line, instrument shop knows, order 4711-22"


def tags() -> list[str]:
    return [f"{kind}-{number:04}{suffix}" for kind in ("PDIT", "TT", "LSHH", "FT", "QT") for number in range(200) for suffix in ("-HI", "-LO")]


def alarm_of(chosen: random.Random, tag: str, flags: set[str]) -> lists.Alarm:
    priority = chosen.choices(("P1", "P2", "P3", "P4", None), (1, 6, 25, 60, 8))[0]
    return lists.Alarm(tag, "Normal", priority, "S" in flags, "D" in flags, "O" in flags, 3_600)


def asked_of(unit: str, chosen: random.Random) -> handover_units.Asked:
    """114 suppressed, 30 shelved, 20 out of service, 260 that stand, and a flood."""
    names = tags()
    chosen.shuffle(names)
    flags = {tag: {"D"} for tag in names[:114]} | {tag: {"S"} for tag in names[114:144]} | {tag: {"O"} for tag in names[144:164]}
    alarms = [alarm_of(chosen, tag, flags.get(tag, set())) for tag in sorted(names)]
    of = {it.tag: it for it in alarms}
    minutes = [(tag, datetime.timedelta(minutes=it)) for it, tag in enumerate(names[114:144], 5)]
    shelves = [lists.Shelf(tag, chosen.choice(("timed", "one-shot")), AT - 2 * it, AT + it, "ann", REASON) for tag, it in minutes]
    standing = [
        lists.Standing(tag, chosen.choice(STATES), of[tag].priority, AT - datetime.timedelta(minutes=chosen.choice((3, 9, 200, 4_000, 90_000))),
                       *("S" in flags.get(tag, ""), "D" in flags.get(tag, ""), "O" in flags.get(tag, ""))) for tag in names[100:360]
    ]
    begins = [AT - datetime.timedelta(hours=3 + it) for it in range(1 + int(unit[1]))]
    floods = [lists.Flood(it, it + datetime.timedelta(minutes=50), 212, 61) for it in begins]
    proposals = [handover_units.Proposal(2_000 + it, f"record of {names[it]}: severity 3, to respond within 600 s", "eve", AT) for it in range(12)]
    return handover_units.Asked(unit, alarms, shelves, standing, floods, proposals)


def made_of(folder: pathlib.Path, asked: list[handover_units.Asked]) -> Made:
    made, begin = Made(folder, "20260301T135000Z"), second("2026-03-01T05:00:00Z")
    for it in asked:
        made.unit(it.unit, tags(), "2026-03-01T13:50:00Z")
        suppressed = [(begin - 9_000 + number, alarm.tag, "SUP") for number, alarm in enumerate(a for a in it.alarms if a.suppressed)]
        came = [(begin + number * 40 + again, alarm.tag, kind) for number, alarm in enumerate(it.alarms[:700])
                for again in range(0, 30 if 300 <= number < 330 else 10, 10) for kind in ("ACT", "RTN")]
        made.events(it.unit, suppressed + came)
        text = "UPDATE alarms SET out_s = ?, out_by = 'moe', out_words = ? WHERE unit = ? AND tag = ?"
        for number, alarm in enumerate(a for a in it.alarms if a.out_of_service):
            made.change(text, begin - number * 9_999, REASON, it.unit, alarm.tag)
        made.rows("grants", [(it.unit, f"con{number}", 1, begin + 90_000) for number in range(8)])
    return made


def log_of(folder: pathlib.Path) -> audit.Log:
    lines = [log_line("2026-02-01T05:00:00Z", "ann", "POST /units/U1/imports")]
    for minute in range(0, 500, 4):
        moment = values.text_of(AT - datetime.timedelta(minutes=500 - minute))
        unit, tag = UNITS[minute % 3], tags()[minute]
        lines.append(log_line(moment, "ann", f"POST /units/{unit}/alarms/{tag}/timed-shelve", f'{{"seconds":3600,"words":"{REASON}"}}'))
        lines.append(log_line(moment, "ann", f"POST /units/{unit}/alarms/{tag}/unshelve"))
        lines.append(log_line(moment, "moe", f"POST /units/{unit}/alarms/{tag}/remove-from-service", f'{{"words":"{REASON}"}}'))
        lines.append(log_line(moment, "moe", f"POST /units/{unit}/alarms/{tag}/place-in-service"))
        lines.append(log_line(moment, "amy", f"POST /units/{unit}/changes/{minute + 1}/approve"))
        lines.append(log_line(moment, "ste", f"POST /units/{unit}/grants", '{"person":"con","role":"Viewer","end":"2026-03-09T00:00:00Z"}'))
    file = folder / "audit.log"
    file.write_text("".join(lines) + log_line(values.text_of(AT), "vic", "GET /units/U1/alarms"))
    return audit.read_log([file])


def page(folder: pathlib.Path, times: handover.Times, at: datetime.datetime = AT) -> handover.Page:
    chosen = random.Random(11)
    asked = [asked_of(unit, chosen) for unit in UNITS]
    shift, clock, log = times.shift(at), shifts.Clock(at, times.zone), log_of(folder)
    sources = handover_units.Sources(log, {"U1": at - datetime.timedelta(minutes=3)}, datetime.timedelta(minutes=15))
    with backups.opened(made_of(folder, asked).path) as books:
        units = [handover_units.unit_page(it, shift, clock, books, sources) for it in asked]
    happened = happenings.happened(log, UNITS, shift.begin, at)
    zone = times.zone.key if times.zone else "UTC"
    return handover.Page("vic", at, shift.begin, shift.until, zone, sheet.sheet_of(units, happened), happened, units, clock)
