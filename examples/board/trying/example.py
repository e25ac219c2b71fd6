"""Two units of example data: U1 with fourteen alarms in many states, and U2 with two."""

import datetime
import json

from trying.common import moment_now, moment_text

PEOPLE = ["root", "ste", "eve", "kim", "amy", "moe", "ann", "bob", "vic", "tom", "una", "roy", "max", "tim", "pat", "mia", "<b>x"]
ROLES = [
    ("ann", "Operator"), ("bob", "Operator"), ("eve", "Engineer"), ("kim", "Engineer"), ("kim", "Approver"), ("amy", "Approver"),
    ("moe", "Maintainer"), ("vic", "Viewer"),
]  # fmt: skip
WORDS = 'pump <b>test</b> & <img src=x onerror="document.title=1">'  # has to be shown as it is
MATRIX = {"bands": [300, 900], "cells": [["P3", "P4", "P4"], ["P2", "P3", "P4"], ["P1", "P2", "P3"]]}

# by tag: the limit, and of the record the severity, the time to respond, the cause, the consequence and the action
ALARMS = {
    "FT-101": (3600, 2, 600, "strainer S-101 is clogged", "feed falls below the minimum", "change over to S-102"),
    "FT-102": (3600, None),
    "LT-201": (7200, 3, 120, "LV-201 is stuck open", "T-201 overflows into the dike", "close XV-201, stop P-200"),
    "LT-202": (7200, 2, 120, "P-202 has stopped", "T-202 runs empty, P-203 runs dry", "start P-202B"),
    "LT-203": (86400, 1, 1200, "inlet is closed", "no product from T-203", "open the inlet by hand"),
    "LT-204": (3600, 2, 600, "LV-204 does not close", "T-204 overfills to the slop tank", "close HV-204 by hand"),
    "PDT-310": (3600, 2, 1200, "filter F-310 is loaded", "flow to the column falls", "backwash F-310"),
    "PT-301": (3600, 3, 60, "cooling of the reactor is lost", "PSV-301 lifts to the flare", "open XV-302, stop the feed"),
    "PT-302": (1800, 1, 120, "PCV-302 hunts", "off-spec product", WORDS),
    "TT-401": (28800, 2, 120, "fouling of E-401", "coking of the furnace tubes", "reduce the firing by 10 %"),
    "TT-402": (28800, 1, 600, "steam trap has failed", "product too viscous to pump", "open the bypass"),
    "VT-501.BEARING-DRIVE-END": (604800, 2, 60, "bearing wears", "seizure of K-501", "stop K-501"),
    "XA-900": (3600, 1, 1800, "door was left open", "none within a shift", "close the door"),
    "XA-901": (3600, 3, 600, "UPS runs on its battery", "loss of the control system", "call electrical maintenance"),
}

# as minutes ago, tag and event
EVENTS = [
    (300, "XA-900", "SUP"),
    (200, "LT-202", "ACT"), (195, "LT-202", "ACK"),
    (180, "TT-402", "ACT"), (170, "TT-402", "RTN"), (165, "TT-402", "ACK"),
    (95, "LT-203", "ACT"), (92, "LT-203", "ACK"),
    (60, "TT-401", "ACT"),
    (45, "XA-900", "ACT"),
    (40, "LT-201", "ACT"), (30, "LT-201", "RTN"),
    (25, "PDT-310", "ACT"), (20, "PDT-310", "RTN"),
    (18, "FT-102", "ACT"),
    (12, "PT-302", "ACT"),
    (6, "PT-301", "ACT"), (5, "FT-101", "ACT"), (4, "FT-101", "ACK"),
]  # fmt: skip


def record_of(tag):
    _, severity, response, cause, consequence, action = ALARMS[tag]
    return {"cause": cause, "consequence": consequence, "action": action, "severity": severity, "response": response}


def fill(site):
    now = moment_now()
    begin = now - datetime.timedelta(hours=25)

    def ago(minutes, seconds=0):
        return now - datetime.timedelta(minutes=minutes, seconds=seconds)

    def propose(person, moment, **body):
        return json.loads(site.direct(person, moment, "/units/U1/changes", body))["number"]

    for unit in ["U1", "U2"]:
        path = f"/units/{unit}"
        site.direct("root", begin, path, {"steward": "ste"} | MATRIX | ({"quota": 4} if unit == "U1" else {}))
        for person, role in ROLES:
            site.direct("ste", begin, f"{path}/grants", {"person": person, "role": role})
    for tag, (limit, severity, *_) in ALARMS.items():
        site.direct("eve", begin, "/units/U1/alarms", {"tag": tag, "latching": tag in ("LT-201", "TT-402"), "max": limit})
        if severity:
            number = propose("eve", begin, kind="record", base=0, tag=tag, **record_of(tag))
            site.direct("amy", begin, f"/units/U1/changes/{number}/approve", "")
    for tag in ["PT-11", "PT-12"]:
        site.direct("eve", begin, "/units/U2/alarms", {"tag": tag, "latching": False, "max": 3600})

    # 14 to 25: changes that were decided in each way, and four that wait
    for tag, limit in [("FT-101", 1800), ("LT-203", 43200), ("TT-401", 14400)]:
        number = propose("eve", ago(1390), kind="limit", base=0, tag=tag, max=limit)
        site.direct("kim", ago(1390), f"/units/U1/changes/{number}/{'reject' if tag == 'FT-101' else 'approve'}", "")
    for tag in ["FT-102", "XA-900", "XA-901", "LT-204"]:
        number = propose("kim", ago(1300), kind="limit", base=0, tag=tag, max=7200)
        site.direct("kim", ago(1300), f"/units/U1/changes/{number}/withdraw", "")
    first = propose("eve", ago(1200), kind="matrix", base=0, bands=[300, 900], cells=[["P4", "P4", "P4"], *MATRIX["cells"][1:]])
    site.direct("amy", ago(1100), f"/units/U1/changes/{first}/reject", "")
    propose("eve", ago(1000), kind="record", base=0, tag="FT-102", **record_of("FT-101") | {"action": WORDS})
    propose("kim", ago(900), kind="limit", base=0, tag="PT-301", max=1800)
    propose("eve", ago(800), kind="record", base=1, tag="PT-301", **record_of("PT-301") | {"response": 120, "action": "open XV-302"})
    propose("eve", ago(700), kind="matrix", base=0, bands=[300, 900], cells=[["P3", "P4", "N"], *MATRIX["cells"][1:]])

    # for the floods alarms that chatter
    period = datetime.timedelta(minutes=10)
    full = datetime.datetime(2000, 1, 1)

    def periods_ago(number):
        return full + ((now - full) // period - number) * period

    rows = [(ago(minutes), tag, event) for minutes, tag, event in EVENTS]
    for first, counts in [(122, [14, 19, 8, 5]), (61, [11]), (37, [12, 33, 21, 17, 9, 6])]:
        for number, count in enumerate(counts):
            start = periods_ago(first - number)
            for times in range(count):
                tag = ["PT-301", "FT-101", "PT-302"][times % 3]
                active = start + datetime.timedelta(seconds=10 + 16 * times)
                rows += [(active, tag, "ACT"), (active + datetime.timedelta(seconds=4), tag, "RTN")]
        rows += [(periods_ago(first - len(counts)), tag, "ACK") for tag in ["PT-301", "FT-101", "PT-302"]]
    rows.sort(key=lambda row: row[0])
    lines = ["seq,moment,tag,event"]
    lines += [f"{number},{moment_text(moment)},{tag},{event}" for number, (moment, tag, event) in enumerate(rows, 1)]

    # in the order of their moments
    site.direct("moe", ago(120), "/units/U1/alarms/TT-401/remove-from-service", {"words": "sensor is being replaced"})
    site.direct("bob", ago(90), "/units/U1/alarms/LT-203/one-shot-shelve", {"words": "level is low until the tank is filled"})
    site.direct("ann", ago(22, 30), "/units/U1/alarms/PT-302/timed-shelve", {"seconds": 1800, "words": "PCV-302 is being tuned"})
    site.direct("ann", ago(1), "/units/U1/imports", "\n".join(lines) + "\n")
    site.direct("bob", ago(10), "/units/U2/alarms/PT-12/timed-shelve", {"seconds": 3600, "words": WORDS})
    return len(rows)
