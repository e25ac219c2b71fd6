"""Several units side by side, for a control room that has more than one."""

import re
import time

from trying.browser import Page
from trying.common import expect, is_reached, rows_of, wait_for
from trying.shown import DASH, shelves_of

ORDER = ["P1", "P2", "P3", "P4", "-", "N"]
LINES = """[...document.querySelectorAll("#several-%s-list li")].map((line) =>
    [line.querySelector(".letters"), line.querySelector(".of-unit"), line.querySelector(".tag")].map((part) => part.textContent))"""
UNITS = """[...document.querySelectorAll("#several-units li")].map((line) => [line.querySelector(".tag").textContent,
    [...line.querySelectorAll("b")].filter((node) => node.checkVisibility()).map((node) => Number(node.textContent)),
    line.querySelector(".why").textContent])"""


def priorities(site, unit):
    return {row[0]: row for row in rows_of(site.read("ann", f"/units/{unit}/alarms"), 24, 14, 2, 3)}


def wanted_standing(site, units):
    lines = []
    for unit in units:
        for tag, state, letters, since, flags in rows_of(site.read("ann", f"/units/{unit}/standing"), 24, 14, 2, 20):
            rank = (flags != "---", ORDER.index(letters), state == "Acknowledged")
            lines.append((rank, since, [letters.translate(DASH), unit, tag]))
    lines.sort(key=lambda line: line[1], reverse=True)
    return [line[2] for line in sorted(lines, key=lambda line: line[0])]


def wanted_shelved(site, units):
    lines = []
    for unit in units:
        letters = {tag: row[2] for tag, row in priorities(site, unit).items()}
        lines += [(ORDER.index(letters[row[0]]), int(row[3]), [letters[row[0]].translate(DASH), unit, row[0]]) for row in shelves_of(site, unit)]
    return [line[2] for line in sorted(lines)]


def wanted_counts(site, unit):
    asking = [row[2] for row in priorities(site, unit).values() if row[1] != "Normal" and row[3] == "---"]
    return [asking.count(letters) for letters in ORDER[:5]]


def try_several(site, browser, pictures):
    page = Page(browser, site.address("ann", "#U1"))
    page.press("All units")
    page.await_focus("several-title", "the focus in the view")
    expect(page.value("location.hash"), "#units=U1,U2", "the address")
    check = lambda: page.value(LINES % "standing") == wanted_standing(site, ["U1", "U2"])
    if not is_reached(check, 12):
        expect(page.value(LINES % "standing"), wanted_standing(site, ["U1", "U2"]), "the standing alarms of both units")
    expect(page.value(LINES % "shelved"), wanted_shelved(site, ["U1", "U2"]), "the shelved alarms of both units")
    units = {line[1] for line in page.value(LINES % "shelved")}
    expect(units, {"U1", "U2"}, "units with shelved alarms")
    expect(page.value(UNITS), [[unit, wanted_counts(site, unit), ""] for unit in ["U1", "U2"]], "the units")
    texts = page.check_looks("several units")[0]
    page.check_narrow("several units")
    if pictures:
        page.picture(pictures / "board-units.png")

    # from a line to its alarm and back
    tag = page.value(LINES % "standing")[0][2]
    unit = page.value(LINES % "standing")[0][1]
    page.tab_to(f"{tag} of {unit}")
    page.key("ArrowDown")
    page.key("ArrowUp")
    expect(page.focus(), f"{tag} of {unit}", "the keyboard after the arrows")
    page.key("Enter")
    page.await_text("#alarm-title", tag)

    # a unit that is not the caller's, one that is none, and one whose answers do not come: each is named, and the others go on
    page.go("#units=U1,U9,<b>x,U2")
    refused = "You hold no role in this unit at this moment. (NotGranted)"
    wait_for("the units", lambda: [row[2] for row in page.value(UNITS)] == ["", refused, "This is not a unit's code.", ""])
    expect(page.value(LINES % "standing"), wanted_standing(site, ["U1", "U2"]), "the alarms beside a unit that refuses")
    expect(page.is_shown("#trouble"), False, "a trouble for one unit of several")
    page.check_looks("units that do not answer")
    page.check_narrow("units that do not answer")
    wanted = wanted_standing(site, ["U1", "U2"])
    site.relay.faulty_path = "/units/U2/"
    wait_for("the fault of U2", lambda: re.match(r"The store of the office failed\..* What is shown of it is of [\d:]+\.", page.value(UNITS)[3][2]))
    expect(page.value(LINES % "standing"), wanted, "what is shown of a unit that does not answer")
    asked_of_it = lambda: len([path for _, path in page.requests() if path.startswith("/units/U2")])
    before = asked_of_it()
    time.sleep(11)
    expect(asked_of_it() - before <= 1, True, "whether a unit that does not answer is let be")
    expect(page.is_shown("#trouble"), False, "a trouble for one unit of several")
    site.relay.faulty_path = None
    wait_for("U2 again", lambda: page.value(UNITS)[3][2] == "", 25)
    page.check_focus("several units")
    print(f"several units side by side, standing and shelved by priority, as the office answers them; a unit that does not answer is named; {texts} texts")
    return [page]
