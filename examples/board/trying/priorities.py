"""The priorities that records get: by the matrix in force, which nobody can read at first, and by a matrix that is proposed."""

import datetime
import re

from trying.browser import Page
from trying.common import expect, moment_now, wait_for
from trying.example import MATRIX
from trying.shown import COMPARISON, seconds_text

RECORDS = {"A-1": (3, 60), "A-2": (2, 300), "A-3": (2, 1200), "A-4": (1, 60), "A-5": (1, 900), "A-6": (3, 899)}
UNKNOWN = "not known: no matrix was approved yet, and no call gives the one that the unit was opened with"
TEXTS = {"cause": "a", "consequence": "b", "action": "c"}
COMPARED = """[...document.querySelectorAll("%s .compared li")].map((line) =>
    [...line.querySelectorAll(".letters, li > b, .tag")].map((part) => part.textContent))"""


def priority_by(matrix, severity, response):
    column = sum(band <= response for band in matrix["bands"])
    return matrix["cells"][severity - 1][column] if severity <= len(matrix["cells"]) else None


def fill_priorities(site):
    """U4 has records by the matrix that it was opened with, which was never proposed."""
    begin = moment_now() - datetime.timedelta(hours=2)
    call = lambda person, path, body="": site.direct(person, begin, f"/units/U4{path}", body)
    call("root", "", {"steward": "ste"} | MATRIX)
    for person, role in [("eve", "Engineer"), ("amy", "Approver")]:
        call("ste", "/grants", {"person": person, "role": role})
    for number, (tag, (severity, response)) in enumerate(RECORDS.items(), 1):
        call("eve", "/alarms", {"tag": tag, "latching": False, "max": 3600})
        call("eve", "/changes", {"kind": "record", "base": 0, "tag": tag, "severity": severity, "response": response} | TEXTS)
        call("amy", f"/changes/{number}/approve")


def wanted_changes(site, matrix):
    """The records that get another priority: the one before and after, and the tag."""
    rows = []
    for tag, (severity, response) in RECORDS.items():
        before, after = site.json("eve", f"/units/U4/alarms/{tag}/record")["priority"], priority_by(matrix, severity, response)
        rows += [[before, after or "no row", tag]] if before != after else []
    return rows


def await_price(page, wanted, now="now P1, with this record:"):
    page.await_text("#price-after", wanted)
    expect(page.text("#price-now").strip(), now, "the priority that the alarm has")


def try_priorities(site, browser, pictures):
    page = Page(browser, site.address("eve", "#U4"))
    page.go("#U4/A-1")
    page.await_text("#alarm-title", "A-1")
    wait_for("the form", lambda: page.is_shown("#proposing"))
    page.press("Another record")
    await_price(page, "P1")
    page.write("response", "1200")
    await_price(page, UNKNOWN)
    page.check_looks("a priority that is not known")
    page.check_narrow("a priority that is not known")

    # the matrix of the opening is proposed once: the page compares the draft with the records in force
    page.press("Propose the same matrix once")
    page.await_focus("matrix-title", "the focus in the view")
    page.await_text("#matrix-note", re.compile(r"In force is the matrix that the unit was opened with, revision 0\. .* Propose the same one once, .*"))
    draft = {"bands": [300], "cells": [["P3", "P4"], ["P1", "P2"]]}
    wait_for("the draft compared", lambda: page.value(COMPARED % "#draft-compared") == wanted_changes(site, draft))
    expect(["P1", "no row", "A-1"] in wanted_changes(site, draft), True, "a record without a row")
    page.check_looks("a draft with another priority")
    page.check_narrow("a draft with another priority")
    page.press("add-severity")
    page.press("add-band")
    page.value("document.querySelectorAll('.band')[1].focus()")
    page.type("900")
    for row in range(3):
        for column in range(3):
            page.value(f"document.querySelector('[data-cell=\"{row} {column}\"]').focus()")
            page.choose(MATRIX["cells"][row][column])
    page.await_text("#draft-compared p", "0 of 6 records in force would get another priority by it.")
    page.press("propose-matrix")
    page.await_text("#matrix .answer", "The matrix is proposed as change 7. Another person has to approve it.")

    # an approver sees what a matrix does to the records: as a list and as a grid
    amy = Page(browser, site.address("amy", "#U4/changes/7"))
    amy.await_text("#change-title", "Change 7: Matrix")
    amy.await_text("#change-content .compared p", "0 of 6 records in force get another priority by it.")
    path = "/units/U4/changes"
    higher = {"kind": "matrix", "base": 0, "bands": [60], "cells": [["P3", "N"], ["P3", "P4"], ["P1", "P2"]]}
    expect(site.json_of("eve", path, higher)["number"], 8, "the number of the second matrix")
    amy.go("#U4/changes/8")
    amy.await_text("#change-title", "Change 8: Matrix")
    wanted = wanted_changes(site, higher)
    expect(len(wanted), 4, "records with another priority")
    wait_for("the list of records", lambda: amy.value(COMPARED % "#change-content") == wanted)
    amy.await_text("#change-content .compared p", "4 of 6 records in force get another priority by it.")
    colours = "new Set([...document.querySelectorAll('#change-content .grid .whole')].map((node) => getComputedStyle(node).fill)).size"
    expect(amy.value(colours), 5, "the colours of the grid")
    counts = "[...document.querySelectorAll('#change-content .count')].map((node) => node.textContent)"
    expect(amy.value(counts), ["2 records", "2 records", "2 records"], "how many records fall into the cells")
    amy.check_looks("a matrix compared")
    if pictures:
        amy.picture(pictures / "board-matrix.png", 900)
    amy.check_narrow("a matrix compared")
    amy.go("#U4/changes/7")
    amy.await_text("#change-title", "Change 7: Matrix")
    amy.press("approve")
    amy.await_text("#deciding .answer", "Change 7 is approved and in force.")

    # now the form says the priority of whatever is typed, as the office gives it after the approval
    page.go("#U4/A-2")
    page.await_text("#alarm-title", "A-2")
    wait_for("the form", lambda: page.is_shown("#proposing"))
    page.press("Another record")
    for severity, response in [(3, 299), (3, 300), (2, 900), (1, 1200), (2, 299)]:
        page.value("document.querySelector('#severity').focus()")
        page.choose(str(severity))
        page.value("document.querySelector('#response').focus()")
        page.type(str(response))
        await_price(page, priority_by(MATRIX, severity, response), "now P3, with this record:")
    page.value("document.querySelector('#severity').focus()")
    page.choose("4")
    await_price(page, "none: the matrix in force has no row for severity 4, and the office refuses this", "now P3, with this record:")
    page.press("Propose the record")
    page.await_text("#record-form .answer", re.compile(r"record of A-2: .* \(OutsideMatrix\)"))
    page.value("document.querySelector('#severity').focus()")
    page.choose("2")
    await_price(page, "P2", "now P3, with this record:")
    page.check_looks("a priority beside the form")
    page.check_narrow("a priority beside the form")
    page.press("Propose the record")
    page.await_text("#record-form .answer", "The record of A-2 is proposed as change 9. Another person has to approve it.")
    amy.go("#U4/changes/9")
    amy.await_text("#change-title", "Change 9: Record of A-2")
    wait_for("the priorities", lambda: amy.value(COMPARISON)[1:4] == [
        ["Priority", "P3", "P2"], ["Severity", "2", "2"], ["Time to respond", seconds_text(300), seconds_text(299)]])
    amy.check_looks("a record with its priorities")
    amy.check_narrow("a record with its priorities")
    amy.press("approve")
    amy.await_text("#deciding .answer", "Change 9 is approved and in force.")
    expect(site.json("amy", "/units/U4/alarms/A-2/record")["priority"], "P2", "the priority by the office")
    print("priorities: of a record before it is proposed and approved, of each record by a proposed matrix; the matrix of the opening proposed once")
    return [page, amy]
